"""Answers in words."""
from . import package  # noqa: F401
from cluster_growth import Inner, Left, Over, sentence

from .plain import many
from .words import DIRECTIONS, STATES


def node(n, defect):
    return f'node {n}' if n == defect else f'node {n} (from defect node {defect})'


def conflict(run, item, x):
    """What a conflict says: a halved gap of 0, which at a gap of 1 is no meeting."""
    peer, asked = node(x[0], x[1]), node(x[2], x[3])
    if item.fields and x[2] != item.fields[0]:
        return f'node {item.fields[0]} is at dual variable 0, and {peer} and {asked} both touch it'
    edge, gap = run.made.meets.get(item.number, (None, None)) if run.made else (None, None)
    if gap == 0:
        return f'{peer} and {asked} touch at edge {edge}'
    if gap is not None:
        return f'{peer} and {asked}: the gap of {gap} at edge {edge}, halved, is 0; nothing touches'
    return f'halved gap 0 between {peer} and {asked}'


def moved(run, item):
    """By how much `advance` moved, where the library tells."""
    if item.word != 'advance' or run.made is None or item.number not in run.made.moved:
        return ''
    by = run.made.moved[item.number]
    return f'grew by {by}' if by > 0 else f'shrank by {-by}' if by < 0 else 'did not move'


def opened(run, item):
    """Which nodes an opening made outermost again."""
    members = run.made.outermost.get(item.number, [])
    return f"nodes {', '.join(map(str, members))} are outermost again"


def read(name, x):
    """A node that was read."""
    what = f'vertex {x[0]}' if name == 'defect' else f'first member {x[0]}'
    return f'{what}, {STATES[x[1]]}, ' + (f'in blossom {x[2]}, ' if x[2] >= 0 else '') + f'dual variable {x[3]}'


def erased(run, item):
    """Which weights a change gave, with those of the opening."""
    weights = run.made.weights.get(item.number, [])
    edges = sorted(set(item.fields[::2]))
    some = ', '.join(f'edge {e} has weight {weights[e]} for {run.graph.edges[e][2]}' for e in edges[:3])
    return some + (f', and {len(edges) - 3} more' if edges[3:] else '') if weights else 'no edge is named'


def edge(run, item, name, x):
    if x[0] >= len(run.graph.edges):
        return ''
    left, right, weight = run.graph.edges[x[0]]
    weight = run.made.weights[item.number][x[0]] if run.made and item.number in run.made.weights else weight
    if name == 'contact':
        at = ['the virtual vertex' if n == -1 else f'node {n}' for n in x[1:]]
        return f'{left}-{right}: full, joins {at[0]} and {at[1]}'
    return f'{left}-{right}: {x[1]} and {x[2]} of {weight}'


def left(gap):
    """The gap of an edge in words."""
    return {Inner: 'inner', Over: 'over by {0.excess}', Left: 'gap {0.gap}'}[type(gap)].format(gap)


def gap(run, item, name, x):
    """What the gap of an edge says."""
    a, b, weight = run.graph.edges[item.fields[0]]
    weight = run.made.weights[item.number][item.fields[0]] if run.made and item.number in run.made.weights else weight
    said = {'inner': 'one node holds both sides', 'over': 'past the weight {1} by {0}', 'gap': '{0} of {1} left'}
    return f'{a}-{b}: ' + said[name].format(*x, weight)


def group_free(x):
    """What a free answer says of all active nodes."""
    return ('no limit' if x[0] < 0 else f'all can move by {x[0]}') + (', a boundary is empty' if x[1] else '')


def words(run, item, answer):
    """An answer in words, or nothing where it speaks for itself."""
    name, *x = answer.split()
    x = [int(n) for n in x]
    if name == 'free':
        if item.word == 'group':
            return group_free(x)
        way = DIRECTIONS[item.fields[1]] if item.word == 'length' else 'move'
        return ('no limit' if x[0] < 0 else f'can {way} by {x[0]}') + (', its boundary is empty' if x[1] else '')
    if name == 'conflict':
        return conflict(run, item, x)
    if name == 'virtual':
        return f'{node(x[0], x[1])} has reached virtual vertex {x[2]}'
    if name == 'expand':
        return f'blossom {x[0]} has dual variable 0'
    if name == 'stop':
        return f'node {x[0]} has dual variable 0' + (f', and {node(x[1], x[2])} touches it' if x[1:] else '')
    if name == 'group':
        return f"{many(x[0], 'conflict')} and {many(x[1], 'stop')}"
    if name == 'refused':
        return 'an ill-formed record: ' + item.reason if item.reason else sentence(x[0])
    if name in ('defect', 'blossom'):
        return read(name, x)
    if name in ('inner', 'over', 'gap'):
        return gap(run, item, name, x)
    if name in ('edge', 'contact'):
        return edge(run, item, name, x)
    if name == 'done':
        own = {'open-blossom': opened, 'erase': erased}
        return own.get(item.word, moved)(run, item)
    return ''
