"""A script as text."""
from . import package  # noqa: F401
from cluster_growth import decimal

from .json_form import renumbered
from .plain import plain

WIDE = 120


def packed(parts):
    """Lines of several parts each, with ; between them."""
    line = ''
    for p in parts:
        if line and len(line) + 2 + len(p) > WIDE:
            yield line
            line = p
        else:
            line = line + '; ' + p if line else p
    if line:
        yield line


def wrapped(words, items):
    """A line of many items, broken into several that begin alike."""
    line = words
    for x in items:
        if len(line) + 1 + len(x) > WIDE and line != words:
            yield line
            line = words
        line += ' ' + x
    yield line


def text_of(script, comments=()):
    """The text of a script whose graph is known."""
    g, out = script.graph, []
    out += [f'# {plain(c)}'.rstrip() for c in [script.title, *comments] if c]
    if renumbered(script):
        out += wrapped('# detectors of vertices 0, 1, ..:', map(str, script.detectors))
    given = [g.V, g.E] + ([g.N] if 'N' not in g.worked_out else []) + ([g.L] if 'L' not in g.worked_out else [])
    out.append('graph ' + ' '.join(map(str, given)))
    out += packed(f'edge {a} {b}' if g.sheet is not None else f'edge {a} {b} {w}' for a, b, w in g.edges)
    out += wrapped('sheet', map(decimal, g.sheet)) if g.sheet else []
    out += packed(f'virtual {v}' for v in sorted(g.virtual))
    out += packed('at ' + ' '.join([str(v)] + [f'{x:.10g}' for x in p]) for v, p in sorted(script.at.items()))
    for number, edges in sorted(script.observables.items()):
        out += wrapped(f'observable {number}', map(str, edges))
    calls = script.calls()
    wide = max((len(i.text()) for i in calls), default=0)
    for i in calls:
        said = '' if i.expected is None else ' → ' + (', '.join(i.expected) or 'nothing')
        out.append((f'{i.text():{min(wide, 30)}}' if said else i.text()) + said)
    return '\n'.join(out) + '\n'
