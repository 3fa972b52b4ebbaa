"""Scripts and runs as JSON (docs/FORMS.md has the schema)."""
import json

from . import package  # noqa: F401
from cluster_growth import Node, Refused, decimal, ten_thousandths

from .faults import BadInput
from .plain import short
from .sentences import words
from .text import Parser
from .words import STATES, Item

FORM = 'card 1'


def wanted(ok, place, what):
    if not ok:
        raise BadInput(what, place)


def whole(x, place):
    """A whole number that fits a record."""
    wanted(
        isinstance(x, int) and not isinstance(x, bool) and -(2**31) <= x < 2**31,
        place,
        f'a whole number of 4 signed bytes, not {short(json.dumps(x))}',
    )
    return x


def numbers(x, place, count=None):
    """A list of whole numbers, so many where a count is given."""
    wanted(
        isinstance(x, list) and count in (None, len(x) if isinstance(x, list) else None),
        place,
        f"a list of {count if count else 'whole'} numbers",
    )
    return [whole(y, f'{place}[{k}]') for k, y in enumerate(x)]


def listed(data, name):
    x = data.get(name, [])
    wanted(isinstance(x, list), name, 'a list')
    return x


def load(data):
    """The JSON value of a file's bytes."""
    try:
        return json.loads(data.decode('utf-8-sig'))
    except UnicodeDecodeError as e:
        raise BadInput(f'not text: byte {data[e.start]:#04x} is not UTF-8') from None
    except (json.JSONDecodeError, RecursionError) as e:
        raise BadInput(f"not JSON: {getattr(e, 'msg', 'nested too deep')}", getattr(e, 'lineno', None)) from None


def places(data, parser):
    """The places of vertices: a list in their order, or an object by their numbers."""
    at = data.get('at', {})
    wanted(isinstance(at, (list, dict)), 'at', 'a list, or an object by vertex')
    for v, p in at.items() if isinstance(at, dict) else enumerate(at):
        if p is None:
            continue
        ok = (
            isinstance(p, list)
            and len(p) in (2, 3)
            and all(isinstance(x, (int, float)) and abs(x) < 10**6 for x in p)
            and str(v).isdigit()
        )
        wanted(ok, f'at[{short(str(v))}]', 'x and y, and a layer where wanted, by the number of a vertex')
        parser.out.at[int(v)] = tuple(float(x) for x in p)


def script(data):
    """The Script of a JSON value."""
    wanted(isinstance(data, dict) and data.get('form') == FORM, None, f'no graph in JSON: "form" is "{FORM}"')
    parser = Parser()
    out = parser.out
    title = data.get('title', '')
    wanted(isinstance(title, str), 'title', 'a string')
    out.title = ' '.join(title.split())
    edges = listed(data, 'edges')
    sizes = [whole(data.get('vertices'), 'vertices'), len(edges)]
    for name in ('nodes', 'store'):
        if data.get(name) is not None:
            wanted(len(sizes) == 2 + (name == 'store'), name, 'store stands with nodes')
            sizes.append(whole(data[name], name))
    add = lambda word, fields, place: out.items.append(Item(len(out.items) + 1, word, fields, place))
    add('graph', sizes, 'vertices')
    out.sheet = sheet_in(data)
    for e, x in enumerate(edges):
        ends = numbers(x, f'edges[{e}]', 2 if out.sheet is not None else 3)
        add('edge', ends + [0] * (3 - len(ends)), f'edges[{e}]')
    for k, v in enumerate(listed(data, 'virtual')):
        add('virtual', [whole(v, f'virtual[{k}]')], f'virtual[{k}]')
    parser.graph_line = 'vertices'
    for k, call in enumerate(listed(data, 'calls')):
        one_call(parser, call, f'calls[{k}]')
    places(data, parser)
    observables = data.get('observables', {})
    wanted(
        isinstance(observables, dict) and all(k.isdigit() for k in observables), 'observables', 'an object by number'
    )
    out.observables = {int(k): numbers(x, f'observables[{k}]') for k, x in observables.items()}
    return parser.finish()


def sheet_in(data):
    """The values of a sheet, decimals as strings or as numbers, each with its place; None where there is none."""
    if data.get('sheet') is None:
        return None
    out = []
    for e, x in enumerate(listed(data, 'sheet')):
        place = f'sheet[{e}]'
        ok = isinstance(x, (str, int, float)) and not isinstance(x, bool)
        wanted(ok, place, 'a decimal, as a string or a number')
        try:
            out.append((ten_thousandths(str(x)), place))
        except ValueError as e:
            raise BadInput(str(e), place) from None
    wanted(out != [], 'sheet', 'a decimal for each edge')
    return out


def one_call(parser, call, place):
    """A call, as its line of text, or as an object of a run."""
    if isinstance(call, dict):
        call = call.get('call')
    wanted(isinstance(call, str) and ';' not in call, place, 'a call as text')
    before = len(parser.out.items)
    try:
        parser.take(call, place)
    except ValueError as e:
        raise BadInput(str(e), place) from None
    wanted(len(parser.out.items) == before + 1 and parser.out.items[-1].is_call(), place, 'a call as text')


def renumbered(script):
    """Whether the vertices of an imported graph have other numbers than their detectors."""
    return script.detectors is not None and script.detectors != list(range(len(script.detectors)))


def graph_of(script):
    """A script's graph as JSON."""
    g = script.graph
    out = {
        'form': FORM,
        'title': script.title,
        'vertices': g.V,
        'nodes': g.N,
        'store': g.L,
        'edges': [list(e[:2] if g.sheet is not None else e) for e in g.edges],
        'virtual': sorted(g.virtual),
    }
    if g.sheet is not None:
        out['sheet'] = [decimal(value) for value in g.sheet]
    for left_out, name in (('N', 'nodes'), ('L', 'store')):
        if left_out in g.worked_out:
            del out[name]
    if script.at:
        out['at'] = {str(v): list(p) for v, p in sorted(script.at.items())}
    if renumbered(script):
        out['detectors'] = script.detectors
    if script.observables:
        out['observables'] = {str(k): edges for k, edges in sorted(script.observables.items())}
    return out


def script_of(script):
    """A script as JSON."""
    call = lambda i: i.text() + ('' if i.expected is None else ' → ' + (', '.join(i.expected) or 'nothing'))
    return {**graph_of(script), 'calls': [call(i) for i in script.calls()]}


def node_of(node):
    return {
        'node': node.number,
        'vertex': node.vertex,
        'first_member': node.first_member,
        'state': STATES[node.state],
        'parent': node.parent,
        'dual': node.dual,
    }


def nodes_of(module):
    """The nodes as the library reads them; of a blossom that was opened there is nothing to read."""
    for n in range(module.node_count()):
        try:
            yield node_of(module.read_node(n))
        except Refused:
            yield node_of(Node(n, None, None, 0, None, 0))


def run_of(run):
    """A run as JSON: the script, each call with its answer, and nodes and table as the last call left them."""
    out = {**graph_of(run.script), 'run_by': run.by, 'refused': run.refused, 'calls': []}
    if run.script.sheet is not None and not run.refused:
        out['weights'], out['vanished'] = [w for _, _, w in run.graph.edges], run.graph.vanished
    for i in run.script.calls():
        said = run.answers.get(i.number, [])
        one = {'number': i.number, 'line': i.line, 'call': i.text(), 'answer': said}
        if run.made and i.number in run.made.moved:
            one['moved'] = run.made.moved[i.number]
        if said and words(run, i, said[0]) and len(said) == 1:
            one['words'] = words(run, i, said[0])
        out['calls'].append(one)
    if not run.refused:
        out['table'] = [[e, left, right] for e, (left, right) in enumerate(run.table())]
    if run.made and run.made.module:
        out['node_list'] = list(nodes_of(run.made.module))
    return out
