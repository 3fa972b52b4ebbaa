"""Growth tables and dual variables that were captured elsewhere: text, CSV or JSON."""
import json
import re

from .faults import BadInput
from .plain import short

BREAK = re.compile(r'\s*[,;\t ]\s*')


def from_lines(text, columns):
    """Rows of text or CSV.

    A line of the table as cardrun writes it may have its record's number and the word `edge` in front.
    """
    for line, words in enumerate(text.split('\n'), 1):
        parts = [p.strip('"') for p in BREAK.split(words.partition('#')[0].strip())]
        if parts == [''] or line == 1 and [p.lower() for p in parts] == list(columns):
            continue
        if columns[0] in parts[:2]:
            parts = parts[parts.index(columns[0]) + 1 :]
        if len(parts) != len(columns) or not all(re.fullmatch('-?[0-9]{1,18}', p) for p in parts):
            raise BadInput(f"a row is {', '.join(columns)}, not '{short(words.strip())}'", line)
        yield line, [int(p) for p in parts]


def from_json(value, columns, list_name):
    """Rows of JSON: a list, or an object that has one under its name; a row is a list or an object."""
    rows = value.get(list_name) if isinstance(value, dict) else value
    if not isinstance(rows, list):
        raise BadInput(f'no table in JSON: a list of rows, or an object with "{list_name}"')
    for k, row in enumerate(rows):
        if isinstance(row, dict):
            row = [row.get(name) for name in columns]
        if not (
            isinstance(row, list)
            and len(row) == len(columns)
            and all(isinstance(x, int) and not isinstance(x, bool) for x in row)
        ):
            raise BadInput(f"a row is {', '.join(columns)}, not {short(json.dumps(row))}", f'{list_name}[{k}]')
        yield f'{list_name}[{k}]', row


def decoded(data):
    try:
        return data.decode('utf-8-sig')
    except UnicodeDecodeError as e:
        raise BadInput(f'not text: byte {data[e.start]:#04x} is not UTF-8', data[: e.start].count(b'\n') + 1) from None


def parsed(text):
    try:
        return json.loads(text)
    except (json.JSONDecodeError, RecursionError) as e:
        raise BadInput(f"not JSON: {getattr(e, 'msg', 'nested too deep')}", getattr(e, 'lineno', None)) from None


def rows_of(data, columns, list_name):
    """The rows of a file: (place, numbers)."""
    text = decoded(data)
    if text.lstrip()[:1] in ('[', '{'):
        return from_json(parsed(text), columns, list_name)
    return from_lines(text, columns)


def captured(data, graph):
    """The growths by edge. BadInput where a row names no edge of the graph, or one twice."""
    out = {}
    for at, (edge, left, right) in rows_of(data, ('edge', 'left', 'right'), 'table'):
        if not 0 <= edge < len(graph.edges):
            raise BadInput(f'edge {edge}: the graph has 0 to {len(graph.edges) - 1}', at)
        if edge in out:
            raise BadInput(f'edge {edge} a second time', at)
        out[edge] = (left, right)
    if not out:
        raise BadInput('no row is in it')
    return out


def captured_duals(data, graph):
    """The dual variables by vertex."""
    out = {}
    for at, (vertex, dual) in rows_of(data, ('vertex', 'dual'), 'duals'):
        if not 0 <= vertex < graph.V or vertex in graph.virtual:
            raise BadInput(f'vertex {vertex} is virtual, or not in the graph', at)
        if vertex in out:
            raise BadInput(f'vertex {vertex} a second time', at)
        if dual < 0:
            raise BadInput(f'dual variable {dual} is below 0', at)
        out[vertex] = dual
    return out


def as_csv(table):
    return 'edge,left,right\n' + ''.join(f'{e},{left},{right}\n' for e, (left, right) in enumerate(table))
