"""Compares a growth table with the one from distances and dual variables, and tells how a growth follows."""
import copy

from . import made
from .book import Book
from .distances import Distances
from .faults import BadInput, NoAnswer, NotCovered
from .plain import many
from .script import LIBRARY_SIZES

SHOWN = 3  # wrong edges that are told with their derivation
COVERS = 'Covered are runs without blossoms on graphs without weights of 0.'


def present(graph, weights):
    """The graph with the weights that stand."""
    graph = copy.copy(graph)
    graph.edges = [(a, b, w) for (a, b, _), w in zip(graph.edges, weights)]
    return graph


class Checked:
    """A run on the library with its book, and the table that distances and dual variables give."""

    def __init__(self, script):
        if not made.available():
            raise NoAnswer(f'the dual variables come from the library: {made.BUILD}')
        if not script.well_formed:
            raise NoAnswer('an ill-formed record ends the run')
        self.script, self.graph, self.book = script, script.graph, Book()
        self.made = made.Made(script, book=self.book)
        if self.made.module is None:
            number, at, what = self.graph.fault(LIBRARY_SIZES) or (self.made.refused, None, 'the opening')
            raise NoAnswer(f'refused {number}: {what}', at)
        self.module = self.made.module
        self.graph = present(self.graph, self.module.weights())
        self.duals = self.book.duals()
        self.node = {vertex: f'node {n}' for n, (vertex, _, _) in enumerate(self.book.nodes)}
        self.distances = distances(self.graph, self.duals)

    def wrong_duals(self):
        """Nodes whose dual variable in the block is not the book's, as (node, book's, block's)."""
        read = [self.module.read_node(n).dual for n in range(self.module.node_count())]
        booked = [y for _, _, y in self.book.nodes]
        return [(n, y, x) for n, (y, x) in enumerate(zip(booked, read)) if x != y] or (
            [(len(booked), 0, 0)] if len(booked) != len(read) else []
        )

    def read(self):
        """The table that the library reads, by edge."""
        return dict(enumerate(map(tuple, self.module.read_table())))


class Captured:
    """A graph with dual variables that came from elsewhere. No call is made."""

    def __init__(self, script, duals):
        self.script, self.graph, self.duals = script, script.graph, duals
        fault = self.graph.fault(LIBRARY_SIZES)
        if fault:
            raise BadInput(fault[2], fault[1])
        self.node = {vertex: 'captured' for vertex in duals}
        self.distances = distances(self.graph, duals)

    def wrong_duals(self):
        return []


def distances(graph, duals):
    """The distances of a graph that the table from distances covers."""
    zero = next((e for e, (_, _, w) in enumerate(graph.edges) if w == 0), None)
    if zero is not None:
        raise NotCovered(
            f'edge {zero} has weight 0: the table from distances covers weights above 0', graph.where['edges'][zero]
        )
    return Distances(graph.V, graph.edges, duals, graph.virtual)


def path_words(start, path, edges):
    """A path as its vertices, with the weights between them."""
    return str(start) + ''.join(f' -{edges[e][2]}- {v}' for e, v in path)


def side_lines(checked, edge, name, found=None):
    """How the growth of a side follows, as lines."""
    d = checked.distances.derive(edge, name)
    s, edges = d.side, checked.graph.edges
    verdict = '' if found is None else f', found {found}' + ('' if found == d.growth else '   <-- differs')
    yield f'  {name}, at {s.u}: expected {d.growth}{verdict}'
    if d.defect is None:
        near = checked.distances.nearest(s.u)
        for a, far, y in near:
            yield f'    defect {a} ({checked.node[a]}): dual variable {y}, not above d({a},{s.u}) = {far}'
        yield f"    {'no defect is in reach' if not near else d.rule}"
        return
    found_path = checked.distances.searches[d.defect]
    yield f'    defect {d.defect} ({checked.node[d.defect]}): dual variable {d.y}'
    for end, far in ((s.u, d.near), (s.v, d.far)):
        yield f'    d({d.defect},{end}) = {far}: {path_words(d.defect, found_path.path(end), edges)}'
    yield f'    {d.rule}'


def edge_lines(checked, edge, found=None):
    """How both growths of an edge follow."""
    a, b, w = checked.graph.edges[edge]
    yield f'edge {edge}, {a}-{b}, weight {w}'
    for name, x in zip(('left', 'right'), found or (None, None)):
        yield from side_lines(checked, edge, name, x)


def compare(checked, table):
    """The edges on which a table differs from the one from distances."""
    expected = checked.distances.table()
    return [e for e in sorted(table) if tuple(table[e]) != expected[e]]


def swapped(checked, table, wrong):
    """How many of the wrong edges have left and right exchanged."""
    expected = checked.distances.table()
    return sum(tuple(table[e])[::-1] == expected[e] for e in wrong)


def report(checked, table, whose):
    """The lines of a comparison, and whether all is equal."""
    duals = [y for y in checked.duals.values()]
    lines = [
        f"{many(len(duals), 'defect')}, {sum(y > 0 for y in duals)} with a dual variable above 0"
        + (f', the greatest {max(duals)}' if duals else '')
    ]
    for n, booked, read in checked.wrong_duals()[:SHOWN]:
        lines.append(f'node {n}: the calls give dual variable {booked}, the block has {read}')
    wrong, count = compare(checked, table), len(checked.graph.edges)
    if len(table) < count:
        lines.append(f'{count - len(table)} of {count} edges are not in the table')
    if not wrong:
        lines.append(
            f"equal: the table that {whose}, {many(len(table), 'edge')}, is the one from distances and dual variables"
        )
    else:
        verb, first = 'is' if len(wrong) == 1 else 'are', f'; the first {SHOWN}' if len(wrong) > SHOWN else ''
        lines.append(
            f'{len(wrong)} of {len(table)} edges of the table that {whose} {verb} '
            f'not as distances and dual variables give{first}:'
        )
        for e in wrong[:SHOWN]:
            lines += edge_lines(checked, e, table[e])
        exchanged = swapped(checked, table, wrong)
        if exchanged:
            lines.append(
                f'On {exchanged} of them left and right are exchanged; other decoders may sort the ends of an edge.'
            )
    lines.append(COVERS)
    return lines, not wrong and not checked.wrong_duals()
