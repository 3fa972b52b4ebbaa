"""A graph and the calls on it, from text, records or JSON."""
from . import package  # noqa: F401  (finds cluster_growth)
from cluster_growth import sizes

from .faults import BadInput
from .plain import many
from .records import encode_item, split
from .words import GRAPH, INSERTS

PROGRAM_SIZES = {'V': 64, 'E': 128, 'N': 32, 'L': 2000}  # what cardrun takes
LIBRARY_SIZES = {name: most for name, (_, _, most) in sizes.SIZES.items()}
LEAST = {name: least for name, (_, least, _) in sizes.SIZES.items()}


class Graph:
    """What an opening is given.

    `where` has the line, or the record, of the sizes, of each edge, of each virtual vertex and of each value of the
    sheet. With a sheet, the weights of the edges are those that the library makes (sheets.py).
    """

    def __init__(self, items, sheet=None):
        at = lambda i: i.line if i.line is not None else f'record {i.number}'
        head = items[0]
        self.V, self.E, self.N, self.L = head.fields
        self.edges = [tuple(i.fields) for i in items if i.word == 'edge']
        self.given = [i.fields[0] for i in items if i.word == 'virtual']
        self.virtual = set(self.given)
        self.sheet = None if sheet is None else [value for value, _ in sheet]
        self.vanished = None  # positive values of the sheet that became 0, once the library has opened it
        self.where = {
            'sizes': at(head),
            'edges': [at(i) for i in items if i.word == 'edge'],
            'virtual': [at(i) for i in items if i.word == 'virtual'],
            'sheet': [line for _, line in sheet or []],
        }
        self.worked_out = []  # of N and L, those that the text left out

    def sizes(self):
        return {'V': self.V, 'E': self.E, 'N': self.N, 'L': self.L}

    def within(self, limits):
        """Whether all sizes are as a runner takes them."""
        return all(LEAST[k] <= x <= limits[k] for k, x in self.sizes().items()) and len(self.edges) == self.E

    def fault(self, limits):
        """What an opening with these limits refuses: (number, where, what), in the order in which it is tested; or
        None.
        """
        for k, x in self.sizes().items():
            if not LEAST[k] <= x <= limits[k]:
                return 4, self.where['sizes'], f'{k} is {x}; {LEAST[k]} to {limits[k]} can be'
        if len(self.edges) != self.E:
            return 4, self.where['sizes'], f"E is {self.E}, and {many(len(self.edges), 'edge is', 'edges are')} given"
        if self.sheet is not None and len(self.sheet) != self.E:
            return 1, self.where['sheet'][0], f"E is {self.E}, and the sheet has {many(len(self.sheet), 'value')}"
        for v, at in zip(self.given, self.where['virtual']):
            if not 0 <= v < self.V:
                return 3, at, f'virtual names vertex {v}; the graph has 0 to {self.V - 1}'
        for e, ((a, b, w), at) in enumerate(zip(self.edges, self.where['edges'])):
            for end in (a, b):
                if not 0 <= end < self.V:
                    return 4, at, f'edge {e} ends at vertex {end}; the graph has 0 to {self.V - 1}'
            if a == b:
                return 4, at, f'edge {e} has vertex {a} at both ends'
            if not 0 <= w <= sizes.MOST_WEIGHT:
                return 4, at, f'edge {e} has weight {w}; 0 to {sizes.MOST_WEIGHT} can be'
        if self.sheet is not None and not any(self.sheet):
            return 17, self.where['sheet'][0], 'no value of the sheet is positive'
        return None


class Script:
    """The items in order, the graph that they give, and what only pictures and matchings read."""

    def __init__(self):
        self.items = []
        self.at = {}  # vertex: (x, y) or (x, y, layer)
        self.observables = {}  # number: edges
        self.sheet = None  # the weights in ten-thousandths, each with the line that it stands in
        self.title = ''
        self.detectors = None  # the detector of each vertex, where the graph was imported
        self.graph = None  # Graph, where the first item is one
        self.form = 'text'  # or 'records'
        self.well_formed = True

    def calls(self):
        return [i for i in self.items if i.is_call()]

    def records(self):
        """The items as records."""
        out = []
        for i in self.items:
            try:
                out.append(encode_item(i))
            except ValueError as e:
                raise BadInput(str(e), i.line) from None
        return b''.join(out)

    def settle(self):
        """Works out what the items leave open. To be called once they are all there."""
        if any(i.raw is not None for i in self.items):
            self.split_again()
        self.well_formed = all(i.reason is None for i in self.items) and self.items[0].word == 'graph'
        if self.items[0].word == 'graph' and self.items[0].reason is None:
            left_out = ['N', 'L'][len(self.items[0].fields) - 2 :] if len(self.items[0].fields) < 4 else []
            self.items[0].fields += [0] * len(left_out)
            self.graph = Graph([i for i in self.items if i.word in GRAPH and i.reason is None], self.sheet)
            self.graph.worked_out = left_out
            for name, x in zip('NL', self.enough()):
                if name in left_out:
                    setattr(self.graph, name, x)
            self.items[0].fields[2:] = [self.graph.N, self.graph.L]

    def split_again(self):
        """Items with bytes among them are read as the program reads them; lines and expected answers stay with what
        begins where they stood.
        """
        if self.items[0].word == 'graph':
            self.items[0].fields += [PROGRAM_SIZES['N'], PROGRAM_SIZES['L']][len(self.items[0].fields) - 2 :]
        data, begins = [], {}
        length = 0
        for i in self.items:
            begins[length] = i
            data.append(i.raw if i.raw is not None else encode_item(i))
            length += len(data[-1])
        self.items, offset = split(b''.join(data)), 0
        for i in self.items:
            here = begins.get(offset)
            if here is not None:
                i.line, i.expected = here.line, here.expected
            offset += len(i.raw)

    def enough(self):
        """Nodes and list store that these calls need, up to the library's limits."""
        nodes = most = blossoms = several = circle = 0
        for i in self.items:
            if i.word == 'clear':
                nodes = blossoms = 0
            nodes += i.word in INSERTS
            if i.word == 'blossom':
                blossoms, circle = blossoms + 1, max(circle, min(len(i.fields) - 1, sizes.MOST_CIRCLE))
            most, several = max(most, nodes), max(several, blossoms)
        store = sizes.enough_store(self.graph.V, self.graph.E, several, circle)
        return min(max(most, 1), sizes.MOST_NODES), min(max(store, 0), sizes.MOST_STORE)
