"""An opened graph with its clusters: a method for each call of the proved library."""
from __future__ import annotations

import ctypes
from array import array
from typing import Any, Iterable, List, NamedTuple, Optional, Sequence, Tuple, Union

from . import answers, library, sizes
from .answers import Answer, Conflicts, Contact, Free, Gap, Group, Length, Moved, Unlimited
from .block import Block, Node, node_of
from .call_list import CallList, Listed
from .calls import CALLS, SIGNED, WORDS
from .refusals import accepted
from .values import Direction, GrowState, plain, signed, size, stretch

ROOM = 16  # numbers that an answer may have
WORD = 8  # bytes


class Growth(NamedTuple):
    """The growth at the two sides of an edge."""

    left: int
    right: int


class Table(Sequence[Growth]):
    """The growth table: an edge's number gives its Growth."""

    def __init__(self, growths: array):
        self.growths = growths  # left and right of edge 0, of edge 1, ..

    def __len__(self) -> int:
        return len(self.growths) // 2

    def __getitem__(self, edge):
        if isinstance(edge, slice):
            return [self[e] for e in range(*edge.indices(len(self)))]
        if not -len(self) <= edge < len(self):
            raise IndexError(f'edge {edge} of {len(self)}')
        edge %= len(self)
        return Growth(self.growths[2 * edge], self.growths[2 * edge + 1])

    def __eq__(self, other) -> bool:
        return isinstance(other, Table) and self.growths == other.growths

    def __repr__(self) -> str:
        return f'Table of {len(self)} edges'

    def to_numpy(self):
        """A row (left, right) for each edge, as an array of numpy."""
        import numpy

        return numpy.array(self.growths, dtype=numpy.int64).reshape(-1, 2)


class DualModule:
    """A decoding graph, opened in memory of its own, and the clusters that grow on it.

    `edges` are (left, right, weight), or rows of an array of numpy, with whole weights from 0 to 1,000,000; even ones
    keep all gaps between clusters that grow together even. With a `sheet`, a value for each edge in whole
    ten-thousandths, the library makes the weights, and `edges` may be (left, right): the largest value becomes
    1,000,000, the others even numbers in proportion. `vanished` is how many positive values became 0. A call that is
    turned down raises Refused, with its number.
    """

    def __init__(
        self,
        vertices: int,
        edges: Iterable[Tuple[int, int, int]],
        virtual: Iterable[int] = (),
        nodes: int = sizes.MOST_NODES,
        store: int = sizes.MOST_STORE,
        path: Optional[str] = None,
        edge_count: Optional[int] = None,
        sheet: Optional[Iterable[int]] = None,
    ):
        self.vertices = vertices
        rows = [tuple(e) + (0,) * (sheet is not None and len(e) == 2) for e in plain(edges)]
        for e, row in enumerate(rows):
            if len(row) != 3:
                raise ValueError(f'edge {e} has {len(row)} numbers: left, right and weight are three')
        self.edges: List[Tuple[int, int, int]] = [(a, b, w) for a, b, w in rows]
        self.vanished = 0
        self.virtual: List[int] = sorted(set(plain(virtual)))
        self.library = library.load(path)
        # E, which the library compares with the edges that it is given
        count = len(self.edges) if edge_count is None else edge_count
        self._lend(vertices, count, nodes, store)
        flat, ends = array('q', [x for e in self.edges for x in e]), array('q', self.virtual)
        given = [*stretch(ends), size(vertices), size(count), size(nodes), size(store)]
        if sheet is None:
            told = self.library.open(*self._lent, *stretch(flat), *given, *self._told)
            accepted('open', answers.read(self._answer[:told]))
        else:
            values = array('q', [signed(t) for t in plain(sheet)])
            told = self.library.open_sheet(*self._lent, *stretch(flat), *stretch(values), *given, *self._told)
            self.vanished = accepted('open_sheet', answers.read(self._answer[:told])).vanished
            self.edges = [(a, b, flat[3 * e + 2]) for e, (a, b, _) in enumerate(self.edges)]
        self.words = memoryview(self._block).cast('B').cast('q')
        self.block = Block(self.words)

    def _lend(self, vertices: int, edges: int, nodes: int, store: int) -> None:
        """Memory for all that is lent. Sizes are tested first: where they are out of range, a word will do."""
        fit = sizes.fits(vertices, edges, nodes, store)
        self._block = (ctypes.c_int64 * (sizes.block_words(vertices, edges, nodes, store) if fit else 1))()
        self._scratch = (ctypes.c_int64 * (sizes.scratch_words(vertices, edges) if fit else 1))()
        self._second = (ctypes.c_int64 * len(self._block))()
        self._answer = (ctypes.c_size_t * ROOM)()
        self._entries = array('Q', bytes(WORD * sizes.entry_numbers(nodes if fit else 0)))
        memory = {'block': self._block, 'second': self._second, 'scratch': self._scratch}
        self._memory = {name: (ctypes.addressof(words), len(words)) for name, words in memory.items()}
        self._lent = [*self._memory['block'], *self._memory['scratch']]
        self._told = [ctypes.addressof(self._answer), ROOM]

    def call(self, name: str, *values) -> Answer:
        """A call by its name in calls.py, with its values in the C order. A refusal comes as the answer Refusal."""
        given: list = []
        for kind, value in zip(CALLS[name].parameters, values):
            if kind is WORDS:
                given += stretch(value)
            else:
                given.append(signed(value) if kind is SIGNED else size(value))
        lent = [x for memory in CALLS[name].lent for x in self._memory[memory]]
        count = self.library.calls[name](*lent, *given, *self._told)
        return answers.read(self._answer[:count])

    def _made(self, name: str, *values) -> Any:
        """An accepted answer, of the case that the call has."""
        return accepted(name, self.call(name, *values))

    def insert_defect(self, vertex: int, state: int = GrowState.GROW) -> int:
        """The next node is a defect at a vertex. Its number."""
        return self._made('insert_defect', vertex, state).node

    def insert_syndrome(self, syndrome: Sequence[int], state: int = GrowState.GROW) -> List[int]:
        """A defect at each vertex that has a 1. Their nodes. Vertices behind the end of the list have none."""
        bits = plain(syndrome)
        if len(bits) > self.vertices or any(b not in (0, 1) for b in bits):
            raise ValueError(f'a syndrome is a 0 or 1 for each of at most {self.vertices} vertices')
        return [self.insert_defect(v, state) for v, b in enumerate(bits) if b]

    def insert_blossom(self, circle: Sequence[int], state: int = GrowState.GROW) -> int:
        """The next node is a blossom of an odd circle of nodes, at most 63 of them. Its number."""
        return self._made('insert_blossom', array('q', plain(circle)), state).node

    def remove_blossom(self, blossom: int) -> None:
        """A blossom of dual variable 0 is opened: its members are outermost again, in Stay, and hold their sides.

        Its number is not given out again before a clear, and naming it is refused 3.
        """
        self._made('remove_blossom', blossom)

    def load_edge_modifier(self, pairs: Sequence[Tuple[int, int]]) -> None:
        """For one shot: each edge takes the weight beside it, until the next clear. Of an edge that is named twice the
        last weight stays.

        It comes before the first node, and once: refused 16 while a node exists or an earlier list that named an edge
        stands.
        """
        self._made('load_edge_modifier', array('q', [signed(x) for pair in pairs for x in plain(pair)]))

    def weights(self) -> List[int]:
        """The present weights, read from the block's words: those of the opening, or what a change left."""
        return self.block.weights()

    def set_grow_state(self, node: int, state: int) -> None:
        """The node grows, shrinks or stays from now on."""
        self._made('set_grow_state', node, state)

    def prepare(self, node: int, direction: int) -> int:
        """The node's boundary is made ready to move that way. How many passes it took."""
        return self._made('prepare', node, direction).passes

    def max_update_length(self, node: int, direction: int = Direction.GROW, prepare: bool = True) -> Length:
        """How far the node can move that way, or what stops it."""
        return self._made('max_update_length', node, direction, bool(prepare))

    def grow(self, node: int, length: int) -> None:
        """The node grows by a length; below 0 it shrinks."""
        self._made('grow', node, length)

    def advance(self, node: int) -> Union[Moved, Length]:
        """The node moves along its state as far as it can: Moved, or what stops it."""
        before: Any = self.call('read_node', node)  # a number that is no node is refused by advance as well
        answer = self._made('advance', node)
        if not isinstance(answer, answers.Done):
            return answer
        return Moved(self._made('read_node', node).dual - before.dual)

    def renew_active_list(self) -> None:
        """Nodes in Stay are taken off the active list."""
        self._made('renew_active_list')

    def active_list(self) -> List[int]:
        """The active list, read from the block's words: each node once."""
        return self.block.active_list()

    def prepare_all(self) -> None:
        """Every active node is prepared in the direction of its state, the shrinking ones first."""
        self._made('prepare_all')

    def group_max_update_length(self) -> Union[Free, Unlimited, Conflicts]:
        """How far all active nodes can move, each in the direction of its state, or what stops them."""
        answer = self._made('group_max_update_length', self._entries)
        return answers.read_entries(self._entries, answer) if isinstance(answer, Group) else answer

    def grow_all(self, length: int) -> None:
        """A round: every node in Shrink shrinks by the length, then every node in Grow grows by it."""
        self._made('grow_all', length)

    def clear(self) -> None:
        """All nodes and all growth are removed."""
        self._made('clear')

    def representative_vertex(self, node: int) -> int:
        """A defect's vertex; a blossom has that of its first member."""
        return self._made('representative_vertex', node).vertex

    def gap(self, edge: int) -> Gap:
        """What is left of an edge: Inner where one node holds both sides, else Left.

        Over, where the growths exceed the weight, comes only of a block that no calls have made.
        """
        return self._made('gap', edge)

    def read_table(self) -> Table:
        """The growth at both sides of every edge."""
        growths = array('q', bytes(2 * WORD * len(self.edges)))
        self._made('read_table', growths)
        return Table(growths)

    def contacts(self) -> List[Contact]:
        """The full edges that join two outermost nodes, or one and a free virtual vertex, by rising number."""
        found = array('q', bytes(3 * WORD * len(self.edges)))
        count = self._made('contacts', found).count
        return [Contact(*found[3 * k : 3 * k + 3]) for k in range(count)]

    def read_node(self, node: int) -> Node:
        """A node with its grow state, its parent and its dual variable. One that was opened is refused 3."""
        return node_of(node, self._made('read_node', node))

    def calls(self, calls: CallList) -> Listed:
        """Makes the calls of a list, one after another. Memory is tested once for all of them on a block that calls
        have made, where each method tests it by itself.
        """
        room = calls.room()
        tests = self._made('calls', calls.words, calls.circles, room).tests
        return Listed(calls.read(room), tests)

    def node_count(self) -> int:
        """How many nodes there are, blossoms and their members among them, opened ones too."""
        return self.block.count()
