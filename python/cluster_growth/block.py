"""Reads the words of a block by docs/LAYOUT.md: what no exported call tells, and all of it at once."""
from __future__ import annotations

from dataclasses import dataclass
from typing import List, Optional

from .answers import NodeRead

HEADER = 16
REMOVED = 1024  # V + it is the class word of an opened blossom
# rows behind the header, in order, and their lengths in V, E, N
ROWS = [
    ('flags', 'V'),
    ('vertex_holder', 'V'),
    ('vertex_grandson', 'V'),
    ('first', 'V'),
    ('end', '2E'),
    ('growth', '2E'),
    ('holder', '2E'),
    ('grandson', '2E'),
    ('at', '2E'),
    ('weight', 'E'),
    ('class', 'N'),
    ('state', 'N'),
    ('parent', 'N'),
    ('dual', 'N'),
    ('start', 'N'),
    ('boundary_length', 'N'),
    ('overgrown_length', 'N'),
    ('store', 'L'),
    ('active', 'N'),
    ('original', 'E'),
]


@dataclass(frozen=True)
class Node:
    """A node.

    A defect has a vertex, a blossom its first member, an opened blossom neither; `parent` is the blossom that it lies
    in.
    """

    number: int
    vertex: Optional[int]
    first_member: Optional[int]
    state: int
    parent: Optional[int]
    dual: int

    @property
    def removed(self) -> bool:
        """Whether it is a blossom that was opened."""
        return self.vertex is None and self.first_member is None


def node_of(number: int, told: NodeRead) -> Node:
    """The node that an answer tells of."""
    return Node(number, told.vertex, told.first_member, told.state, told.parent, told.dual)


class Block:
    """A view of the words of an opened block."""

    def __init__(self, words: memoryview):
        self.words = words
        self.V, self.E, self.N, self.L = words[:4].tolist()
        lengths = {'V': self.V, 'E': self.E, '2E': 2 * self.E, 'N': self.N, 'L': self.L}
        self.rows, at = {}, HEADER
        for name, length in ROWS:
            self.rows[name] = range(at, at + lengths[length])
            at += lengths[length]

    def row(self, name: str) -> List[int]:
        """The words of a row."""
        r = self.rows[name]
        return self.words[r.start : r.stop].tolist()

    def count(self) -> int:
        """How many nodes there are."""
        return self.words[4]

    def field(self, name: str, n: int) -> int:
        """The word of node n in a row of nodes."""
        return self.words[self.rows[name].start + n]

    def node(self, n: int) -> Node:
        """A node, as `read_node` of a module has it; and one that was opened. For pictures, which read every node."""
        c, parent = self.field('class', n), self.field('parent', n)
        vertex, first = (c, None) if c < self.V else (None, c - self.V if c != self.V + REMOVED else None)
        return Node(n, vertex, first, self.field('state', n), parent - 1 if parent else None, self.field('dual', n))

    def active_list(self) -> List[int]:
        """The nodes of the active list."""
        return self.row('active')[: self.words[5]]

    def weights(self) -> List[int]:
        """The present weight of every edge."""
        return self.row('weight')

    def original_weights(self) -> List[int]:
        """The weight of every edge as it was opened, which a clear gives back."""
        return self.row('original')

    def reweighted(self) -> bool:
        """Whether a change of weights stands."""
        return self.words[6] == 1

    def boundary(self, n: int) -> List[int]:
        """The sides in the boundary of a node: edge e has the sides 2 e and 2 e + 1."""
        start = self.rows['store'].start + self.field('start', n)
        return self.words[start : start + self.field('boundary_length', n)].tolist()

    def outermost(self, n: int) -> int:
        """The outermost blossom that a node lies in, or the node itself."""
        parent = self.rows['parent'].start
        while self.words[parent + n]:
            n = self.words[parent + n] - 1
        return n
