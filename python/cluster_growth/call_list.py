"""Calls that are made together: fb_calls tests memory once for a list of them, where each call alone tests it."""
from __future__ import annotations

from array import array
from operator import attrgetter
from typing import Any, Callable, Dict, List, NamedTuple, Sequence, Union

from .answers import ROW, Answer, Done, Length, Moved, read_rows
from .block import node_of
from .calls import CALLS
from .refusals import Refused, accepted
from .values import Direction, GrowState, plain, signed

# the calls that a list may have, and the first of their words, as in include/fusion_blossom.h
KINDS: Dict[str, int] = {
    'insert_defect': 4,
    'insert_blossom': 5,
    'set_grow_state': 6,
    'prepare': 7,
    'max_update_length': 8,
    'grow': 9,
    'advance': 11,
    'clear': 13,
    'representative_vertex': 14,
    'read_node': 15,
    'gap': 16,
}
CALL = 4  # words of a call


class Listed(NamedTuple):
    """What a list of calls came to: for each method what it returns on a DualModule, or Refused, which is not raised
    here; and how often memory was tested.
    """

    answers: List[Any]
    tests: int


class Entry(NamedTuple):
    """What a method appended: so many calls, and what it returns of their answers."""

    calls: int
    returned: Callable[..., Any]


class CallList:
    """Calls for `DualModule.calls`, which makes them in order; it may be made again, on any module.

    Each method appends the call of DualModule of that name and gives its place among the answers. A node that the
    list inserts has the next number, if it is accepted.
    """

    def __init__(self) -> None:
        self.words = array('q')
        self.circles = array('q')  # the circles of all blossoms, one behind the other
        self.entries: List[Entry] = []

    def __len__(self) -> int:
        return len(self.entries)

    def room(self) -> array:
        """Numbers for the answers of all calls."""
        return array('Q', [0]) * (ROW * (len(self.words) // CALL))

    def read(self, numbers: Sequence[int]) -> List[Any]:
        """What each method returns, from the numbers of all answers."""
        told, out = iter(read_rows(numbers, len(self.words) // CALL)), []
        for entry in self.entries:
            try:
                out.append(entry.returned(*[next(told) for _ in range(entry.calls)]))
            except Refused as e:
                out.append(e.with_traceback(None))  # it would keep all answers
        return out

    def call(self, name: str, *values) -> int:
        """As `DualModule.call`, values in the C order: the answer stays as it is, a refusal is a Refusal."""
        self._append(name, values)
        return self._enter(1, lambda told: told)

    def _append(self, name: str, values: Sequence) -> None:
        """The words of one call."""
        if name not in KINDS:
            raise ValueError(f'{name} is no call of a list')
        if len(values) != len(CALLS[name].parameters):
            raise TypeError(f'{name} takes {len(CALLS[name].parameters)} values, not {len(values)}')
        circle = array('q')
        if name == 'insert_blossom':
            circle = array('q', [signed(m) for m in plain(values[0])])
            values = (values[1], len(self.circles), len(circle))
        fields = [signed(x) for x in values]
        self.words.extend(array('q', [KINDS[name], *fields] + [0] * (CALL - 1 - len(fields))))
        self.circles.extend(circle)

    def _enter(self, calls: int, returned: Callable[..., Any]) -> int:
        self.entries.append(Entry(calls, returned))
        return len(self.entries) - 1

    def _method(self, name: str, returned: Callable[[Any], Any], *values) -> int:
        """One call, and what its method returns of an accepted answer."""
        self._append(name, values)
        return self._enter(1, lambda told: returned(accepted(name, told)))

    def insert_defect(self, vertex: int, state: int = GrowState.GROW) -> int:
        """The next node is a defect at a vertex."""
        return self._method('insert_defect', attrgetter('node'), vertex, state)

    def insert_blossom(self, circle: Sequence[int], state: int = GrowState.GROW) -> int:
        """The next node is a blossom of an odd circle of nodes."""
        return self._method('insert_blossom', attrgetter('node'), circle, state)

    def set_grow_state(self, node: int, state: int) -> int:
        """The node grows, shrinks or stays from now on."""
        return self._method('set_grow_state', nothing, node, state)

    def prepare(self, node: int, direction: int) -> int:
        """The node's boundary is made ready to move that way."""
        return self._method('prepare', attrgetter('passes'), node, direction)

    def max_update_length(self, node: int, direction: int = Direction.GROW, prepare: bool = True) -> int:
        """How far the node can move that way, or what stops it."""
        return self._method('max_update_length', as_told, node, direction, bool(prepare))

    def grow(self, node: int, length: int) -> int:
        """The node grows by a length; below 0 it shrinks."""
        return self._method('grow', nothing, node, length)

    def advance(self, node: int) -> int:
        """The node moves along its state as far as it can. It is read before and after, which tells by how much."""
        for name in ('read_node', 'advance', 'read_node'):
            self._append(name, (node,))
        return self._enter(3, moved)

    def clear(self) -> int:
        """All nodes and all growth are removed."""
        return self._method('clear', nothing)

    def representative_vertex(self, node: int) -> int:
        """A defect's vertex; a blossom has that of its first member."""
        return self._method('representative_vertex', attrgetter('vertex'), node)

    def read_node(self, node: int) -> int:
        """A node with its grow state, its parent and its dual variable."""
        return self._method('read_node', lambda told: node_of(node, told), node)

    def gap(self, edge: int) -> int:
        """What is left of an edge."""
        return self._method('gap', as_told, edge)


def nothing(told: Answer) -> None:
    """What a method returns that only does something."""


def as_told(told: Answer) -> Answer:
    """What a method returns whose answer is an object already."""
    return told


def moved(before: Any, said: Any, after: Any) -> Union[Moved, Length]:
    """What `advance` returns, from its answer and the node as it was read before and after."""
    if not isinstance(accepted('advance', said), Done):
        return said
    return Moved(accepted('read_node', after).dual - before.dual)
