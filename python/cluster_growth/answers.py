"""Answers of the calls as small objects. str(answer) is the answer as the program cardrun writes it."""
from __future__ import annotations

from dataclasses import dataclass
from typing import Callable, Dict, List, Optional, Sequence, Tuple, Union


@dataclass(frozen=True)
class Free:
    """The node may move so far. `empty`: its boundary is empty."""

    length: int
    empty: bool = False

    def __str__(self) -> str:
        return f'free {self.length} {int(self.empty)}'


@dataclass(frozen=True)
class Unlimited:
    """Nothing limits the node."""

    empty: bool = False

    def __str__(self) -> str:
        return f'free -1 {int(self.empty)}'


@dataclass(frozen=True)
class Conflict:
    """The gap to a peer, halved downward if the peer grows too, is 0. At a gap of 1 nothing touches yet.

    Each defect is the node of the defect that the growth at the edge came from. A shrinking node at dual variable 0
    that two growing peers touch answers these two peers.
    """

    peer: int
    peer_defect: int
    node: int
    defect: int

    def __str__(self) -> str:
        return f'conflict {self.peer} {self.peer_defect} {self.node} {self.defect}'


@dataclass(frozen=True)
class TouchingVirtual:
    """The node has reached a virtual vertex."""

    node: int
    defect: int
    vertex: int

    def __str__(self) -> str:
        return f'virtual {self.node} {self.defect} {self.vertex} 0'


@dataclass(frozen=True)
class NeedExpand:
    """A blossom at dual variable 0 cannot shrink."""

    blossom: int

    def __str__(self) -> str:
        return f'expand {self.blossom}'


@dataclass(frozen=True)
class ShrinkStop:
    """A defect at dual variable 0 cannot shrink."""

    node: int

    def __str__(self) -> str:
        return f'stop {self.node}'


@dataclass(frozen=True)
class ShrinkStopPeer:
    """A defect at dual variable 0 cannot shrink, and a growing peer touches it."""

    node: int
    peer: int
    peer_defect: int

    def __str__(self) -> str:
        return f'stop {self.node} {self.peer} {self.peer_defect}'


@dataclass(frozen=True)
class Done:
    """The call was carried out. `count`: how many contacts there are."""

    count: int = 0

    def __str__(self) -> str:
        return 'done'


@dataclass(frozen=True)
class NewNode:
    """The number of the node that was inserted."""

    node: int

    def __str__(self) -> str:
        return f'node {self.node}'


@dataclass(frozen=True)
class Prepared:
    """How many passes the preparation took."""

    passes: int

    def __str__(self) -> str:
        return f'prepared {self.passes}'


@dataclass(frozen=True)
class Vertex:
    """A vertex."""

    vertex: int

    def __str__(self) -> str:
        return f'vertex {self.vertex}'


@dataclass(frozen=True)
class Refusal:
    """The number of the refusal. The methods of DualModule raise it as Refused."""

    number: int

    def __str__(self) -> str:
        return f'refused {self.number}'


@dataclass(frozen=True)
class Opened:
    """A graph was opened from a sheet: how many positive values became weight 0."""

    vanished: int

    def __str__(self) -> str:
        return f'opened {self.vanished}'


@dataclass(frozen=True)
class Verdict:
    """A table from another decoder is right, or is not."""

    yes: bool

    def __str__(self) -> str:
        return 'yes' if self.yes else 'no'


@dataclass(frozen=True)
class Group:
    """How many conflicts and how many stops stand in the list of entries."""

    conflicts: int
    stops: int

    def __str__(self) -> str:
        return f'group {self.conflicts} {self.stops}'


@dataclass(frozen=True)
class NodeRead:
    """A node that was read: a defect has a vertex, a blossom its first member; `parent` is the blossom that it lies
    in, or None.
    """

    vertex: Optional[int]
    first_member: Optional[int]
    state: int
    parent: Optional[int]
    dual: int

    def __str__(self) -> str:
        what = f'blossom {self.first_member}' if self.vertex is None else f'defect {self.vertex}'
        return f'{what} {self.state} {-1 if self.parent is None else self.parent} {self.dual}'


@dataclass(frozen=True)
class Inner:
    """One node holds both sides of the edge."""

    def __str__(self) -> str:
        return 'inner'


@dataclass(frozen=True)
class Over:
    """The growths of the edge exceed its weight by so much, and no node holds both sides: no call leads there."""

    excess: int

    def __str__(self) -> str:
        return f'over {self.excess}'


@dataclass(frozen=True)
class Left:
    """The weight of the edge less its growths; 0 of a full edge."""

    gap: int

    def __str__(self) -> str:
        return f'gap {self.gap}'


@dataclass(frozen=True)
class CallsMade:
    """How many calls of a list were made, and how often memory was tested."""

    calls: int
    tests: int

    def __str__(self) -> str:
        return f'calls {self.calls} {self.tests}'


@dataclass(frozen=True)
class Contact:
    """A full edge that joins something: the outermost node at its left and at its right end, -1 for a virtual vertex."""

    edge: int
    left: int
    right: int

    def __str__(self) -> str:
        return f'contact {self.edge} {self.left} {self.right}'


@dataclass(frozen=True)
class Moved:
    """`advance` moved the node's dual variable by so much: below 0 it shrank, 0 for a node that stays."""

    by: int

    def __str__(self) -> str:
        return 'done'


Length = Union[Free, Unlimited, Conflict, TouchingVirtual, NeedExpand, ShrinkStop, ShrinkStopPeer]
Gap = Union[Inner, Over, Left]
Answer = Union[Length, Done, NewNode, Prepared, Vertex, Refusal, Opened, Verdict, Group, NodeRead, Gap, CallsMade]


@dataclass(frozen=True)
class Conflicts:
    """What stops the active nodes: conflicts in the order of the active list, and stops by rising node."""

    conflicts: Tuple[Union[Conflict, TouchingVirtual, NeedExpand], ...]
    stops: Tuple[Union[ShrinkStop, ShrinkStopPeer], ...]

    def __str__(self) -> str:
        return f'group {len(self.conflicts)} {len(self.stops)}'


def parent_of(told: int) -> Optional[int]:
    """The blossom that a node lies in, told as its number + 1, or as 0 for none."""
    return told - 1 if told else None


# the case that stands first in an answer, as in include/fusion_blossom.h, and what its values make
CASES: Dict[int, Callable[..., Answer]] = {
    0: lambda below, length, empty: Free(-length if below else length, bool(empty)),
    1: lambda empty: Unlimited(bool(empty)),
    2: Conflict,
    3: TouchingVirtual,
    4: NeedExpand,
    5: ShrinkStop,
    6: ShrinkStopPeer,
    7: Done,
    8: NewNode,
    9: Prepared,
    10: Vertex,
    11: Refusal,
    12: Opened,
    13: lambda yes: Verdict(bool(yes)),
    14: Group,
    15: lambda vertex, state, parent, dual: NodeRead(vertex, None, state, parent_of(parent), dual),
    16: lambda member, state, parent, dual: NodeRead(None, member, state, parent_of(parent), dual),
    17: Inner,
    18: Over,
    19: Left,
    20: CallsMade,
}

ROW = 5  # numbers of an entry, and of an answer in the list of fb_calls: a case, its values and what is left
# how many values each case has that may stand in a row
VALUES = {0: 3, 1: 1, 2: 4, 3: 3, 4: 1, 5: 1, 6: 3, 7: 0, 8: 1, 9: 1, 10: 1, 11: 1, 15: 4, 16: 4, 17: 0, 18: 1, 19: 1}


def read(numbers: Sequence[int]) -> Answer:
    """The answer that these numbers tell."""
    return CASES[numbers[0]](*numbers[1:])


def read_rows(numbers: Sequence[int], count: int) -> List[Answer]:
    """The answers of the first rows."""
    rows = (numbers[ROW * k : ROW * (k + 1)] for k in range(count))
    return [read(row[: 1 + VALUES[row[0]]]) for row in rows]


def read_entries(numbers: Sequence[int], group: Group) -> Conflicts:
    """What the list of entries tells."""
    told: list = read_rows(numbers, group.conflicts + group.stops)
    return Conflicts(tuple(told[: group.conflicts]), tuple(told[group.conflicts :]))
