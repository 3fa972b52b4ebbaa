"""Values that go to the library: grow states and directions, lists, numbers of 64 bits."""
from __future__ import annotations

from array import array
from enum import IntEnum
from typing import Tuple


class GrowState(IntEnum):
    """What a node does in a round."""

    STAY = 0
    GROW = 1
    SHRINK = 2


class Direction(IntEnum):
    """Which way a node is prepared or asked to move."""

    SHRINK = 0
    GROW = 1


def plain(values):
    """A list of what may be an array of numpy."""
    return values.tolist() if hasattr(values, 'tolist') else list(values)


def stretch(words: array) -> Tuple[int, int]:
    """The address and the length of words that are lent."""
    return words.buffer_info()


def size(x: int) -> int:
    """A number without sign: any number that is none names nothing, as the greatest does."""
    return x if 0 <= x < 2**64 else 2**64 - 1


def signed(x: int) -> int:
    """A word of 64 bits: a greater number is as far out of every range."""
    return max(min(x, 2**63 - 1), -(2**63))
