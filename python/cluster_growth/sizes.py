"""Limits of the library, and how much memory a graph takes (docs/LAYOUT.md)."""
from __future__ import annotations

MOST_VERTICES = 1024
MOST_EDGES = 4096
MOST_NODES = 1024
MOST_STORE = 65536
MOST_CIRCLE = 63  # members of a blossom
MOST_WEIGHT = 1_000_000
MOST_DUAL = 1_000_000_000
MOST_VALUE = 999_999_999  # of a sheet, in ten-thousandths

# the number that `graph` and `fb_open` call it by: (name, least, greatest)
SIZES = {
    'V': ('vertices', 1, MOST_VERTICES),
    'E': ('edges', 1, MOST_EDGES),
    'N': ('nodes', 1, MOST_NODES),
    'L': ('entries of list store', 0, MOST_STORE),
}


def block_words(vertices: int, edges: int, nodes: int, store: int) -> int:
    """Words of the block."""
    return 16 + 4 * vertices + 12 * edges + 8 * nodes + store


def scratch_words(vertices: int, edges: int) -> int:
    """Words of the scratch."""
    return 4 * edges + min(vertices, 2 * edges)


def entry_numbers(nodes: int) -> int:
    """Numbers of the list of entries."""
    return 5 * nodes


def enough_store(vertices: int, edges: int, blossoms: int = 0, circle: int = 0) -> int:
    """Entries of list store with which no call is refused 9, for at most so many blossoms of circles of at most so
    many nodes.

    The lists of all outermost nodes together name a side or a vertex once: 2 E + V entries at most. A call asks for
    as many again, a blossom for one such part for itself and one for each of its members. Members keep their lists,
    at most one part a blossom.
    """
    return (2 + blossoms + circle) * (2 * edges + vertices)


def circle_store(vertices: int, edges: int) -> int:
    """Entries of list store above the lists of the nodes that are not in it with which no circle is refused 9: its
    members and the blossom each take 2 E + V. The store has room for it where 2 E + V is at most 1,024.
    """
    return (MOST_CIRCLE + 1) * (2 * edges + vertices)


def fits(vertices: int, edges: int, nodes: int, store: int) -> bool:
    """Whether the library takes these sizes."""
    return all(least <= x <= most for x, (_, least, most) in zip((vertices, edges, nodes, store), SIZES.values()))
