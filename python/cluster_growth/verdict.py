"""The check of a table from another decoder."""
from __future__ import annotations

import ctypes
from typing import Optional, Sequence, Tuple, Union

from .answers import Refusal, Verdict, read
from .library import Library, load


def check_table(
    vertices: int,
    edges: Sequence[Tuple[int, int, int]],
    virtual: Sequence[int],
    defects: Sequence[int],
    duals: Sequence[int],
    growths: Sequence[Tuple[int, int]],
    distances: Sequence[Sequence[int]],
    library: Optional[Library] = None,
) -> Union[Verdict, Refusal]:
    """Whether the table is right: edges as (left, right, weight), growths as (left, right) for each edge, and for each
    defect its distances to all vertices, -1 where there is no way.
    """
    lists = [
        [x for edge in edges for x in edge],
        list(virtual),
        list(defects),
        list(duals),
        [x for growth in growths for x in growth],
        [x for row in distances for x in row],
    ]
    words = [(ctypes.c_int64 * max(len(x), 1))(*x) for x in lists]
    lent = [y for list_, x in zip(words, lists) for y in (ctypes.addressof(list_), len(x))]
    answer = (ctypes.c_size_t * 5)()
    count = (library or load()).check_table(*lent, vertices, len(edges), ctypes.addressof(answer), len(answer))
    found = read(answer[:count])
    assert isinstance(found, (Verdict, Refusal))
    return found
