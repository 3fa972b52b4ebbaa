"""The numbers that a call is refused with."""
from __future__ import annotations

from typing import Any

from .answers import Answer, Refusal

SENTENCES = {
    1: 'lent memory has a wrong length, or a stored size is out of range',
    2: 'the block is not sound',
    3: 'no such vertex, edge, node, direction or state',
    4: 'a size, weight or edge end is out of range, or there are not E edges',
    5: 'the vertex is virtual, a defect, held, or has a held side',
    6: 'the node lies in a blossom',
    7: 'the circle has an even count, fewer than 3 nodes, more than 63, or one of them twice',
    8: 'N nodes exist already',
    9: 'too little list store: a greater L helps',
    10: 'an edge that this node does not hold on both sides would pass its weight',
    11: 'shrinking by more than the dual variable, the top overgrown amount or the growth of a side',
    12: 'a dual variable, overgrown amount or growth would pass its limit',
    13: 'a full edge to a free vertex, or a side of growth 0: prepare first',
    14: 'a round of a length below 1',
    15: 'the node is not a blossom of dual variable 0, or once prepared it stops a debug build',
    16: 'weights change before the first node, and once: a node exists, or an earlier change stands',
    17: 'no value of the sheet is positive, or one is out of range',
}


def sentence(number: int) -> str:
    """What a refusal's number means."""
    return SENTENCES.get(number, 'a refusal that this package does not know')


class Refused(Exception):
    """A call that the library turned down. 1 to 9, 14, 16 and 17 leave all memory unchanged; 10 to 13 leave what
    preparation leaves. 15 leaves all memory unchanged for a node that is no blossom of dual variable 0, and what
    preparation leaves where a debug build stops, which no block does that calls have made. A call for all clusters
    leaves block and entries unchanged whatever the number.
    """

    def __init__(self, number: int, call: str = ''):
        self.number = number
        self.sentence = sentence(number)
        self.call = call
        super().__init__(f"{call + ': ' if call else ''}refused {number}: {self.sentence}")


def accepted(call: str, answer: Answer) -> Any:
    """An answer of the call, raised if it is a refusal."""
    if isinstance(answer, Refusal):
        raise Refused(answer.number, call)
    return answer
