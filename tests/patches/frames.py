#!/usr/bin/env python3
"""Every small patch: the 728 graphs on vertices 0 to 3 with 3 virtual, where each of six pairs is absent, of weight 2
or of weight 4, and the run on each. Written to standard output as frames, with the model's lines, for
crates/replay/stdin.

    tests/patches/frames.py > FILE

A frame is two little-endian 32-bit numbers, the bytes of records and of lines, then the records, then the lines.
"""
import itertools
import os
import struct
import sys

sys.path.insert(0, os.path.dirname(os.path.dirname(os.path.abspath(__file__))))
import model  # noqa: E402

PAIRS = [(0, 1), (0, 2), (0, 3), (1, 2), (1, 3), (2, 3)]
ABSENT = 0


def graphs():
    """The edges of each graph, in order: the last pair changes fastest; the graph without edges is left out."""
    for weights in itertools.product((ABSENT, 2, 4), repeat=6):
        edges = [(*pair, w) for pair, w in zip(PAIRS, weights) if w != ABSENT]
        if edges:
            yield edges


def all_reach(edges):
    """Whether every vertex reaches vertex 3."""
    reached, more = {3}, True
    while more:
        near = {v for a, b, _ in edges for v in (a, b) if reached & {a, b}}
        more = not near <= reached
        reached |= near
    return reached == {0, 1, 2, 3}


def record(kind, *fields):
    return struct.pack(f'<HH{len(fields)}i', 2 + 4 * len(fields), kind, *fields)


def records(edges):
    """N 4, L 200; defects 0, 1, 2 in Grow, advance 0, 1, 2, 0, 1, 2, the table."""
    out = [record(1, 4, len(edges), 4, 200)]
    out += [record(2, *edge) for edge in edges]
    out += [record(3, 3)]
    out += [record(4, vertex, 1) for vertex in (0, 1, 2)]
    out += [record(11, node) for node in (0, 1, 2, 0, 1, 2)]
    return b''.join(out + [record(10)])


def frames():
    """The records and the lines of each run."""
    for edges in graphs():
        stream = records(edges)
        yield stream, model.lines(stream).encode()


if __name__ == '__main__':
    for stream, lines in frames():
        sys.stdout.buffer.write(struct.pack('<II', len(stream), len(lines)) + stream + lines)
