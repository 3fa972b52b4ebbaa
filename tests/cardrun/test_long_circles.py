#!/usr/bin/env python3
"""Circles of up to 16,382 entries in records: program and model give the same lines. One of more than 64 entries is
refused without words for its entries: 3, 6 or 7.

    tests/cardrun/test_long_circles.py
"""
import os
import random
import subprocess
import unittest

from test_blocks import PROGRAM, model, record

COUNTS = [1, 2, 3, 31, 33, 62, 63, 64, 65, 66, 67, 100, 1001, 16381, 16382]


def stream(rng):
    """Eight defects on a row, three of them in blossom 8, and circles of all counts."""
    edges = [record(2, v, v + 1, 4) for v in range(9)]
    out = [record(1, 10, 9, 12, 400)] + edges + [record(3, 9)] + [record(4, v, 1) for v in range(8)]
    out.append(record(5, 1, 0, 1, 2))
    for count in COUNTS:
        for nodes in (range(3, 8), range(8), range(-1, 12)):
            state = rng.choice([0, 1, 2, 3, -1])
            out.append(record(5, state, *(rng.choice(nodes) for _ in range(count))))
    return b"".join(out)


@unittest.skipUnless(os.path.exists(PROGRAM), "cardrun is not built: tools/build-programs.sh")
class LongCircles(unittest.TestCase):
    def test_lines_are_the_models(self):
        seen = set()
        for seed in range(20):
            records = stream(random.Random(seed))
            lines = subprocess.run([PROGRAM], input=records, stdout=subprocess.PIPE).stdout
            self.assertEqual(lines, model.lines(records).encode())
            seen |= {line.split(b" ", 1)[1] for line in lines.split(b"\n") if b"refused" in line}
        self.assertLessEqual({b"refused 3", b"refused 6", b"refused 7"}, seen)


if __name__ == "__main__":
    unittest.main()
