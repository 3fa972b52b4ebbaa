#!/usr/bin/env python3
"""Every small patch (docs/SPECIFICATION.md 16), read a second time: the program's list, and the runs that the gate
replays.

    tests/patches/test_patches.py
"""
import os
import sys
import unittest

ROOT = os.path.dirname(os.path.dirname(os.path.dirname(os.path.abspath(__file__))))
sys.path[:0] = [os.path.join(ROOT, 'tests'), os.path.dirname(os.path.abspath(__file__))]
import frames  # noqa: E402
import model  # noqa: E402

LIST = os.path.join(ROOT, 'crates', 'small_patches_list', 'stdout')
REPLAYED = os.path.join(ROOT, 'crates', 'replay', 'stdin')
GRAPHS = list(frames.graphs())


class Patches(unittest.TestCase):
    def test_each_graph_once(self):
        self.assertEqual(len(GRAPHS), 728)
        self.assertEqual(len({frozenset(edges) for edges in GRAPHS}), 728)

    def test_the_list(self):
        said = [f'{k} {"yes" if frames.all_reach(edges) else "no"}\n' for k, edges in enumerate(GRAPHS, 1)]
        self.assertEqual((sum(' yes' in line for line in said), sum(' no' in line for line in said)), (624, 104))
        with open(LIST) as stored:
            self.assertEqual(stored.readlines(), said)

    def test_the_replayed_runs(self):
        self.assertEqual(list(model.frames(REPLAYED))[-728:], list(frames.frames()))


if __name__ == '__main__':
    unittest.main()
