#!/usr/bin/env python3
"""Circles of up to 63 nodes (SPECIFICATION 20), through the package, against the model: which length is refused, the
place of that refusal among the others, and the list store that always suffices; on graphs of the library's sizes.
"""
import os
import random
import sys
import unittest
from array import array

TOP = os.path.dirname(os.path.dirname(os.path.dirname(os.path.abspath(__file__))))
sys.dont_write_bytecode = True
sys.path[:0] = [os.path.join(TOP, part) for part in ('python', 'tests', os.path.join('tests', 'rounds'))]
import cluster_growth as cg  # noqa: E402
from cluster_growth import library, sizes  # noqa: E402
import model as M  # noqa: E402
from model.words import words  # noqa: E402
import compared  # noqa: E402  (reading a block)

needs_library = unittest.skipUnless(library.find(), 'the library is not built: tools/build-library.sh')
LENGTHS = (61, 63, 64, 65, 101)


def row(vertices, weight=2):
    return [(v, v + 1, weight) for v in range(vertices - 1)]


class Both:
    """The library and the model on one graph; every call on both."""

    def __init__(self, test, vertices, edges, nodes=1024, store=65536, virtual=()):
        self.test = test
        self.module = cg.DualModule(vertices, edges, virtual, nodes, store)
        _, self.state = M.open_graph(vertices, len(edges), nodes, store, edges, virtual)

    def same(self, want, got):
        self.test.assertEqual(str(got), compared.said(want))
        return want

    def defects(self, count, first=0, state=1):
        for v in range(first, first + count):
            self.same(M.insert_defect(self.state, v, state), self.module.call('insert_defect', v, state))

    def grow(self, node, length):
        self.same(M.grow(self.state, node, length), self.module.call('grow', node, length))

    def circle(self, nodes, state=1):
        """A blossom of these nodes: the model's answer, and all that it leaves; nothing moves where it is refused."""
        m, before = self.module, list(self.module.words)
        want = self.same(
            M.insert_blossom(self.state, state, list(nodes)), m.call('insert_blossom', array('q', nodes), state)
        )
        if want[0] == 'refused':
            self.test.assertEqual(list(m.words), before)
        self.test.assertEqual(compared.tidied(m), words(self.state))
        return want

    def others(self, circle):
        """Entries in the lists of the nodes that are not in a circle, as the block has them."""
        b = self.module.block
        return sum(
            b.field('boundary_length', n) + b.field('overgrown_length', n)
            for n in range(b.count())
            if n not in set(circle)
        )


@needs_library
class Circles(unittest.TestCase):
    def test_lengths(self):
        """With and without a repeat; the repeat stands at the end, in the middle, or throughout."""
        for length in LENGTHS:
            for repeat in (None, (length - 1, 0), (length // 2, length // 2 + 1), 'all'):
                both = Both(self, 120, row(120))
                both.defects(110)
                circle = [3] * length if repeat == 'all' else random.Random(length).sample(range(110), length)
                if isinstance(repeat, tuple):
                    circle[repeat[0]] = circle[repeat[1]]
                whole = repeat is None and length in (61, 63)
                self.assertEqual(both.circle(circle), ('node', 110) if whole else ('refused', 7), (length, repeat))

    def test_every_length(self):
        for length in range(0, 110):
            both = Both(self, 112, row(112))
            both.defects(110)
            whole = length % 2 == 1 and 3 <= length <= 63
            self.assertEqual(both.circle(range(length))[0], 'node' if whole else 'refused', length)

    def test_its_place_among_the_refusals(self):
        """3 6 7 8 9: each of them with a circle of 65."""
        both = Both(self, 120, row(120), nodes=69, store=3 * 358)
        both.defects(68)
        self.assertEqual(both.circle(range(65), state=3), ('refused', 3))
        self.assertEqual(both.circle([*range(64), 68]), ('refused', 3))
        self.assertEqual(both.circle([*range(64), -1]), ('refused', 3))
        self.assertEqual(both.circle(range(65)), ('refused', 7))
        self.assertEqual(both.circle(range(63)), ('refused', 9))
        both.defects(1, first=68)
        self.assertEqual(both.circle(range(65)), ('refused', 7))
        self.assertEqual(both.circle(range(63)), ('refused', 8))
        inner = Both(self, 120, row(120), nodes=70)
        inner.defects(69)
        self.assertEqual(inner.circle([0, 1, 2]), ('node', 69))
        self.assertEqual(inner.circle(range(65)), ('refused', 6))
        self.assertEqual(inner.circle(range(3, 68)), ('refused', 7))
        self.assertEqual(inner.circle(range(3, 66)), ('refused', 8))

    def test_the_greatest_graph(self):
        """E 4,096 and V 1,024 leave no room in L for any circle of 63, nor for its limit."""
        edges = [(k % 1023, k % 1023 + 1, 2) for k in range(4096)]
        both = Both(self, 1024, edges)
        both.defects(101, state=0)
        for length in LENGTHS:
            self.assertEqual(both.circle(range(length)), ('refused', 7 if length > 63 else 9))


@needs_library
class Store(unittest.TestCase):
    def grown(self, seed, store):
        """A run with blossoms, clusters that have grown, and more than 63 outermost nodes."""
        rng = random.Random(seed)
        vertices = rng.randint(90, 120)
        edges = row(vertices, 4) + [(*rng.sample(range(vertices), 2), 4) for _ in range(rng.randint(0, 20))]
        both = Both(self, vertices, edges, nodes=160, store=store)
        both.defects(rng.randint(75, vertices))
        for n in range(both.module.node_count()):
            both.grow(n, rng.choice([0, 1, 1, 2]))
        for _ in range(rng.randint(0, 3)):
            outer = [n for n, x in enumerate(both.state.nodes) if x.parent == M.NONE]
            self.assertEqual(both.circle(rng.sample(outer, 3))[0], 'node')
        outer = [n for n, x in enumerate(both.state.nodes) if x.parent == M.NONE]
        rng.shuffle(outer)
        return both, outer[:63]

    def test_it_suffices_and_one_less_does_not(self):
        """L is the other nodes' lists and 64 (2E + V): no circle is refused 9; with one less one of 63 is."""
        for seed in range(12):
            both, circle = self.grown(seed, 65536)
            part = sizes.circle_store(both.module.vertices, len(both.module.edges))
            for length in (3, 31, 61, 63):
                named = circle[:length]
                store = both.others(named) + part
                self.assertLessEqual(store, sizes.MOST_STORE)
                again, _ = self.grown(seed, store)
                self.assertEqual(again.circle(named)[0], 'node')
            short, _ = self.grown(seed, both.others(circle) + part - 1)
            self.assertEqual(short.circle(circle), ('refused', 9))

    def test_where_it_has_room(self):
        """2E + V of 1,024 is the most that L's limit has room for: 64 times that is 65,536."""
        self.assertEqual(sizes.circle_store(342, 341), sizes.MOST_STORE)
        most = Both(self, 342, row(342), nodes=64)
        most.defects(63)
        self.assertEqual(most.circle(range(63)), ('node', 63))
        self.assertGreater(sizes.circle_store(343, 341), sizes.MOST_STORE)
        beyond = Both(self, 343, row(342), nodes=64)
        beyond.defects(63)
        self.assertEqual(beyond.circle(range(63)), ('refused', 9))
        self.assertEqual(beyond.circle(range(61)), ('node', 63))


if __name__ == '__main__':
    unittest.main()
