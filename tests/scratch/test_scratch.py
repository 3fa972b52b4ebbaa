#!/usr/bin/env python3
"""The scratch of 4 E words and the smaller of V and 2 E (SPECIFICATION 23), through the package, against the model: its
exact length, and preparations in which one vertex stands behind many full edges.

    tests/scratch/test_scratch.py [--lists 2000] [--seed 1]     more of them
"""
import argparse
import ctypes
import os
import random
import sys
import unittest

sys.dont_write_bytecode = True
sys.path.insert(0, os.path.join(os.path.dirname(os.path.dirname(os.path.abspath(__file__))), 'rounds'))
from compared import Compared, M, cg, module_of, needs_library, tidied, words  # noqa: E402

# V and E: V below 2 E, V of 2 E, V above it, and the largest
SIZES = ((2, 1), (2, 2), (3, 3), (4, 2), (9, 2), (3, 400), (1024, 512), (1024, 511), (1024, 4096))


def before(edges):
    """Words of the scratch when a vertex was noted each time it was met."""
    return 6 * edges


def row(v, e):
    """A graph of these sizes: edges along a row, again and again."""
    return [(k % (v - 1), k % (v - 1) + 1, 2) for k in range(e)]


def fan(rng):
    """A few vertices, each behind many edges of weight 0 or 2 from few others."""
    v = rng.randint(2, 7)
    ends = [rng.sample(range(v), 2) for _ in range(rng.randint(1, 3))]
    edges = [(*rng.choice(ends), rng.choice([0, 0, 2, 2, 4])) for _ in range(rng.randint(v, 40))]
    edges += [(k, k + 1, rng.choice([0, 2])) for k in range(v - 1)]
    _, st = M.open_graph(v, len(edges), 6, 4000, edges, [v - 1] if rng.random() < 0.5 else [])
    return st


def step(rng, st):
    """A call that takes or releases vertices, most of the time."""
    x, n = rng.random(), rng.randrange(max(1, len(st.nodes)))
    if not st.nodes or x < 0.1:
        return 'defect', rng.randrange(st.V), rng.choice([1, 1, 2])
    if x < 0.4:
        return 'prepare', n, rng.randrange(2)
    if x < 0.7:
        return 'grow', n, rng.choice([1, 1, 2, -1, -1, -2])
    return rng.choice([('advance', n), ('state', n, rng.choice([1, 2])), ('length', n, rng.randrange(2), True)])


@needs_library
class Scratch(Compared):
    def answer(self, m, length, call, *values):
        """What a call answers that is lent so many words of scratch."""
        room = (type(m._scratch)._type_ * max(length, 1))()
        lent = [*m._memory['block'], ctypes.addressof(room), length]
        return m._answer[: m.library.calls[call](*lent, *values, *m._told)]

    def test_its_length(self):
        """Any other length is refused 1, that of before too, and changes nothing."""
        for v, e in SIZES:
            least = cg.scratch_words(v, e)
            self.assertEqual(least, 4 * e + min(v, 2 * e))
            m = cg.DualModule(v, row(v, e), [], 2, 100)
            for length in {0, least - 1, least + 1, before(e), 4 * e, before(e) + 1} - {least}:
                was = list(m._block)
                self.assertEqual(self.answer(m, length, 'clear'), [11, 1], (v, e, length))
                self.assertEqual(self.answer(m, length, 'prepare', 0, 1), [11, 1], (v, e, length))
                self.assertEqual(list(m._block), was)
            self.assertNotEqual(self.answer(m, least, 'clear'), [11, 1])
            self.assertEqual(v < 2 * e, least < before(e))

    def test_a_vertex_behind_all_edges(self):
        """It is noted once: as many edges as there can be, two vertices, 2 words for them."""
        for e in (1, 2, 300, 4096):
            _, st = M.open_graph(2, e, 2, 65536, [(0, 1, 0)] * e, [])
            m, rng = module_of(st), random.Random(e)
            for call in (('defect', 0, 1), ('prepare', 0, 1), ('state', 0, 2), ('prepare', 0, 0), ('prepare', 0, 1)):
                self.call(m, st, rng, *call)
            self.assertEqual(set(m._scratch), {0})

    def fans(self, count, seed):
        rng = random.Random(seed)
        for _ in range(count):
            st = fan(rng)
            m = module_of(st)
            for _ in range(rng.randint(10, 30)):
                self.litter(m, rng)
                self.call(m, st, rng, *step(rng, st))
            self.assertEqual(tidied(m), words(st))

    def test_fans(self):
        self.fans(150, 8)


if __name__ == '__main__':
    p = argparse.ArgumentParser()
    p.add_argument('--lists', type=int)
    p.add_argument('--seed', type=int, default=1)
    o, rest = p.parse_known_args()
    if o.lists:
        Scratch().fans(o.lists, o.seed)
        print(f'{o.lists} call lists: no difference')
    else:
        unittest.main(argv=[sys.argv[0], *rest])
