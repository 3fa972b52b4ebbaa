#!/usr/bin/env python3
"""Insertion at a vertex with many edges (SPECIFICATION 19), through the package, against the model: hubs of 1, 2, 300
and 4,096 edges, and sound blocks that no calls reach, on which a held side decides.
"""
import os
import sys
import unittest

TOP = os.path.dirname(os.path.dirname(os.path.dirname(os.path.abspath(__file__))))
sys.dont_write_bytecode = True
sys.path[:0] = [os.path.join(TOP, part) for part in ('python', 'tests', os.path.join('tests', 'rounds'))]
from cluster_growth import library  # noqa: E402
import model as M  # noqa: E402
from model.words import words  # noqa: E402
import compared  # noqa: E402  (a module whose block holds a state)

needs_library = unittest.skipUnless(library.find(), 'the library is not built: tools/build-library.sh')
DEGREES = (1, 2, 300, 4096)
HUB = 0


def hub(degree, virtual=(), store=65536):
    """Vertex 0 with so many edges, parallel ones where there are more than leaves; the last vertex has no edge."""
    leaves = min(degree, 1022)
    edges = [(HUB, 1 + e % leaves, 4) for e in range(degree)]
    _, st = M.open_graph(leaves + 2, degree, 8, store, edges, virtual)
    return st


@needs_library
class Hub(unittest.TestCase):
    def insert(self, st, vertex=HUB):
        """A defect on library and model: answer and block; what the test finds, and how many sides it reads."""
        m = compared.module_of(st)
        looked, want = M.held_test(st, vertex), M.insert_defect(st, vertex, 1)
        self.assertEqual(str(m.call('insert_defect', vertex, 1)), compared.said(want))
        self.assertEqual(compared.tidied(m), words(st))
        self.assertEqual(looked[0], want == ('refused', 5))
        return (*looked, want)

    def test_free(self):
        """Accepted: every side was read."""
        for degree in DEGREES:
            self.assertEqual(self.insert(hub(degree)), (False, degree, ('node', 0)))

    def test_the_vertex_decides(self):
        """Virtual, a defect, or held by the cluster of a leaf: no side is read."""
        for degree in DEGREES:
            self.assertEqual(self.insert(hub(degree, [HUB])), (True, 0, ('refused', 5)))
            st = hub(degree)
            M.insert_defect(st, HUB, 1)
            self.assertEqual(self.insert(st), (True, 0, ('refused', 5)))
            st = hub(degree)
            M.insert_defect(st, 1, 1)
            self.assertEqual((M.grow(st, 0, 4), M.prepare(st, 0, 1)[0]), (('done',), 'prepared'))
            self.assertEqual(self.insert(st), (True, 0, ('refused', 5)))
            self.assertEqual(self.insert(st, st.V - 1), (False, 0, ('node', 1)))

    def test_a_held_side_decides(self):
        """Only on blocks that no calls reach: the first held side is the last that is read."""
        for degree in DEGREES:
            for held in {0, degree // 2, degree - 1}:
                st = hub(degree)
                M.insert_defect(st, st.V - 1, 1)
                for side in range(held, degree, 7):
                    st.holder[st.at[HUB][side]] = st.grandson[st.at[HUB][side]] = 0
                self.assertFalse(M.sound(st))
                self.assertEqual(self.insert(st), (True, held + 1, ('refused', 5)))


if __name__ == '__main__':
    unittest.main()
