#!/usr/bin/env python3
"""The gap of an edge, through the package, against the model: every edge after random call lists, where it is never
over, and on sound blocks that no calls reach, where it is; inner edges and edges with one, two and no holder; wrong
lengths, damaged blocks, short answer lists.

    tests/gap/test_gap.py [--lists 2000] [--states 20000] [--seed 1]     more of them
"""
import ctypes
import os
import sys

sys.dont_write_bytecode = True
sys.path.insert(0, os.path.join(os.path.dirname(os.path.dirname(os.path.abspath(__file__))), 'rounds'))
from compared import SEEN, Compared, M, cg, command, needs_library, said  # noqa: E402

NONE_SUCH = [5000, 2**32, 2**63, 2**64 - 1, -1]
P9 = [(0, 1, 2), (0, 2, 2), (1, 2, 2), (2, 3, 20)]


def holders(st, e):
    """How many nodes hold a side of the edge."""
    return len({h for h in st.holder[2 * e : 2 * e + 2] if h != M.NONE})


class Gap(Compared):
    """Gaps of library and model."""

    def every(self, m, st, rng):
        """Every edge, and numbers that are none; what is told of each."""
        self.litter(m, rng)
        before, told = self.lent(m), []
        for e in [*range(st.E + 2), rng.choice(NONE_SUCH)]:
            want = M.gap(st, e)
            told.append(want[0])
            SEEN[want[0] + (f' of {holders(st, e)}' if want[0] in ('gap', 'over') else '')] += 1
            self.assertEqual(str(m.call('gap', e)), said(want))
        self.assertEqual(self.lent(m), before)
        return told

    def none_over(self, m, st, rng):
        self.assertNotIn('over', self.every(m, st, rng))

    def lists(self, count, seed):
        self.after_calls(count, seed, self.none_over, 0.2)

    def states(self, count, seed):
        self.on_unreached(count, seed, self.every)


@needs_library
class Random(Gap):
    def test_lists(self):
        SEEN.clear()
        self.lists(150, 1)
        self.assertGreater(min(SEEN[k] for k in ('gap of 0', 'gap of 1', 'gap of 2', 'inner', 'refused')), 10)

    def test_states_that_no_calls_reach(self):
        SEEN.clear()
        self.states(300, 2)
        self.assertGreater(min(SEEN[k] for k in ('over of 1', 'over of 2')), 3)


@needs_library
class Edges(Gap):
    def grown(self):
        """P9: defect 0 has grown by 5 and holds edge 2 on both sides."""
        m = cg.DualModule(4, P9, virtual=[3])
        m.insert_defect(0, cg.GrowState.GROW)
        m.grow(0, 2)
        m.grow(0, 3)
        return m

    def test_an_edge_inside_a_cluster_is_inner(self):
        m = self.grown()
        self.assertEqual(m.read_table()[2], cg.Growth(3, 3))
        self.assertEqual([m.gap(e) for e in range(4)], [cg.Inner(), cg.Inner(), cg.Inner(), cg.Left(17)])
        self.assertEqual([str(m.gap(e)) for e in (2, 3)], ['inner', 'gap 17'])

    def test_an_edge_with_no_holder_has_its_weight(self):
        m = cg.DualModule(4, P9, virtual=[3])
        self.assertEqual([m.gap(e) for e in range(4)], [cg.Left(w) for _, _, w in P9])

    def test_an_edge_with_one_or_two_holders(self):
        m = cg.DualModule(4, [(0, 1, 4), (1, 2, 4), (2, 3, 4)], virtual=[0, 3])
        m.insert_syndrome([0, 1, 1, 0])
        m.grow(0, 1)
        self.assertEqual([m.gap(e) for e in range(3)], [cg.Left(3), cg.Left(3), cg.Left(4)])
        m.grow(1, 3)
        self.assertEqual([m.gap(e) for e in range(3)], [cg.Left(3), cg.Left(0), cg.Left(1)])

    def test_over_with_its_excess_on_a_block_that_no_calls_made(self):
        m = cg.DualModule(4, [(0, 1, 4), (1, 2, 4), (2, 3, 4)], virtual=[0, 3])
        m.insert_syndrome([0, 1, 1, 0])
        growth = m.block.rows['growth'].start
        m.words[growth + 2], m.words[growth + 3] = 5, 6
        self.assertEqual(m.gap(1), cg.Over(7))
        self.assertEqual(str(m.gap(1)), 'over 7')

    def test_inner_goes_by_the_node_itself(self):
        m = cg.DualModule(4, [(0, 1, 4), (1, 2, 4), (0, 2, 4), (2, 3, 20)], virtual=[3])
        circle = m.insert_syndrome([1, 1, 1])
        for n in circle:
            m.grow(n, 2)
        self.assertEqual([m.gap(e) for e in range(3)], [cg.Left(0)] * 3)
        blossom = m.insert_blossom(circle, cg.GrowState.GROW)
        held = [m.words[m.block.rows['holder'].start + s] - 1 for s in range(6)]
        want = [cg.Inner() if held[2 * e] == held[2 * e + 1] else cg.Left(0) for e in range(3)]
        self.assertEqual([m.gap(e) for e in range(3)], want)
        m.grow(blossom, 3)
        self.assertNotIn(cg.Over, {type(m.gap(e)) for e in range(4)})

    def refused(self, number, call, *values):
        with self.assertRaises(cg.Refused) as caught:
            call(*values)
        self.assertEqual(caught.exception.number, number)

    def test_refusals_come_in_order(self):
        m = self.grown()
        self.refused(3, m.gap, 4)
        self.refused(3, m.gap, -1)
        m.words[m.block.rows['state'].start] = 3
        self.refused(2, m.gap, 4)
        m.words[0] = 1025
        self.refused(1, m.gap, 4)


@needs_library
class Lent(Gap):
    def told(self, length, edge, scratch=None):
        """The count that is given back, and an answer list of so many words afterwards, each 77 before."""
        answer = (ctypes.c_size_t * max(length, 1))(*[77] * max(length, 1))
        block, words = self.m._memory['block'], self.m._memory['scratch']
        words = words if scratch is None else (words[0], scratch)
        count = self.m.library.calls['gap'](*block, *words, edge, ctypes.addressof(answer), length)
        return count, list(answer)[:length]

    def setUp(self):
        self.m = Edges.grown(self)

    def test_the_numbers_of_each_case(self):
        self.assertEqual(self.told(5, 2), (1, [17, 77, 77, 77, 77]))
        self.assertEqual(self.told(7, 3), (2, [19, 17] + [77] * 5))
        self.assertEqual(self.told(5, 4), (2, [11, 3, 77, 77, 77]))
        self.assertEqual(self.told(5, 2, scratch=17), (2, [11, 1, 77, 77, 77]))
        self.m.words[self.m.block.rows['growth'].start + 6] = 23
        self.assertEqual(self.told(5, 3), (2, [18, 3, 77, 77, 77]))

    def test_a_short_list_has_no_room(self):
        for length in (2, 3, 4):
            self.assertEqual(self.told(length, 2), (2, [11, 1] + [77] * (length - 2)))
        for length in (0, 1):
            self.assertEqual(self.told(length, 2), (0, [77] * length))


if __name__ == '__main__':
    command(Gap)
