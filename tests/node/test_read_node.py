#!/usr/bin/env python3
"""Reading nodes, through the package, against the model: every number on random call lists with blossoms and openings
and on sound blocks that no calls reach; block and scratch untouched; wrong lengths, damaged blocks, short answer lists.

    tests/node/test_read_node.py [--lists 2000] [--states 20000] [--seed 1]     more of them
"""
import ctypes
import os
import random
import sys

sys.dont_write_bytecode = True
sys.path.insert(0, os.path.join(os.path.dirname(os.path.dirname(os.path.abspath(__file__))), 'rounds'))
from compared import SEEN, Compared, M, cg, command, compare, module_of, needs_library, said  # noqa: E402

NONE_SUCH = [5000, 2**32, 2**63, 2**64 - 1, -1]


class Read(Compared):
    """Nodes read from library and model."""

    def every(self, m, st, rng):
        """Every node, and numbers that are none."""
        self.litter(m, rng)
        before = self.lent(m)
        for n in [*range(len(st.nodes) + 2), st.N, rng.choice(NONE_SUCH)]:
            want = M.read_node(st, n)
            SEEN[said(want) if want[0] == 'refused' else want[0] + (' in a blossom' if want[3] != M.NONE else '')] += 1
            self.assertEqual(str(m.call('read_node', n)), said(want))
        self.assertEqual(self.lent(m), before)

    def lists(self, count, seed):
        rng = random.Random(seed)
        for _ in range(count):
            st, _ = compare.opened(rng)
            m = module_of(st)
            for _ in range(rng.randint(10, 40)):
                name, *values = compare.call(rng, st)
                duals = [node.dual for node in st.nodes]
                if name == 'advance' and values[0] < len(duals) and rng.random() < 0.5:
                    self.moved(m, st, values[0], duals)
                else:
                    self.call(m, st, rng, name, *values)
            self.every(m, st, rng)

    def moved(self, m, st, n, duals):
        """An advance by the method of the package, which tells by how much."""
        want = M.advance(st, n)
        try:
            got = m.advance(n)
        except cg.Refused as e:
            got = cg.Refusal(e.number)
        self.assertEqual(str(got), said(want))
        if want == ('done',):
            self.assertEqual(got, cg.Moved(st.nodes[n].dual - duals[n]))
            SEEN['advance grew' if got.by > 0 else 'advance shrank' if got.by < 0 else 'advance stayed'] += 1

    def states(self, count, seed):
        self.on_unreached(count, seed, self.every)


@needs_library
class Random(Read):
    def test_lists(self):
        self.lists(150, 1)
        self.assertGreater(min(SEEN[k] for k in ('defect', 'blossom', 'defect in a blossom', 'refused 3')), 10)
        self.assertGreater(min(SEEN[k] for k in ('advance grew', 'advance shrank', 'advance stayed')), 3)

    def test_states_that_no_calls_reach(self):
        self.states(150, 2)


@needs_library
class Lent(Read):
    def setUp(self):
        _, self.st = M.open_graph(4, 3, 4, 40, [(0, 1, 4), (1, 2, 4), (2, 3, 4)], [0, 3])
        for v in (1, 2):
            M.insert_defect(self.st, v, M.GROW)
        M.grow(self.st, 1, 3)
        self.m = module_of(self.st)

    def told(self, length, node=1, scratch=None):
        """The count that is given back, and an answer list of so many words afterwards, each 77 before."""
        answer = (ctypes.c_size_t * max(length, 1))(*[77] * max(length, 1))
        block, words = self.m._memory['block'], self.m._memory['scratch']
        words = words if scratch is None else (words[0], scratch)
        count = self.m.library.calls['read_node'](*block, *words, node, ctypes.addressof(answer), length)
        return count, list(answer)[:length]

    def test_five_numbers_are_told(self):
        self.assertEqual(self.told(5), (5, [15, 2, 1, 0, 3]))
        self.assertEqual(self.told(7), (5, [15, 2, 1, 0, 3, 77, 77]))
        self.assertEqual(self.told(5, node=2), (2, [11, 3, 77, 77, 77]))

    def test_a_parent_is_told_as_its_number_and_one(self):
        _, self.st = M.open_graph(4, 4, 5, 200, [(0, 1, 4), (1, 2, 4), (0, 2, 4), (2, 3, 20)], [3])
        for v in range(3):
            M.insert_defect(self.st, v, M.GROW)
        M.insert_blossom(self.st, M.SHRINK, [2, 0, 1])
        self.m = module_of(self.st)
        self.assertEqual(self.told(5), (5, [15, 1, 0, 4, 0]))
        self.assertEqual(self.told(5, node=3), (5, [16, 2, 2, 0, 0]))
        M.remove_blossom(self.st, 3)
        self.m = module_of(self.st)
        self.assertEqual(self.told(5), (5, [15, 1, 0, 0, 0]))
        self.assertEqual(self.told(5, node=3), (2, [11, 3, 77, 77, 77]))

    def test_a_short_list_has_no_room(self):
        for length in (2, 3, 4):
            self.assertEqual(self.told(length), (2, [11, 1] + [77] * (length - 2)))
        for length in (0, 1):
            self.assertEqual(self.told(length), (0, [77] * length))

    def test_refusals_come_in_order(self):
        self.assertEqual(self.told(5, node=9, scratch=17)[1][:2], [11, 1])
        self.m.words[self.m.block.rows['state'].start] = 3
        self.assertEqual(self.told(5, node=9, scratch=17)[1][:2], [11, 1])
        self.assertEqual(self.told(5, node=9)[1][:2], [11, 2])
        self.m.words[0] = 1025
        self.assertEqual(self.told(5, node=9)[1][:2], [11, 1])


if __name__ == '__main__':
    command(Read)
