#!/usr/bin/env python3
"""The calls for all clusters, through the package, against the model: answers, entries, every word of the block, second
block and scratch, on random call lists and on sound blocks that no calls reach.

    tests/rounds/test_rounds.py [--lists 4000] [--states 4000] [--seed 1]     more of them
"""
import argparse
import random
import sys
import unittest

sys.dont_write_bytecode = True
from compared import SEEN, Compared, M, cg, module_of, needs_library
from cluster_growth import sizes


@needs_library
class Rounds(Compared):
    def test_call_lists(self):
        self.lists(150, 1)

    def test_sound_blocks_that_no_calls_reach(self):
        self.states(250, 2)

    def test_a_trial_that_is_refused_2_in_its_middle(self):
        """A star: node 0 shrinks off vertex 0 and frees what node 1 lists, which then would list 7 of 6 sides."""
        _, st = M.open_graph(4, 3, 4, 400, [(0, 1, 2), (0, 2, 4), (0, 3, 4)], [])
        st.nodes = [
            M.Node(3, M.NONE, M.SHRINK, overgrown=[(0, 0)]),
            M.Node(1, M.NONE, M.GROW, boundary=[0, 1, 2, 3, 4, 5]),
        ]
        st.holder, st.grandson = [1] * 6, [1] * 6
        st.growth = [0, 2, 0, 0, 0, 0]
        st.vholder, st.vgrandson = [0, 1, M.NONE, M.NONE], [0, 1, M.NONE, M.NONE]
        st.active = [0, 1]
        self.assertEqual(M.sound(st), [])
        before, rng = SEEN.copy(), random.Random(3)
        for name in ('prepare_all', 'group'):
            self.all_clusters(module_of(st), st, rng, name)
            self.assertEqual(SEEN[f'{name} refused 2'], before[f'{name} refused 2'] + 1)
        self.all_clusters(module_of(st), st, rng, 'round', 1)  # 11, of the shrinking node, is met first

    def test_memory_of_a_wrong_length_and_a_damaged_block_leave_all(self):
        rng = random.Random(4)
        _, st = M.open_graph(4, 3, 2, 80, [(0, 1, 4), (1, 2, 4), (2, 3, 4)], [0, 3])
        for v in (1, 2):
            M.insert_defect(st, v, M.GROW)
        m = module_of(st)
        lent = m.library.calls
        memory = {**m._memory, 'entries': m._entries.buffer_info()}
        values = {'prepare_all': [], 'group_max_update_length': [], 'grow_all': [1], 'renew_active_list': []}
        names = {'group_max_update_length': ['block', 'second', 'scratch', 'entries'], 'renew_active_list': ['block']}
        for call, given in values.items():
            for short in names.get(call, ['block', 'second', 'scratch']):
                self.litter(m, rng)
                before = self.lent(m)
                stretches = [
                    x
                    for name in names.get(call, ['block', 'second', 'scratch'])
                    for x in (memory[name][0], memory[name][1] - (name == short))
                ]
                count = lent[call](*stretches, *given, *m._told)
                self.assertEqual(m._answer[:count], [11, 1], (call, short))
                self.assertEqual(self.lent(m), before)
        for place, x in ((5, 3), (5, -1), (m.block.rows['active'].start, 2), (m.block.rows['active'].start, 1)):
            kept, m.words[place] = m.words[place], x
            for call, given in values.items():
                self.litter(m, rng)
                before = self.lent(m)
                got = m.call(call, *([m._entries] if call == 'group_max_update_length' else given))
                self.assertEqual((got, self.lent(m)), (cg.Refusal(2), before), (call, place, x))
            m.words[place] = kept
        self.all_clusters(m, st, rng, 'round', 0)
        self.all_clusters(m, st, rng, 'round', 1)

    def test_the_greatest_sizes(self):
        """1,024 nodes; each is in the list, and each has an entry."""
        v = sizes.MOST_VERTICES
        edges = [(k, k + 1, 2) for k in range(v - 1)]
        m = cg.DualModule(v, edges)
        for k in range(v):
            m.insert_defect(k)
        self.assertEqual(m.group_max_update_length(), cg.Free(1, False))
        m.grow_all(1)
        told = m.group_max_update_length()
        self.assertEqual((len(told.conflicts), told.stops), (v, ()))
        for k in range(v):
            m.set_grow_state(k, cg.GrowState.SHRINK)
        m.grow_all(1)
        told = m.group_max_update_length()
        self.assertEqual((told.conflicts, told.stops), ((), tuple(cg.ShrinkStop(k) for k in range(v))))


def main():
    p = argparse.ArgumentParser(description=__doc__, formatter_class=argparse.RawDescriptionHelpFormatter)
    for name, default in ('lists', 4000), ('states', 4000), ('seed', 1):
        p.add_argument('--' + name, type=int, default=default)
    o = p.parse_args()
    one = Compared()
    one.lists(o.lists, o.seed)
    one.states(o.states, o.seed + 1)
    print(f'seed {o.seed}: {o.lists} call lists and {o.states} sound blocks that no calls reach, no difference')
    print(', '.join(f'{k} {n}' for k, n in sorted(SEEN.items())))


if __name__ == '__main__':
    main()
