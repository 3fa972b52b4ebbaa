#!/usr/bin/env python3
"""Contacts, through the package, against a reading of SPECIFICATION 22: after random call lists and on sound blocks that
no calls reach; what is lent is kept; the cases that the section names.

    tests/contacts/test_contacts.py [--lists 2000] [--states 20000] [--seed 1]     more of them
"""
import os
import sys
from array import array

sys.dont_write_bytecode = True
sys.path.insert(0, os.path.join(os.path.dirname(os.path.dirname(os.path.abspath(__file__))), 'rounds'))
from compared import SEEN, Compared, M, cg, command, needs_library  # noqa: E402


def above(st, n):
    """Node n and every blossom that it lies in."""
    chain = [n]
    while st.nodes[chain[-1]].parent != M.NONE:
        chain.append(st.nodes[chain[-1]].parent)
    return chain


def rule(st):
    """The contacts as the section says them, by sets of edges: full ones, those of two clusters, those at the boundary."""
    cluster = {s: above(st, st.holder[s])[-1] for s in range(2 * st.E) if st.holder[s] != M.NONE}
    full = {e for e in range(st.E) if st.weight[e] - st.growth[2 * e] == st.growth[2 * e + 1]}
    open_end = {
        s for s in range(2 * st.E) if s not in cluster and st.virtual[st.end[s]] and st.vholder[st.end[s]] == M.NONE
    }
    found = []
    for e in sorted(full):
        left, right = 2 * e, 2 * e + 1
        if left in cluster and right in cluster:
            if cluster[left] != cluster[right]:
                found.append((e, cluster[left], cluster[right]))
        elif left in cluster and right in open_end:
            found.append((e, cluster[left], -1))
        elif right in cluster and left in open_end:
            found.append((e, -1, cluster[right]))
    SEEN['full edges'] += len(full)
    SEEN['contacts of two nodes'] += sum(-1 not in x for x in found)
    SEEN['contacts at the boundary'] += sum(-1 in x for x in found)
    return found


class Contacts(Compared):
    """Contacts of library, model and rule."""

    def listed(self, m, st, rng):
        self.litter(m, rng)
        before, want = self.lent(m), rule(st)
        self.assertEqual(M.contacts(st), want)
        words = array('q', [rng.randint(-9, 99) for _ in range(3 * st.E)])
        kept = words[3 * len(want) :]
        self.assertEqual(m.call('contacts', words).count, len(want))
        self.assertEqual(words[: 3 * len(want)].tolist(), [x for c in want for x in c])
        self.assertEqual(words[3 * len(want) :], kept)
        self.assertEqual(self.lent(m), before)

    def lists(self, count, seed):
        self.after_calls(count, seed, self.listed, 0.3)

    def states(self, count, seed):
        self.on_unreached(count, seed, self.listed)


@needs_library
class Tests(Contacts):
    def told(self, m):
        return [str(c) for c in m.contacts()]

    def test_after_calls(self):
        self.lists(60, 1)

    def test_on_blocks_that_no_calls_reach(self):
        self.states(300, 2)

    def test_weights_of_0(self):
        m = cg.DualModule(3, [(0, 1, 0), (1, 2, 0)])
        self.assertEqual(self.told(m), [])
        m.insert_syndrome([1, 1, 0])
        self.assertEqual(self.told(m), ['contact 0 0 1'])

    def test_at_a_virtual_vertex(self):
        m = cg.DualModule(4, [(0, 1, 4), (1, 2, 4), (3, 2, 4)], virtual=[0, 3])
        m.insert_syndrome([0, 1, 0, 0])
        m.grow(0, 4)
        self.assertEqual(self.told(m), ['contact 0 -1 0'])

    def test_outermost_nodes_are_named(self):
        m = cg.DualModule(4, [(0, 1, 4), (1, 2, 4), (0, 2, 4), (2, 3, 4)], virtual=[3])
        m.insert_syndrome([1, 1, 1])
        for n in range(3):
            m.grow(n, 2)
        self.assertEqual(self.told(m), ['contact 0 0 1', 'contact 1 1 2', 'contact 2 0 2'])
        blossom = m.insert_blossom([0, 1, 2], cg.GrowState.GROW)
        self.assertEqual(self.told(m), [])
        m.grow(blossom, 2)
        self.assertEqual(self.told(m), ['contact 3 3 -1'])

    def test_lists_of_another_length_are_refused_1(self):
        m = cg.DualModule(2, [(0, 1, 2)])
        for length in (0, 1, 2, 4):
            words = array('q', [7] * length)
            self.assertEqual(m.call('contacts', words), cg.Refusal(1))
            self.assertEqual(words.tolist(), [7] * length)


if __name__ == '__main__':
    command(Contacts)
