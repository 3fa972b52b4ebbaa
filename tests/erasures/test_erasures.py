#!/usr/bin/env python3
"""Weights changed for one shot, through the package, against the model: answers, every word of block and scratch, on
random call lists and on sound blocks that no calls reach; lists of pairs with repeats, weights of 0, edges that are
none and weights out of range; lent memory of a wrong length, and blocks damaged at the new words.

    tests/erasures/test_erasures.py [--lists 2000] [--states 20000] [--seed 1]     more of them
"""
import argparse
import os
import random
import sys
import unittest
from array import array

sys.dont_write_bytecode = True
sys.path.insert(0, os.path.join(os.path.dirname(os.path.dirname(os.path.abspath(__file__))), 'rounds'))
from compared import SEEN, Compared, M, cg, compare, module_of, needs_library  # noqa: E402

PATH = [(0, 1, 4), (1, 2, 4), (2, 3, 4)]
FAR = 2**62


def path():
    return cg.DualModule(4, PATH, [0, 3], 4, 40)


class Erased(Compared):
    """Changes of weights on library and model."""

    def shots(self, count, seed):
        """Shots on one graph: weights are changed, calls are made, all is cleared."""
        rng = random.Random(seed)
        for _ in range(count):
            st, _ = compare.opened(rng)
            m = module_of(st)
            for _ in range(rng.randint(2, 6)):
                for _ in range(rng.choice([1, 1, 1, 2])):
                    self.erasure(m, st, rng, compare.pairs(rng, st))
                for _ in range(rng.randint(0, 15)):
                    self.call(m, st, rng, *compare.call(rng, st))
                self.call(m, st, rng, 'clear')
                self.assertEqual(st.weight, st.original)

    def unreached(self, count, seed):
        """Lists of pairs on sound blocks that no calls reach, some without nodes and with the mark set."""
        rng = random.Random(seed)
        for _ in range(count):
            st = compare.unreached(rng)
            if rng.random() < 0.5:
                M.clear(st)
                st.growth = [rng.randrange(3) for _ in st.growth]  # a sound block may have growths without nodes
            st.weight = [rng.choice([0, 1, 5, M.WEIGHT_MAX]) for _ in st.weight]
            st.original = [rng.choice([0, 1, 5, M.WEIGHT_MAX]) for _ in st.weight]
            st.reweighted = rng.random() < 0.3
            self.assertEqual(M.sound(st), [])
            m = module_of(st)
            self.erasure(m, st, rng, compare.pairs(rng, st))
            self.call(m, st, rng, 'clear')


@needs_library
class Erasing(Erased):
    def test_call_lists(self):
        self.lists(150, 5)

    def test_shots(self):
        self.shots(150, 6)
        for said in ('done', 'refused 3', 'refused 4', 'refused 16', 'done empty', 'refused 16 empty'):
            self.assertGreater(SEEN['erase ' + said], 0, said)

    def test_sound_blocks_that_no_calls_reach(self):
        self.unreached(400, 7)

    def test_each_number_over_the_whole_list(self):
        rng, big = random.Random(8), M.WEIGHT_MAX + 1
        for pairs, want in (
            ([(0, -1), (99, 2)], 3),
            ([(0, big), (1, 2), (3, 2)], 3),
            ([(-1, 2)], 3),
            ([(FAR, 2)], 3),
            ([(0, 2), (1, big)], 4),
            ([(2, -1)], 4),
            ([(2, FAR)], 4),
            ([(2, M.WEIGHT_MAX), (2, 0)], None),
            ([(0, 2)], 16),
            ([], 16),
            ([(0, big)], 4),
        ):
            m, st = (m, st) if want == 16 or pairs == [(0, big)] else (path(), M.open_graph(4, 3, 4, 40, PATH, [0, 3])[1])
            self.assertEqual(self.erasure(m, st, rng, pairs), ('refused', want) if want else ('done',))

    def test_a_refused_insertion_is_no_node(self):
        m = path()
        for vertex, number in ((9, 3), (0, 5)):
            self.assertEqual(m.call('insert_defect', vertex, 1), cg.Refusal(number))
        m.load_edge_modifier([(1, 0), (0, 9), (1, 2)])
        self.assertEqual((m.weights(), m.block.original_weights(), m.block.reweighted()), ([9, 2, 4], [4, 4, 4], True))
        with self.assertRaises(cg.Refused) as caught:
            m.load_edge_modifier([(0, 1)])
        self.assertEqual(caught.exception.number, 16)
        m.clear()
        self.assertEqual((m.weights(), m.block.reweighted()), ([4, 4, 4], False))
        m.insert_defect(1)
        self.assertEqual(m.call('load_edge_modifier', array('q', [])), cg.Refusal(16))

    def test_a_removed_blossom_is_a_node(self):
        m = cg.DualModule(4, [(0, 1, 4), (1, 2, 4), (0, 2, 4), (2, 3, 20)], [3], 8, 400)
        m.remove_blossom(m.insert_blossom(m.insert_syndrome([1, 1, 1])))
        self.assertEqual(m.call('load_edge_modifier', array('q', [0, 1])), cg.Refusal(16))
        m.clear()
        m.load_edge_modifier([(0, 1)])

    def test_the_length_follows_the_present_weight(self):
        m = path()
        m.load_edge_modifier([(1, 10), (0, 7)])
        m.insert_syndrome([0, 1, 1])
        self.assertEqual(m.max_update_length(0), cg.Free(5, False))
        m.clear()
        m.insert_syndrome([0, 1, 1])
        self.assertEqual(m.max_update_length(0), cg.Free(2, False))

    def test_memory_of_a_wrong_length(self):
        m, pairs = path(), array('q', [0, 2, 1, 3])
        before = self.lent(m)
        for short in ('block', 'scratch', 'pairs'):
            lent = [x for name in ('block', 'scratch') for x in (m._memory[name][0], m._memory[name][1] - (name == short))]
            given = [pairs.buffer_info()[0], 3 if short == 'pairs' else 4]
            count = m.library.calls['load_edge_modifier'](*lent, *given, *m._told)
            self.assertEqual((m._answer[:count], self.lent(m)), ([11, 1], before), short)
        m.words[6] = 2  # not sound: an odd number of words comes first
        lent = [*m._memory['block'], *m._memory['scratch']]
        for length, number in ((3, 1), (4, 2), (0, 2)):
            count = m.library.calls['load_edge_modifier'](*lent, pairs.buffer_info()[0], length, *m._told)
            self.assertEqual(m._answer[:count], [11, number])

    def test_blocks_damaged_at_the_new_words(self):
        m = path()
        row = m.block.rows['original']
        for place, word in ((6, 2), (6, -1), (row.start, M.WEIGHT_MAX + 1), (row.stop - 1, -1)):
            kept, m.words[place] = m.words[place], word
            before = list(m._block)
            for call, values in (('clear', []), ('insert_defect', [1, 1]), ('load_edge_modifier', [array('q', [0, 1])])):
                self.assertEqual(m.call(call, *values), cg.Refusal(2), (place, word, call))
            self.assertEqual(list(m._block), before)
            m.words[place] = kept
        self.assertEqual(m.call('clear'), cg.Done())

    def test_every_edge_of_the_greatest_graph(self):
        edges = [(e % 1023, e % 1023 + 1, e % 7) for e in range(4096)]
        m = cg.DualModule(1024, edges, [1023], 1, 65536)
        m.load_edge_modifier([(e, M.WEIGHT_MAX - e) for e in range(4096)] + [(4095, 3)])
        self.assertEqual(m.weights(), [M.WEIGHT_MAX - e for e in range(4095)] + [3])
        self.assertEqual(m.block.original_weights(), [w for _, _, w in edges])
        m.clear()
        self.assertEqual(m.weights(), [w for _, _, w in edges])


def main():
    p = argparse.ArgumentParser(description=__doc__, formatter_class=argparse.RawDescriptionHelpFormatter)
    for name, default in ('lists', 2000), ('states', 20000), ('seed', 1):
        p.add_argument('--' + name, type=int, default=default)
    o = p.parse_args()
    one = Erased()
    one.lists(o.lists, o.seed)
    one.shots(o.lists, o.seed + 1)
    one.unreached(o.states, o.seed + 2)
    print(f'seed {o.seed}: {2 * o.lists} call lists and {o.states} sound blocks that no calls reach, no difference')
    print(', '.join(f'{k} {n}' for k, n in sorted(SEEN.items()) if 'erase' in k))


if __name__ == '__main__':
    if sys.argv[1:]:
        main()
    else:
        unittest.main()
