#!/usr/bin/env python3
"""Lists of calls (SPECIFICATION 25), through the package, against the model and against single calls on a second block:
answers, how often memory is tested, every word of block, scratch and answers; after random calls, on blocks that no
calls reach, sound and not, and on damaged ones; words that are no calls, circles outside their list, too little room,
lent memory of a wrong length.

    tests/calls/test_calls.py [--lists 2000] [--states 20000] [--seed 1]     more of them
"""
import ctypes
import random
import sys
from array import array

sys.dont_write_bytecode = True
from lists import SEEN, Lists, M, compare, encoded, memory_of, random_calls, spoiled
from compared import cg, command, module_of, needs_library

CASES = 'conflict defect done expand free gap inner node prepared stop vertex virtual blossom'.split()


class Random(Lists):
    """Random lists."""

    def lists(self, count, seed):
        """After any calls: memory is tested once."""
        rng = random.Random(seed)
        for _ in range(count):
            st, _ = compare.opened(rng)
            m = module_of(st)
            for _ in range(rng.randint(1, 4)):
                self.assertLessEqual(self.random_list(m, st, rng, 20), 1)
                for _ in range(rng.randrange(4)):
                    self.call(m, st, rng, *compare.call(rng, st))

    def states(self, count, seed):
        """On blocks that no calls reach, sound or not, and on damaged ones."""
        rng = random.Random(seed)
        self.damaged(count // 3, rng)
        for _ in range(count):
            st = compare.unreached(rng) if rng.random() < 0.8 else compare.changed(rng)
            if sum(len(n.boundary) + len(n.overgrown) for n in st.nodes) <= st.L:  # else the store has no room for them
                self.random_list(module_of(st), st, rng, shrinks=0.6)

    def damaged(self, count, rng):
        """Blocks with words changed, against single calls alone."""
        for _ in range(count):
            st = compare.unreached(rng)
            m = module_of(st)
            for _ in range(rng.randint(1, 3)):
                m.words[rng.randrange(len(m.words))] = rng.choice([-1, 0, 1, 3, 99, 5000, 2**40, 2**63 - 1])
            words, circles = spoiled(rng, *encoded(rng, random_calls(rng, st, rng.randint(1, 9))))
            told, got = self.together(m, rng, words, circles, 5 * len(words))
            self.assertEqual(told[:2], [20, len(words) // 4])
            SEEN[f'damaged, answers {got[0]} {got[1] if got[0] == 11 else ""}'] += 1
            if got[:2].tolist() in ([11, 1], [11, 2]):
                self.assertEqual(told[2], 1)


@needs_library
class Tests(Random):
    def test_call_lists(self):
        SEEN.clear()
        self.lists(300, 1)
        self.assertGreater(min(SEEN[case] for case in CASES), 2, SEEN)
        self.assertGreater(min(SEEN[f'refused {k}'] for k in (3, 5, 6, 7, 8, 9, 10, 11)), 2, SEEN)

    def test_blocks_that_no_calls_reach(self):
        SEEN.clear()
        self.states(1500, 2)
        self.assertGreater(min(SEEN[k] for k in ('2 tests', 'refused 2', 'over')), 2, SEEN)
        self.assertGreater(min(SEEN[f'damaged, answers 11 {k}'] for k in (1, 2)), 5, SEEN)

    def test_soundness_is_lost_in_the_middle(self):
        """Node 0 shrinks off vertex 0 and frees what node 1 lists: one more test, and the rest is refused 2."""
        _, st = M.open_graph(4, 3, 4, 400, [(0, 1, 2), (0, 2, 4), (0, 3, 4)], [])
        st.nodes = [
            M.Node(3, M.NONE, M.SHRINK, overgrown=[(0, 0)]),
            M.Node(1, M.NONE, M.GROW, boundary=[0, 1, 2, 3, 4, 5]),
        ]
        st.holder, st.grandson, st.growth = [1] * 6, [1] * 6, [0, 2, 0, 0, 0, 0]
        st.vholder, st.vgrandson, st.active = [0, 1, M.NONE, M.NONE], [0, 1, M.NONE, M.NONE], [0, 1]
        self.assertEqual(M.sound(st), [])
        calls = [('gap', 0), ('state', 1, 2), ('prepare', 0, 0), ('gap', 0), ('clear',), ('node', 0)]
        for count, tests in ((2, 1), (3, 1), (4, 2), (6, 2)):
            one, rng = st.copy(), random.Random(count)
            self.assertEqual(self.listed(module_of(one), one, rng, *encoded(rng, calls[:count])), tests)
            self.assertEqual(bool(M.sound(one)), count > 2)

    def test_the_greatest_sizes(self):
        """1,000 calls on a block of the greatest sizes: one test."""
        edges = [(k % 1023, k % 1023 + 1, 2) for k in range(4096)]
        m, rng = cg.DualModule(1024, edges, [1023]), random.Random(4)
        words, circles = encoded(rng, [c for k in range(500) for c in (('defect', 2 * k, 1), ('advance', k))])
        told, _ = self.together(m, rng, words, circles, 5000)
        self.assertEqual(told, [20, 1000, 1])


@needs_library
class Lent(Lists):
    def setUp(self):
        _, self.st = M.open_graph(4, 4, 6, 200, [(0, 1, 4), (1, 2, 4), (0, 2, 4), (2, 3, 20)], [3])
        self.m, self.rng = module_of(self.st), random.Random(5)
        for v in range(3):
            self.call(self.m, self.st, self.rng, 'defect', v, M.GROW)

    def list_of(self, *rows, circles=()):
        """A list of rows of four words, as it is."""
        return array('q', [x for row in rows for x in row]), array('q', circles)

    def told(self, words, circles, length, room=50):
        """What fb_calls gives back and says in a list of so many numbers, each 77 before; its answers, 99 before."""
        answer = (ctypes.c_size_t * max(length, 1))(*[77] * max(length, 1))
        answers = array('Q', [99] * room)
        lists = [x for list_ in (words, circles, answers) for x in list_.buffer_info()]
        count = self.m.library.calls['calls'](
            *memory_of(self.m._block, self.m._scratch), *lists, ctypes.addressof(answer), length
        )
        return count, list(answer)[:length], answers.tolist()

    def test_the_numbers(self):
        words, circles = self.list_of((16, 3, 0, 0), (5, 1, 1, 3), (15, 3, 0, 0), (11, 9, 0, 0), circles=[9, 2, 0, 1])
        count, answer, answers = self.told(words, circles, 7)
        self.assertEqual((count, answer), (3, [20, 4, 1] + [77] * 4))
        want = [19, 20, 99, 99, 99, 8, 3, 99, 99, 99, 16, 2, 1, 0, 0, 11, 3, 99, 99, 99]
        self.assertEqual(answers, want + [99] * 30)

    def test_a_short_list_has_no_room(self):
        words, circles = self.list_of((9, 0, 2, 0))
        before = self.lent(self.m)
        for length in range(5):
            told = [11, 1] + [77] * (length - 2) if length > 1 else [77] * length
            self.assertEqual(self.told(words, circles, length), (2 if length > 1 else 0, told, [99] * 50))
        self.assertEqual(self.lent(self.m), before)

    def test_words_that_are_no_calls_of_four(self):
        before = self.lent(self.m)
        for length in (1, 2, 3, 5, 7, 4001):
            words = array('q', ([9, 0, 1, 0] * 1001)[:length])
            self.assertEqual(self.told(words, array('q'), 5), (2, [11, 1, 77, 77, 77], [99] * 50))
        self.m.words[0] = 1025  # nothing is called, so that memory is not tested
        self.assertEqual(self.told(array('q', [13]), array('q'), 5)[1], [11, 1, 77, 77, 77])
        self.m.words[0] = 4
        self.assertEqual(self.lent(self.m), before)

    def test_as_many_as_have_room(self):
        words, circles = self.list_of(*[(9, 0, 1, 0)] * 4)
        for room in range(30):
            m, st = module_of(self.st), self.st.copy()
            self.assertEqual(self.listed(m, st, self.rng, words, circles, room), int(room >= 5))
            self.assertEqual(st.nodes[0].dual, min(room // 5, 4))
        self.assertEqual(self.told(*self.list_of(), 5)[1], [20, 0, 0, 77, 77])

    def test_what_is_no_call_is_refused_3(self):
        """After 1 and 2; the calls around it are made."""
        strange = [(k, 0, 1, 0) for k in (0, 1, 2, 3, 10, 12, 17, 99, -1, -4, 2**32 + 4, 2**63 - 1, -(2**63))]
        strange += [(8, 0, 1, z) for z in (2, -1, 2**63 - 1)]
        far = 2**63 - 1
        strange += [(5, 1, y, z) for y, z in ((1, 3), (4, 0), (0, 4), (3, 1), (-1, 0), (0, -1), (far, far), (-1, -1))]
        for row in strange:
            words, circles = self.list_of((9, 0, 1, 0), row, (9, 0, -1, 0), circles=[0, 1, 2])
            _, _, answers = self.told(words, circles, 5)
            self.assertEqual([answers[k] for k in (0, 5, 6, 10)], [7, 11, 3, 7], row)
            self.listed(self.m, self.st, self.rng, words, circles)
        for row in ((5, 1, 3, 0), (5, 1, 0, 0)):  # no nodes, within the list: a circle, refused 7
            self.assertEqual(self.told(*self.list_of(row, circles=[0, 1, 2]), 5)[2][:2], [11, 7])
        for place, x, number in ((self.m.block.rows['state'].start, 3, 2), (0, 1025, 1)):
            kept, self.m.words[place] = self.m.words[place], x
            for row in strange:
                self.assertEqual(self.told(*self.list_of(row), 5)[2][:2], [11, number])
            self.m.words[place] = kept

    def test_memory_of_a_wrong_length(self):
        """Every call is refused 1, and memory is tested once."""
        for lengths in ((1, 0), (0, 1), (1, 1), (len(self.m._block), 0), (0, len(self.m._scratch))):
            words, circles = encoded(self.rng, random_calls(self.rng, self.st, 8))
            told, got = self.together(self.m, self.rng, words, circles, 40, lengths)
            self.assertEqual(told, [20, 8, 1])
            self.assertEqual({tuple(got[5 * i : 5 * i + 2]) for i in range(8)}, {(11, 1)})


if __name__ == '__main__':
    command(Random)
