#!/usr/bin/env python3
"""fb_open_sheet against a reading of docs/SPECIFICATION.md 15 with fractions: weights, counts, refusals, what is left
in memory."""
import ctypes
import itertools
import math
import os
import random
import sys
import unittest
from array import array
from fractions import Fraction

TOP = os.path.dirname(os.path.dirname(os.path.dirname(os.path.abspath(__file__))))
sys.dont_write_bytecode = True
sys.path[:0] = [os.path.join(TOP, 'python')]
import cluster_growth as cg  # noqa: E402
from cluster_growth import library, sizes  # noqa: E402

needs_library = unittest.skipUnless(library.find(), 'the library is not built: tools/build-library.sh')
MOST = 999_999_999
HALF = Fraction(1, 2)


def weight(t, m):
    """Twice the whole number nearest to 500,000 t / m, halves upward."""
    return 2 * math.floor(Fraction(500_000 * t, m) + HALF)


def weights(sheet):
    return [weight(t, max(sheet)) for t in sheet]


def refusal(v, e, n, l, edges, sheet, virtuals, block, scratch):
    """The first number that applies, or 0. Words are as the host gives them; block and scratch are lengths."""
    if not (1 <= v <= 1024 and 1 <= e <= 4096 and 1 <= n <= 1024 and l <= 65536) or -(-len(edges) // 3) != e:
        return 4
    if (block, scratch, len(sheet)) != (16 + 4 * v + 12 * e + 8 * n + l, 4 * e + min(v, 2 * e), e):
        return 1
    if any(not 0 <= x < v for x in virtuals):
        return 3
    for i in range(0, len(edges), 3):
        if len(edges) < i + 3 or edges[i] == edges[i + 1] or not all(0 <= x < v for x in edges[i : i + 2]):
            return 4
    return 17 if any(not 0 <= t <= MOST for t in sheet) or not any(sheet) else 0


class Lent:
    """Memory that is lent to a call, filled with words of which no word of an opened block has many."""

    def __init__(self, v, e, n, l, edges, sheet, virtuals, block, scratch, answer=5):
        self.numbers = [v, e, n, l]
        self.words = [array('q', x) for x in ([-7] * block, [-9] * scratch, edges, sheet, virtuals)]
        self.answer = (ctypes.c_size_t * answer)(*range(50, 50 + answer))

    def open_sheet(self):
        """Opens from the sheet; the numbers that are told."""
        block, scratch, edges, sheet, virtuals = (w.buffer_info() for w in self.words)
        told = (ctypes.addressof(self.answer), len(self.answer))
        count = library.load().open_sheet(*block, *scratch, *edges, *sheet, *virtuals, *self.numbers, *told)
        return self.answer[:count]

    def open(self):
        """Opens with the edges as they are."""
        block, scratch, edges, _, virtuals = (w.buffer_info() for w in self.words)
        told = (ctypes.addressof(self.answer), len(self.answer))
        count = library.load().open(*block, *scratch, *edges, *virtuals, *self.numbers, *told)
        return self.answer[:count]

    def copies(self):
        return [array('q', w) for w in self.words]


def lent(v, ends, sheet, virtuals=(), n=1, l=0, answer=5):
    """Memory of the right lengths for a graph."""
    e = len(ends)
    edges = [x for a, b in ends for x in (a, b, -1)]
    return Lent(v, e, n, l, edges, sheet, virtuals, sizes.block_words(v, e, n, l), sizes.scratch_words(v, e), answer)


def row(count):
    """Edges between two vertices, so many side by side."""
    return [(0, 1)] * count


@needs_library
class Weights(unittest.TestCase):
    def made(self, sheet):
        """The weights that the library makes, all else as it should be."""
        x = lent(2, row(len(sheet)), sheet)
        block, scratch, edges, values, virtuals = x.copies()
        told = x.open_sheet()
        want = weights(sheet)
        self.assertEqual(told, [12, sum(t > 0 and w == 0 for t, w in zip(sheet, want))])
        self.assertEqual(x.words[2][2::3].tolist(), want)
        self.assertEqual((x.words[2][0::3], x.words[2][1::3]), (edges[0::3], edges[1::3]))
        self.assertEqual((x.words[1], x.words[3], x.words[4]), (scratch, values, virtuals))
        return want

    def test_sheets_of_their_own(self):
        self.assertEqual(self.made([1]), [1_000_000])
        self.assertEqual(self.made([MOST]), [1_000_000])
        for t in (1, 7, 10_000, MOST):
            self.assertEqual(self.made([t] * 5), [1_000_000] * 5)
        self.assertEqual(self.made([1, MOST]), [0, 1_000_000])  # 0.0001 beside 99,999.9999
        self.assertEqual(self.made([0, 999, 1000, MOST]), [0, 0, 2, 1_000_000])
        self.assertEqual(self.made([1, 64]), [15_626, 1_000_000])  # 7,812.5 goes up
        self.assertEqual(self.made([1, 10**6]), [2, 1_000_000])  # a half again, the smallest that does not vanish
        self.assertEqual(self.made([1, 10**6 + 1]), [0, 1_000_000])

    def test_every_small_sheet(self):
        for length in (1, 2, 3, 4):
            for sheet in itertools.product(range(8 if length < 4 else 6), repeat=length):
                if any(sheet):
                    self.made(sheet)

    def test_every_value_below_a_small_largest(self):
        for m in range(1, 250):
            self.made(list(range(m + 1)))

    def test_the_claims_on_great_sheets(self):
        rng = random.Random(7)
        for _ in range(8):
            m = rng.choice([MOST, rng.randint(1, MOST), 10 ** rng.randint(0, 8), 64 * rng.randint(1, 10**7)])
            sheet = [m] + [rng.choice([rng.randint(0, m), rng.randint(0, min(m, 3000))]) for _ in range(4095)]
            made = self.made(sheet)
            self.assertEqual((made[0], max(made)), (1_000_000, 1_000_000))
            for t, w in zip(sheet, made):
                self.assertLessEqual(abs(w - Fraction(1_000_000 * t, m)), 1)
                self.assertEqual(w == 0, 1_000_000 * t < m)
            order = sorted(zip(sheet, made))
            self.assertTrue(all(w <= x for (_, w), (_, x) in zip(order, order[1:])))


@needs_library
class Refusals(unittest.TestCase):
    def refused(self, x, number):
        """The call is refused so, and leaves every word."""
        before = x.copies()
        self.assertEqual(x.open_sheet(), [11, number])
        self.assertEqual(x.words, before)

    def test_values_out_of_range(self):
        for t in (-1, -(2**63), 10**9, 2**63 - 1):
            for sheet in ([t], [t, 5], [5, t], [0, 5, t]):
                self.refused(lent(2, row(len(sheet)), sheet), 17)
        for count in (1, 2, 9):
            self.refused(lent(2, row(count), [0] * count), 17)

    def test_every_choice_of_faults(self):
        """The first number that applies, whatever else does."""
        count = {}
        for faults in itertools.product((False, True), repeat=10):
            size, more, block, scratch, longer, virtual, end, loop, third, value = faults
            edges = [0, 1, -5, 2, 5 if end else 1, 4, 2, 2 if loop else 0, 2**62]
            edges = edges[:8] if third else edges
            x = Lent(
                3,
                3 + more,
                0 if size else 2,
                4,
                edges,
                [3, -1 if value else 0, 5] + [1] * longer,
                [2, 3 if virtual else 0],
                16 + 12 + 36 + 16 + 4 + block,
                12 + 3 + scratch,
            )
            number = refusal(*x.numbers, *x.words[2:], len(x.words[0]), len(x.words[1]))
            count[number] = count.get(number, 0) + 1
            if number:
                self.refused(x, number)
            else:
                self.assertEqual(x.open_sheet(), [12, 0])
        self.assertEqual(count, {0: 1, 4: 512 + 256 + 14, 1: 7 * 32, 3: 16, 17: 1})

    def test_lists_without_room(self):
        for room in range(5):
            x = lent(2, row(1), [5], answer=room)
            before = x.copies()
            self.assertEqual(x.open_sheet(), [11, 1] if room > 1 else [])
            self.assertEqual(list(x.answer), ([11, 1] if room > 1 else [50, 51][:room]) + list(range(52, 50 + room)))
            self.assertEqual(x.words, before)


@needs_library
class Openings(unittest.TestCase):
    def same_block(self, v, ends, sheet, virtuals, n, l):
        x = lent(v, ends, sheet, virtuals, n, l)
        self.assertEqual(x.open_sheet()[0], 12)
        y = lent(v, ends, sheet, virtuals, n, l)
        y.words[2] = array('q', x.words[2])
        self.assertEqual(y.open(), [7])
        self.assertEqual(x.words, y.words)

    def test_an_accepted_one_is_an_opening(self):
        rng = random.Random(5)
        for _ in range(300):
            v, e = rng.randint(2, 12), rng.randint(1, 30)
            ends = [tuple(rng.sample(range(v), 2)) for _ in range(e)]
            sheet = [rng.choice([0, 1, rng.randint(0, MOST)]) for _ in range(e - 1)] + [rng.randint(1, MOST)]
            virtuals = rng.choices(range(v), k=rng.randint(0, 3))
            self.same_block(v, ends, sheet, virtuals, rng.randint(1, 9), rng.randint(0, 50))

    def test_the_greatest_graph(self):
        rng = random.Random(6)
        ends = [(k % 1023, k % 1023 + 1) for k in range(4096)]
        self.same_block(1024, ends, [rng.randint(1, MOST) for _ in ends], range(0, 1024, 9), 1024, 65536)

    def test_the_package(self):
        sheet = [cg.ten_thousandths(w) for w in ('2.3026', '0.1054', '4.5951')]
        m = cg.DualModule(4, [(0, 1), (1, 2), (2, 3)], virtual=[0, 3], sheet=sheet)
        self.assertEqual((m.edges, m.vanished), ([(0, 1, 501_098), (1, 2, 22_938), (2, 3, 1_000_000)], 0))
        m.insert_syndrome([0, 1, 1])
        self.assertEqual(m.max_update_length(0), cg.Free(22_938 // 2))
        m = cg.DualModule(2, [(0, 1, 9), (0, 1, 9)], sheet=[1, MOST])
        self.assertEqual((m.edges, m.vanished), ([(0, 1, 0), (0, 1, 1_000_000)], 1))
        for sheet, number in (([5], 1), ([0, 0], 17), ([2**80, 1], 17), ([-1, 1], 17)):
            with self.assertRaises(cg.Refused) as caught:
                cg.DualModule(2, [(0, 1), (0, 1)], sheet=sheet)
            self.assertEqual(caught.exception.number, number)
        with self.assertRaises(ValueError):
            cg.DualModule(2, [(0, 1)])


class Decimals(unittest.TestCase):
    def test_what_they_are(self):
        for word, value in (('0', 0), ('-0.0', 0), ('0.0001', 1), ('00012.5', 125_000), ('99999.9999', MOST)):
            self.assertEqual(cg.ten_thousandths(word), value)
        for value in (0, 1, 9_999, 10_000, 10_010, 123_456_789, MOST):
            self.assertEqual(cg.ten_thousandths(cg.decimal(value)), value)

    def test_what_they_are_not(self):
        for word, reason in (
            ('1.23456', '1.23456 has 5 decimal places: at most four can be'),
            ('-0.0001', '-0.0001 is out of range: 0 to 99999.9999 can be'),
            ('100000', '100000 is out of range: 0 to 99999.9999 can be'),
            ('9' * 5000, '9' * 60 + ' is out of range: 0 to 99999.9999 can be'),
            ('1e3', "'1e3' is no decimal"),
            ('.5', "'.5' is no decimal"),
            ('0,5', "'0,5' is no decimal"),
        ):
            with self.assertRaises(ValueError) as caught:
                cg.ten_thousandths(word)
            self.assertEqual(str(caught.exception), reason)


if __name__ == '__main__':
    unittest.main()
