"""The library, through the package, beside the model: a call on both, and all that it leaves. Answers, entries, every
word of the block, second block and scratch.
"""
import argparse
import collections
import os
import random
import sys
import unittest
from array import array

TOP = os.path.dirname(os.path.dirname(os.path.dirname(os.path.abspath(__file__))))
sys.path[:0] = [os.path.join(TOP, part) for part in ('python', 'tests', os.path.join('tests', 'definitions'))]
import cluster_growth as cg  # noqa: E402
from cluster_growth import library  # noqa: E402
import compare  # noqa: E402  (random graphs, calls and states)
import model as M  # noqa: E402
from model.words import words  # noqa: E402

needs_library = unittest.skipUnless(library.find(), 'the library is not built: tools/build-library.sh')
CASE = {'conflict': 2, 'virtual': 3, 'expand': 4, 'stop': 5}
TRIALS = ('prepare_all', 'group', 'round')
SEEN = collections.Counter()


def module_of(st):
    """A module whose block holds a state, its free words at random."""
    edges = [(st.end[2 * e], st.end[2 * e + 1], w) for e, w in enumerate(st.weight)]
    m = cg.DualModule(st.V, edges, [v for v in range(st.V) if st.virtual[v]], st.N, st.L)
    for i, x in enumerate(words(st)):
        m.words[i] = x
    return m


def tidied(m):
    """The words of a block, the free ones zero."""
    b, out = m.block, m.words.tolist()
    row = lambda name: b.rows[name].start
    used = sum(b.field('boundary_length', n) + b.field('overgrown_length', n) for n in range(b.count()))
    free = list(range(7, 16)) + list(range(row('store') + used, row('active')))
    free += range(row('active') + out[5], row('original'))
    for name in ('class', 'state', 'parent', 'dual', 'start', 'boundary_length', 'overgrown_length'):
        free += range(row(name) + b.count(), row(name) + b.N)
    for i in free:
        out[i] = 0
    return out


def entry(a):
    """An answer as the five numbers of an entry."""
    values = list(a[1:4] if a[0] == 'virtual' else a[1:])
    return [6 if a[0] == 'stop' and len(values) > 1 else CASE[a[0]]] + values + [0] * (4 - len(values))


def said(a):
    return ' '.join(map(str, a[:3] if a[0] == 'free' else a))


class Compared(unittest.TestCase):
    """A call on module and model, and all that it leaves."""

    def litter(self, m, rng):
        """Second block, scratch and entries with anything in them."""
        for memory in (m._second, m._scratch):
            for i in range(len(memory)):
                memory[i] = rng.randint(-9, 99)
        for i in range(len(m._entries)):
            m._entries[i] = rng.randrange(99)

    def lent(self, m):
        return [list(m._block), list(m._second), list(m._scratch), list(m._entries)]

    def all_clusters(self, m, st, rng, name, *values):
        """One of the calls for all clusters."""
        self.litter(m, rng)
        before, listed = self.lent(m), []
        if name == 'group':
            want, listed = M.group_length(st)
            got = m.call('group_max_update_length', m._entries)
        else:
            model = {'renew': M.renew_active_list, 'prepare_all': M.prepare_all, 'round': M.grow_all}[name]
            call = {'renew': 'renew_active_list', 'round': 'grow_all'}.get(name, name)
            want, got = model(st, *values), m.call(call, *values)
        SEEN[f"{name} {' '.join(map(str, want[:2])) if want[0] == 'refused' else want[0]}"] += 1
        self.assertEqual(str(got), said(want))
        block, second, scratch, entries = self.lent(m)
        self.assertEqual(entries, [x for a in listed for x in entry(a)] + before[3][5 * len(listed) :])
        if want[0] == 'refused':
            self.assertEqual(block, before[0])
        if name in TRIALS and want != ('refused', 14):
            self.assertEqual(second, block)
            self.assertEqual(set(scratch), {0})
        else:
            self.assertEqual([second, scratch], before[1:3])
        self.assertEqual(tidied(m), words(st))

    def call(self, m, st, rng, name, *values):
        """Any call of the lists."""
        if name in ('renew', *TRIALS):
            return self.all_clusters(m, st, rng, name, *values)
        if name in ('table', 'contacts', 'representative'):
            return
        if name == 'remove':
            return self.opening(m, st, rng, *values)
        if name == 'erase':
            return self.erasure(m, st, rng, *values)
        if name == 'blossom':
            want, got = M.insert_blossom(st, *values), self.blossom(m, *values)
        else:
            model, call = {
                'defect': (M.insert_defect, 'insert_defect'),
                'state': (M.set_state, 'set_grow_state'),
                'prepare': (M.prepare, 'prepare'),
                'length': (M.length, 'max_update_length'),
                'grow': (M.grow, 'grow'),
                'advance': (M.advance, 'advance'),
                'clear': (M.clear, 'clear'),
            }[name]
            want, got = model(st, *values), m.call(call, *values)
        self.assertEqual(str(got), said(want))
        self.assertEqual(tidied(m), words(st))

    def blossom(self, m, state, circle):
        return m.call('insert_blossom', array('q', circle), state)

    def erasure(self, m, st, rng, pairs):
        """A change of weights: refused or empty, it leaves every word; the scratch is only measured."""
        self.litter(m, rng)
        before = self.lent(m)
        want = M.load_edge_modifier(st, pairs)
        got = m.call('load_edge_modifier', array('q', [x for pair in pairs for x in pair]))
        SEEN[f"erase {said(want)}{'' if pairs else ' empty'}"] += 1
        self.assertEqual(str(got), said(want))
        self.assertEqual(self.lent(m)[1:], before[1:])
        if want[0] == 'refused' or not pairs:
            self.assertEqual(list(m._block), before[0])
        self.assertEqual(tidied(m), words(st))
        return want

    def opening(self, m, st, rng, n):
        """The opening of a blossom, and whether it was worked."""
        self.litter(m, rng)
        before, worked = self.lent(m), M.remove_refusal(st, n) is None
        want, got = M.remove_blossom(st, n), m.call('remove_blossom', n)
        SEEN[f"open-blossom {said(want)}{' once prepared' if worked and want[0] == 'refused' else ''}"] += 1
        self.assertEqual(str(got), said(want))
        block, _, scratch, _ = self.lent(m)
        if worked:
            self.assertEqual(set(scratch), {0})
        else:
            self.assertEqual([block, scratch], [before[0], before[2]])
        self.assertEqual(tidied(m), words(st))
        return want

    def after_calls(self, count, seed, look, often=0.0):
        """Random call lists; `look` takes the block after some of the calls, so often, and after the last one."""
        rng = random.Random(seed)
        for _ in range(count):
            st, _ = compare.opened(rng)
            m = module_of(st)
            for _ in range(rng.randint(10, 40)):
                self.call(m, st, rng, *compare.call(rng, st))
                if often and rng.random() < often:
                    look(m, st, rng)
            look(m, st, rng)

    def on_unreached(self, count, seed, look):
        """Sound blocks that no calls reach."""
        rng = random.Random(seed)
        for _ in range(count):
            st = compare.unreached(rng)
            look(module_of(st), st, rng)

    def lists(self, count, seed):
        self.after_calls(count, seed, self.every_trial)

    def every_trial(self, m, st, rng):
        for name in rng.sample(['renew', 'prepare_all', 'group', 'round', 'round'], 5):
            if not M.sound(st):
                values = (rng.choice([1, 1, 2, 3, 0]),) if name == 'round' else ()
                self.all_clusters(m, st, rng, name, *values)

    def states(self, count, seed):
        self.on_unreached(count, seed, self.every_trial)


def command(test):
    """The tests of a file, or with --lists or --states more of them, and what they met."""
    p = argparse.ArgumentParser()
    for name, default in ('lists', 0), ('states', 0), ('seed', 1):
        p.add_argument('--' + name, type=int, default=default)
    o, _ = p.parse_known_args()
    if not (o.lists or o.states):
        unittest.main()
    one = test()
    one.lists(o.lists, o.seed)
    one.states(o.states, o.seed)
    print(', '.join(f'{k} {v}' for k, v in sorted(SEEN.items())))
