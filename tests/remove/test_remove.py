#!/usr/bin/env python3
"""Opening a blossom, through the package, against the model: answers, every word of block and scratch, on random call
lists with blossoms nested up to 10 deep and on sound blocks that no calls reach; the store and the numbers that it gives
back and keeps; blocks that are damaged at a removed node.

    tests/remove/test_remove.py [--lists 2000] [--states 20000] [--seed 1]     more of them
"""
import argparse
import os
import random
import sys
import unittest

sys.dont_write_bytecode = True
sys.path.insert(0, os.path.join(os.path.dirname(os.path.dirname(os.path.abspath(__file__))), 'rounds'))
from compared import SEEN, Compared, M, cg, compare, module_of, needs_library, words  # noqa: E402
from cluster_growth.block import REMOVED  # noqa: E402

TRIANGLE = [(0, 1, 4), (1, 2, 4), (0, 2, 4), (2, 3, 20)]
DEEPEST = 10


def depth(st, n):
    """How many blossoms lie in each other from a node on."""
    return 0 if st.nodes[n].vertex != M.NONE else 1 + max((depth(st, m) for m in M.members(st, n)), default=0)


def outermost(st):
    return [n for n, node in enumerate(st.nodes) if node.parent == M.NONE and not node.removed]


def nesting_graph(rng):
    """A ring or a ladder with room for a defect at almost every vertex."""
    v = rng.randint(9, 27)
    edges = [(k, (k + 1) % v) for k in range(v)] + [(k, (k + 2) % v) for k in range(v) if rng.random() < 0.4]
    weights = rng.choice([[2], [4], [2, 4, 6], [0, 2, 4], [3, 5]])
    edges = [(a, b, rng.choice(weights)) for a, b in edges]
    return v, len(edges), rng.choice([60, 90, 200]), rng.choice([2000, 6000]), edges, [0]


def nesting(rng, st):
    """A call of a list that nests blossoms, lets them grow and shrink, opens them and inserts them again."""
    nodes, x = outermost(st), rng.random()
    blossoms = [n for n in nodes if st.nodes[n].vertex == M.NONE]
    if not nodes or x < 0.12:
        return 'defect', rng.randrange(st.V), rng.choice([1, 1, 0, 2])
    n = rng.choice(blossoms or nodes) if rng.random() < 0.6 else rng.choice(nodes)
    if x < 0.34 and len(nodes) >= 3:
        circle = rng.sample(nodes, 3 if len(nodes) < 5 or rng.random() < 0.9 else 5)
        inner = max(nodes, key=lambda m: depth(st, m))
        if rng.random() < 0.7 and inner not in circle:
            circle[rng.randrange(len(circle))] = inner
        if all(depth(st, m) < DEEPEST for m in circle):
            return 'blossom', rng.choice([0, 1, 1, 2]), circle
    if x < 0.50 and blossoms:
        bare = [b for b in blossoms if st.nodes[b].dual == 0]
        return 'remove', rng.choice(bare if bare and rng.random() < 0.9 else blossoms)
    if x < 0.60:
        return 'state', n, rng.choice([0, 1, 2, 2])
    if x < 0.86:
        return 'advance', n
    if x < 0.94:
        return 'grow', n, rng.choice([1, 1, 2, -1, -1, -2, -st.nodes[n].dual])
    return rng.choice([('prepare', n, rng.randrange(2)), ('renew',), ('group',), ('round', 1), ('prepare_all',)])


class Removed(Compared):
    """Openings on library and model."""

    def opening(self, m, st, rng, n):
        growths, deep = list(st.growth), depth(st, n) if 0 <= n < len(st.nodes) else 0
        said = super().opening(m, st, rng, n)
        self.assertEqual(st.growth, growths)
        if said == ('done',):
            SEEN[f'opened {deep} deep'] += 1
        return said

    def nested(self, count, seed):
        """Call lists with nested blossoms."""
        rng = random.Random(seed)
        for _ in range(count):
            _, st = M.open_graph(*nesting_graph(rng))
            m = module_of(st)
            for _ in range(rng.randint(40, 120)):
                self.call(m, st, rng, *nesting(rng, st))

    def unreached(self, count, seed):
        """Every node of sound blocks that no calls reach is opened, each on the block as it was."""
        rng = random.Random(seed)
        for _ in range(count):
            st = compare.unreached(rng)
            for n in range(len(st.nodes)):
                one = st.copy()
                self.opening(module_of(one), one, rng, n)


def with_removed():
    """A state of four nodes, of which node 3 was opened, and a blossom, node 4."""
    _, st = M.open_graph(4, 4, 8, 400, TRIANGLE, [3])
    for v in range(3):
        M.insert_defect(st, v, M.GROW)
    M.insert_blossom(st, M.GROW, [0, 1, 2])
    M.remove_blossom(st, 3)
    M.insert_blossom(st, M.GROW, [0, 1, 2])
    return st


def damaged():
    """A word for each damage, and the state that has it."""

    def change(what, how):
        st = with_removed()
        how(st, st.nodes[3])
        return what, st

    def first(st, node):
        st.nodes[4].first = 3

    def side(st, node):
        st.holder[6], st.grandson[6] = 3, 0
        st.nodes[4].boundary.remove(6)

    yield change('a boundary', lambda st, node: node.boundary.append(7))
    yield change('an overgrown vertex', lambda st, node: node.overgrown.append((3, 0)))
    yield change('Grow', lambda st, node: setattr(node, 'state', M.GROW))
    yield change('Shrink', lambda st, node: setattr(node, 'state', M.SHRINK))
    yield change('a parent', lambda st, node: setattr(node, 'parent', 4))
    yield change('a member', lambda st, node: setattr(st.nodes[0], 'parent', 3))
    yield change('a side', side)
    yield change('a vertex', lambda st, node: st.vholder.__setitem__(3, 3))
    yield change('a blossom that it is the first member of', first)


@needs_library
class Opening(Removed):
    def test_call_lists(self):
        self.lists(150, 5)

    def test_nested_blossoms(self):
        self.nested(30, 6)

    def test_sound_blocks_that_no_calls_reach(self):
        before = SEEN['open-blossom refused 15 once prepared']
        self.unreached(400, 7)
        self.assertGreater(SEEN['open-blossom refused 15 once prepared'], before)

    def test_10_deep(self):
        """Blossoms in each other, each grown and shrunk, opened from the outside in, and inserted again."""
        rng, v = random.Random(8), 2 * DEEPEST + 2
        edges = [(k, k + 1, 4) for k in range(v - 1)]
        _, st = M.open_graph(v, v - 1, 80, 20000, edges, [v - 1])
        m = module_of(st)
        for k in range(v - 1):
            self.call(m, st, rng, 'defect', k, M.GROW)
        for again in range(2):
            inner = 0
            for k in range(DEEPEST):
                self.call(m, st, rng, 'blossom', M.GROW, [inner, 2 * k + 1, 2 * k + 2])
                inner = len(st.nodes) - 1
                for by in (1, 1, -1, -1):
                    self.call(m, st, rng, 'grow', inner, by)
            self.assertEqual(depth(st, inner), DEEPEST)
            for k in range(DEEPEST):
                top = next(n for n in outermost(st) if st.nodes[n].vertex == M.NONE)
                self.assertEqual(self.opening(m, st, rng, top), ('done',))
            self.assertEqual(outermost(st), list(range(v - 1)))
        self.assertEqual({st.nodes[n].state for n in outermost(st)}, {M.STAY})
        self.call(m, st, rng, 'renew')
        self.assertEqual(m.active_list(), [])

    def test_200_openings_use_up_the_numbers(self):
        m = cg.DualModule(4, TRIANGLE, [3], nodes=203, store=cg.enough_store(4, 4, 1, 3))
        circle = m.insert_syndrome([1, 1, 1])
        table = m.read_table()
        for k in range(200):
            self.assertEqual(m.insert_blossom(circle), 3 + k)
            m.remove_blossom(3 + k)
            self.assertEqual(m.read_table(), table)
        for call, values in (('insert_blossom', [circle]), ('insert_defect', [3])):
            with self.assertRaises(cg.Refused) as caught:
                getattr(m, call)(*values)
            self.assertEqual(caught.exception.number, 8 if call == 'insert_blossom' else 5)
        self.assertEqual([m.block.node(n).removed for n in range(203)], [False] * 3 + [True] * 200)
        self.assertEqual({m.words[m.block.rows['class'].start + n] for n in range(3, 203)}, {4 + REMOVED})
        m.clear()
        self.assertEqual(m.insert_blossom(m.insert_syndrome([1, 1, 1])), 3)
        m.remove_blossom(3)

    def test_a_removed_number_names_nothing(self):
        m = module_of(with_removed())
        before = list(m._block)
        for name, values in (
            ('remove_blossom', [3]),
            ('set_grow_state', [3, 1]),
            ('prepare', [3, 0]),
            ('max_update_length', [3, 0, True]),
            ('max_update_length', [3, 1, False]),
            ('grow', [3, 0]),
            ('grow', [3, 1]),
            ('advance', [3]),
            ('representative_vertex', [3]),
        ):
            self.assertEqual(m.call(name, *values), cg.Refusal(3), name)
        self.assertEqual(self.blossom(m, 1, [4, 3, 0]), cg.Refusal(3))
        self.assertEqual(list(m._block), before)

    def test_the_store_is_given_back(self):
        """With the blossom a defect is refused 9, without it there is room; so there is for the blossom again."""
        edges = TRIANGLE[:3] + [(3, 4, 4), (4, 5, 4)]
        part = 2 * len(edges) + 6
        m = cg.DualModule(6, edges, [], nodes=9, store=4 * part)
        circle = m.insert_syndrome([1, 1, 1])
        self.assertEqual(m.call('insert_defect', 3, 1), cg.NewNode(3))
        room = m.words[3] - sum(len(m.block.boundary(n)) for n in range(4))
        self.assertEqual(room, 4 * part - 7)
        self.assertEqual(self.blossom(m, 1, circle), cg.Refusal(9))
        for store, told in ((4 * part + 1, cg.NewNode(4)), (4 * part, cg.Refusal(9))):
            m = cg.DualModule(6, edges, [], nodes=9, store=store)
            circle = m.insert_syndrome([1, 1, 1])
            m.insert_defect(3)
            self.assertEqual(self.blossom(m, 1, circle), told)
        m = cg.DualModule(6, edges, [], nodes=40, store=4 * part + 1)
        circle = m.insert_syndrome([1, 1, 1])
        m.insert_defect(3)
        for k in range(30):  # were the lists of opened blossoms kept, the second would be refused 9
            self.assertEqual(m.insert_blossom(circle), 4 + k)
            m.remove_blossom(4 + k)

    def test_9_of_the_opening_itself(self):
        """9 comes behind 15, and leaves all: the store has no room for the blossom's own lists once more."""
        st = with_removed()
        used = sum(len(n.boundary) + len(n.overgrown) for i, n in enumerate(st.nodes) if i != 4)
        for store, want in ((used + 12, ('done',)), (used + 11, ('refused', 9))):
            one = st.copy()
            one.L = store
            self.assertEqual(self.opening(module_of(one), one, random.Random(9), 4), want)
            one = st.copy()
            one.L, one.nodes[4].dual = store, 1
            self.assertEqual(self.opening(module_of(one), one, random.Random(9), 4), ('refused', 15))

    def test_memory_of_a_wrong_length(self):
        m = module_of(with_removed())
        for short in ('block', 'scratch'):
            before = self.lent(m)
            lent = [x for name in ('block', 'scratch') for x in (m._memory[name][0], m._memory[name][1] - (name == short))]
            count = m.library.calls['remove_blossom'](*lent, 4, *m._told)
            self.assertEqual((m._answer[:count], self.lent(m)), ([11, 1], before))

    def test_blocks_damaged_at_a_removed_node(self):
        self.assertEqual(M.sound(with_removed()), [])
        for what, st in damaged():
            self.assertNotEqual(M.sound(st), [], what)
            m = module_of(st)
            before = self.lent(m)
            for call, values in (
                ('remove_blossom', [4]),
                ('insert_defect', [3, 1]),
                ('set_grow_state', [0, 1]),
                ('advance', [4]),
                ('representative_vertex', [0]),
                ('clear', []),
                ('prepare_all', []),
                ('renew_active_list', []),
            ):
                self.assertEqual((m.call(call, *values), self.lent(m)), (cg.Refusal(2), before), (what, call))

    def test_once_prepared_it_stops(self):
        """Sound blocks that no calls reach: refused 15, and left as preparation leaves it."""
        st = with_removed()
        st.nodes[0].boundary = [0, 0]
        self.assertEqual(M.sound(st), [])
        self.assertEqual(self.opening(module_of(st), st, random.Random(10), 4), ('refused', 15))
        st = with_removed()
        st.nodes[4].overgrown, st.vholder[3] = [(3, 2)], 4
        self.assertEqual(M.sound(st), [])
        self.assertEqual(self.opening(module_of(st), st, random.Random(11), 4), ('refused', 15))
        st = with_removed()
        st.holder[7], st.grandson[7], st.nodes[1].boundary = 1, 1, [1, 2, 7]
        self.assertEqual(M.sound(st), [])
        self.assertEqual(self.opening(module_of(st), st, random.Random(12), 4), ('refused', 15))


def main():
    p = argparse.ArgumentParser(description=__doc__, formatter_class=argparse.RawDescriptionHelpFormatter)
    for name, default in ('lists', 2000), ('states', 20000), ('seed', 1):
        p.add_argument('--' + name, type=int, default=default)
    o = p.parse_args()
    one = Removed()
    one.lists(o.lists, o.seed)
    one.nested(o.lists, o.seed + 1)
    one.unreached(o.states, o.seed + 2)
    print(f'seed {o.seed}: {2 * o.lists} call lists and {o.states} sound blocks that no calls reach, no difference')
    print(', '.join(f'{k} {n}' for k, n in sorted(SEEN.items()) if 'open' in k))


if __name__ == '__main__':
    if sys.argv[1:]:
        main()
    else:
        unittest.main()
