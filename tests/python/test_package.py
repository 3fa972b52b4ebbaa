#!/usr/bin/env python3
"""The package cluster_growth: every call and answer, refusals, sizes, installing, the example, and runs against the
model.
"""
import os
import random
import subprocess
import sys
import tempfile
import unittest

TOP = os.path.dirname(os.path.dirname(os.path.dirname(os.path.abspath(__file__))))
sys.dont_write_bytecode = True
sys.path[:0] = [os.path.join(TOP, 'python'), os.path.join(TOP, 'tests')]
import cluster_growth as cg  # noqa: E402
from cluster_growth import library, matching, sizes  # noqa: E402
import model  # noqa: E402

needs_library = unittest.skipUnless(library.find(), 'the library is not built: tools/build-library.sh')
ROW = [(0, 1, 4), (1, 2, 4), (2, 3, 4)]


def graph_p():
    return cg.DualModule(4, ROW, virtual=[0, 3])


@needs_library
class Calls(unittest.TestCase):
    def refused(self, number, call, *values):
        with self.assertRaises(cg.Refused) as caught:
            call(*values)
        self.assertEqual((caught.exception.number, caught.exception.sentence), (number, cg.sentence(number)))

    def test_p1(self):
        m = graph_p()
        self.assertEqual(m.insert_syndrome([0, 1, 1, 0]), [0, 1])
        self.assertEqual(m.max_update_length(0), cg.Free(2, False))
        m.grow(0, 2)
        m.grow(1, 2)
        self.assertEqual(m.max_update_length(0), cg.Conflict(1, 1, 0, 0))
        self.assertEqual([tuple(g) for g in m.read_table()], [(0, 2), (2, 2), (2, 0)])
        self.assertEqual(m.contacts(), [cg.Contact(1, 0, 1)])
        self.assertEqual(m.read_node(1), cg.Node(1, 2, None, 1, None, 2))
        m.grow(0, -2)
        self.assertEqual(m.max_update_length(0, cg.Direction.SHRINK), cg.ShrinkStop(0))

    def test_every_other_answer(self):
        m = graph_p()
        m.insert_defect(1)
        self.assertEqual(m.advance(0), cg.Moved(4))
        self.assertEqual(m.advance(0), cg.TouchingVirtual(0, 0, 0))
        self.assertEqual([str(c) for c in m.contacts()], ['contact 0 -1 0'])
        self.assertEqual(m.prepare(0, cg.Direction.GROW), 1)
        self.assertEqual(m.representative_vertex(0), 1)
        m.set_grow_state(0, cg.GrowState.STAY)
        self.assertEqual(m.advance(0), cg.Moved(0))
        m.clear()
        self.assertEqual((m.node_count(), m.contacts()), (0, []))
        alone = cg.DualModule(2, [(0, 1, 2)])
        alone.insert_defect(0)
        self.assertEqual([alone.advance(0), alone.advance(0)], [cg.Moved(2), cg.Unlimited(True)])
        ring = cg.DualModule(4, [(0, 1, 2), (1, 2, 2), (0, 2, 2), (2, 3, 20)], virtual=[3])
        self.assertEqual(ring.insert_blossom(ring.insert_syndrome([1, 1, 1])), 3)
        self.assertEqual(ring.max_update_length(3, cg.Direction.SHRINK), cg.NeedExpand(3))
        self.assertEqual(ring.read_node(0).parent, 3)
        self.assertEqual((ring.read_node(3).first_member, ring.representative_vertex(3)), (0, 0))
        pair = cg.DualModule(3, [(0, 1, 2), (1, 2, 2)])
        pair.insert_syndrome([1, 1, 1])
        pair.grow(0, 2)
        pair.set_grow_state(1, cg.GrowState.SHRINK)
        self.assertEqual(pair.advance(1), cg.ShrinkStopPeer(1, 0, 0))
        pair.grow(2, 2)
        self.assertEqual(pair.advance(1), cg.Conflict(0, 0, 2, 2))

    def test_reading_a_node(self):
        m = cg.DualModule(4, [(0, 1, 4), (1, 2, 4), (0, 2, 4), (2, 3, 20)], virtual=[3])
        m.insert_syndrome([1, 1, 1])
        self.assertEqual(m.advance(2), cg.Moved(2))
        self.assertEqual(m.read_node(2), cg.Node(2, 2, None, 1, None, 2))
        blossom = m.insert_blossom([1, 2, 0], cg.GrowState.GROW)
        self.assertEqual(m.advance(blossom), cg.Moved(18))
        self.assertEqual(m.call('read_node', blossom), cg.NodeRead(None, 1, 1, None, 18))
        self.assertEqual(m.call('read_node', 2), cg.NodeRead(2, None, 0, 3, 2))
        said = [str(m.call('read_node', n)) for n in (3, 2, 4)]
        self.assertEqual(said, ['blossom 1 1 -1 18', 'defect 2 0 3 2', 'refused 3'])
        m.set_grow_state(blossom, cg.GrowState.SHRINK)
        self.assertEqual(m.advance(blossom), cg.Moved(-18))
        self.assertEqual(m.read_node(blossom).dual, 0)
        self.assertEqual([m.block.node(n) for n in range(4)], [m.read_node(n) for n in range(4)])
        self.refused(3, m.read_node, -1)
        self.refused(3, m.advance, 4)
        m.words[0] = 3  # a stored size that is not the block's
        self.refused(1, m.read_node, 0)

    def test_the_gap_of_an_edge(self):
        m = graph_p()
        self.assertEqual([m.gap(e) for e in range(3)], [cg.Left(4)] * 3)
        m.insert_syndrome([0, 1, 1, 0])
        m.grow(0, 3)
        self.assertEqual([m.gap(e) for e in range(3)], [cg.Left(1), cg.Left(1), cg.Left(4)])
        self.assertEqual([str(a) for a in (cg.Left(1), cg.Inner(), cg.Over(2))], ['gap 1', 'inner', 'over 2'])
        self.refused(3, m.gap, 3)
        self.refused(3, m.gap, -1)

    def test_all_clusters(self):
        m = graph_p()
        self.assertEqual((m.active_list(), m.group_max_update_length()), ([], cg.Unlimited(False)))
        m.insert_syndrome([0, 1, 1, 0])
        self.assertEqual(m.group_max_update_length(), cg.Free(2, False))
        m.grow_all(2)
        both = (cg.Conflict(1, 1, 0, 0), cg.Conflict(0, 0, 1, 1))
        self.assertEqual(m.group_max_update_length(), cg.Conflicts(both, ()))
        self.refused(10, m.grow_all, 1)
        self.refused(14, m.grow_all, 0)
        self.refused(14, m.grow_all, -(2**80))
        m.set_grow_state(0, cg.GrowState.SHRINK)
        self.assertEqual(m.group_max_update_length(), cg.Free(2, False))
        m.grow_all(2)
        self.assertEqual([tuple(g) for g in m.read_table()], [(0, 0), (0, 4), (4, 0)])
        told = m.group_max_update_length()
        self.assertEqual(told.stops, (cg.ShrinkStopPeer(0, 1, 1),))
        self.assertEqual(told.conflicts, (cg.TouchingVirtual(1, 1, 3),))
        self.assertEqual(str(told), 'group 1 1')
        m.set_grow_state(0, cg.GrowState.STAY)
        m.set_grow_state(0, cg.GrowState.GROW)
        self.assertEqual(m.active_list(), [0, 1])
        m.set_grow_state(0, cg.GrowState.STAY)
        m.renew_active_list()
        self.assertEqual(m.active_list(), [1])
        m.prepare_all()
        m.clear()
        self.assertEqual(m.active_list(), [])

    def test_opening_a_blossom(self):
        m = cg.DualModule(4, [(0, 1, 4), (1, 2, 4), (0, 2, 4), (2, 3, 20)], virtual=[3])
        circle = m.insert_syndrome([1, 1, 1])
        self.refused(15, m.remove_blossom, 0)
        blossom = m.insert_blossom(circle, cg.GrowState.SHRINK)
        self.assertEqual(m.max_update_length(blossom, cg.Direction.SHRINK), cg.NeedExpand(blossom))
        self.refused(6, m.remove_blossom, 0)
        before = m.read_table()
        m.remove_blossom(blossom)
        self.assertEqual(m.read_table(), before)
        self.assertEqual([m.read_node(n).parent for n in circle], [None] * 3)
        self.refused(3, m.read_node, blossom)
        self.assertTrue(m.block.node(blossom).removed)
        self.assertEqual((m.active_list(), m.node_count()), ([0, 1, 2, 3], 4))
        m.renew_active_list()
        self.assertEqual(m.active_list(), [])
        for call in (m.remove_blossom, m.representative_vertex, m.advance):
            self.refused(3, call, blossom)
        m.set_grow_state(0, cg.GrowState.GROW)
        self.assertEqual(m.advance(0), cg.Moved(4))
        m.grow(0, -4)
        again = m.insert_blossom(circle)
        self.assertEqual(again, 4)
        m.grow(again, 3)
        self.refused(15, m.remove_blossom, again)
        m.grow(again, -3)
        m.remove_blossom(again)
        m.clear()
        self.assertEqual(m.insert_defect(1), 0)

    def test_changing_weights(self):
        m = graph_p()
        self.refused(3, m.load_edge_modifier, [(0, -1), (3, 2)])
        self.refused(4, m.load_edge_modifier, [(0, 2), (1, 1_000_001)])
        m.load_edge_modifier([])
        m.load_edge_modifier([(1, 10), (0, 3), (1, 0)])
        self.refused(16, m.load_edge_modifier, [])
        self.assertEqual((m.weights(), m.block.original_weights(), m.block.reweighted()), ([3, 0, 4], [4, 4, 4], True))
        m.insert_syndrome([0, 1, 0, 0])
        self.assertEqual(m.advance(0), cg.Moved(3))
        self.assertEqual(m.contacts(), [cg.Contact(0, -1, 0)])
        m.clear()
        self.assertEqual((m.weights(), m.block.reweighted()), ([4, 4, 4], False))
        m.insert_syndrome([0, 1, 0, 0])
        self.refused(16, m.load_edge_modifier, [(0, 0)])
        self.assertEqual(m.advance(0), cg.Moved(4))

    def test_refusals(self):
        m = graph_p()
        self.refused(5, m.insert_defect, 0)
        self.refused(3, m.insert_defect, 4)
        self.refused(3, m.insert_defect, -1)
        self.refused(3, m.insert_defect, 2**64 + 1)  # does not wrap to 1
        self.refused(3, m.read_node, 0)
        m.insert_defect(1)
        self.refused(10, m.grow, 0, 5)
        self.refused(11, m.grow, 0, -(2**80))
        self.refused(7, m.insert_blossom, [0])
        self.assertEqual(str(cg.Refused(8, 'insert_defect')), 'insert_defect: refused 8: N nodes exist already')
        for change in (
            dict(vertices=2000),
            dict(vertices=-1),
            dict(edges=[(0, 4, 2)]),
            dict(edges=[(0, 1, 10**6 + 1)]),
            dict(edges=[]),
            dict(nodes=0),
            dict(store=65537),
        ):
            with self.assertRaises(cg.Refused) as caught:
                cg.DualModule(**{**dict(vertices=4, edges=ROW), **change})
            self.assertEqual(caught.exception.number, 4, change)
        with self.assertRaises(cg.Refused) as caught:
            cg.DualModule(4, ROW, virtual=[7])
        self.assertEqual(caught.exception.number, 3)

    def test_values_that_are_none(self):
        with self.assertRaises(ValueError):
            graph_p().insert_syndrome([0, 2])
        with self.assertRaises(ValueError):
            cg.DualModule(4, [(0, 1)])
        with self.assertRaises(TypeError):
            cg.DualModule(4, [(0, 1, 2.5)])
        with self.assertRaises(OverflowError):
            cg.DualModule(4, [(0, 1, 2**64)])
        with self.assertRaises(IndexError):
            graph_p().read_table()[3]
        with self.assertRaises(cg.NoLibrary):
            cg.DualModule(4, ROW, path='/no/such/library.so')

    def test_answers_are_those_of_the_model(self):
        """Random calls on small graphs, call by call, on the library and on the model."""
        calls = {
            4: 'insert_defect',
            6: 'set_grow_state',
            7: 'prepare',
            8: 'max_update_length',
            9: 'grow',
            11: 'advance',
            13: 'clear',
        }
        rng, count = random.Random(1), 0
        for _ in range(150):
            V = rng.randint(2, 9)
            edges = [(*rng.sample(range(V), 2), rng.choice([0, 1, 2, 3, 4, 6])) for _ in range(rng.randint(1, 14))]
            virtual = [v for v in range(V) if rng.random() < 0.25]
            run, m = model.Run(), cg.DualModule(V, edges, virtual, 12, 2000)
            _, run.st = model.open_graph(V, len(edges), 12, 2000, edges, virtual)
            for _ in range(rng.randint(10, 60)):
                kind = rng.choice([4, 4, 6, 7, 8, 8, 9, 9, 9, 11, 11, 11, 11])
                fields = {
                    4: [rng.randrange(V), rng.choice([0, 1, 1, 2])],
                    6: [rng.randrange(9), rng.randrange(3)],
                    7: [rng.randrange(9), rng.randrange(2)],
                    8: [rng.randrange(9), rng.randrange(2), rng.randrange(2)],
                    9: [rng.randrange(9), rng.randint(-4, 4)],
                    11: [rng.randrange(9)],
                }[kind]
                self.assertEqual([str(m.call(calls[kind], *fields))], run.answer(kind, fields))
                count += 1
            self.assertEqual(m.read_table().growths.tolist(), run.st.growth)
            self.assertEqual([m.read_node(n).dual for n in range(m.node_count())], [n.dual for n in run.st.nodes])
        self.assertGreater(count, 4000)


@needs_library
class Sizes(unittest.TestCase):
    def test_enough_store_is_enough(self):
        """Many blossoms, nested ones among them, with just the store that is said to be enough: no call is refused 9."""
        rng = random.Random(3)
        for _ in range(40):
            V = rng.randint(6, 30)
            edges = [(v, rng.randrange(v), rng.choice([2, 4])) for v in range(1, V)] + [
                (*rng.sample(range(V), 2), rng.choice([2, 4])) for _ in range(V)
            ]
            blossoms, circle = rng.randint(0, 4), 3
            m = cg.DualModule(V, edges, [0], V + 5, cg.enough_store(V, len(edges), blossoms, circle if blossoms else 0))
            for _ in range(80):
                n = rng.randrange(max(m.node_count(), 1))
                outer = [k for k in range(m.node_count()) if m.read_node(k).parent is None]
                kind = rng.random()
                if kind < 0.3:
                    said = m.call('insert_defect', rng.randrange(V), 1)
                elif kind < 0.4 and blossoms and len(outer) >= circle:
                    from array import array

                    said = m.call('insert_blossom', array('q', rng.sample(outer, circle)), rng.randrange(3))
                    blossoms -= isinstance(said, cg.NewNode)
                else:
                    said = m.call('advance', n)
                self.assertNotEqual(said, cg.Refusal(9))

    def test_the_greatest_graph(self):
        edges = [(k % 1023, k % 1023 + 1, 2) for k in range(4096)]
        m = cg.DualModule(1024, edges, [1023])
        self.assertEqual(len(m.words), sizes.block_words(1024, 4096, 1024, 65536))
        m.insert_defect(5)
        self.assertEqual(m.advance(0), cg.Moved(2))


@needs_library
class Matching(unittest.TestCase):
    def test_every_pairing_is_valid(self):
        rng = random.Random(4)
        for _ in range(60):
            rows, cols = rng.randint(2, 9), rng.randint(3, 9)
            at = lambda r, c: r * cols + c
            edges = [(at(r, c), at(r, c + 1), 2 * rng.randint(1, 9)) for r in range(rows) for c in range(cols - 1)]
            edges += [
                (at(r, c), at(r + 1, c), 2 * rng.randint(1, 9)) for r in range(rows - 1) for c in range(1, cols - 1)
            ]
            virtual = [at(r, c) for r in range(rows) for c in (0, cols - 1)]
            m = cg.DualModule(rows * cols, edges, virtual)
            bits = [int(v not in virtual and rng.random() < 0.25) for v in range(rows * cols)]
            m.insert_syndrome(bits)
            found = cg.match(m)
            self.assertEqual(matching.left_over(m, [v for v, b in enumerate(bits) if b], found.edges), [])
            self.assertLessEqual(found.dual_sum, found.cost)

    def test_what_cannot_be_paired(self):
        alone = cg.DualModule(2, [(0, 1, 2)])
        alone.insert_defect(0)
        with self.assertRaises(matching.Unmatched):
            cg.match(alone)
        with self.assertRaises(ValueError):
            cg.match(cg.DualModule(2, [(0, 1, 3)]))


@needs_library
class Installed(unittest.TestCase):
    def setUp(self):
        held = tempfile.TemporaryDirectory()
        self.addCleanup(held.cleanup)
        self.folder = held.name

    def run_from(self, *words):
        return subprocess.run(
            words,
            cwd=self.folder,
            env={**os.environ, 'PYTHONPATH': self.folder},
            stdout=subprocess.PIPE,
            stderr=subprocess.PIPE,
            text=True,
        )

    def test_pip_installs_it_without_a_network(self):
        words = [
            sys.executable,
            '-m',
            'pip',
            'install',
            '--no-index',
            '--quiet',
            '--disable-pip-version-check',
            '--root-user-action=ignore',
            '--target',
            self.folder,
            os.path.join(TOP, 'python'),
        ]
        done = subprocess.run(words, stdout=subprocess.PIPE, stderr=subprocess.STDOUT, text=True)
        if 'No module named pip' in done.stdout:
            self.skipTest('pip is not here')
        self.assertEqual((done.returncode, done.stdout), (0, ''))
        where = self.run_from(sys.executable, '-c', 'from cluster_growth import library; print(library.find())')
        self.assertEqual(where.stdout.strip(), os.path.join(self.folder, 'cluster_growth', 'libfusion_blossom.so'))
        example = self.run_from(sys.executable, os.path.join(TOP, 'python', 'examples', 'decode.py'))
        self.assertEqual((example.returncode, example.stderr), (0, ''))
        self.assertIn('correction [1, 0, 0, 1, 1], cost 900; no correction costs less than 900', example.stdout)
        self.assertIn('Conflict(peer=1, peer_defect=1, node=0, defect=0)', example.stdout)

    def test_arrays_of_numpy(self):
        there = [os.path.join(folder, 'python3') for folder in os.environ.get('PATH', '').split(os.pathsep)]
        has = lambda p: subprocess.run([p, '-c', 'import numpy'], stderr=subprocess.DEVNULL).returncode == 0
        found = next((p for p in [sys.executable] + there if os.path.exists(p) and has(p)), None)
        if found is None:
            self.skipTest('numpy is not here')
        script = (
            'import numpy as np; from cluster_growth import DualModule\n'
            'm = DualModule(4, np.array([[0, 1, 4], [1, 2, 4], [2, 3, 4]]), np.array([0, 3]))\n'
            'm.insert_syndrome(np.array([0, 1, 1, 0])); m.grow(np.int64(0), np.int64(2))\n'
            'print(m.read_table().to_numpy().tolist())'
        )
        done = subprocess.run(
            [found, '-c', script],
            env={**os.environ, 'PYTHONPATH': os.path.join(TOP, 'python')},
            stdout=subprocess.PIPE,
            stderr=subprocess.STDOUT,
            text=True,
        )
        self.assertEqual(done.stdout, '[[0, 2], [2, 0], [0, 0]]\n')


if __name__ == '__main__':
    unittest.main()
