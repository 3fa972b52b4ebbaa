#!/usr/bin/env python3
"""CallList of the package: each call gives what its method returns, refusals in their place; values that are none."""
import inspect
import os
import random
import sys
import unittest

TOP = os.path.dirname(os.path.dirname(os.path.dirname(os.path.abspath(__file__))))
sys.dont_write_bytecode = True
sys.path.insert(0, os.path.join(TOP, 'python'))
import cluster_growth as cg  # noqa: E402
from cluster_growth import call_list, library  # noqa: E402

needs_library = unittest.skipUnless(library.find(), 'the library is not built: tools/build-library.sh')
ROW = [(0, 1, 4), (1, 2, 4), (2, 3, 4)]
TRIANGLE = [(0, 1, 4), (1, 2, 4), (0, 2, 4), (2, 3, 20)]


def plain(answer):
    """An answer, and of a refusal its number and its call."""
    return ('refused', answer.number, answer.call) if isinstance(answer, cg.Refused) else answer


def alone(module, name, values):
    """What a method returns or raises."""
    try:
        return getattr(module, name)(*values)
    except cg.Refused as e:
        return e


def random_call(rng, vertices, edges):
    """A method with its values."""
    n = rng.randrange(9)
    return rng.choice(
        [('insert_defect', (rng.randrange(vertices + 1), rng.choice([0, 1, 1, 2])))] * 4
        + [('advance', (n,))] * 4
        + [
            ('insert_defect', (rng.randrange(vertices),)),
            ('insert_blossom', (rng.sample(range(9), rng.choice([3, 3, 3, 1, 0])), rng.randrange(4))),
            ('set_grow_state', (n, rng.randrange(4))),
            ('prepare', (n, rng.randrange(3))),
            ('max_update_length', (n,)),
            ('max_update_length', (n, rng.randrange(2), rng.random() < 0.5)),
            ('grow', (n, rng.randint(-4, 4))),
            ('grow', (n, rng.choice([2**80, -(2**80)]))),
            ('representative_vertex', (rng.choice([n, -1, 2**64]),)),
            ('read_node', (n,)),
            ('gap', (rng.randrange(edges + 1),)),
            ('clear', ()) if rng.random() < 0.2 else ('gap', (-1,)),
        ]
    )


class Lists(unittest.TestCase):
    def test_its_methods_are_those_of_the_module(self):
        """Each kind has one, with the same values and defaults."""
        for name in call_list.KINDS:
            values = [
                [(p.name, p.default, p.annotation) for p in inspect.signature(getattr(kind, name)).parameters.values()]
                for kind in (cg.CallList, cg.DualModule)
            ]
            self.assertEqual(*values, name)

    def test_what_is_no_call_leaves_the_list(self):
        calls = cg.CallList()
        self.assertEqual([calls.insert_blossom([0, 1, 2]), calls.advance(1), calls.clear()], [0, 1, 2])
        before = calls.words.tolist(), calls.circles.tolist(), len(calls)
        for wrong, call, values in (
            (ValueError, calls.call, ('contacts',)),
            (ValueError, calls.call, ('calls',)),
            (TypeError, calls.call, ('grow', 0)),
            (TypeError, calls.call, ('clear', 0)),
            (TypeError, calls.grow, (0, 1.5)),
            (TypeError, calls.gap, ('1',)),
            (TypeError, calls.insert_blossom, ([0, 1, 2.5],)),
            (TypeError, calls.insert_blossom, ([0, 1, 2], None)),
        ):
            with self.assertRaises(wrong):
                call(*values)
        self.assertEqual((calls.words.tolist(), calls.circles.tolist(), len(calls)), before)


@needs_library
class Made(unittest.TestCase):
    def test_what_the_readme_says(self):
        module, calls = cg.DualModule(4, ROW, virtual=[0, 3]), cg.CallList()
        for name, *values in (('insert_defect', 1), ('insert_defect', 2), ('advance', 0), ('grow', 1, 5), ('gap', 1)):
            getattr(calls, name)(*values)
        made = module.calls(calls)
        self.assertEqual(made.answers[:3], [0, 1, cg.Moved(2)])
        self.assertEqual((made.answers[3].number, made.answers[3].call), (10, 'grow'))
        self.assertEqual((made.answers[4], made.tests), (cg.Left(2), 1))

    def test_every_answer(self):
        calls = cg.CallList()
        for v in range(3):
            calls.insert_defect(v)
        calls.set_grow_state(0, cg.GrowState.GROW)
        calls.prepare(0, cg.Direction.GROW)
        calls.max_update_length(0)
        calls.insert_blossom([1, 2, 0], cg.GrowState.GROW)
        calls.advance(3)
        calls.advance(3)
        calls.representative_vertex(3)
        calls.read_node(3)
        calls.read_node(1)
        calls.max_update_length(3, cg.Direction.SHRINK, False)
        calls.grow(3, -20)
        calls.gap(0)
        calls.clear()
        calls.gap(3)
        made = cg.DualModule(4, TRIANGLE, virtual=[3]).calls(calls)
        want = [0, 1, 2, None, 1, cg.Free(2), 3, cg.Moved(20), cg.TouchingVirtual(3, 2, 3), 1]
        want += [cg.Node(3, None, 1, 1, None, 20), cg.Node(1, 1, None, 0, 3, 0), cg.Free(20), None, cg.Inner(), None]
        self.assertEqual((made.answers, made.tests), (want + [cg.Left(20)], 1))

    def test_each_gives_what_its_method_returns(self):
        """Random calls on two modules, on one of them in lists."""
        rng, refused = random.Random(1), 0
        for _ in range(60):
            V = rng.randint(3, 9)
            edges = [(*rng.sample(range(V), 2), rng.choice([0, 1, 2, 3, 4, 6])) for _ in range(rng.randint(2, 14))]
            virtual = [v for v in range(V) if rng.random() < 0.2]
            one, two = (cg.DualModule(V, edges, virtual, 12, 2000) for _ in range(2))
            for _ in range(rng.randint(1, 4)):
                calls, want = cg.CallList(), []
                for place in range(rng.randint(1, 20)):
                    name, values = random_call(rng, V, len(edges))
                    self.assertEqual(getattr(calls, name)(*values), place)
                    want.append(alone(two, name, values))
                made = one.calls(calls)
                self.assertEqual([plain(a) for a in made.answers], [plain(a) for a in want])
                self.assertEqual((made.tests, len(calls)), (1, len(want)))
                refused += sum(isinstance(a, cg.Refused) for a in want)
            self.assertEqual(one.words.tolist(), two.words.tolist())
        self.assertGreater(refused, 100)

    def test_answers_as_they_are(self):
        calls = cg.CallList()
        calls.call('insert_defect', 1, 1)
        calls.call('insert_blossom', [0, 0, 0], 1)
        calls.call('advance', 0)
        calls.call('read_node', 0)
        made = cg.DualModule(4, ROW, virtual=[0, 3]).calls(calls)
        self.assertEqual(made.answers, [cg.NewNode(0), cg.Refusal(7), cg.Done(), cg.NodeRead(1, None, 1, None, 4)])

    def test_an_empty_list_and_one_that_is_made_again(self):
        one, two = (cg.DualModule(4, ROW, virtual=[0, 3]) for _ in range(2))
        self.assertEqual(one.calls(cg.CallList()), cg.Listed([], 0))
        calls = cg.CallList()
        calls.insert_defect(1)
        calls.advance(0)
        self.assertEqual(one.calls(calls), cg.Listed([0, cg.Moved(4)], 1))
        self.assertEqual(two.calls(calls), cg.Listed([0, cg.Moved(4)], 1))
        again = [plain(a) for a in one.calls(calls).answers]
        self.assertEqual(again, [('refused', 5, 'insert_defect'), cg.TouchingVirtual(0, 0, 0)])

    def test_the_call_itself(self):
        """DualModule.call tells how many calls were made, and refuses words that are no calls of four."""
        module, calls = cg.DualModule(4, ROW, virtual=[0, 3]), cg.CallList()
        calls.insert_defect(1)
        calls.clear()
        said = module.call('calls', calls.words, calls.circles, calls.room())
        self.assertEqual((said, str(said)), (cg.CallsMade(2, 1), 'calls 2 1'))
        self.assertEqual(module.call('calls', calls.words, calls.circles, calls.room()[:9]), cg.CallsMade(1, 1))
        self.assertEqual(module.call('calls', calls.words[:7], calls.circles, calls.room()), cg.Refusal(1))

    def test_a_damaged_block_refuses_every_call(self):
        module, calls = cg.DualModule(4, ROW, virtual=[0, 3]), cg.CallList()
        module.insert_defect(1)
        module.words[module.block.rows['state'].start] = 3
        names = ['advance', 'read_node', 'representative_vertex']
        for name in names:
            getattr(calls, name)(0)
        made = module.calls(calls)
        self.assertEqual([plain(a) for a in made.answers], [('refused', 2, name) for name in names])
        self.assertEqual(made.tests, 1)


if __name__ == '__main__':
    unittest.main()
