#!/usr/bin/env python3
"""Detector error models, shots, and JSON."""
import json
import math
import os
import time
import unittest

from common import TOP, InFolder, card, content, needs_library
from cardtool import dem, dem_graph, faults, json_form, shots, text
from cardtool.write_text import text_of
from dem.patch import Patch

BAD = [
    # model, line, reason
    (
        'error(0.1) D0 D1 D2',
        1,
        'a part of an error with 3 detectors (D0 D1 D2): a matching graph has one or two; Stim splits errors with '
        'decompose_errors=True',
    ),
    (
        'error(0.1) D0\nerror(0.1) L0',
        2,
        'a part of an error with 0 detectors (none): a matching graph has one or two; Stim splits errors with '
        'decompose_errors=True',
    ),
    ('error(0.1) D0 ^', 1, '^ stands between two parts of an error'),
    ('error(1.5) D0', 1, 'an error has one probability from 0 to 1'),
    ('error D0', 1, 'an error has one probability from 0 to 1'),
    ('error(0.1) X0', 1, "a target is D and a number here, not 'X0'"),
    ('error(nan) D0', 1, 'nan is out of range'),
    ('error(0.x) D0', 1, "'0.x' is no number"),
    ('repeat 3 {\nerror(0.1) D0\n', 1, 'a repeat without its }'),
    ('error(0.1) D0\n}', 2, '} without a repeat'),
    ('repeat {\n}', 1, 'repeat takes a count and {'),
    ('M 0 1', 1, "no instruction of a detector error model: 'M 0 1'"),
    ('shift_detectors D1', 1, 'shift_detectors takes a number'),
    ('repeat 1000000000000 {\nerror(0.1) D0\n}', 2, 'with its repeats the model has more than 500000 instructions'),
    ('repeat 1000000000000 {\nerror(0.1) D0 D1\nshift_detectors 1\n}', 2, 'detector 100000: at most 100000 can be'),
    ('detector D0', None, 'no error is in it'),
]


def imported(*path):
    return dem_graph.script(dem.read(content(*path)), 1000)


class Models(unittest.TestCase):
    def test_a_repetition_code(self):
        script, _ = imported('tests', 'dem', 'repetition5.dem')
        script.settle()
        g = script.graph
        self.assertEqual((g.V, g.E, len(g.virtual)), (12 + 6, 3 * 5 + 2 * 4, 6))
        weight = {
            0.1: 2 * round(500 * math.log(9) / math.log(99)),
            0.01: 1000,
            0.05: 2 * round(500 * math.log(19) / math.log(99)),
        }
        self.assertEqual(weight, {0.1: 478, 0.01: 1000, 0.05: 640})
        self.assertEqual(g.edges[:5], [(0, 12, 478), (0, 1, 1000), (1, 2, 1000), (2, 3, 1000), (3, 13, 478)])
        self.assertEqual(g.edges[5], (0, 4, 640))
        self.assertEqual((script.at[0], script.at[4], script.at[11]), ((1, 0), (1, 1), (4, 2)))
        self.assertEqual([g.edges[e] for e in script.observables[0]], [(0, 12, 478), (4, 14, 478), (8, 16, 478)])
        self.assertTrue(all(w % 2 == 0 for _, _, w in g.edges))

    def test_every_form(self):
        model = dem.read(content('tests', 'dem', 'forms.dem'))
        self.assertEqual((model.detectors, model.observables), (7, 4))
        self.assertEqual(model.coordinates, {0: (0.5, -1.25, 3), 1: (0.5, -1.25, 3), 6: (3.5, 3.5, 0.5)})
        edges = {
            e.detectors: (e.probability, e.observables, e.count) for e in dem_graph.merged(model, dem_graph.Notes())
        }
        self.assertAlmostEqual(edges[0, 1][0], 0.01 * 0.98 + 0.02 * 0.99)
        self.assertEqual(edges[0, 1][2], 2)
        self.assertEqual(edges[1, 2], (0.01, (0,), 1))
        self.assertEqual(
            edges[0, 2], (0.25, (), 1)
        )  # D0 three times is D0 once; the error of probability 0 is left out
        self.assertEqual(edges[2,][1], (0,))  # the likelier of the two flips L0
        self.assertEqual(edges[6,], (0.3, (), 1))

    def test_bad_models_are_refused_with_their_line(self):
        for given, line, reason in BAD:
            start = time.time()
            with self.assertRaises(faults.BadInput) as caught:
                dem.read(given.encode())
            self.assertEqual((caught.exception.line, str(caught.exception)), (line, reason))
            self.assertLess(time.time() - start, 5)

    def test_bad_probabilities(self):
        for given, line, reason in (
            ('error(0.1) D0\nerror(0.6) D1', 2, 'probability 0.6 is above 0.5: its weight would be negative'),
            ('error(0.5) D0', None, 'all probabilities are 0.5: there is no weight above 0'),
            ('error(0) D0', None, 'no error has a probability above 0'),
        ):
            with self.assertRaises(faults.BadInput) as caught:
                dem_graph.script(dem.read(given.encode()))
            self.assertEqual((caught.exception.line, str(caught.exception)), (line, reason))

    def test_what_was_rounded_is_said(self):
        script, notes = dem_graph.script(
            dem.read(b'error(0.001) D0 D1\nerror(0.499999) D1\nerror(0.01) D0\nerror(0.01) D0 L0'), 100
        )
        self.assertEqual(
            notes.lines,
            [
                '1 mechanism merged with another of the same detectors',
                '1 edge whose mechanisms flip different observables: those of the likeliest are kept',
                'weights are ln((1-p)/p) from 4e-06 to 6.907, times 14.4786, to even numbers: off by at most 0.5',
                '1 edge got weight 0, which the check does not cover',
            ],
        )

    def test_parts(self):
        model = dem.read(content('tests', 'dem', 'two_parts.dem'))
        for component, detectors, edges in ((0, [0, 2, 4], 4), (1, [1, 3], 3)):
            script, _ = dem_graph.script(model, 100, component)
            script.settle()
            self.assertEqual((script.detectors, script.graph.E), (detectors, edges))
        with self.assertRaises(faults.BadInput):
            dem_graph.script(model, 100, 2)

    def test_boundary_edges_share_a_vertex_where_there_is_no_room(self):
        model = Patch(15, 1).text(8).replace('repeat 7', 'repeat 8').encode()
        script, notes = dem_graph.script(dem.read(model))
        script.settle()
        self.assertEqual((script.graph.V, len(script.graph.virtual)), (1009, 1))
        self.assertIn('144 boundary edges share one virtual vertex: 16 would have room', notes.lines)
        with self.assertRaises(faults.BadInput) as caught:
            dem_graph.script(dem.read(Patch(15, 1).text(10).encode()))
        self.assertEqual(
            str(caught.exception),
            '1120 detectors and 3919 edges: the library takes 1024 vertices, virtual ones among them, and 4096 edges',
        )

    def test_sizes_of_patches(self):
        for distance, rounds in ((3, 1), (3, 3), (5, 2), (7, 7), (11, 4), (15, 8)):
            script, _ = dem_graph.script(dem.read(Patch(distance, 2).text(rounds).encode()))
            script.settle()
            self.assertEqual(script.graph.V - len(script.graph.virtual), rounds * (distance**2 - 1) // 2)
            self.assertEqual(max(w for _, _, w in script.graph.edges), 1_000_000)


class Shots(unittest.TestCase):
    def test_forms(self):
        for data in (b'0100100\n1000000\n', b'shot D1 D4\nshot D0\n', b'1,4\n0\n', b'1 4\n0\n', b'D1 D4\nD0\n'):
            self.assertEqual(shots.shot(data, 0, 7, 0), ([1, 4], []), data)
            self.assertEqual(shots.shot(data, 1, 7, 0), ([0], []), data)
        self.assertEqual(shots.shot(b'01001001\n', 0, 7, 1), ([1, 4], [0]))  # the observable stands last
        self.assertEqual(shots.shot(b'shot D1 L0\nshot\n', 0, 7, 1), ([1], [0]))
        self.assertEqual(shots.shot(b'shot D1 L0\nshot\n', 1, 7, 1), ([], []))

    def test_bad_shots(self):
        for data, which, reason in (
            (b'01\n', 1, 'shot 1: there are 0 to 0'),
            (b'1,9\n', 0, 'detector 9: the model has 7'),
            (b'x\n', 0, "a detector is a number here, not 'x'"),
            (b'shot 5\n', 0, "a detector is D and a number here, not '5'"),
            (b'shot L0\n', 0, 'observable 0: the model has 0'),
        ):
            with self.assertRaises(faults.BadInput) as caught:
                shots.shot(data, which, 7, 0)
            self.assertEqual(str(caught.exception), reason)


class Import(InFolder):
    @needs_library
    def test_from_a_model_to_a_checked_table(self):
        patch, out = self.path('patch.txt'), self.path('shot.txt')
        for shot in (1, 4):
            status, said, wrong = card(
                'import', 'examples/patch15.dem', '--shots', 'examples/patch15.01', '--shot', str(shot), '-o', patch
            )
            self.assertEqual((status, wrong), (0, ''))
            self.assertIn('896 detectors, 3591 mechanisms: 1024 vertices, 128 of them virtual, and 3095 edges', said)
            status, said, wrong = card('match', patch, '-o', out)
            self.assertEqual((status, wrong), (0, ''))
            self.assertIn('defects that these flips leave: none', said)
            self.assertEqual(card('run', out)[::2], (0, ''))  # the text that match writes says all its answers
            self.assertEqual(card('check', out)[::2], (0, ''))

    def test_fired_detectors(self):
        status, said, wrong = card('import', 'tests/dem/repetition5.dem', '--fired', '1,2', '--greatest', '100')
        self.assertEqual(status, 0)
        self.assertEqual([l for l in said.splitlines() if l.startswith('defect')], ['defect 1 grow', 'defect 2 grow'])
        self.assertIn('shot 0: 2 of 2 detectors that fired are in the graph', wrong)
        self.assertEqual(
            card('import', 'tests/dem/repetition5.dem', '--fired', '99')[::2],
            (2, '--fired:1: detector 99: the model has 12\n'),
        )
        self.assertEqual(
            card('import', 'tests/dem/repetition5.dem', '--greatest', '7')[::2],
            (2, 'tests/dem/repetition5.dem: the greatest weight is an even number from 2 to 1000000, not 7\n'),
        )

    def test_detectors_that_are_numbered_anew_are_named(self):
        said = card('import', 'tests/dem/two_parts.dem', '--component', '1', '--fired', '1,2')[1]
        self.assertIn('# detectors of vertices 0, 1, ..: 1 3\n', said)
        self.assertIn('\ndefect 0 grow\n', said)  # detector 1; detector 2 is in the other part
        said = card('import', 'tests/dem/two_parts.dem', '--component', '1', '--json')[1]
        self.assertEqual(json.loads(said)['detectors'], [1, 3])

    def test_text_and_json_say_the_same(self):
        one, two = self.path('one.txt'), self.path('two.json')
        for out in (one, two):
            self.assertEqual(card('import', 'tests/dem/repetition5.dem', '--fired', '1,2', '-o', out)[0], 0)
        ours, theirs = text.parse(content(one)), json_form.script(json_form.load(content(two)))
        for what in ('at', 'observables', 'title'):
            self.assertEqual(getattr(ours, what), getattr(theirs, what), what)
        self.assertEqual(ours.graph.edges, theirs.graph.edges)
        self.assertEqual([i.text() for i in ours.items], [i.text() for i in theirs.items])
        self.assertEqual(card('run', one)[1], card('run', two)[1])

    def test_the_example_is_the_generator_s(self):
        patch = Patch(15, 1)
        self.assertEqual(content('examples', 'patch15.dem').decode(), patch.text(8))


class Json(InFolder):
    def test_scripts_come_back(self):
        for name in sorted(os.listdir(os.path.join(TOP, 'examples'))):
            if name.endswith('.txt'):
                script = text.parse(content('examples', name))
                again = json_form.script(json.loads(json.dumps(json_form.script_of(script))))
                self.assertEqual(
                    [(i.text(), i.expected) for i in again.items], [(i.text(), i.expected) for i in script.items]
                )
                self.assertEqual(text_of(again), text_of(script))
                self.assertEqual(
                    [i.text() for i in text.parse(text_of(script).encode()).items], [i.text() for i in script.items]
                )

    def test_bad_json(self):
        good = {'form': 'card 1', 'vertices': 2, 'edges': [[0, 1, 2]]}
        for change, reason in (
            ({'form': 'x'}, 'no graph in JSON: "form" is "card 1"'),
            ({'vertices': 2.5}, 'vertices: a whole number of 4 signed bytes, not 2.5'),
            ({'edges': [[0, 1]]}, 'edges[0]: a list of 3 numbers'),
            ({'edges': 5}, 'edges: a list'),
            ({'virtual': ['x']}, 'virtual[0]: a whole number of 4 signed bytes, not "x"'),
            ({'store': 9}, 'store: store stands with nodes'),
            ({'calls': ['defect 0 growing']}, "calls[0]: state is stay, grow or shrink, not 'growing'"),
            ({'calls': ['edge 0 1 2']}, 'calls[0]: a call as text'),
            ({'calls': [7]}, 'calls[0]: a call as text'),
            ({'at': {'0': [1]}}, 'at[0]: x and y, and a layer where wanted, by the number of a vertex'),
        ):
            status, _, wrong = card('run', '-', given=json.dumps({**good, **change}))
            self.assertEqual((status, wrong), (2, f'standard input: {reason}\n'))
        self.assertEqual(card('run', '-', given='{"form": ')[::2], (2, 'standard input:1: not JSON: Expecting value\n'))


if __name__ == '__main__':
    unittest.main()
