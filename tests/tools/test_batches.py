#!/usr/bin/env python3
"""The option --batch of `run`: the calls once more in lists, whose answers must be those of the run."""
import glob
import json
import os
import random
import unittest
from unittest import mock

from common import P, TOP, card, content, needs_library
from cardtool import batches, made, text
from cardtool.files import script_from
from cardtool.run import Run
from cluster_growth import DualModule, Refusal
import model
import random_runs

GROWN = P + 'defect 1 grow\ndefect 2 grow\ngrow 0 2\ngrow 1 2\ntable\nlength 0 grow prepared\n'


@needs_library
class Lists(unittest.TestCase):
    def last(self, *words, given=b''):
        """The status of a run, and its last line."""
        status, said, wrong = card('run', *words, given=given)
        self.assertEqual(wrong, '')
        return status, said.splitlines()[-1]

    def test_the_line(self):
        for most, line in (
            ('1', 'the same by fb_calls, 1 to a list: 5 calls in 5 lists, 5 tests of memory; 1 call alone'),
            ('3', 'the same by fb_calls, 3 to a list: 5 calls in 3 lists, 3 tests of memory; 1 call alone'),
            ('1000000', 'the same by fb_calls, 1000000 to a list: 5 calls in 2 lists, 2 tests of memory; 1 call alone'),
        ):
            self.assertEqual(self.last('-', '--batch', most, given=GROWN), (0, line))
        one = 'the same by fb_calls, 7 to a list: 1 call in 1 list, 1 test of memory'
        self.assertEqual(self.last('-', '--batch', '7', given=P + 'defect 1 grow'), (0, one))
        none = 'the same by fb_calls, 7 to a list: 0 calls in 0 lists, 0 tests of memory'
        self.assertEqual(self.last('-', '--batch', '7', given=P), (0, none))

    def test_the_lines_before_it_are_those_of_the_run(self):
        self.assertEqual(
            card('run', '-', '--batch', '2', given=GROWN)[1].splitlines()[:-1],
            card('run', '-', given=GROWN)[1].splitlines(),
        )

    def test_every_example(self):
        for path in sorted(glob.glob(os.path.join(TOP, 'examples', '*.txt'))):
            for most in ('1', '4', '100'):
                status, line = self.last(path, '--batch', most)
                self.assertEqual(status, 0, path)
                self.assertTrue(line.startswith(f'the same by fb_calls, {most} to a list: '), line)

    def test_streams_and_random_runs(self):
        """On what calls reach memory is tested once for each list."""
        scripts = [s for s in (script_from(records) for records, _ in model.frames()) if s.well_formed][::8]
        for seed in range(4):
            rng = random.Random(seed)
            script = random_runs.graph(rng)
            random_runs.calls(rng, script)
            script.settle()
            scripts.append(script)
        lists = calls = 0
        for k, script in enumerate(scripts):
            run = Run(script)
            if not run.refused:
                made_again = batches.Batches(run, (1, 3, 10, 1000)[k % 4])
                self.assertEqual(made_again.tests, made_again.lists)
                lists, calls = lists + made_again.lists, calls + made_again.calls
        self.assertGreater(min(lists, calls // 4), 100)

    def test_calls_that_a_list_cannot_have(self):
        given = P + 'erase 1 6\ndefect 1 grow; defect 2 grow; node 0; gap 1; representative 1; group; round 2\n'
        given += 'advance 0 → done; contacts; prepare_all; renew; table; state 0 stay; prepare 1 shrink; clear\n'
        given += 'defect 0 grow → refused 5; defect 1 grow; open-blossom 0 → refused 15\n'
        alone = 'the same by fb_calls, 4 to a list: 11 calls in 5 lists, 5 tests of memory; 8 calls alone'
        self.assertEqual(self.last('-', '--batch', '4', given=given), (0, alone))

    def test_blossoms(self):
        given = 'graph 4 4\nedge 0 1 4; edge 1 2 4; edge 0 2 4; edge 2 3 20\nvirtual 3\ndefect 0 grow; defect 1 grow\n'
        given += 'defect 2 grow; blossom grow 2 0 1 → node 3; blossom grow 3 0 1 → refused 6\n'
        given += 'blossom grow → refused 7; blossom shrink 4 4 4 → refused 3; advance 3; length 3 shrink'
        self.assertEqual(self.last('-', '--batch', '9', given=given)[0], 0)

    def test_as_json_the_line_goes_elsewhere(self):
        status, said, wrong = card('run', '--json', '--batch', '3', '-', given=GROWN)
        self.assertEqual((status, wrong.count('the same by fb_calls')), (0, 1))
        self.assertEqual(said, card('run', '--json', '-', given=GROWN)[1])
        json.loads(said)

    def test_a_difference_has_a_line_and_a_status(self):
        """An answer that is changed on its way."""
        make = DualModule.calls

        def changed(module, calls):
            said = make(module, calls)
            said.answers[-1] = Refusal(6)
            return said

        for given, at in ((GROWN, '6'), (text.parse(GROWN.encode()).records(), ' record 9')):
            with mock.patch.object(DualModule, 'calls', changed):
                status, said, wrong = card('run', '-', '--batch', '3', given=given)
            words = 'made again by fb_calls, the call answers refused 6; the run has done'
            self.assertEqual((status, wrong), (1, f'standard input:{at}: {words}\n'))
            self.assertNotIn('the same', said)

    def test_a_difference_alone(self):
        """A list that does nothing is noticed by the table behind it."""
        run = Run(text.parse(GROWN.encode()))
        with mock.patch.object(batches.Batches, 'make', lambda self: None), self.assertRaises(made.NoAnswer) as caught:
            batches.Batches(run, 3)
        self.assertEqual(caught.exception.line, 8)
        said = 'made again alone, the call answers edge 0 0 0, edge 1 0 0, edge 2 0 0; '
        said += 'the run has edge 0 0 2, edge 1 2 2, edge 2 2 0'
        self.assertEqual(str(caught.exception), said)


class Ends(unittest.TestCase):
    def test_a_bad_number(self):
        for word in ('0', '-3', 'x', '1.5', '', '1000001', '9' * 5000, '٣', '1\x1b'):
            status, said, wrong = card('run', 'examples/p1.txt', '--batch', word)
            self.assertEqual((status, said), (2, ''), word)
            self.assertIn('argument --batch: calls to a list are 1 to 1000000, not ', wrong)
            self.assertLess(len(wrong), 400)

    def test_without_the_library(self):
        without = {'FUSION_BLOSSOM_LIBRARY': 'none'}
        status, said, wrong = card('run', '-', '--batch', '3', given=GROWN, environment=without)
        words = 'fb_calls is a call of the library alone: tools/build-library.sh builds the library from its proof'
        self.assertEqual((status, wrong), (1, f'standard input: {words}\n'))
        self.assertIn('node 0', said)

    @needs_library
    def test_a_refused_opening_has_no_lists(self):
        given = 'graph 2 1 1 9\nedge 0 1 -2\ndefect 0 grow → refused 4'
        status, said, wrong = card('run', '-', '--batch', '3', given=given)
        self.assertEqual((status, wrong), (0, ''))
        self.assertEqual(said.splitlines()[-1], 'no lists of calls: the opening was refused')

    @needs_library
    def test_an_ill_formed_record_has_none_either(self):
        records = text.parse(content('examples', 'p1.txt')).records() + bytes.fromhex('02000e00')
        status, _, wrong = card('run', '-', '--batch', '3', given=records)
        self.assertEqual(status, 1)
        self.assertIn('an ill-formed record ends the run: there are no lists of calls', wrong)


if __name__ == '__main__':
    unittest.main()
