#!/usr/bin/env python3
"""Runs: who answers, what is said about answers and refusals, and how a command ends."""
import glob
import json
import os
import re
import shutil
import subprocess
import time
import unittest

from common import BUILT, CARD, P, TOP, InFolder, card, content, needs_library
from cardtool import program, run, text, unproved
import model

ROW = (
    'graph 70 69\n' + '; '.join(f'edge {i} {i + 1} 10' for i in range(69)) + '\nvirtual 0\n'
)  # more than the program takes

REFUSED_OPENINGS = [
    # text, where, reason
    ('graph 2000 1\nedge 0 1 2\ndefect 0 grow', 1, 'refused 4: V is 2000; 1 to 1024 can be'),
    ('graph 0 1\nedge 0 1 2\ndefect 0 grow', 1, 'refused 4: V is 0; 1 to 1024 can be'),
    ('graph 2 1 1025 9\nedge 0 1 2\ndefect 0 grow', 1, 'refused 4: N is 1025; 1 to 1024 can be'),
    ('graph 2 1 1 65537\nedge 0 1 2\ndefect 0 grow', 1, 'refused 4: L is 65537; 0 to 65536 can be'),
    ('# title\n\ngraph 2 2\nedge 0 1 2\ndefect 0 grow', 3, 'refused 4: E is 2, and 1 edge is given'),
    (
        'graph 3 2 1 9\nedge 0 1 2\nedge 1 2 1000001\ndefect 0 grow',
        3,
        'refused 4: edge 1 has weight 1000001; 0 to 1000000 can be',
    ),
    (
        'graph 3 2 1 9\nedge 0 1 2\nedge 1 3 2\ndefect 0 grow',
        3,
        'refused 4: edge 1 ends at vertex 3; the graph has 0 to 2',
    ),
    ('graph 3 2 1 9\nedge 0 1 2; edge 2 2 2\ndefect 0 grow', 2, 'refused 4: edge 1 has vertex 2 at both ends'),
    (
        'graph 2 1 1 9\nedge 0 1 2\nvirtual 5\ndefect 0 grow',
        3,
        'refused 3: virtual names vertex 5; the graph has 0 to 1',
    ),
    ('graph 2 1 1 9\nedge 0 1 -2', 2, 'refused 4: edge 0 has weight -2; 0 to 1000000 can be'),
]


class Examples(unittest.TestCase):
    def test_they_answer_as_they_say(self):
        files = sorted(glob.glob(os.path.join(TOP, 'examples', '*.txt')))
        self.assertTrue({f'p{i}.txt' for i in range(1, 10)} <= {os.path.basename(f) for f in files})
        for f in files:
            script = text.parse(content(f))
            self.assertTrue(all(i.expected is not None for i in script.calls()), f)
            status, _, said = card('run', f)
            self.assertEqual((status, said), (0, ''), f)

    def test_p1_gives_the_lines_of_document_01(self):
        lines = program.lines(text.parse(content('examples', 'p1.txt')).records())
        self.assertEqual(
            lines,
            '7 node 0\n8 node 1\n9 free 2 0\n10 done\n11 done\n12 conflict 1 1 0 0\n'
            '13 edge 0 0 2\n13 edge 1 2 2\n13 edge 2 2 0\n',
        )

    @unittest.skipUnless(shutil.which('rt') and BUILT, 'needs the Rattle toolchain and cardrun')
    def test_before_its_proof_the_program_answers_alike(self):
        records = text.parse(content('examples', 'p9.txt')).records()
        self.assertEqual(unproved.lines(TOP, records), program.lines(records))


class Answers(unittest.TestCase):
    def test_the_run_knows_where_the_program_stopped(self):
        for given, lines in list(model.frames())[::10]:
            script = run_of(given)
            got = ''.join(f'{i.number} {a}\n' for i in script.script.items for a in script.answers.get(i.number, []))
            self.assertEqual(got.encode(), lines)
            for i in script.script.items:
                if not script.read(i):
                    self.assertNotIn(i.number, script.answers)
                elif i.reason:
                    self.assertEqual(script.answers[i.number], ['refused 3'])

    @needs_library
    def test_program_and_library_answer_alike_on_every_stream(self):
        """Run compares them itself, and ends with NoAnswer where they differ."""
        count = sum(run_of(given).made is not None for given, _ in model.frames())
        self.assertGreater(count, 200)

    def test_an_answer_that_did_not_come_is_named(self):
        status, _, said = card('run', '-', given=P + 'defect 1 grow -> node 1; contacts -> nothing\ntable -> done')
        self.assertEqual(status, 1)
        self.assertEqual(
            said.splitlines(),
            [
                'standard input:4: expected node 1; the answer is node 0',
                'standard input:5: expected done; the answer is edge 0 0 0, edge 1 0 0, edge 2 0 0',
            ],
        )

    def test_a_refused_call_has_a_status_and_a_word(self):
        status, said, wrong = card('run', '-', given=P + 'defect 1 grow\ndefect 1 grow\ndefect 2 grow')
        self.assertEqual(
            (status, wrong),
            (1, 'standard input:5: refused 5: the vertex is virtual, a defect, held, or has a held side\n'),
        )
        self.assertIn('9  defect 2 grow → node 1', said)  # the run goes on
        self.assertEqual(card('run', '-', given=P + 'defect 1 grow\ndefect 1 grow → refused 5')[::2], (0, ''))

    @needs_library
    def test_a_conflict_is_a_halved_gap_of_0(self):
        status, said, _ = card('run', 'examples/p6.txt')
        self.assertIn('node 0 and node 1: the gap of 1 at edge 1, halved, is 0; nothing touches', said)
        self.assertIn('node 1 and node 0 touch at edge 1', card('run', 'examples/p1.txt')[1])

    def test_without_the_library_a_conflict_is_not_called_a_meeting(self):
        said = card('run', 'examples/p6.txt', environment={'FUSION_BLOSSOM_LIBRARY': 'none'})[1]
        self.assertIn('halved gap 0 between node 0 and node 1', said)

    @needs_library
    def test_a_node_is_read(self):
        given = P + 'defect 1 grow; defect 2 grow; node 0; advance 0; node 0 → defect 1 1 -1 2; node 2 → refused 3'
        status, said, wrong = card('run', '-', given=given)
        self.assertEqual((status, wrong), (0, ''))
        self.assertIn('run by the library', said)
        told = [f'defect 1 1 -1 {y}   vertex 1, grow, dual variable {y}' for y in (0, 2)]
        self.assertEqual(re.findall(r'node 0 +→ (.*)', said), told)
        given = 'graph 4 4\nedge 0 1 4; edge 1 2 4; edge 0 2 4; edge 2 3 20\nvirtual 3\n'
        given += 'defect 0 grow; defect 1 grow; defect 2 grow; blossom grow 1 2 0; advance 3; node 3; node 0'
        status, said, _ = card('run', '-', given=given)
        self.assertEqual(status, 0)
        self.assertRegex(said, 'advance 3 +→ done +grew by 20')
        self.assertRegex(said, 'node 3 +→ blossom 1 1 -1 20 +first member 1, grow, dual variable 20')
        self.assertRegex(said, 'node 0 +→ defect 0 0 3 0 +vertex 0, stay, in blossom 3, dual variable 0')

    @needs_library
    def test_the_gap_of_an_edge(self):
        given = content('examples', 'p9.txt').decode() + 'gap 2 → inner; gap 3 → gap 17; gap 4 → refused 3\n'
        status, said, wrong = card('run', '-', given=given)
        self.assertEqual((status, wrong), (0, ''))
        self.assertRegex(said, 'gap 2 +→ inner +1-2: one node holds both sides')
        self.assertRegex(said, 'gap 3 +→ gap 17 +2-3: 17 of 20 left')
        self.assertEqual(card('run', '-', given=P + 'gap 1 → gap 4')[0], 0)

    @needs_library
    def test_advance_tells_by_how_much(self):
        said = card(
            'run', '-', given=P + 'defect 1 grow; advance 0; state 0 shrink; advance 0; state 0 stay; advance 0'
        )[1]
        self.assertEqual(re.findall(r'advance 0 +→ done +(.*)', said), ['grew by 4', 'shrank by 4', 'did not move'])


class Openings(unittest.TestCase):
    @needs_library
    def test_a_refused_opening_names_line_number_and_limit(self):
        for given, line, reason in REFUSED_OPENINGS:
            status, said, wrong = card('run', '-', given=given)
            self.assertEqual((status, wrong), (1, f'standard input:{line}: {reason}\n'))
            self.assertIn(reason, said.splitlines()[0])
            for call in said.splitlines()[1:]:  # no call is said to be at fault
                self.assertTrue(call.endswith('not made: the opening was refused'), call)

    def test_without_the_library_the_limits_are_those_of_the_program(self):
        without = {'FUSION_BLOSSOM_LIBRARY': 'none'}
        status, _, wrong = card('run', '-', given=ROW + 'defect 1 grow', environment=without)
        self.assertEqual(
            (status, wrong),
            (
                1,
                'standard input:1: V is 70; 1 to 64 can be in the program cardrun; the library takes more: '
                'tools/build-library.sh builds the library from its proof\n',
            ),
        )
        status, _, wrong = card('run', '-', given=P + 'defect 1 grow\nrepresentative 0', environment=without)
        self.assertEqual(
            (status, wrong),
            (
                1,
                'standard input:5: representative is a call of the library alone: '
                'tools/build-library.sh builds the library from its proof\n',
            ),
        )

    def test_an_expected_refusal_of_the_opening_is_no_fault(self):
        self.assertEqual(card('run', '-', given='graph 2 1 1 9\nedge 0 1 -2\ndefect 0 grow → refused 4')[::2], (0, ''))

    def test_a_graph_without_a_call_is_opened(self):
        for environment in ({}, {'FUSION_BLOSSOM_LIBRARY': 'none'}):
            status, said, wrong = card('run', '-', given=P, environment=environment)
            self.assertEqual(
                (status, said, wrong), (0, '1 to 6: a graph of 4 vertices, 2 of them virtual, and 3 edges\n', '')
            )

    @needs_library
    def test_a_great_graph_is_run_by_the_library(self):
        status, said, wrong = card('run', '-', given=ROW + 'defect 35 grow\nrepresentative 0 → vertex 35\ngrow 0 3')
        self.assertEqual((status, wrong), (0, ''))
        self.assertEqual(
            said.splitlines()[0],
            '1 to 71: a graph of 70 vertices, 1 of them virtual, and 69 edges; N 1 and L 416 worked out; '
            'run by the library',
        )

    @needs_library
    def test_all_clusters(self):
        given = P + 'defect 1 grow; defect 2 grow\ngroup → free 2 0\nround 2 → done\n'
        given += 'group → group 2 0, conflict 1 1 0 0, conflict 0 0 1 1\nstate 0 shrink; round 2; prepare_all → done\n'
        given += 'group → group 1 1, virtual 1 1 3 0, stop 0 1 1\nround 0 → refused 14\nstate 0 stay; renew → done\n'
        status, said, wrong = card('run', '-', given=given)
        self.assertEqual((status, wrong), (0, ''))
        said = ' '.join(said.split())
        for words in (
            'group → free 2 0 all can move by 2',
            'group → group 2 0 2 conflicts and 0 stops',
            'round 0 → refused 14 a round of a length below 1',
        ):
            self.assertIn(words, said)
        self.assertEqual(card('check', '-', given=given)[::2], (0, ''))  # a round is its growths, one by one

    @needs_library
    def test_opening_a_blossom(self):
        given = 'graph 4 4\nedge 0 1 4; edge 1 2 4; edge 0 2 4; edge 2 3 20\nvirtual 3\n'
        given += 'defect 0 grow; defect 1 grow; defect 2 grow\nopen-blossom 0 → refused 15\nblossom shrink 0 1 2 → node 3\n'
        given += 'length 3 shrink → expand 3\nopen-blossom 1 → refused 6\nopen-blossom 3 → done\nopen-blossom 3 → refused 3\n'
        given += 'group → free -1 0\nblossom grow 2 1 0 → node 4\nrepresentative 4 → vertex 2\n'
        given += 'open-blossom 4 → done\nclear; defect 1 grow → node 0'
        status, said, wrong = card('run', '-', given=given)
        self.assertEqual((status, wrong), (0, ''))
        said = ' '.join(said.split())
        for words in (
            'N 5 and L 84 worked out; run by the library',
            'open-blossom 0 → refused 15 the node is not a blossom of dual variable 0, or once prepared it stops a debug build',
            'open-blossom 3 → done nodes 0, 1, 2 are outermost again',
        ):
            self.assertIn(words, said)
        out = json.loads(card('run', '--json', '-', given=given[: given.index('clear')])[1])
        self.assertEqual(
            out['node_list'][3],
            {'node': 3, 'vertex': None, 'first_member': None, 'state': 'stay', 'parent': None, 'dual': 0},
        )
        self.assertEqual(card('check', '-', given=given[: given.index('clear')])[0], 3)  # a blossom: beyond the table equality

    @needs_library
    def test_changing_weights(self):
        given = P + 'erase 0 -1 3 2 → refused 3\nerase 1 1000001 → refused 4\nerase → done\nerase 1 9 0 3 1 0 → done\n'
        given += 'erase 2 2 → refused 16\ndefect 1 grow; advance 0 → done\ncontacts → contact 0 -1 0\nclear\ndefect 1 grow\n'
        given += 'erase → refused 16\nadvance 0 → done\ncontacts → contact 0 -1 0'
        status, said, wrong = card('run', '-', given=given)
        self.assertEqual((status, wrong), (0, ''), said)
        said = ' '.join(said.split())
        for words in ('run by the library', 'erase 2 2 → refused 16 '):
            self.assertIn(words, said)
        self.assertEqual(card('check', '-', given=given)[::2], (0, ''))  # the weights that stand at the end

    @needs_library
    def test_what_is_worked_out_is_enough(self):
        circle = '; '.join(f'defect {v} grow; advance {k}' for k, v in enumerate(range(3, 66, 6)))
        status, said, wrong = card(
            'run', '-', given=ROW + circle + '; blossom grow ' + ' '.join(map(str, range(11))) + '; advance 11'
        )
        self.assertEqual((status, wrong), (0, ''))


class Ends(InFolder):
    def test_an_empty_file(self):
        for command in ('run', 'draw', 'page', 'check', 'encode', 'decode', 'table', 'match'):
            for data in (b'', b'\n \n') if command != 'decode' else (b'',):
                status, said, wrong = card(command, '-', given=data)
                self.assertEqual((status, said, wrong), (2, '', 'standard input: the file is empty\n'), command)

    def test_records_are_recognised(self):
        given = text.parse(content('examples', 'p1.txt')).records()
        told = card('run', '-', given=given)
        self.assertEqual(told, card('run', 'examples/p1.txt'))
        self.assertIn('edge,left,right', card('table', '-', given=given)[1])
        status, said, wrong = card('run', '-', given=given + bytes.fromhex('02000e00'))
        self.assertEqual(
            (status, wrong), (1, 'standard input: record 14: refused 3: an ill-formed record: unknown kind 14\n')
        )
        many = text.parse((ROW + 'defect 1 grow').encode()).records()
        self.assertEqual(
            card('run', '-', given=many)[::2], (1, 'standard input: record 1: refused 4: V is 70; 1 to 64 can be\n')
        )

    def test_a_detector_error_model_is_recognised(self):
        self.assertEqual(
            card('run', 'examples/patch15.dem')[::2],
            (2, 'examples/patch15.dem: a detector error model: card.py import makes a graph of it\n'),
        )

    def test_control_bytes_never_reach_the_terminal(self):
        evil = '# \x1b[31mred\x07\u202e\n' + P + 'defect 1 grow\n\x1b]0;title\x07 1\n'
        for given in (evil, P + 'defect \x1b[2J grow', P + 'at 1 \x9b31m 0', P + 'defect 1 grow → \x1b[1m'):
            path = self.path('evil\x1b[7m.txt', given)
            for command in ('run', 'draw', 'table', 'check', 'page', 'match'):
                for said in card(command, path)[1:]:
                    self.assertFalse(re.search('[\x00-\x09\x0b-\x1f\x7f-\x9f\u202e]', said), (command, said))

    def test_records_do_not_go_to_a_terminal(self):
        mine, theirs = os.openpty()
        self.addCleanup(os.close, mine)
        done = subprocess.run([CARD, 'encode', 'examples/p1.txt'], cwd=TOP, stdout=theirs, stderr=subprocess.PIPE)
        os.close(theirs)
        self.assertEqual(
            (done.returncode, done.stderr.decode()),
            (2, 'examples/p1.txt: records are bytes: -o FILE, or > FILE, takes them\n'),
        )

    def test_a_missing_file_and_a_folder(self):
        self.assertEqual(card('run', 'no such file')[::2], (2, 'no such file: No such file or directory\n'))
        self.assertEqual(card('run', self.folder)[::2], (2, f'{self.folder}: Is a directory\n'))

    def test_a_reader_that_goes_away(self):
        path = self.path('long.txt', P + 'defect 1 grow\n' + 'table\n' * 20000)
        done = subprocess.run(
            f'{CARD} run {path} | head -n 1', shell=True, stdout=subprocess.PIPE, stderr=subprocess.PIPE
        )
        self.assertEqual((done.stdout.decode()[:4], done.stderr), ('1 to', b''))

    @needs_library
    def test_a_run_as_json(self):
        status, said, _ = card('run', '--json', 'examples/p1.txt')
        told = json.loads(said)
        self.assertEqual((status, told['run_by'], told['table'][1]), (0, 'program', [1, 2, 2]))
        self.assertEqual(
            told['node_list'][1],
            {'node': 1, 'vertex': 2, 'first_member': None, 'state': 'grow', 'parent': None, 'dual': 2},
        )
        again = card('run', '-', given=said)
        self.assertEqual(again[:2], card('run', 'examples/p1.txt')[:2])  # a run in JSON is a script again

    @needs_library
    def test_100000_calls_or_edges_take_seconds(self):
        calls = self.path('calls.txt', ROW + 'defect 35 grow\n' + 'grow 0 2\ngrow 0 -2\n' * 50000)
        edges = self.path(
            'edges.txt',
            'graph 1000 100000\n' + ''.join(f'edge {i % 999} {i % 999 + 1} 10\n' for i in range(100000)) + 'table',
        )
        for words, status in ((('run', calls), 0), (('check', calls), 0), (('run', edges), 1), (('encode', edges), 0)):
            start = time.time()
            self.assertEqual(card(*words)[0], status)
            self.assertLess(time.time() - start, 20, words)


def run_of(given):
    from cardtool.files import script_from

    return run.Run(script_from(given))


if __name__ == '__main__':
    unittest.main()
