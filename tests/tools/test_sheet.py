#!/usr/bin/env python3
"""Weights in decimals: sheets in text, in JSON and from detector error models."""
import json
import unittest

from common import InFolder, card, content, needs_library
from cardtool import dem, dem_graph, faults, records, text
from cardtool.write_text import text_of

ROW = 'graph 4 3\nedge 0 1; edge 1 2; edge 2 3\nvirtual 0; virtual 3\n'
OUTSIDE = 'until reweighted, the graph lies outside the table equality\n'
BAD = [
    # text, line, reason
    (ROW + 'sheet 1 2 3.00001', 4, '3.00001 has 5 decimal places: at most four can be'),
    (ROW + 'sheet 1\nsheet -0.0001', 5, '-0.0001 is out of range: 0 to 99999.9999 can be'),
    (ROW + 'sheet 1 2 100000', 4, '100000 is out of range: 0 to 99999.9999 can be'),
    (ROW + 'sheet one', 4, "'one' is no decimal"),
    (ROW + 'sheet', 4, 'sheet takes decimals'),
    (ROW + 'sheet 1 2 3 → done', 4, 'an answer without a call'),
    ('sheet 1\n' + ROW, 1, 'sheet before the graph: the first word is graph'),
    (ROW + 'sheet 1 2 3\ntable\nsheet 4', 6, 'sheet behind the first call (line 5), which opened the graph'),
    (ROW + 'table', 2, 'edge takes left right weight; here stand 2'),
    ('graph 2 1\nedge 0 1 4\nsheet 1', 2, 'an edge with a weight beside a sheet, which has the weights'),
    (ROW + 'sheet 1 2 3\nbytes 00', 4, 'bytes are for the program, which takes no sheet'),
]
REFUSED = [
    # text, line, what is refused
    (ROW + 'sheet 0 0.0000 0\ntable', 4, 'refused 17: no value of the sheet is positive'),
    (ROW + 'sheet 1 2\ntable', 4, 'refused 1: E is 3, and the sheet has 2 values'),
    (ROW + 'edge 0 2\nsheet 1 2\ntable', 1, 'refused 4: E is 3, and 4 edges are given'),
    (ROW + 'virtual 4\nsheet 0 0 0\ntable', 4, 'refused 3: virtual names vertex 4; the graph has 0 to 3'),
    ('graph 2 1\nedge 0 0\nsheet 0\ntable', 2, 'refused 4: edge 0 has vertex 0 at both ends'),
]


class Text(unittest.TestCase):
    def test_what_is_no_sheet(self):
        for data, line, reason in BAD:
            with self.assertRaises(faults.BadInput) as caught:
                text.parse(data.encode())
            self.assertEqual((caught.exception.line, str(caught.exception)), (line, reason))
        status, out, err = card('run', '-', given=BAD[0][0])
        self.assertEqual((status, out, err), (2, '', f'standard input:4: {BAD[0][2]}\n'))

    def test_it_comes_back_from_its_text(self):
        script = text.parse((ROW + 'sheet 0.5 00012.1000\nsheet 99999.9999\ndefect 1 grow').encode())
        self.assertEqual([v for v, _ in script.sheet], [5_000, 121_000, 999_999_999])
        again = text_of(script)
        self.assertIn('edge 0 1; edge 1 2; edge 2 3\nsheet 0.5 12.1 99999.9999\n', again)
        self.assertEqual(text_of(text.parse(again.encode())), again)

    def test_without_the_library(self):
        gone = {'FUSION_BLOSSOM_LIBRARY': '/no/such/library.so'}
        status, _, err = card('run', '-', given=ROW + 'sheet 1 2 3\ntable', environment=gone)
        self.assertEqual(status, 1)
        self.assertTrue(err.startswith('standard input:4: the weights of a sheet are made by the library: '), err)


@needs_library
class Runs(InFolder):
    def test_a_run_says_what_became_of_the_values(self):
        given = ROW + 'sheet 1.5 0.75 3\ndefect 1 grow\nlength 0 grow prepared\ntable'
        status, out, err = card('run', '-', given=given)
        said = 'sheet: 3 values, the largest, 3, becomes 1000000; 0 positive ones become 0\n'
        self.assertEqual((status, err), (0, said))
        self.assertIn('run by the library', out)
        self.assertIn('→ free 250000 0', out)
        self.assertIn('0-1: 0 and 0 of 500000', out)

    def test_values_that_vanish(self):
        given = ROW + 'sheet 0.0001 99999.9999 0\ndefect 1 grow'
        said = 'sheet: 3 values, the largest, 99999.9999, becomes 1000000; '
        said += '1 positive one becomes 0, 1 is 0 in the sheet: ' + OUTSIDE
        status, _, err = card('run', '-', given=given)
        self.assertEqual((status, err), (0, said))
        status, _, err = card('check', '-', given=given)
        self.assertEqual(status, 3)
        zero = 'standard input:2: edge 0 has weight 0: the table from distances covers weights above 0\n'
        self.assertEqual(err, said + zero)

    def test_a_sheet_without_zeros_is_covered(self):
        given = ROW + 'sheet 0.1 0.2 0.3\ndefect 1 grow; defect 2 grow; grow 0 1000; advance 1'
        status, out, _ = card('check', '-', given=given)
        self.assertEqual(status, 0)
        self.assertIn('equal: the table that the library read, 3 edges,', out)

    def test_refused_openings(self):
        for given, line, what in REFUSED:
            status, out, err = card('run', '-', given=given)
            self.assertEqual((status, err), (1, f'standard input:{line}: {what}\n'))
            self.assertIn('not made: the opening was refused', out)
            status, _, err = card('encode', '-', '-o', self.path('none'), given=given)
            self.assertEqual((status, err), (1, f'standard input:{line}: no weights for the records: {what}\n'))

    def test_records_have_the_weights(self):
        path = self.path('records')
        self.assertEqual(card('encode', '-', '-o', path, given=ROW + 'sheet 1.5 0.75 3\ntable')[0], 0)
        with open(path, 'rb') as f:
            lines = list(records.lines(f.read()))
        self.assertEqual(lines[1:4], ['edge 0 1 500000', 'edge 1 2 250000', 'edge 2 3 1000000'])

    def test_json(self):
        given = {'form': 'card 1', 'vertices': 3, 'edges': [[0, 1], [1, 2]], 'virtual': [2], 'calls': ['defect 0 grow']}
        for sheet in (['0.0001', '99999.9999'], [0.0001, 99999.9999]):
            status, out, err = card('run', '-', '--json', given=json.dumps({**given, 'sheet': sheet}))
            got = json.loads(out)
            self.assertEqual((status, got['sheet']), (0, ['0.0001', '99999.9999']))
            self.assertEqual((got['weights'], got['vanished']), ([0, 1_000_000], 1))
            self.assertTrue(err.endswith(OUTSIDE))
            self.assertEqual(json.loads(card('run', '-', '--json', given=out)[1]), got)
        for sheet, err in (
            ([1, 0.00001], 'sheet[1]: \'1e-05\' is no decimal'),
            ([1, True], 'sheet[1]: a decimal, as a string or a number'),
            ([], 'sheet: a decimal for each edge'),
            (['1.00000', '2'], 'sheet[0]: 1.00000 has 5 decimal places: at most four can be'),
        ):
            status, _, said = card('run', '-', given=json.dumps({**given, 'sheet': sheet}))
            self.assertEqual((status, said), (2, f'standard input: {err}\n'))


class Imports(InFolder):
    def test_weights_of_a_model(self):
        model = dem.read(content('tests', 'dem', 'repetition5.dem'))
        script, notes = dem_graph.script(model, sheet=True)
        script.settle()
        self.assertEqual([v for v, _ in script.sheet][:6], [21_972, 45_951, 45_951, 45_951, 21_972, 29_444])
        self.assertIn('sheet: 23 values, the largest, 4.5951, becomes 1000000; 0 positive ones become 0', notes.lines)
        self.assertEqual(text_of(text.parse(text_of(script).encode())).count('sheet 2.1972 4.5951 4.5951'), 1)

    def test_values_that_would_vanish(self):
        model = dem.read(b'error(0.499975) D0 D1\nerror(1e-60) D0\nerror(0.5) D2 D1\nerror(0.3) D2')
        _, notes = dem_graph.script(model, sheet=True)
        self.assertIn('1 positive one becomes 0, 1 is 0 in the sheet: ', '\n'.join(notes.lines))

    def test_what_cannot_be(self):
        model = dem.read(b'error(0.4999999) D0')
        for greatest, reason in (
            (100, '--greatest beside --sheet: of a sheet the greatest weight becomes 1000000'),
            (1_000_000, 'in four decimal places there is no weight above 0'),
        ):
            with self.assertRaises(faults.BadInput) as caught:
                dem_graph.script(model, greatest, sheet=True)
            self.assertEqual(str(caught.exception), reason)

    @needs_library
    def test_it_runs(self):
        path = self.path('five.txt')
        self.assertEqual(card('import', 'tests/dem/repetition5.dem', '--sheet', '--fired', '1,2', '-o', path)[0], 0)
        status, out, _ = card('match', path)
        self.assertEqual((status, out.splitlines()[1][:14]), (0, 'cost 1000000; '))


if __name__ == '__main__':
    unittest.main()
