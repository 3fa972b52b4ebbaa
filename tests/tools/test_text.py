#!/usr/bin/env python3
"""The text form and records: what is read, what is refused, and that one leads to the other."""
import unittest

from common import P, card
from cardtool import faults, records, text
import model

BAD = [
    # text, line, reason
    ('edgee 0 1 4', 1, "unknown word 'edgee'; did you mean 'edge'?"),
    (P + 'xyzzy', 4, "unknown word 'xyzzy'"),
    ('graph 4', 1, 'graph takes V E, and N L where wanted; here stands 1'),
    ('graph 4 3 4 40 1', 1, 'graph takes V E, and N L where wanted; here stand 5'),
    ('graph 4 3 4 40\nedge 0 1', 2, 'edge takes left right weight; here stand 2'),
    ('graph 4 3 4 40\nedge 0 1 4 # good\n\nedge 1 2 4 4', 4, 'edge takes left right weight; here stand 4'),
    (P + 'table 1', 4, 'table takes nothing; here stands 1'),
    ('graph 4 3 4 40\nedge 0 one 4', 2, "right is a whole number, not 'one'"),
    ('graph 4 3 4 40; edge 0 1 2.5', 1, "weight is a whole number, not '2.5'"),
    (P + 'grow 0 4000000000', 4, 'length 4000000000 does not fit into 4 signed bytes'),
    (P + 'grow 0 ' + '9' * 6000, 4, 'length ' + '9' * 60 + '... does not fit into 4 signed bytes'),
    (P + 'defect 1 growing', 4, "state is stay, grow or shrink, not 'growing'"),
    (P + 'defect 1 grow\nprepare 0 stay', 5, "direction is shrink or grow, not 'stay'"),
    (P + 'defect 1 grow\nlength 0 grow first', 5, "behind the direction stands 'prepared' or nothing, not 'first'"),
    (P + 'defect 1 grow\nlength 0 grow 2', 5, 'prepared is 1 or 0, not 2'),
    (P + 'blossom', 4, 'blossom takes state node ...; here stands nothing'),
    ('# a graph is missing\nedge 0 1 4', 2, 'edge before the graph: the first word is graph'),
    (P + 'graph 4 3 4 40', 4, 'a second graph (the first stands in line 1)'),
    (P + 'table\nedge 0 2 4', 5, 'edge behind the first call (line 4), which opened the graph'),
    (P + 'defect 1 grow; clear\nvirtual 1', 5, 'virtual behind the first call (line 4), which opened the graph'),
    (P + 'bytes 0g', 4, 'bytes takes pairs of hexadecimal digits'),
    (P + 'bytes 020', 4, 'bytes takes pairs of hexadecimal digits'),
    (P + 'at 4 0 0', 4, 'at names vertex 4; the graph has 0 to 3'),
    (P + 'at 1 0 0; at 1 2 0', 4, 'vertex 1 has a place already'),
    (P + 'at 1 nan 0', 4, "x, y and layer are decimals below 1000000, not 'nan'"),
    (P + 'at 1 0', 4, 'at takes vertex x y, and a layer where wanted'),
    (P + 'observable', 4, 'observable takes its number and edges'),
    (P + 'table →', 4, "no answer behind the arrow; 'nothing' is for a call without lines"),
    (P + '→ node 0', 4, 'an answer without a call'),
    (P.encode() + b'defect 1 gr\xf6w', 4, 'not text: byte 0xf6 is not UTF-8'),
    ('# nothing but a comment\n', None, 'nothing is in it: the first word is graph'),
]
ILL = [
    # bytes behind graph P, offset, reason
    ('02000e00', 0, 'unknown kind 14'),
    ('06000a0005000000', 0, '4 bytes of fields; table has 0'),
    ('02000500', 0, '0 bytes of fields; blossom has 4 or more'),
    ('0e000800000000000100000002000000', 0, 'the field for preparing is 2, not 1 or 0'),
    ('12000100' + '01000000' * 4, 0, 'a second graph'),
    ('02000a00' + '0600030000000000', 4, 'virtual behind the first call'),
    ('0100ff', 0, 'a length of 1 leaves no room for the kind'),
    ('02', 0, 'the input ends inside a record, after 1 byte of its length'),
    ('0a000900', 0, 'the input ends inside a record: 2 of 10 bytes are there'),
]


class Text(unittest.TestCase):
    def test_every_stream_comes_back_from_its_text(self):
        for given, _ in model.frames():
            lines = '\n'.join(records.lines(given)).encode()
            self.assertEqual(text.parse(lines).records(), given, lines.decode())

    def test_decode_and_encode_as_commands(self):
        for given, _ in list(model.frames())[:3]:
            status, lines, _ = card('decode', '-', given=given)
            self.assertEqual(status, 0)
            r = card('encode', '-', given=lines)
            self.assertEqual((r[0], r[2]), (0, ''))

    def test_words_and_numbers_are_the_same_records(self):
        words = (
            P + 'defect 1 Grow; blossom stay 0 1 2; state 0 shrink; prepare 0 grow; length 0 shrink;'
            'length 0 grow prepared; grow 0 -4'
        )
        numbers = (
            P
            + 'defect 1 1; blossom 0 0 1 2; state 0 2; prepare 0 1; length 0 0 0; length 0 1 1; grow 0 -4\r\nat 2 1.5 -3'
        )
        self.assertEqual(text.parse(words.encode()).records(), text.parse(numbers.encode()).records())

    def test_bad_text_is_refused_with_its_line(self):
        for given, line, reason in BAD:
            with self.assertRaises(faults.BadInput) as caught:
                text.parse(given if isinstance(given, bytes) else given.encode())
            self.assertEqual((caught.exception.line, str(caught.exception)), (line, reason))

    def test_every_command_says_where_text_is_bad(self):
        for command in ('run', 'encode', 'draw', 'page', 'check', 'table', 'match'):
            status, said, wrong = card(command, '-', given=P + 'xyzzy')
            self.assertEqual((status, said, wrong), (2, '', "standard input:4: unknown word 'xyzzy'\n"), command)

    def test_sizes_may_be_left_out(self):
        script = text.parse(
            b'graph 4 3\nedge 0 1 4; edge 1 2 4; edge 2 3 4\ndefect 1 grow; clear; defect 1 grow; defect 2 grow'
        )
        self.assertEqual((script.graph.N, script.graph.L, script.graph.worked_out), (2, 20, ['N', 'L']))
        script = text.parse(b'graph 4 3 7\nedge 0 1 4; edge 1 2 4; edge 2 3 4\nblossom grow 0 1 2')
        self.assertEqual((script.graph.N, script.graph.L, script.graph.worked_out), (7, 60, ['L']))
        self.assertEqual(script.items[0].text(), 'graph 4 3 7 60')

    def test_ill_formed_records_are_shown(self):
        start = text.parse(P.encode()).records()
        for given, offset, reason in ILL:
            data = start + bytes.fromhex(given)
            lines = list(records.lines(data))
            note = f'  # offset {len(start) + offset}: ill-formed: {reason}'
            self.assertTrue(any(x.startswith('bytes ') and x.endswith(note) for x in lines), (lines, note))
            self.assertEqual(text.parse('\n'.join(lines).encode()).records(), data)
        self.assertIn('ill-formed: table before the graph', '\n'.join(records.lines(bytes.fromhex('02000a00'))))

    def test_what_is_no_record_is_named(self):
        self.assertEqual(
            card('encode', '-', given=P + 'defect 1 grow\nrepresentative 0')[::2],
            (2, 'standard input:5: representative is no record: only the library has it\n'),
        )
        self.assertEqual(
            card('encode', '-', given=P + 'blossom stay' + ' 1' * 16383)[::2],
            (2, 'standard input:4: a record of 65538 bytes: at most 65535 can be\n'),
        )
        given = text.parse(P.encode()).records()
        self.assertEqual(card('encode', '-', given=given)[::2], (2, 'standard input: these are records already\n'))
        self.assertEqual(
            card('decode', '-', given=P)[::2], (1, 'standard input: these are no records; text is run as it is\n')
        )


if __name__ == '__main__':
    unittest.main()
