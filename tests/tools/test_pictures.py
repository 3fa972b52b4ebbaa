#!/usr/bin/env python3
"""Pictures: those of the examples, growth in proportion, clusters and their colours, large graphs, and how drawing
ends.
"""
import glob
import math
import os
import re
import time
import unittest
from xml.etree import ElementTree

from common import P, TOP, InFolder, card, content, needs_library
from cardtool import colours

SVG = '{http://www.w3.org/2000/svg}'


def bars(svg, colour):
    """The lines of a colour, as lists of points."""
    lines = [p for p in ElementTree.fromstring(svg).iter(SVG + 'polyline') if p.get('stroke') == colour]
    return [[tuple(map(float, q.split(','))) for q in p.get('points').split()] for p in lines]


def words(svg):
    return [t.text for t in ElementTree.fromstring(svg).iter(SVG + 'text')]


def length(points):
    return round(math.dist(points[0], points[-1]), 1)


@needs_library
class Pictures(InFolder):
    def drawn(self, given, *more):
        """The picture of a text, and status and complaint."""
        out = self.path('out.svg')
        if os.path.exists(out):
            os.remove(out)
        status, said, wrong = card('draw', '-', '-o', out, *more, given=given)
        return (content(out) if os.path.exists(out) else None), status, wrong

    def test_examples_are_drawn_as_they_stand(self):
        for svg in glob.glob(os.path.join(TOP, 'examples', '*.svg')):
            out = self.path('out.svg')
            self.assertEqual(card('draw', svg[:-3] + 'txt', '-o', out), (0, '', ''))
            self.assertEqual(content(out), content(svg), svg)

    def test_growth_is_drawn_in_proportion(self):
        svg = content('examples', 'p1.svg')
        one, two = bars(svg, colours.of_node(0)[0]), bars(svg, colours.of_node(1)[0])
        self.assertEqual(
            [length(p) for p in one[:2] + two[:2]], [80.0] * 4
        )  # 2 of 4 units at both defects, a unit having 40
        self.assertEqual(one[1][-1], two[0][0])  # they meet
        over = bars(content('examples', 'p9.svg'), colours.OVER)
        self.assertEqual(length(over[0]), length(over[1]))
        self.assertIn('2, inner', words(content('examples', 'p9.svg')))

    def test_odd_graphs(self):
        title = '# a < b & "c" \x1b]]>\n'
        for given in (
            'graph 3 4 4 90; edge 0 1 0; edge 0 1 3; edge 1 0 5; edge 1 2 1000000; defect 0 grow; grow 0 1',
            'graph 1 1\nedge 0 0 1',
            'graph 2 1\nedge 0 1 0',
            'graph 5 2\nedge 0 1 4; edge 2 3 4\ndefect 0 grow; advance 0',
            'graph 2 1\nedge 0 1 4\nat 0 0 0; at 1 0 0',
        ):
            svg, status, wrong = self.drawn(title + given)
            if 'edge 0 0' in given:
                self.assertEqual(
                    (svg, status, wrong),
                    (
                        None,
                        1,
                        'standard input:3: no table: the opening is refused 4: edge 0 has vertex 0 at both ends\n',
                    ),
                )
            else:
                self.assertEqual((status, wrong), (0, ''), given)
                self.assertIn('a < b & "c" ?]]>', words(svg))

    def test_no_picture_without_a_table_or_a_place(self):
        self.assertEqual(
            self.drawn(P.replace('4 3 4 40', '4 2 4 40')),
            (None, 1, 'standard input:1: no table: the opening is refused 4: E is 2, and 3 edges are given\n'),
        )
        self.assertEqual(
            self.drawn(P + 'at 0 0 0; at 2 8 0'),
            (None, 2, 'standard input: no place for vertex 1: at is given for 2 of 4 vertices\n'),
        )

    def test_after_refused_calls_the_picture_says_so(self):
        svg, status, wrong = self.drawn(P + 'defect 1 grow\ndefect 1 grow\ngrow 0 9')
        self.assertEqual(
            (status, wrong),
            (
                1,
                'standard input:5: refused 5: the vertex is virtual, a defect, held, or has a held side\n'
                'standard input:6: refused 10: an edge that this node does not hold on both sides would pass its weight\n',
            ),
        )
        self.assertIn('2 calls refused, or not answered as expected.', words(svg))

    def test_without_the_library_growth_is_drawn_without_clusters(self):
        out = self.path('out.svg')
        self.assertEqual(
            card('draw', 'examples/p1.txt', '-o', out, environment={'FUSION_BLOSSOM_LIBRARY': 'none'}), (0, '', '')
        )
        self.assertEqual([length(p) for p in bars(content(out), colours.UNKNOWN)][:4], [80.0] * 4)

    def test_blossoms_are_nested(self):
        svg = ElementTree.fromstring(content('examples', 'nested.svg'))
        nests = [p for p in svg.iter(SVG + 'path') if p.get('fill-opacity')]
        box = lambda p: [
            f(float(x) for x in re.findall(r'[-0-9.]+', p.get('d'))[k::2]) for f in (min, max) for k in (0, 1)
        ]
        (a, b, c, d), (x, y, u, v) = map(box, nests)  # the outer one is drawn first
        self.assertTrue(a < x and b < y and c > u and d > v)

    def test_an_opened_blossom_has_no_outline_and_a_word(self):
        svg = content('examples', 'opened.svg')
        nests = [p for p in ElementTree.fromstring(svg).iter(SVG + 'path') if p.get('fill-opacity')]
        self.assertEqual(len(nests), 1)  # around node 3, which lay in node 6
        said = words(svg)
        self.assertIn('Node 6 was a blossom and has been opened.', said)
        self.assertTrue(any(w.startswith('node 3: blossom of 0, 1, 2, dual variable') for w in said))
        self.assertFalse(any(w.startswith('node 6:') for w in said))

    def test_a_changed_weight_stands_beside_the_one_of_the_opening(self):
        said = words(content('examples', 'erased.svg'))
        for word, times in (('0 (opened 4)', 1), ('6 (opened 4)', 1)):
            self.assertEqual(said.count(word), times, word)


@needs_library
class Large(InFolder):
    def setUp(self):
        super().setUp()
        self.patch, self.shot, self.out = self.path('patch.txt'), self.path('shot.txt'), self.path('out.svg')
        card('import', 'examples/patch15.dem', '--shots', 'examples/patch15.01', '--greatest', '100', '-o', self.patch)
        card('match', self.patch, '-o', self.shot)

    def test_a_patch_of_distance_15(self):
        start = time.time()
        self.assertEqual(card('draw', self.shot, '-o', self.out), (0, '', ''))
        self.assertLess(time.time() - start, 6)  # under 2 on an idle machine
        svg = content(self.out)
        said = words(svg)
        clusters = [
            w for w in said if re.fullmatch(r'node \d+: defect \d+, dual variable \d+, \d+ (vertex|vertices)', w)
        ]
        self.assertEqual(len(clusters), 50)
        swatches = [r.get('fill') for r in ElementTree.fromstring(svg).iter(SVG + 'rect') if r.get('rx')]
        self.assertEqual(len(set(swatches)), 50)  # each its own colour
        self.assertEqual([w for w in said if w.startswith('layer')], [f'layer {k}' for k in range(8)])
        self.assertTrue({str(v) for v in range(896)} <= set(said))

    def test_labels_do_not_cover_each_other(self):
        card('draw', self.shot, '-o', self.out)
        boxes = []
        for t in ElementTree.fromstring(content(self.out)).iter(SVG + 'text'):
            if t.get('paint-order'):
                x, y, size = float(t.get('x')), float(t.get('y')), float(t.get('font-size'))
                wide = 0.62 * size * len(t.text)
                boxes.append((x - wide / 2, y - size, x + wide / 2, y))
        self.assertGreater(len(boxes), 300)
        boxes.sort()
        covered = 0
        for k, (a, b, c, d) in enumerate(boxes):
            for x, y, u, v in boxes[k + 1 :]:
                if x >= c:
                    break
                covered += min(c, u) - x > 2 and min(d, v) - max(b, y) > 2
        self.assertLess(covered, len(boxes) / 50)

    def test_1000_vertices_without_places(self):
        rows = 31
        edges = [(r * rows + c, r * rows + c + 1) for r in range(rows) for c in range(rows - 1)] + [
            (r * rows + c, r * rows + rows + c) for r in range(rows - 1) for c in range(rows)
        ]
        given = (
            f'graph {rows * rows} {len(edges)}\n'
            + '\n'.join(f'edge {a} {b} 10' for a, b in edges)
            + '\ndefect 480 grow\n'
            + 'advance 0\n' * 3
        )
        chain = (
            'graph 1000 999\n'
            + '\n'.join(f'edge {i} {i + 1} 10' for i in range(999))
            + '\nvirtual 0\ndefect 500 grow\nadvance 0\nadvance 0'
        )
        hub = (
            'graph 300 299\n'
            + '\n'.join(f'edge 0 {i} 10' for i in range(1, 300))
            + '\nvirtual 0\ndefect 5 grow\nadvance 0'
        )
        for text in (given, chain, hub):
            start = time.time()
            self.assertEqual(card('draw', '-', '-o', self.out, given=text), (0, '', ''))
            self.assertLess(time.time() - start, 6)
            ElementTree.fromstring(content(self.out))


if __name__ == '__main__':
    unittest.main()
