#!/usr/bin/env python3
"""The independent check: tables from distances, captured tables, derivations, and what is not covered."""
import json
import unittest

from common import P, InFolder, card, needs_library
from cardtool import distances, faults
import random_runs

GROWN = P + 'defect 1 grow; defect 2 grow; grow 0 2; grow 1 2\n'
COVERS = 'Covered are runs without blossoms on graphs without weights of 0.\n'
WRONG = (
    '''2 defects, 2 with a dual variable above 0, the greatest 2
1 of 3 edges of the table that was captured is not as distances and dual variables give:
edge 1, 1-2, weight 4
  left, at 1: expected 2, found 2
    defect 1 (node 0): dual variable 2
    d(1,1) = 0: 1
    d(1,2) = 4: 1 -4- 2
    2 is farther by the whole weight: the smaller of 2 - 0 = 2 and 4
  right, at 2: expected 2, found 3   <-- differs
    defect 2 (node 1): dual variable 2
    d(2,2) = 0: 2
    d(2,1) = 4: 2 -4- 1
    1 is farther by the whole weight: the smaller of 2 - 0 = 2 and 4
'''
    + COVERS
)


def slow_table(vertices, edges, duals):
    """The table by distances of all pairs (Floyd and Warshall), the rule written out once more."""
    far = 10**12
    d = [[0 if i == j else far for j in range(vertices)] for i in range(vertices)]
    for a, b, w in edges:
        d[a][b] = d[b][a] = min(d[a][b], w)
    for k in range(vertices):
        for i in range(vertices):
            for j in range(vertices):
                d[i][j] = min(d[i][j], d[i][k] + d[k][j])

    def growth(u, v, w):
        for a, y in duals.items():
            if y > d[a][u]:
                g = y - d[a][u]
                return min(g, w) if d[a][v] == d[a][u] + w else 0 if d[a][u] == d[a][v] + w else g
        return 0

    return [(growth(a, b, w), growth(b, a, w)) for a, b, w in edges]


class Distances(unittest.TestCase):
    def test_against_distances_of_all_pairs(self):
        import random

        rng = random.Random(5)
        for _ in range(60):
            count = rng.randint(2, 25)
            edges = [(v, rng.randrange(v), rng.randint(1, 9)) for v in range(1, count)]
            edges += [(*rng.sample(range(count), 2), rng.randint(1, 9)) for _ in range(rng.randint(0, count))]
            duals = {rng.randrange(count): rng.randint(0, 25)}
            self.assertEqual(distances.Distances(count, edges, duals).table(), slow_table(count, edges, duals))

    def test_dual_variables_that_are_not_feasible(self):
        row = [(0, 1, 4), (1, 2, 4), (2, 3, 4)]
        with self.assertRaises(faults.NotCovered) as caught:
            distances.Distances(4, row, {1: 3, 2: 2})
        self.assertEqual(
            str(caught.exception),
            'dual variables 3 and 2 of the defects at 1 and 2 sum to more than their distance 4: not feasible',
        )
        with self.assertRaises(faults.NotCovered) as caught:
            distances.Distances(4, row, {1: 5}, {0, 3})
        self.assertEqual(
            str(caught.exception),
            'dual variable 5 of the defect at 1 is above its distance 4 to virtual vertex 0: not feasible',
        )


@needs_library
class Check(InFolder):
    def test_examples_are_equal(self):
        for name in ('p1', 'p2', 'p3', 'p4', 'p5', 'p6', 'p7', 'p8', 'p9', 'surface3'):
            status, said, wrong = card('check', f'examples/{name}.txt')
            self.assertEqual((status, wrong), (0, ''), name)
            self.assertIn('equal: the table that the library read', said)

    def test_a_wrong_number_is_found_and_named(self):
        for table in (
            'edge,left,right\n0,0,2\n1,2,3\n2,2,0\n',
            '13 edge 0 0 2\n13 edge 1 2 3\n13 edge 2 2 0\n',
            '0 0 2\n1\t2\t3\n\n2; 2; 0\n',
            '[[0, 0, 2], [1, 2, 3], [2, 2, 0]]',
            json.dumps(
                {'table': [{'edge': e, 'left': x, 'right': y} for e, x, y in ((0, 0, 2), (1, 2, 3), (2, 2, 0))]}
            ),
        ):
            self.assertEqual(card('check', '-', '--table', self.path('t', table), given=GROWN), (1, WRONG, ''), table)

    def test_a_table_that_was_written_by_the_tool_is_equal(self):
        for words in ((), ('--json',)):
            out = self.path('t')
            self.assertEqual(card('table', '-', '-o', out, *words, given=GROWN)[0], 0)
            status, said, _ = card('check', '-', '--table', out, given=GROWN)
            self.assertEqual(
                (status, said.splitlines()[1]),
                (0, 'equal: the table that was captured, 3 edges, is the one from distances and dual variables'),
            )

    def test_a_part_of_a_table_and_exchanged_sides(self):
        status, said, _ = card('check', '-', '--table', self.path('t', '1 2 2\n'), given=GROWN)
        self.assertEqual(status, 0)
        self.assertIn('2 of 3 edges are not in the table', said)
        status, said, _ = card('check', '-', '--table', self.path('t', '0 2 0\n1 2 2\n2 0 2\n'), given=GROWN)
        self.assertEqual(status, 1)
        self.assertIn('On 2 of them left and right are exchanged; other decoders may sort the ends of an edge.', said)

    def test_bad_tables_are_refused_with_their_line(self):
        for table, reason in (
            ('0 0\n', ":1: a row is edge, left, right, not '0 0'"),
            ('edge,left,right\n3,0,0\n', ':2: edge 3: the graph has 0 to 2'),
            ('0 0 0\n0 0 0', ':2: edge 0 a second time'),
            ('# nothing\n', ': no row is in it'),
            ('[[0, 0, 1.5]]', ': table[0]: a row is edge, left, right, not [0, 0, 1.5]'),
            ('{"tables": []}', ': no table in JSON: a list of rows, or an object with "table"'),
            ('[', ':1: not JSON: Expecting value'),
        ):
            path = self.path('t', table)
            self.assertEqual(card('check', '-', '--table', path, given=GROWN)[::2], (2, path + reason + '\n'))

    def test_dual_variables_from_elsewhere(self):
        for duals, status in (('vertex,dual\n1,2\n2,2\n', 0), ('1 2\n2 1\n', 1), ('{"duals": [[1, 3], [2, 2]]}', 3)):
            words = ('check', '-', '--table', self.path('t', '0 0 2\n1 2 2\n2 2 0\n'), '--duals', self.path('y', duals))
            self.assertEqual(card(*words, given=P, environment={'FUSION_BLOSSOM_LIBRARY': 'none'})[0], status, duals)
        for duals, reason in (
            ('0,1\n', ':1: vertex 0 is virtual, or not in the graph'),
            ('1,-1\n', ':1: dual variable -1 is below 0'),
            ('1,1\n1,1\n', ':2: vertex 1 a second time'),
        ):
            path = self.path('y', duals)
            self.assertEqual(
                card('check', '-', '--table', self.path('t', '0 0 2\n'), '--duals', path, given=P)[::2],
                (2, path + reason + '\n'),
            )
        self.assertEqual(
            card('check', '-', '--duals', self.path('y', '1 2\n'), given=P)[::2],
            (2, 'standard input: dual variables from elsewhere are for a table from elsewhere: --table\n'),
        )

    def test_what_is_not_covered_is_said(self):
        blossom = 'graph 4 4\nedge 0 1 2; edge 1 2 2; edge 0 2 2; edge 2 3 8\nvirtual 3\n'
        blossom += 'defect 0 grow; defect 1 grow; defect 2 grow\nblossom grow 0 1 2\n'
        for given, line, reason in (
            (blossom, 5, 'a blossom was accepted: the table from distances covers defects alone'),
            (
                'graph 2 1\nedge 0 1 0\ndefect 0 grow',
                2,
                'edge 0 has weight 0: the table from distances covers weights above 0',
            ),
        ):
            for words in (('check', '-'), ('explain', '-', '0')):
                self.assertEqual(card(*words, given=given), (3, '', f'standard input:{line}: {reason}\n'))
        self.assertEqual(
            card('check', '-', given=blossom + 'clear; defect 0 grow; advance 0')[0], 0
        )  # a clear removes it

    def test_explain(self):
        status, said, _ = card('explain', 'examples/p9.txt', '2')
        self.assertEqual(
            (status, said.splitlines()[:6]),
            (
                0,
                [
                    'edge 2, 1-2, weight 2',
                    '  left, at 1: expected 3, found 3',
                    '    defect 0 (node 0): dual variable 5',
                    '    d(0,1) = 2: 0 -2- 1',
                    '    d(0,2) = 2: 0 -2- 2',
                    '    2 is neither farther nor nearer by the whole weight: 5 - 2 = 3',
                ],
            ),
        )
        self.assertIn(
            '    defect 1 (node 0): dual variable 2, not above d(1,0) = 4\n', card('explain', '-', '0', given=GROWN)[1]
        )
        self.assertEqual(
            card('explain', '-', '3', given=GROWN)[::2], (2, 'standard input: edge 3: the graph has 0 to 2\n')
        )
        self.assertIn('no defect is in reach', card('explain', '-', '0', given=P)[1])

    def test_a_refused_opening(self):
        self.assertEqual(
            card('check', '-', given='graph 2 1\nedge 0 1 1000001')[::2],
            (1, 'standard input:2: refused 4: edge 0 has weight 1000001; 0 to 1000000 can be\n'),
        )

    def test_random_runs(self):
        for vertices, calls, grown, equal, noticed in random_runs.many(12, seed=2):
            self.assertTrue(equal)
            self.assertEqual(noticed, random_runs.FAULTS)


if __name__ == '__main__':
    unittest.main()
