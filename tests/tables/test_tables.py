#!/usr/bin/env python3
"""The program tablecheck against an independent reading of docs/SPECIFICATION.md 17: stored tables, random runs and
tables spoiled at one place, files cut or filled with noise; the tool and the exported call against the same.

    tests/tables/test_tables.py            in seconds
    tests/tables/test_tables.py 100000     so many random tables
"""
import os
import random
import subprocess
import sys
import tempfile
import unittest

HERE = os.path.dirname(os.path.abspath(__file__))
ROOT = os.path.dirname(os.path.dirname(HERE))
sys.dont_write_bytecode = True
sys.path[:0] = [HERE, os.path.join(ROOT, 'tools'), os.path.join(ROOT, 'python')]
import cases  # noqa: E402
import cluster_growth  # noqa: E402
import reading  # noqa: E402
from cardtool import table_file  # noqa: E402

PROGRAM = os.path.join(ROOT, 'target', 'bin', 'tablecheck')
STORED = os.path.join(ROOT, 'crates', 'tablecheck')
COUNT = 3000


def told(data):
    """The lines of the program; it must end well, whatever it reads."""
    done = subprocess.run([PROGRAM], input=data, stdout=subprocess.PIPE, stderr=subprocess.PIPE, timeout=600)
    assert done.returncode == 0 and not done.stderr, (done.returncode, done.stderr)
    return done.stdout.decode().splitlines()


def compare(case, tables):
    """Every table gets from the program what the reading says. How often each verdict came."""
    tables = list(tables)
    wanted = [f'{k} {reading.verdict(*t)}' for k, t in enumerate(tables, 1)]
    case.assertEqual(told(b''.join(reading.words(*t) for t in tables)), wanted)
    return {word: sum(line.split(' ', 1)[1] == word for line in wanted) for word in ('yes', 'no', 'refused 4')}


class Reading(unittest.TestCase):
    def test_worked_examples_are_yes(self):
        for example in (cases.P1, cases.P8, cases.P9):
            self.assertEqual(reading.verdict(*cases.worked(*example)), 'yes')

    def test_runs_of_the_model_are_yes(self):
        rng = random.Random(13)
        for _ in range(300):
            self.assertEqual(reading.verdict(*cases.random_run(rng)), 'yes')

    def test_planted_faults_are_no(self):
        rng, seen = random.Random(7), 0
        for _ in range(400):
            t = cases.random_run(rng)
            for broken in (cases.capped_twice_held, cases.halved_stay_gap, cases.one_edge_dropped):
                b = broken(t)
                if b != t:
                    seen += 1
                    self.assertEqual(reading.verdict(*b), 'no')
        self.assertGreater(seen, 300)

    def test_stored_lines(self):
        data = cases.file()
        with open(os.path.join(STORED, 'stdin'), 'rb') as f:
            self.assertEqual(f.read(), data)
        with open(os.path.join(STORED, 'stdout')) as f:
            self.assertEqual(f.read().splitlines(), list(reading.lines(data)))


@unittest.skipUnless(os.path.exists(PROGRAM), 'tablecheck is not built')
class Program(unittest.TestCase):
    def test_each_place_changed(self):
        for example in (cases.P1, cases.P8, cases.P9):
            t = cases.worked(*example)
            compare(self, [cases.changed(t, p, to) for p in range(cases.numbers(t)) for to in cases.CHANGES])

    def test_random_tables(self):
        seen = compare(self, cases.seeded(13, COUNT))
        self.assertTrue(all(n > COUNT // 20 for n in seen.values()), seen)

    def test_planted_faults(self):
        rng = random.Random(8)
        runs = [cases.random_run(rng) for _ in range(200)]
        compare(self, [f(t) for t in runs for f in (cases.capped_twice_held, cases.halved_stay_gap, cases.one_edge_dropped)])

    def test_damaged_files(self):
        rng = random.Random(9)
        whole = b''.join(reading.words(*t) for t in cases.seeded(3, 12))
        for _ in range(150):
            data = bytearray(whole[:rng.randrange(len(whole))])
            for _ in range(rng.randrange(4)):
                if data:
                    data[rng.randrange(len(data))] = rng.randrange(256)
            self.assertEqual(told(bytes(data)), list(reading.lines(bytes(data))))
        for size in (1, 7, 8, 9, 100, 5000):
            data = rng.randbytes(size)
            self.assertEqual(told(data), list(reading.lines(data)))


# how the tool and the reading begin to say which rule fails
RULES = {
    'weights': 'has weight 0',
    'reach': 'reaches no virtual vertex',
    'distances': 'the distance to vertex',
    'pairs': 'their dual variables sum to',
    'virtual vertices': 'its nearest virtual vertex',
    'table': 'the growth is',
}


class Tool(unittest.TestCase):
    def test_the_rule_that_fails_first(self):
        seen = set()
        for t in cases.seeded(77, 1500):
            table, wanted = table_file.tables_in(reading.words(*t))[0], reading.verdict(*t)
            if table is None or table.out_of_range():
                self.assertEqual(wanted, 'refused 4')
            else:
                rule = table.fails()
                self.assertEqual(wanted, 'no' if rule else 'yes')
                if rule:
                    seen.add(rule.split(':')[0])
                    self.assertIn(RULES[rule.split(':')[0]], reading.fault(*t))
        self.assertEqual(seen, set(RULES))

    def test_it_writes_what_it_reads(self):
        for t in cases.seeded(78, 200):
            data = reading.words(*t)
            table = table_file.tables_in(data)[0]
            if table is not None:
                self.assertEqual(table_file.encoded(table), data)

    @unittest.skipUnless(os.path.exists(PROGRAM), 'tablecheck is not built')
    def test_captured_tables_are_handed_over(self):
        with tempfile.TemporaryDirectory() as folder:
            names = [os.path.join(folder, name) for name in ('table.csv', 'duals.csv', 'out')]
            for right, status, said in ((2, 0, '1 yes'), (1, 1, '1 no   table: edge 1, right side has growth 2, not 1')):
                with open(names[0], 'w') as f:
                    f.write(f'edge,left,right\n0,0,2\n1,2,{right}\n2,2,0\n')
                with open(names[1], 'w') as f:
                    f.write('vertex,dual\n1,2\n2,2\n')
                card = [sys.executable, os.path.join(ROOT, 'tools', 'card.py')]
                example = os.path.join(ROOT, 'examples', 'p1.txt')
                handed = subprocess.run(
                    [*card, 'handover', example, '--table', names[0], '--duals', names[1], '-o', names[2]]
                )
                self.assertEqual(handed.returncode, 0)
                done = subprocess.run([*card, 'verdict', names[2]], stdout=subprocess.PIPE, text=True)
                self.assertEqual((done.returncode, done.stdout), (status, said + '\n'))


@unittest.skipUnless(cluster_growth.library.find(), 'the library is not built: tools/build-library.sh')
class Exported(unittest.TestCase):
    def test_it_says_what_the_reading_says(self):
        for t in cases.seeded(14, 500):
            v, e, edges, virtuals, defects, duals, growths, distances = t
            answer = cluster_growth.check_table(
                v,
                [tuple(edges[3 * i:3 * i + 3]) for i in range(e)],
                virtuals,
                defects,
                duals,
                [tuple(growths[2 * i:2 * i + 2]) for i in range(e)],
                [distances[i * v:i * v + v] for i in range(len(defects))],
            )
            self.assertEqual(str(answer), reading.verdict(*t))


def many(count):
    """So many random tables, in parts; says how often each verdict came."""
    class Case(unittest.TestCase):
        pass

    total, seed = {}, 0
    while count > 0:
        part = min(count, 5000)
        for word, n in compare(Case(), cases.seeded(1000 + seed, part)).items():
            total[word] = total.get(word, 0) + n
        count, seed = count - part, seed + 1
    print('no difference;', ', '.join(f'{word} {n}' for word, n in total.items()))


if __name__ == '__main__':
    if sys.argv[1:]:
        many(int(sys.argv[1]))
    else:
        unittest.main()
