#!/usr/bin/env python3
"""Random runs on graphs of 100 to 1,000 vertices: the independent check must find every table equal, and notice every
fault that is planted.

    tests/tools/random_runs.py [--runs 100] [--seed 1]

Graphs are grids, trees with chords and parallel edges, and patches from detector error models; weights are odd and
even. Calls insert defects, grow, shrink, advance, prepare, set states and clear; refused ones are among them. Then
faults are planted, one at a time: a growth in the table off by one or by more, or left and right exchanged, must be
named by exactly that edge; a growth changed in the block must be read and named; a dual variable changed in the block
must be named by its node.
"""
import argparse
import random
import sys
import time

import common  # noqa: F401
from cardtool import check, dem, dem_graph
from cardtool.script import Script
from cardtool.words import Item
from dem.patch import Patch

FAULTS = 6  # a run


def grid(rng):
    rows, cols = rng.randint(8, 30), rng.randint(12, 33)
    at = lambda r, c: r * cols + c
    edges = [(at(r, c), at(r, c + 1)) for r in range(rows) for c in range(cols - 1)]
    edges += [(at(r, c), at(r + 1, c)) for r in range(rows - 1) for c in range(1, cols - 1)]
    return rows * cols, edges, [at(r, c) for r in range(rows) for c in (0, cols - 1)]


def tree(rng):
    count = rng.randint(100, 1000)
    edges = [(v, rng.randrange(max(0, v - rng.choice([1, 5, 40])), v)) for v in range(1, count)]
    for _ in range(rng.randint(0, count)):
        a = rng.randrange(count)
        edges.append((a, (a + rng.randint(1, 30)) % count) if rng.random() < 0.9 else rng.choice(edges))
    return count, [e for e in edges if e[0] != e[1]], rng.sample(range(count), rng.randint(1, count // 20))


def patch(rng):
    """A patch as a script, from its detector error model."""
    distance, rounds = rng.choice([(7, 6), (9, 4), (9, 8), (11, 5), (13, 4), (15, 3), (15, 8)])
    model = dem.read(Patch(distance, rng.randrange(1000)).text(rounds).encode())
    return dem_graph.script(model, rng.choice([20, 100, 1000, 1_000_000]))[0]


def graph(rng):
    """A random script without calls, of 100 to 1,000 vertices or a few more."""
    if rng.random() < 0.34:
        return patch(rng)
    count, edges, virtual = rng.choice([grid, tree])(rng)
    weights = rng.choice([range(1, 12), range(2, 41, 2), [2], [1, 1000, 1_000_000], range(1, 1_000_001)])
    out, add = Script(), lambda word, fields: out.items.append(Item(len(out.items) + 1, word, fields))
    add('graph', [count, len(edges)])
    for a, b in edges[:4096]:
        add('edge', [a, b, rng.choice(weights)])
    out.items[0].fields[1] = len(edges[:4096])
    for v in virtual:
        add('virtual', [v])
    return out


def calls(rng, script):
    """Adds random calls: first defects, then moves of all kinds, on most of them more than once."""
    vertices = script.items[0].fields[0]
    defects, rounds = rng.randint(3, min(120, vertices // 4)), rng.choice([0, 0, 2, 4, 8])
    weights = [i.fields[2] for i in script.items if i.word == 'edge']
    add = lambda word, *fields: script.items.append(Item(len(script.items) + 1, word, list(fields)))
    for _ in range(defects):
        add('defect', rng.randrange(vertices), rng.choice([1, 1, 1, 1, 0] + [2] * (not rounds)))
    for _ in range(rounds):
        add('round', max(1, min(weights) // rng.choice([2, 4])))
    for _ in range(rng.randint(50, 600)):
        n, x = rng.randrange(defects + 2), rng.random()
        if x < 0.5:
            add('advance', n)
        elif x < 0.8:
            by = max(1, rng.choice(weights) // rng.choice([1, 2, 3, 7]))
            add('grow', n, by if rng.random() < 0.7 else -by)
        elif x < 0.92:
            add('state', n, rng.choice([0, 1, 1, 2]))
        elif x < 0.96:
            add('prepare', n, rng.randrange(2))
        elif x < 0.99:
            add('length', n, rng.randrange(2), rng.randrange(2))
        else:
            add('defect', rng.randrange(vertices), 1)
    if rng.random() < 0.05:
        add('clear')
        add(
            'defect',
            next(v for v in range(vertices) if not any(i.word == 'virtual' and i.fields[0] == v for i in script.items)),
            1,
        )
        add('advance', 0)


def in_table(rng, table):
    """A table with one growth changed, and its edge."""
    table, e = dict(table), rng.randrange(len(table))
    left, right = table[e]
    kinds = [(left + 1, right), (left, right + rng.randint(1, 1000)), (right, left), (max(left - 1, 0), right), (0, 0)]
    table[e] = rng.choice([k for k in kinds if k != (left, right)])
    return table, e


def in_block(rng, checked):
    """A growth changed in the block as a faulty library would leave it, what the library then reads, and the edge.

    The block is put right again.
    """
    block, side = checked.module.block, rng.randrange(2 * len(checked.graph.edges))
    at = block.rows['growth'].start + side
    before = block.words[at]
    block.words[at] = before + rng.randint(1, 5)
    table = checked.read()
    block.words[at] = before
    return table, side // 2


def dual_noticed(rng, checked):
    """Whether a dual variable that is changed in the block is named by its node."""
    block, node = checked.module.block, rng.randrange(checked.module.node_count())
    at = block.rows['dual'].start + node
    block.words[at] += 1
    named = checked.wrong_duals()
    block.words[at] -= 1
    return [n for n, _, _ in named] == [node]


def one(rng):
    """A run: its vertices, calls and answers, whether its table is equal, and how many of the planted faults were
    noticed.
    """
    script = graph(rng)
    calls(rng, script)
    script.settle()
    checked = check.Checked(script)
    table = checked.read()
    equal = not check.compare(checked, table) and not checked.wrong_duals()
    noticed = 0
    for k in range(FAULTS):
        if k == FAULTS - 1 and checked.module.node_count():
            noticed += dual_noticed(rng, checked)
            continue
        wrong, edge = in_table(rng, table) if k % 2 else in_block(rng, checked)
        noticed += check.compare(checked, wrong) == [edge]
    grown = sum(y > 0 for y in checked.duals.values())
    return script.graph.V, len(script.calls()), grown, equal, noticed


def many(runs, seed):
    """All runs, as rows of `one`."""
    return [one(random.Random(seed * 1_000_003 + k)) for k in range(runs)]


def main():
    p = argparse.ArgumentParser(description=__doc__, formatter_class=argparse.RawDescriptionHelpFormatter)
    p.add_argument('--runs', type=int, default=100)
    p.add_argument('--seed', type=int, default=1)
    o = p.parse_args()
    start = time.time()
    rows = many(o.runs, o.seed)
    vertices, made, grown, equal, noticed = zip(*rows)
    print(
        f'{o.runs} runs on {min(vertices)} to {max(vertices)} vertices, {sum(made)} calls, '
        f'{sum(grown)} defects with a dual variable above 0'
    )
    print(
        f'{sum(equal)} tables equal; {sum(noticed)} of {FAULTS * o.runs} planted faults noticed and named; '
        f'{time.time() - start:.0f} s'
    )
    return 0 if all(equal) and all(n == FAULTS for n in noticed) else 1


if __name__ == '__main__':
    sys.exit(main())
