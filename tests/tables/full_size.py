#!/usr/bin/env python3
"""How long tablecheck takes at full size, and how that grows with the defects: V 1,024, E 4,096; the least of some runs.

    tests/tables/full_size.py [RUNS]
"""
import os
import random
import subprocess
import sys
import time

HERE = os.path.dirname(os.path.abspath(__file__))
sys.path.insert(0, HERE)
import cases  # noqa: E402
import reading  # noqa: E402

PROGRAM = os.path.join(os.path.dirname(os.path.dirname(HERE)), 'target', 'bin', 'tablecheck')


def graph(rng, v=1024, e=4096):
    """A random graph with heavy edges; one vertex in eight is virtual."""
    edges = [(rng.randrange(i), i, rng.randint(900_000, 1_000_000)) for i in range(1, v)]
    while len(edges) < e:
        a, b = rng.sample(range(v), 2)
        edges.append((a, b, rng.randint(900_000, 1_000_000)))
    return v, cases.flat(edges), rng.sample(range(v), v // 8)


def table(rng, count):
    v, edges, virtuals = graph(rng)
    defects = rng.sample(range(v), count)
    far = [reading.shortest(v, edges, [a]) for a in defects]
    reach = reading.shortest(v, edges, virtuals)
    duals = [min(reach[a], 300_000) for a in defects]
    growths = reading.afresh(v, edges, defects, duals, far)
    return (v, 4096, edges, virtuals, defects, duals, growths, cases.rows(v, edges, defects))


def main():
    runs = int(sys.argv[1]) if sys.argv[1:] else 5
    rng = random.Random(1)
    for count in (0, 1, 64, 256, 512, 1024):
        data, best = reading.words(*table(rng, count)), None
        for _ in range(runs):
            start = time.perf_counter()
            said = subprocess.run([PROGRAM], input=data, stdout=subprocess.PIPE).stdout.decode().strip()
            took = time.perf_counter() - start
            best = took if best is None else min(best, took)
        print(f'{count} defects: {said}, {len(data)} bytes, {1000 * best:.1f} ms', flush=True)


main()
