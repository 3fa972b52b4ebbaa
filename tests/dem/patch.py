#!/usr/bin/env python3
"""Writes a detector error model of a rotated surface-code patch, and shots of it.

    tests/dem/patch.py DISTANCE ROUNDS [--shots COUNT] [--seed SEED] [-o NAME]     writes NAME.dem and NAME.01

The detectors are those of one kind of stabilizers. In each round a data qubit may flip, between two rounds a
measurement may be wrong (the same stabilizer twice) and a flip may be seen late by one of its two stabilizers (a
diagonal in time). Qubits differ: each has a rate of its own. The model is written from the format's public
description, with shift_detectors and repeat.
"""
import argparse
import random


class Patch:
    """The stabilizers of one kind, by their places, and the data qubits between them."""

    def __init__(self, distance, seed):
        self.d, rng = distance, random.Random(seed)
        cells = [(a, b) for b in range(distance + 1) for a in range(1, distance) if (a + b) % 2 == 0]
        self.number = {c: k for k, c in enumerate(cells)}
        self.cells = cells
        rate = lambda: round(rng.uniform(0.004, 0.012), 5)
        self.flips = []  # (rate, stabilizers, whether the left side is crossed)
        for j in range(distance):
            for i in range(distance):
                seen = [self.number[c] for c in ((i, j), (i + 1, j), (i, j + 1), (i + 1, j + 1)) if c in self.number]
                self.flips.append((rate(), seen, i == 0))
        self.wrong = [rate() for _ in cells]
        self.late = [
            (round(rng.uniform(0.001, 0.003), 5), s) for _, s, _ in self.flips if len(s) == 2 and rng.random() < 0.5
        ]
        self.double = [
            (0.0005, a, b)
            for (_, a, _), (_, b, _) in zip(self.flips, self.flips[1:])
            if len(a) == len(b) == 2 and rng.random() < 0.1
        ]

    def layer(self):
        """The lines of one round: detectors with their places, and flips of data qubits."""
        out = [f'detector({2 * a}, {2 * b}, 0) D{k}' for k, (a, b) in enumerate(self.cells)]
        for p, seen, left in self.flips:
            out.append(f'error({p}) ' + ' '.join(f'D{k}' for k in seen) + (' L0' if left else ''))
        for p, a, b in self.double:
            out.append(f'error({p}) D{a[0]} D{a[1]} ^ D{b[0]} D{b[1]}')
        return out

    def between(self):
        """The lines between one round and the next."""
        n = len(self.cells)
        out = [f'error({p}) D{k} D{k + n}' for k, p in enumerate(self.wrong)]
        return out + [f'error({p}) D{a} D{b + n}' for p, (a, b) in self.late]

    def text(self, rounds):
        out = [
            f'# Rotated surface code of distance {self.d}, {rounds} rounds: one kind of stabilizers. '
            f'Made by tests/dem/patch.py {self.d} {rounds}'
        ]
        out += self.layer()
        if rounds > 1:
            out += [f'repeat {rounds - 1} {{'] + ['    ' + l for l in self.between()]
            out += [f'    shift_detectors(0, 0, 1) {len(self.cells)}'] + ['    ' + l for l in self.layer()] + ['}']
        return '\n'.join(out + ['logical_observable L0']) + '\n'

    def mechanisms(self, rounds):
        """All mechanisms of all rounds, as (rate, detectors, whether the observable flips)."""
        n = len(self.cells)
        for t in range(rounds):
            for p, seen, left in self.flips:
                yield p, [k + t * n for k in seen], left
            for p, a, b in self.double:
                yield p, [k + t * n for k in a + b], False
            if t + 1 < rounds:
                for k, p in enumerate(self.wrong):
                    yield p, [k + t * n, k + (t + 1) * n], False
                for p, (a, b) in self.late:
                    yield p, [a + t * n, b + (t + 1) * n], False

    def shot(self, rounds, rng):
        """The digits of one shot: a detector each, then the observable."""
        fired, flipped = set(), False
        for p, detectors, left in self.mechanisms(rounds):
            if rng.random() < p:
                for k in detectors:
                    fired ^= {k}
                flipped ^= left
        return ''.join('1' if k in fired else '0' for k in range(rounds * len(self.cells))) + str(int(flipped))


def main():
    p = argparse.ArgumentParser(description=__doc__, formatter_class=argparse.RawDescriptionHelpFormatter)
    p.add_argument('distance', type=int)
    p.add_argument('rounds', type=int)
    p.add_argument('--shots', type=int, default=5)
    p.add_argument('--seed', type=int, default=1)
    p.add_argument('-o', dest='name', required=True)
    o = p.parse_args()
    patch, rng = Patch(o.distance, o.seed), random.Random(o.seed + 1)
    with open(o.name + '.dem', 'w') as f:
        f.write(patch.text(o.rounds))
    with open(o.name + '.01', 'w') as f:
        f.write(''.join(patch.shot(o.rounds, rng) + '\n' for _ in range(o.shots)))


if __name__ == '__main__':
    main()
