#!/usr/bin/env python3
"""Times programs on one long stream of records, as whole processes.

    bench/program.py [--stream FILE] COMMAND [COMMAND ..]

A command is a program and its words, as 'target/bin/cardrun' or 'differential lines'. The stream is FILE, or else has
lengths and growths, all accepted, of six defects on a strip of V 58, E 85, again and again: about 480,000 records, from
a file, with the lines to /dev/null. Runs alternate; each number is the best of 9, and the ratio is that to the last
command. All must write the same lines. Prints a row of a table for each.
"""
import os
import random
import shlex
import struct
import subprocess
import sys
import tempfile
import time

sys.path.insert(0, os.path.join(os.path.dirname(os.path.dirname(os.path.abspath(__file__))), "tests"))
from model import calls, state  # noqa: E402

WIDE, REPEATS, RUNS = 29, 48, 9


def record(kind, *fields):
    body = struct.pack("<H", kind) + b"".join(struct.pack("<i", f) for f in fields)
    return struct.pack("<H", len(body)) + body


def stream():
    """The records, and how many calls they have."""
    rows = [(y * WIDE + x, y * WIDE + x + 1, 1000) for y in range(2) for x in range(WIDE - 1)]
    edges = rows + [(x, WIDE + x, 1000) for x in range(WIDE)]
    virtual = [0, WIDE - 1, WIDE, 2 * WIDE - 1]
    sizes = (2 * WIDE, len(edges), 32, 2000)
    _, st = state.open_graph(*sizes, edges, virtual)
    made, rand = [], random.Random(3)
    while len(made) < 10000:
        vertices = [v for v in range(2 * WIDE) if v not in virtual]
        rand.shuffle(vertices)
        calls.clear(st)
        made.append(record(13))
        for v in vertices[:6]:
            calls.insert_defect(st, v, 1)
            made.append(record(4, v, 1))
        for n in [n for _ in range(12) for n in range(6)]:
            said = calls.length(st, n, 1, True)
            made.append(record(8, n, 1, 1))
            if said[0] == "free":
                by = 200 if said[3] else min(200, said[1])
                assert calls.grow(st, n, by) == ("done",)
                made.append(record(9, n, by))
    head = [record(1, *sizes)] + [record(2, *e) for e in edges] + [record(3, v) for v in virtual]
    return b"".join(head) + b"".join(made) * REPEATS, len(made) * REPEATS


def read(path):
    """The records of a file, and how many of them are calls."""
    data, at, count = open(path, "rb").read(), 0, 0
    while at < len(data):
        length, kind = struct.unpack_from("<HH", data, at)
        at, count = at + 2 + length, count + (kind > 3)
    return data, count


def main():
    programs, given = sys.argv[1:], None
    if programs[:1] == ["--stream"]:
        given, programs = programs[1:2], programs[2:]
    if not programs:
        sys.exit(__doc__)
    data, count = read(given[0]) if given else stream()
    with tempfile.NamedTemporaryFile() as f:
        f.write(data)
        f.flush()
        told = [subprocess.run(shlex.split(p), stdin=open(f.name), stdout=subprocess.PIPE).stdout for p in programs]
        assert len(set(told)) == 1, "other lines"
        best = dict.fromkeys(programs, 1e9)
        for _ in range(RUNS):
            for p in programs:
                start = time.perf_counter()
                subprocess.run(shlex.split(p), stdin=open(f.name), stdout=subprocess.DEVNULL, check=True)
                best[p] = min(best[p], time.perf_counter() - start)
    print(f"{count} calls, {len(data)} bytes\n\n| program | seconds | ns a call | ratio |\n|---|---|---|---|")
    for p in programs:
        name = " ".join([os.path.basename(shlex.split(p)[0])] + shlex.split(p)[1:])
        print(f"| `{name}` | {best[p]:.3f} | {best[p] / count * 1e9:.0f} | {best[p] / best[programs[-1]]:.2f} |")


if __name__ == "__main__":
    main()
