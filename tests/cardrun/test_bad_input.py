#!/usr/bin/env python3
"""Bad input for cardrun: ill-formed records, input cut at every byte, sizes past the program's, great lengths.

    tests/cardrun/test_bad_input.py

Each case must give just the lines that stand with it, and end with status 0. PROGRAM names another program than
target/bin/cardrun, with its words: `PROGRAM='valgrind -q --error-exitcode=9 target/bin/cardrun'
tests/cardrun/test_bad_input.py`.
"""
import os
import shlex
import struct
import subprocess
import unittest

ROOT = os.path.dirname(os.path.dirname(os.path.dirname(os.path.abspath(__file__))))
BUILT = os.path.join(ROOT, "target", "bin", "cardrun")
PROGRAM = shlex.split(os.environ.get("PROGRAM", "")) or [BUILT]


def record(kind, *fields):
    body = struct.pack("<H", kind) + b"".join(struct.pack("<i", f) for f in fields)
    return struct.pack("<H", len(body)) + body


def raw(body):
    return struct.pack("<H", len(body)) + body


GRAPH = (
    record(1, 4, 3, 4, 40) + record(2, 0, 1, 4) + record(2, 1, 2, 4) + record(2, 2, 3, 4) + record(3, 0) + record(3, 3)
)
OPEN = GRAPH + record(4, 1, 1) + record(4, 2, 1)  # records 7 and 8: both are nodes
NODES = ["7 node 0", "8 node 1"]


def cases():
    yield "nothing", b"", []
    yield "a graph and no other record", GRAPH, []
    yield "unknown kind 0", OPEN + raw(b"\0\0"), NODES + ["9 refused 3"]
    yield "unknown kind 14", OPEN + record(14), NODES + ["9 refused 3"]
    yield "unknown kind 65535", OPEN + raw(b"\xff\xff"), NODES + ["9 refused 3"]
    yield "a record of length 0", OPEN + raw(b""), NODES + ["9 refused 3"]
    yield "a record of length 1", OPEN + raw(b"\4"), NODES + ["9 refused 3"]
    yield "a field too few", OPEN + record(4, 1), NODES + ["9 refused 3"]
    yield "a field too many", OPEN + record(4, 1, 1, 1), NODES + ["9 refused 3"]
    yield "three bytes of a field", OPEN + raw(struct.pack("<Hi", 11, 0)[:5]), NODES + ["9 refused 3"]
    yield "a first record not of kind 1", record(2, 0, 1, 4), ["1 refused 3"]
    yield "a call first", record(10), ["1 refused 3"]
    yield "kind 1 twice", GRAPH + record(1, 4, 3, 4, 40), ["7 refused 3"]
    yield "kind 1 after the opening", OPEN + record(1, 4, 3, 4, 40), NODES + ["9 refused 3"]
    yield "kind 2 after the opening", OPEN + record(2, 0, 1, 4), NODES + ["9 refused 3"]
    yield "kind 3 after the opening", OPEN + record(3, 0), NODES + ["9 refused 3"]
    yield "a prepare field of 2", OPEN + record(8, 0, 1, 2), NODES + ["9 refused 3"]
    yield "a prepare field of -1", OPEN + record(8, 0, 1, -1), NODES + ["9 refused 3"]
    yield "an ill-formed record ends the run", OPEN + record(14) + record(10), NODES + ["9 refused 3"]
    early = record(1, 2, 1, 1, 4) + record(2, 0, 0, 2) + record(8, 0, 0, 2)
    yield "ill-formed before the opening is tried", early, ["3 refused 3"]
    for name, sizes in (
        ("V 65", (65, 3, 4, 40)),
        ("E 129", (4, 129, 4, 40)),
        ("N 33", (4, 3, 33, 40)),
        ("L 2001", (4, 3, 4, 2001)),
        ("V 0", (0, 3, 4, 40)),
        ("V -1", (-1, 3, 4, 40)),
        ("E 2", (4, 2, 4, 40)),
        ("E 4", (4, 4, 4, 40)),
    ):
        yield "sizes: " + name, record(1, *sizes) + GRAPH[20:] + record(10), ["7 refused 4"]
    yield "a weight past its limit", record(1, 2, 1, 1, 4) + record(2, 0, 1, 1000001) + record(13), ["3 refused 4"]
    yield "an edge with one end", record(1, 2, 1, 1, 4) + record(2, 1, 1, 2) + record(13), ["3 refused 4"]
    yield "a virtual vertex out of range", record(1, 2, 1, 1, 4) + record(2, 0, 1, 2) + record(3, 2) + record(13), [
        "4 refused 3"
    ]
    yield "a virtual vertex below 0", record(1, 2, 1, 1, 4) + record(2, 0, 1, 2) + record(3, -1) + record(13), [
        "4 refused 3"
    ]
    yield "a circle of 16,000 members", OPEN + record(5, 0, *([0] * 16000)), NODES + ["9 refused 7"]
    yield "a circle of 16,000 numbers of no node", OPEN + record(5, 0, *([-1] * 16000)), NODES + ["9 refused 3"]
    yield "the longest circle", OPEN + record(5, 0, *([1] * 16382)), NODES + ["9 refused 7"]
    yield "no circle", OPEN + record(5, 0), NODES + ["9 refused 7"]
    for length, number in ((2**31 - 1, 10), (-(2**31), 11)):
        yield "growth by %d" % length, OPEN + record(9, 0, length), NODES + ["9 refused %d" % number]
    yield "growth of a node below 0", OPEN + record(9, -1, 1), NODES + ["9 refused 3"]
    yield "a defect at a vertex below 0", OPEN + record(4, -(2**31), 1), NODES + ["9 refused 3"]
    yield "direction 2", OPEN + record(7, 0, 2), NODES + ["9 refused 3"]
    yield "a refusal lets the run go on", OPEN + record(7, 9, 0) + record(11, 9), NODES + [
        "9 refused 3",
        "10 refused 3",
    ]
    whole = OPEN + record(9, 0, 2)
    starts, at = [0], 0
    while at < len(whole):
        at += 2 + struct.unpack_from("<H", whole, at)[0]
        starts.append(at)
    lines = {6: [], 7: NODES[:1], 8: NODES, 9: NODES + ["9 done"]}
    for cut in range(len(whole) + 1):
        n = max(i for i, s in enumerate(starts) if s <= cut)
        got = lines.get(n, [])
        yield "cut at byte %d" % cut, whole[:cut], got + ([] if starts[n] == cut else ["%d refused 3" % (n + 1)])


@unittest.skipUnless("PROGRAM" in os.environ or os.path.exists(BUILT), "cardrun is not built: tools/build-programs.sh")
class BadInput(unittest.TestCase):
    pass


def test_of(data, want):
    def test(self):
        run = subprocess.run(PROGRAM, input=data, stdout=subprocess.PIPE)
        self.assertEqual((run.stdout.decode("ascii", "replace").splitlines(), run.returncode), (want, 0))

    return test


for number, (name, data, want) in enumerate(cases()):
    setattr(BadInput, "test_%03d_%s" % (number, "_".join(name.split())), test_of(data, want))

if __name__ == "__main__":
    unittest.main()
