#!/usr/bin/env python3
"""The gate's counting: the sum of what its two parts say, and a failure for a part that does not say."""
import contextlib
import importlib.machinery
import importlib.util
import io
import os
import sys
import unittest
from unittest import mock

TOP = os.path.dirname(os.path.dirname(os.path.dirname(os.path.abspath(__file__))))
sys.dont_write_bytecode = True
loader = importlib.machinery.SourceFileLoader('gate', os.path.join(TOP, '.ci', 'gate.py'))
gate = importlib.util.module_from_spec(importlib.util.spec_from_loader('gate', loader))
loader.exec_module(gate)

OK = 'rt: ok; handles allowed: none'
COUNTS = [
    # what a part does, and what is counted
    ("echo proving; echo '12 passed, 0 failed'", (12, 0)),
    ("echo '12 passed, 3 failed'; exit 1", (12, 3)),
    ("echo '12 passed, 0 failed'; exit 1", (12, 1)),
    ("echo '12 passed, 0 failed'; echo; echo more", (0, 1)),
    ("echo '12 passed, 0 failed (graph and the crates below alone: not the gate)'", (0, 1)),
    # edits that are none fail the gate, though rt ci passes
    (f"echo '{OK}; must-fail edits: 9 refused; done in this run'; echo '12 passed, 0 failed'", (12, 0)),
    (f"echo '{OK}; must-fail edits: 7 refused, 2 bad; done in this run'; echo '12 passed, 0 failed'", (12, 2)),
    (f"echo '{OK}; must-fail edits: 7 refused, 1 of them only by a limit, 3 bad; done'; echo '4 passed, 0 failed'", (4, 3)),
    ('exit 0', (0, 1)),
]


class Shown(io.TextIOWrapper):
    def __init__(self):
        super().__init__(io.BytesIO(), encoding='utf-8')

    def text(self):
        self.flush()
        return self.buffer.getvalue().decode()


class Gate(unittest.TestCase):
    def test_counts(self):
        for script, want in COUNTS:
            with contextlib.redirect_stdout(Shown()) as shown:
                self.assertEqual(gate.counted(['sh', '-c', script]), want)
            self.assertEqual(shown.text().count('passed'), script.count('passed'))
        with contextlib.redirect_stdout(Shown()):
            self.assertEqual(gate.counted(['no such command']), (0, 1))

    def test_the_last_line_counts_both(self):
        for parts, last, status in (
            ([(12, 0), (5, 0)], '17 passed, 0 failed', 0),
            ([(12, 1), (5, 0)], '17 passed, 1 failed', 1),
        ):
            with mock.patch.object(gate, 'counted', side_effect=parts), contextlib.redirect_stdout(Shown()) as shown:
                self.assertEqual(gate.main(), status)
            self.assertEqual(shown.text().splitlines()[-1], last)


if __name__ == '__main__':
    unittest.main()
