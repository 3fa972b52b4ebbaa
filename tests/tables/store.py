#!/usr/bin/env python3
"""Writes the file that the gate hands to tablecheck, and the lines that the reading gives: crates/tablecheck/stdin and stdout.

    tests/tables/store.py
"""
import os
import sys

HERE = os.path.dirname(os.path.abspath(__file__))
sys.path.insert(0, HERE)
import cases  # noqa: E402
import reading  # noqa: E402

CRATE = os.path.join(os.path.dirname(os.path.dirname(HERE)), 'crates', 'tablecheck')
data = cases.file()
with open(os.path.join(CRATE, 'stdin'), 'wb') as f:
    f.write(data)
with open(os.path.join(CRATE, 'stdout'), 'w') as f:
    f.write('\n'.join(reading.lines(data)) + '\n')
