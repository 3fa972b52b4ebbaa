#!/usr/bin/env python3
"""Writes every STEP-th frame of a file of record streams to standard output, for crates/replay/stdin.

    tests/replay/sample.py FILE [STEP]

A frame is two little-endian 32-bit numbers, the bytes of records and of lines, then the records, then the lines. A
file that ends in .gz is unpacked.
"""
import os, struct, sys

sys.path.insert(0, os.path.dirname(os.path.dirname(os.path.abspath(__file__))))
from model.vectors import frames  # noqa: E402

step = int(sys.argv[2]) if len(sys.argv) > 2 else 1
for k, (records, lines) in enumerate(frames(sys.argv[1])):
    if k % step == 0:
        sys.stdout.buffer.write(struct.pack("<II", len(records), len(lines)) + records + lines)
