#!/usr/bin/env python3
"""The program, the exported call and the model on the 400 record streams of tests/vectors: each must give the lines
that stand with the stream.

    tests/cardrun/test_vectors.py

VECTORS names another file of streams.
"""
import ctypes
import os
import subprocess
import sys
import unittest

ROOT = os.path.dirname(os.path.dirname(os.path.dirname(os.path.abspath(__file__))))
sys.path[:0] = [os.path.join(ROOT, "tests"), os.path.join(ROOT, "python")]
import model  # noqa: E402
from cluster_growth import library  # noqa: E402

PROGRAM = os.path.join(ROOT, "target", "bin", "cardrun")
STREAMS = list(model.frames())


def wrong(lines_of):
    """The numbers of the streams whose lines are others."""
    return [k for k, (records, lines) in enumerate(STREAMS) if lines_of(records, lines) != lines]


class Vectors(unittest.TestCase):
    def test_there_are_400(self):
        self.assertEqual(len(STREAMS), 400)

    def test_the_model(self):
        self.assertEqual(wrong(lambda records, _: model.lines(records).encode()), [])

    @unittest.skipUnless(os.path.exists(PROGRAM), "cardrun is not built: tools/build-programs.sh")
    def test_the_program(self):
        self.assertEqual(
            wrong(lambda records, _: subprocess.run([PROGRAM], input=records, stdout=subprocess.PIPE).stdout), []
        )

    @unittest.skipUnless(library.find(), "the library is not built: tools/build-library.sh")
    def test_the_exported_call(self):
        call = ctypes.CDLL(library.find()).cardrun_lines
        call.argtypes, call.restype = [
            ctypes.c_char_p,
            ctypes.c_size_t,
            ctypes.c_char_p,
            ctypes.c_size_t,
        ], ctypes.c_size_t

        def lines_of(records, lines):
            room = ctypes.create_string_buffer(b"#" * (len(lines) + 50), len(lines) + 50)
            count = call(records, len(records), room, len(room))
            return (
                room.raw[:count]
                if room.raw[count:] == b"#" * (len(room) - count)
                else b"bytes behind the lines were written"
            )

        self.assertEqual(wrong(lines_of), [])


if __name__ == "__main__":
    unittest.main()
