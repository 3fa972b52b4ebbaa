#!/usr/bin/env python3
"""cardrun's input in pieces: streams cut at every byte and fed in pieces of 1, 7 and 4,096 bytes give the lines of the
whole, and a host that writes a record and waits gets its line before it writes the next.

    tests/cardrun/test_blocks.py

PROGRAM names another program than target/bin/cardrun.
"""
import fcntl
import os
import select
import struct
import subprocess
import sys
import threading
import unittest

ROOT = os.path.dirname(os.path.dirname(os.path.dirname(os.path.abspath(__file__))))
sys.path.insert(0, os.path.join(ROOT, "tests"))
import model  # noqa: E402

PROGRAM = os.environ.get("PROGRAM") or os.path.join(ROOT, "target", "bin", "cardrun")
WAIT = 20  # seconds until a line that does not come is missed


def record(kind, *fields):
    body = struct.pack("<H", kind) + b"".join(struct.pack("<i", f) for f in fields)
    return struct.pack("<H", len(body)) + body


# graph P and calls of every kind, tables and contacts among them
GRAPH = [record(1, 4, 3, 4, 40), record(2, 0, 1, 4), record(2, 1, 2, 4), record(2, 2, 3, 4), record(3, 0), record(3, 3)]
CALLS = [
    record(4, 1, 1),
    record(4, 2, 1),
    record(8, 0, 1, 1),
    record(9, 0, 2),
    record(9, 1, 2),
    record(8, 0, 1, 0),
    record(10),
    record(12),
    record(6, 0, 0),
    record(7, 1, 1),
    record(11, 1),
    record(13),
    record(10),
]
LINES = [
    b"7 node 0\n",
    b"8 node 1\n",
    b"9 free 2 0\n",
    b"10 done\n",
    b"11 done\n",
    b"12 conflict 1 1 0 0\n",
    b"13 edge 0 0 2\n13 edge 1 2 2\n13 edge 2 2 0\n",
]


def whole(data):
    return subprocess.run([PROGRAM], input=data, stdout=subprocess.PIPE, check=True).stdout


def left(pipe):
    """How many bytes of a pipe are not read yet."""
    return struct.unpack("i", fcntl.ioctl(pipe, 0x541B, b"\0\0\0\0"))[0]  # FIONREAD


class Fed:
    """A program that is fed by a pipe, and a thread that collects its lines."""

    def __init__(self):
        self.run = subprocess.Popen([PROGRAM], stdin=subprocess.PIPE, stdout=subprocess.PIPE, bufsize=0)
        self.got = b""
        self.thread = threading.Thread(target=self.collect)
        self.thread.start()

    def collect(self):
        while True:
            piece = self.run.stdout.read(65536)
            if not piece:
                return
            self.got += piece

    def piece(self, data):
        """The program reads this piece apart from the next: it is written once the one before has been read."""
        while left(self.run.stdin.fileno()) and self.run.poll() is None:
            os.sched_yield()
        try:
            self.run.stdin.write(data)
        except BrokenPipeError:
            pass  # a run that has ended reads no more

    def end(self):
        self.run.stdin.close()
        status = self.run.wait(WAIT)
        self.thread.join(WAIT)
        self.run.stdout.close()
        assert status == 0, status
        return self.got


def pieces(data, size):
    fed = Fed()
    for at in range(0, len(data), size):
        fed.piece(data[at : at + size])
    return fed.end()


@unittest.skipUnless(os.path.exists(PROGRAM), "cardrun is not built: tools/build-programs.sh")
class Blocks(unittest.TestCase):
    def test_lines_of_the_stream(self):
        """The stream that the other tests cut."""
        self.assertTrue(whole(b"".join(GRAPH + CALLS)).startswith(b"".join(LINES)))

    def test_cut_at_every_byte(self):
        """Two pieces, wherever the cut is."""
        data = b"".join(GRAPH + CALLS)
        want = whole(data)
        for at in range(len(data) + 1):
            fed = Fed()
            if at:
                fed.piece(data[:at])
            fed.piece(data[at:] or data[:0])
            self.assertEqual(fed.end(), want, at)

    def test_ends_at_every_byte(self):
        """Input that ends there, in pieces of a byte, gives what it gives at once."""
        data = b"".join(GRAPH + CALLS)
        for at in range(len(data) + 1):
            self.assertEqual(pieces(data[:at], 1), whole(data[:at]), at)

    def test_stored_streams_in_pieces(self):
        """Stored streams in pieces of 1, 7 and 4,096 bytes."""
        for records, lines in list(model.frames())[::40]:
            for size in (1, 7, 4096):
                self.assertEqual(pieces(records, size), lines, size)

    def test_longer_than_the_buffers(self):
        """A stream of over a megabyte, at once and in pieces of 4,096 bytes, tables and long records among it."""
        circle = record(5, 0, *([0] * 16000))  # refused 7, and the run goes on
        data = b"".join(GRAPH + CALLS[:7]) + (b"".join(CALLS[6:8]) * 50 + circle + record(8, 1, 1, 0) * 100) * 16
        got = whole(data)
        self.assertEqual(got.count(b"\n"), 9 + 16 * (50 * 4 + 1 + 100))
        self.assertEqual(pieces(data, 4096), got)
        self.assertEqual(pieces(data, 100_003), got)

    def test_a_line_before_the_next_record(self):
        """A host that writes one record and waits gets its lines before it writes the next."""
        run = subprocess.Popen([PROGRAM], stdin=subprocess.PIPE, stdout=subprocess.PIPE, bufsize=0)
        for each in GRAPH:
            run.stdin.write(each)
        for each, want in zip(CALLS, LINES):
            run.stdin.write(each)
            got = b""
            while len(got) < len(want):
                self.assertTrue(select.select([run.stdout], [], [], WAIT)[0], want)
                got += run.stdout.read(65536)
            self.assertEqual(got, want)
        run.stdin.close()
        self.assertEqual(run.stdout.read(), b"")
        self.assertEqual(run.wait(WAIT), 0)
        run.stdout.close()


if __name__ == "__main__":
    unittest.main()
