"""What the tests of the tools share."""
import io
import os
import sys
import tempfile
import unittest
from unittest import mock

TOP = os.path.dirname(os.path.dirname(os.path.dirname(os.path.abspath(__file__))))
sys.dont_write_bytecode = True
sys.path[:0] = [os.path.join(TOP, 'tools'), os.path.join(TOP, 'python'), os.path.join(TOP, 'tests')]
CARD = os.path.join(TOP, 'tools', 'card.py')
BUILT = os.path.exists(os.path.join(TOP, 'target', 'bin', 'cardrun'))
if 'CARDRUN' not in os.environ and not BUILT:  # the model stands in for a program that is not there
    os.environ['CARDRUN'] = os.path.join(TOP, 'tests', 'model', 'cardrun')

from cardtool import command  # noqa: E402
from cluster_growth import library  # noqa: E402

needs_library = unittest.skipUnless(library.find(), 'the library is not built: tools/build-library.sh')

# graph P (docs/SPECIFICATION.md 13.1): four vertices in a row, both ends virtual
P = 'graph 4 3 4 40\nedge 0 1 4; edge 1 2 4; edge 2 3 4\nvirtual 0; virtual 3\n'


def content(*path):
    with open(os.path.join(TOP, *path), 'rb') as f:
        return f.read()


def card(*words, given=b'', environment=None):
    """Status, standard output and standard error of a command, run in this process from the top of the repository."""
    given = given.encode() if isinstance(given, str) else given
    streams = [io.TextIOWrapper(io.BytesIO(data), encoding='utf-8') for data in (given, b'', b'')]
    before = os.getcwd()
    os.chdir(TOP)
    try:
        with mock.patch.dict(os.environ, environment or {}), mock.patch.multiple(
            sys, stdin=streams[0], stdout=streams[1], stderr=streams[2]
        ):
            try:
                status = command.main(list(words))
            except SystemExit as e:  # argparse
                status = e.code
    finally:
        os.chdir(before)
    for s in streams[1:]:
        s.flush()
    return (status, *(s.buffer.getvalue().decode('utf-8', 'replace') for s in streams[1:]))


class InFolder(unittest.TestCase):
    """A test with a folder of its own."""

    def setUp(self):
        held = tempfile.TemporaryDirectory()
        self.addCleanup(held.cleanup)
        self.folder = held.name

    def path(self, name, data=None):
        """The path of a file in the folder, written where data is given."""
        path = os.path.join(self.folder, name)
        if data is not None:
            with open(path, 'wb') as f:
                f.write(data.encode() if isinstance(data, str) else data)
        return path
