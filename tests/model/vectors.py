"""Record streams with the lines that each must give: frames of two little-endian 32-bit numbers, the bytes of records
and of lines, then both.
"""
import gzip
import os
import struct

PATH = os.path.join(os.path.dirname(os.path.dirname(os.path.abspath(__file__))), 'vectors', 'streams.bin.gz')


def frames(path=None):
    """The records and the lines of each stream. A path that ends in .gz is unpacked."""
    path = path or os.environ.get('VECTORS') or PATH
    with (gzip.open if path.endswith('.gz') else open)(path, 'rb') as f:
        data = f.read()
    at = 0
    while at < len(data):
        n, m = struct.unpack_from('<II', data, at)
        yield data[at + 8 : at + 8 + n], data[at + 8 + n : at + 8 + n + m]
        at += 8 + n + m
