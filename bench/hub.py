"""hub.py BEFORE AFTER: nanoseconds a call of an insertion that is refused at a hub, by two shared objects with
`core_calls` (bench/cores), which makes calls without the soundness test before each. They take turns; each number is
the best of all.

Where the hub is virtual the vertex decides, and the insertion is refused 5. Where it is free and N nodes exist, all its
sides are read, and the insertion is refused 8. Reading the record is in both.
"""
import ctypes
import struct
import sys
import time
from array import array

TURNS = 60
DEGREES = 1, 2, 10, 100, 300, 1000, 4096


def record(kind, *fields):
    return struct.pack(f'<HH{len(fields)}i', 2 + 4 * len(fields), kind, *fields)


class Hub:
    """Vertex 0 with so many edges; the last vertex has none, and a defect stands there."""

    def __init__(self, degree, virtual):
        leaves = min(degree, 1022)
        self.sizes = leaves + 2, degree, 1, 2 * (2 * degree + leaves + 2)
        self.edges = array('q', [x for e in range(degree) for x in (0, 1 + e % leaves, 2)])
        self.virtual = array('q', [0] if virtual else [])
        self.count = max(200, 400_000 // (degree if not virtual else 20))
        self.records = record(4, leaves + 1, 1) + self.count * record(4, 0, 1)

    def seconds(self, call, records):
        """One opening and the calls of the records."""
        v, e, n, l = self.sizes
        block, scratch = array('q', bytes(8 * (16 + 4 * v + 12 * e + 8 * n + l))), array('q', bytes(8 * (4 * e + min(v, 2 * e))))
        data = array('B', records)
        lent = [x for a in (block, scratch) for x in (a.buffer_info()[0], len(a))]
        given = [x for a in (self.edges, self.virtual, data) for x in (a.buffer_info()[0], len(a))]
        start = time.perf_counter()
        made = call(*map(ctypes.c_size_t, lent + [v, e, n, l] + given))
        took = time.perf_counter() - start
        assert made == (1 if records else 0), 'only the first call is accepted'
        return took

    def nanoseconds(self, calls):
        """The best of each, less the opening."""
        best = [[float('inf')] * 2 for _ in calls]
        for _ in range(TURNS):
            for k, call in enumerate(calls):
                for i, records in enumerate((self.records, b'')):
                    best[k][i] = min(best[k][i], self.seconds(call, records))
        return [(whole - opening) * 1e9 / self.count for whole, opening in best]


def main():
    calls = []
    for path in sys.argv[1:3]:
        call = ctypes.CDLL(path).core_calls
        call.restype = ctypes.c_size_t
        calls.append(call)
    print('| edges of the hub | sides read | before, ns a call | after | after / before |\n|---|---|---|---|---|')
    for virtual in True, False:
        for degree in DEGREES:
            before, after = Hub(degree, virtual).nanoseconds(calls)
            print(f'| {degree} | {0 if virtual else degree} | {before:.0f} | {after:.0f} | {after / before:.2f} |')


if __name__ == '__main__':
    main()
