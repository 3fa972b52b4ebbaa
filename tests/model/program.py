"""cardrun modelled: records in, lines out (docs/SPECIFICATION.md 10)."""
import struct

from . import calls
from .state import open_graph

ARITY = {1: 4, 2: 3, 3: 1, 4: 2, 6: 2, 7: 2, 8: 3, 9: 2, 10: 0, 11: 1, 12: 0, 13: 0}
CALLS = {
    4: calls.insert_defect,
    6: calls.set_state,
    7: calls.prepare,
    9: calls.grow,
    11: calls.advance,
    13: calls.clear,
    5: lambda st, state, *circle: calls.insert_blossom(st, state, list(circle)),
    8: lambda st, n, d, p: calls.length(st, n, d, p == 1),
}


class Run:
    """A run over records that are already split into kind and fields."""

    def __init__(self):
        self.sizes, self.edges, self.virtuals = None, [], []
        self.st, self.k, self.out, self.over = None, 0, [], False

    def stop(self, code):
        self.out.append(f'{self.k} refused {code}')
        self.over = True

    def ill_formed(self, kind, f):
        if kind not in ARITY and kind != 5 or kind in ARITY and len(f) != ARITY[kind] or kind == 5 and len(f) < 1:
            return True
        return (
            (self.k == 1) != (kind == 1) or kind in (2, 3) and self.st is not None or kind == 8 and f[2] not in (0, 1)
        )

    def open(self):
        V, E, N, L = self.sizes
        if V > 64 or E > 128 or N > 32 or L > 2000:
            return self.stop(4)
        answer, self.st = open_graph(V, E, N, L, self.edges, self.virtuals)
        if self.st is None:
            self.stop(answer[1])

    def feed(self, record):
        """Takes a record (kind, fields...); ill-formed lengths show as a wrong number of fields."""
        self.k += 1
        kind, f = record[0], list(record[1:])
        if self.ill_formed(kind, f):
            return self.stop(3)
        if kind == 1:
            self.sizes = f
        elif kind == 2:
            self.edges.append(tuple(f))
        elif kind == 3:
            self.virtuals.append(f[0])
        else:
            if self.st is None:
                self.open()
            if not self.over:
                self.out += [f'{self.k} {words}' for words in self.answer(kind, f)]

    def answer(self, kind, f):
        """The lines of a call, without its number."""
        if kind == 10:
            t = calls.table(self.st)
            return [f'edge {e} {t[2 * e]} {t[2 * e + 1]}' for e in range(self.st.E)]
        if kind == 12:
            return [f'contact {e} {p} {q}' for e, p, q in calls.contacts(self.st)]
        said = CALLS[kind](self.st, *f)
        return [' '.join(map(str, said[:3] if said[0] == 'free' else said))]


def lines(data):
    """The lines of a stream of records."""
    at, run = 0, Run()
    while at < len(data) and not run.over:
        size = int.from_bytes(data[at : at + 2], 'little')
        body = data[at + 2 : at + 2 + size]
        if at + 2 + size > len(data) or size % 4 != 2:
            run.k += 1
            run.stop(3)
        else:
            run.feed(struct.unpack('<H' + 'i' * (size // 4), body))
        at += 2 + size
    return ''.join(line + '\n' for line in run.out)
