"""What each call of a run changed in the block: the steps of the page."""
from .plain import short
from .sentences import left, words

MOST_LINES = 12  # of an answer
NODE_ROWS = ('class', 'state', 'parent', 'dual')
CHUNK = 64  # words that are compared at once


class Row:
    """A row of the block as it was, to be compared with what it is."""

    def __init__(self, block, name):
        self.words, self.range = block.words, block.rows[name]
        self.bytes = self.read()

    def read(self):
        return self.words[self.range.start : self.range.stop].tobytes()

    def changes(self):
        """The places whose words have changed, with their new words."""
        now = self.read()
        if now == self.bytes:
            return []
        out, size = [], 8 * CHUNK
        for at in range(0, len(now), size):
            if now[at : at + size] != self.bytes[at : at + size]:
                first = at // 8
                for k in range(first, min(first + CHUNK, len(self.range))):
                    if now[8 * k : 8 * k + 8] != self.bytes[8 * k : 8 * k + 8]:
                        out.append((k, self.words[self.range.start + k]))
        self.bytes = now
        return out


class Steps:
    """Watches a run: a step for each call."""

    def __init__(self):
        self.steps, self.rows, self.count = [], None, 0

    def watch(self, module, item, made):
        """Takes the state after a call."""
        block = module.block
        changed = {name: row.changes() for name, row in self.rows.items()}
        touched = {n for name in NODE_ROWS for n, _ in changed[name] if n < block.count()} | set(
            range(self.count, block.count())
        )
        edges = {s // 2 for name in ('growth', 'holder') for s, _ in changed[name]}
        gone = range(block.count(), self.count)
        self.count = block.count()
        row = lambda n: [n.vertex, n.first_member, n.state, 0 if n.parent is None else n.parent + 1, n.dual]
        self.steps.append(
            {
                'item': item,
                'growth': changed['growth'],
                'holder': changed['holder'],
                'gap': [(e, left(module.gap(e))) for e in sorted(edges)],
                'weight': changed['weight'],
                'spot': changed['vertex_holder'],
                'nodes': [(n, row(block.node(n))) for n in sorted(touched)] + [(n, None) for n in reversed(gone)],
            }
        )

    def start(self, module):
        """Takes the state of an opened graph."""
        self.rows = {name: Row(module.block, name) for name in ('vertex_holder', 'growth', 'holder', 'weight') + NODE_ROWS}

    def told(self, run):
        """The steps with answers, as the page reads them."""
        for s in self.steps:
            item = s.pop('item')
            said = run.answers.get(item.number, [])
            more = [f'and {len(said) - MOST_LINES} more'] if len(said) > MOST_LINES else []
            s.update(
                number=item.number,
                line=item.line,
                call=short(item.text(), 200),
                answer=said[:MOST_LINES] + more,
                words=words(run, item, said[0]) if len(said) == 1 else '',
            )
        return self.steps
