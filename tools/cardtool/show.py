"""The lines that `run` prints: each call with its answer, and the answer in words."""
from .sentences import words
from .words import GRAPH

WIDEST_CALL, WIDEST_ANSWER = 60, 40


def head(run):
    """The line about the graph."""
    last = [i for i in run.script.items if i.word in GRAPH and i.reason is None][-1]
    g = run.graph
    out = f'1 to {last.number}: a graph of {g.V} vertices, {len(g.virtual)} of them virtual, and {len(g.edges)} edges'
    if g.worked_out:
        out += '; ' + ' and '.join(f'{k} {g.sizes()[k]}' for k in g.worked_out) + ' worked out'
    return out + ('; run by the library' if run.by == 'library' else '')


def show(run):
    """All lines, in order."""
    if run.graph is not None:
        yield head(run) + (f' → {run.opening_fault()[1]}' if run.refused else '')
    rows = [i for i in run.script.items if not (i.word in GRAPH and i.reason is None)]
    texts = [i.text() for i in rows]
    wide = min(max(map(len, texts), default=0), WIDEST_CALL)
    far = min(max((len(a) for said in run.answers.values() for a in said), default=0), WIDEST_ANSWER)
    for i, text in zip(rows, texts):
        call = f"{i.number or '':>4}  {text:{wide}}"
        for a in ['not made: the opening was refused'] if run.refused else run.said(i):
            told = words(run, i, a) if i.number in run.answers and not run.refused else ''
            yield f'{call} → {a:{far}}   {told}'.rstrip()
            call = ' ' * len(call)
