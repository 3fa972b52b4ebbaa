"""Lets the defects of a script grow together until each has met something, and notes the calls."""
from . import package  # noqa: F401
from cluster_growth import DualModule, matching

from . import made
from .faults import BadInput, NoAnswer
from .plain import many
from .script import LIBRARY_SIZES
from .words import CALLS, Item

TEXT_WORD = {w.call: name for name, w in CALLS.items()}
MANY = 40  # edges that are named


class Recorder(DualModule):
    """A module that notes its calls, with their answers; a node that is read is no call of the run."""

    log = None

    def call(self, name, *values):
        answer = super().call(name, *values)
        if self.log is not None and name != 'read_node':
            self.log.append((name, [int(v) for v in values], str(answer)))
        return answer


def matched(script):
    """The matching that the defects of a script come to.

    The calls that led to it are added to the script, each with its answer.
    """
    if not script.well_formed:
        raise NoAnswer('an ill-formed record ends the run')
    if not made.available():
        raise NoAnswer(f'this is run by the library: {made.BUILD}')
    run = made.Made(script, kind=Recorder)
    if run.module is None:
        number, at, what = script.graph.fault(LIBRARY_SIZES) or (run.refused, None, 'the opening')
        raise NoAnswer(f'refused {number}: {what}', at)
    for i in script.calls():
        i.expected = run.answers[i.number]
    run.module.log = []
    try:
        found = matching.match(run.module)
    except ValueError as e:
        raise BadInput(str(e)) from None
    except matching.Unmatched as e:
        raise NoAnswer(str(e)) from None
    for name, values, answer in run.module.log:
        script.items.append(Item(len(script.items) + 1, TEXT_WORD[name], values, expected=[answer]))
    return found, run.module


def lines(script, found, module):
    """What came of it, in words."""
    defects = [module.read_node(n).vertex for n in range(module.node_count())]
    left = matching.left_over(module, defects, found.edges)
    flipped = [k for k, edges in sorted(script.observables.items()) if len(set(edges) & set(found.edges)) % 2]
    met = f"{many(len(found.pairs), 'pair')}, {len(found.sides)} with a virtual vertex"
    cost = f"{many(found.rounds, 'round')}, {many(len(script.calls()), 'call')} in all"
    yield f"{many(len(defects), 'defect')}: {met}; {cost}"
    yield f'cost {found.cost}; no pairing costs less than {found.dual_sum}, the sum of the dual variables'
    named = ' '.join(map(str, found.edges[:MANY])) + (' ...' if len(found.edges) > MANY else '')
    yield f"{many(len(found.edges), 'edge')} to flip: {named}"
    yield f"defects that these flips leave: {' '.join(map(str, left)) or 'none'}"
    if script.observables:
        yield f"observables that they flip: {' '.join(map(str, flipped)) or 'none'}"
