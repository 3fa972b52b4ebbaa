"""All clusters at once (docs/SPECIFICATION.md 14): renewal of the active list, a preparation, a length and a growth of
every active node. The last three are tried on a copy of the state, which takes its place only if no node is refused.
"""
from . import calls
from .soundness import sound
from .state import GROW, SHRINK, STAY


def renew_active_list(st):
    """Nodes in Stay leave the list, the order stays."""
    st.active = [n for n in st.active if st.nodes[n].state != STAY]
    return ('done',)


def in_turn(st, one):
    """The call `one` on each active node, those in Shrink first: the number of the first refusal, or None.

    Where a node shrank, the state is tested again before the first node grows.
    """
    renew_active_list(st)
    shrinking, growing = ([n for n in st.active if st.nodes[n].state == state] for state in (SHRINK, GROW))
    for nodes, direction in ((shrinking, 0), (growing, 1)):
        if direction == 1 and shrinking and growing and sound(st):
            return 2
        for n in nodes:
            answer = one(st, n, direction)
            if answer[0] == 'refused':
                return answer[1]
    return None


def tried(st, one):
    """A trial: the refusal and the state that it worked on, which is the given one only where none refused."""
    trial = st.copy()
    return in_turn(trial, one), trial


def take(st, trial):
    st.__dict__.update(trial.__dict__)


def prepare_all(st):
    """6 9 2"""
    refused, trial = tried(st, calls.prepare)
    if refused:
        return ('refused', refused)
    take(st, trial)
    return ('done',)


def grow_all(st, by):
    """14 | 6 9 10 11 12 2"""
    if by < 1:
        return ('refused', 14)
    refused, trial = tried(st, lambda t, n, direction: calls.grow(t, n, by if direction == 1 else -by))
    if refused:
        return ('refused', refused)
    take(st, trial)
    return ('done',)


def group_of(answers):
    """The answer of a group whose nodes answer so, and what it lists."""
    if all(a[0] == 'free' for a in answers):
        limits = [a[1] for a in answers if not a[3]]
        return ('free', min(limits, default=-1), int(any(a[2] for a in answers)), not limits), []
    conflicts = [a for a in answers if a[0] in ('conflict', 'virtual', 'expand')]
    stops = sorted((a for a in answers if a[0] == 'stop'), key=lambda a: a[1])
    return ('group', len(conflicts), len(stops)), conflicts + stops


def group_length(st):
    """The answer and what is listed. 6 9 2 13"""
    refused, trial = tried(st, calls.prepare)
    if refused:
        return ('refused', refused), []
    answers = [calls.scan(trial, n, 1 if trial.nodes[n].state == GROW else 0) for n in trial.active]
    refused = next((a for a in answers if a[0] == 'refused'), None)
    if refused:
        return refused, []
    take(st, trial)
    return group_of(answers)
