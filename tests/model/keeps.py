"""Whether a call certainly keeps a sound state sound: only a preparation for shrinking can lose it, on states that no
calls reach. The reading of pass/specs/KeepsSound and calls/specs/Keeps.
"""
from . import calls, passes
from .state import GROW, NONE, STAY


def own(st, n, v):
    """A vertex may go from the node: it is free, or the node holds it and no other node holds a side there."""
    return st.vholder[v] == NONE or st.vholder[v] == n and all(st.holder[t] in (NONE, n) for t in st.at[v])


def empty_tops(st, n):
    """The vertices at the top of the overgrown stack whose amount is 0."""
    out = []
    for v, amount in reversed(st.nodes[n].overgrown):
        if amount:
            break
        out.append(v)
    return out


def pass_own(st, n):
    """The next shrinking pass frees only what the node holds."""
    bare = [st.end[s] for s in st.nodes[n].boundary if not st.growth[s] and not st.defect[st.end[s]]]
    return all(own(st, n, v) for v in empty_tops(st, n) + bare)


def holds_lists(st, n):
    """The node holds every side that it lists and every vertex of its stack."""
    node = st.nodes[n]
    return all(st.holder[s] == n for s in node.boundary) and all(st.vholder[v] == n for v, _ in node.overgrown)


def keeps_sound(st, n):
    """A preparation for shrinking, which is made: every pass frees only what the node holds, and then it holds what it
    lists.
    """
    for _ in range(st.V + 1):
        if not pass_own(st, n):
            return False
        if not passes.shrink_pass(st, n):
            break
    return holds_lists(st, n)


def refused(call, st, *values):
    """Whether a call is refused that is refused before it changes anything, or not at all."""
    return call(st.copy(), *values)[0] == 'refused'


def prepare_keeps(st, n, direction):
    return refused(calls.prepare, st, n, direction) or direction == 1 or keeps_sound(st.copy(), n)


def length_keeps(st, n, direction, first):
    return not first or prepare_keeps(st, n, direction)


def grow_keeps(st, n, by):
    return by >= 0 or prepare_keeps(st, n, 0)


def advance_keeps(st, n):
    """The length is prepared for, and the growth by it once more."""
    if refused(calls.set_state, st, n, STAY) or st.nodes[n].state == STAY:
        return True
    grows = st.nodes[n].state == GROW
    after = st.copy()
    said = calls.length(after, n, int(grows), True)
    follows = said[0] != 'free' or said[3] or grow_keeps(after, n, said[1] if grows else -said[1])
    return length_keeps(st, n, int(grows), True) and follows


def blossom_keeps(st, state, circle):
    """Each member is prepared, one after the other."""
    after = st.copy()
    return refused(calls.insert_blossom, st, state, circle) or all(keeps_sound(after, m) for m in circle)


KEEPS = {
    'blossom': blossom_keeps,
    'prepare': prepare_keeps,
    'length': length_keeps,
    'grow': grow_keeps,
    'advance': advance_keeps,
}


def keeps(st, name, *values):
    """Of a call by its name in call_lists.py."""
    return name not in KEEPS or KEEPS[name](st, *values)
