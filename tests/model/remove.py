"""Opening a blossom, as docs/SPECIFICATION.md 18 words it."""
from . import calls, passes
from .state import NONE, STAY


def members(st, n):
    return [m for m in range(len(st.nodes)) if st.nodes[m].parent == n]


def stops_opening(st, n):
    """Whether a debug build stops once the node is prepared: something overgrown, a listed side without a holder, a
    member's listed side that is still held when those of the blossom are free, or one that is listed twice.
    """
    node = st.nodes[n]
    if node.overgrown or any(st.holder[s] == NONE for s in node.boundary):
        return True
    free = {s for s, h in enumerate(st.holder) if h == NONE} | set(node.boundary)
    listed = [s for m in members(st, n) for s in st.nodes[m].boundary]
    return len(set(listed)) != len(listed) or not free.issuperset(listed)


def remove_refusal(st, n):
    """What refuses an opening before it prepares, or None."""
    if calls.bad_node(st, n):
        return 3
    if st.nodes[n].parent != NONE:
        return 6
    if st.nodes[n].vertex != NONE or st.nodes[n].dual != 0:
        return 15
    return 9 if calls.store_short(st, {n}, 1) else None


def remove_blossom(st, n):
    """3 6 15 9 | 15, left as preparation leaves it"""
    refused = remove_refusal(st, n)
    if refused:
        return ('refused', refused)
    passes.do_prepare(st, n, 0)
    if stops_opening(st, n):
        return ('refused', 15)
    node = st.nodes[n]
    for s in node.boundary:
        st.holder[s] = NONE  # grandson and growth stay
    for m in members(st, n):
        for s in st.nodes[m].boundary:
            st.holder[s] = m
        st.nodes[m].parent = NONE
    node.boundary, node.overgrown, node.state, node.removed = [], [], STAY, True
    return ('done',)
