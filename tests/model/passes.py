"""Preparation (docs/SPECIFICATION.md 4): passes over a node's boundary until none calls for another."""
from .state import NONE, opp


def grow_pass(st, n):
    """Takes the free vertices behind full boundary edges. Whether another pass is called for."""
    node = st.nodes[n]
    updated, behind, another = [], [], False
    for s in node.boundary:
        o = opp(s)
        if st.growth[s] + st.growth[o] == st.weight[s // 2] and st.holder[o] == NONE and not st.virtual[st.end[o]]:
            behind.append(s)
            st.holder[o] = n
            st.grandson[o] = st.grandson[s]
        else:
            updated.append(s)
    for s in behind:
        v, gs = st.end[opp(s)], st.grandson[s]
        if st.vholder[v] != NONE:
            continue
        st.vholder[v], st.vgrandson[v] = n, gs
        free = [t for t in st.at[v] if st.holder[t] == NONE]
        for t in free:
            updated.append(t)
            another = another or st.weight[t // 2] == 0
            st.holder[t], st.grandson[t] = n, gs
        if not free:
            node.overgrown.append((v, 0))
    node.boundary = updated
    return another


def shrink_pass(st, n):
    """Releases overgrown vertices of amount 0, then vertices behind boundary sides of growth 0.

    Whether another pass is called for.
    """
    node = st.nodes[n]
    updated, behind, mark, another = [], [], set(), False

    def keep(s):
        if s not in mark:
            mark.add(s)
            updated.append(s)

    while node.overgrown and node.overgrown[-1][1] == 0:
        v, _ = node.overgrown.pop()
        if st.vholder[v] == n:
            st.vholder[v] = st.vgrandson[v] = NONE
            for t in st.at[v]:
                st.holder[t] = st.grandson[t] = NONE
                keep(opp(t))
                another = another or st.weight[t // 2] == 0
    for s in node.boundary:
        if st.growth[s] == 0 and not st.defect[st.end[s]]:
            behind.append(st.end[s])
        else:
            keep(s)
    for v in behind:
        if st.vholder[v] == NONE:
            continue
        st.vholder[v] = st.vgrandson[v] = NONE
        for t in st.at[v]:
            o = opp(t)
            if st.holder[t] == n and st.holder[o] == n and st.growth[t] + st.growth[o] >= st.weight[t // 2]:
                keep(o)
                another = another or st.weight[t // 2] == 0
            st.holder[t] = st.grandson[t] = NONE
    node.boundary = updated
    return another


def do_prepare(st, n, direction):
    """The number of passes."""
    passes = 0
    while True:
        passes += 1
        if not (grow_pass(st, n) if direction == 1 else shrink_pass(st, n)):
            return passes
