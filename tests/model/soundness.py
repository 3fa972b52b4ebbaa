"""Soundness, as docs/SPECIFICATION.md 3.3 words it."""
from .calls import lists
from .state import DUAL_MAX, GROWTH_MAX, NONE, WEIGHT_MAX


def node_faults(st, i):
    """What is wrong with a node."""
    nd, n = st.nodes[i], len(st.nodes)
    wrong = [
        (nd.vertex == NONE and not nd.removed and not 0 <= nd.first < i, 'first member'),
        (nd.parent != NONE and not i < nd.parent < n, 'parent'),
        (not 0 <= nd.dual <= DUAL_MAX, 'dual variable'),
        (len(nd.boundary) > 2 * st.E or len(nd.overgrown) > st.V, 'list length'),
    ]
    if nd.parent == NONE:
        wrong += [
            (len(set(nd.boundary)) != len(nd.boundary), 'a side twice'),
            (len({v for v, _ in nd.overgrown}) != len(nd.overgrown), 'a vertex twice'),
            (any(st.holder[s] != i for s in nd.boundary), 'a listed side that it does not hold'),
            (any(st.vholder[v] != i for v, _ in nd.overgrown), 'an overgrown vertex that it does not hold'),
        ]
    return [f'node {i}: {words}' for bad, words in wrong if bad]


def live(st, n):
    """Whether n is no node that was removed."""
    return not (0 <= n < len(st.nodes) and st.nodes[n].removed)


def removed_faults(st):
    """What is wrong with removed nodes: one has, holds or contains something."""
    bad = []
    for i, nd in enumerate(st.nodes):
        if nd.removed and (nd.parent != NONE or nd.state or lists(st, i)):
            bad.append(f'node {i}: removed, and not empty')
        if not nd.removed and not (live(st, nd.parent) and (nd.vertex != NONE or live(st, nd.first))):
            bad.append(f'node {i}: a removed parent or first member')
    if not all(live(st, h) for h in st.holder + st.vholder):
        bad.append('a removed holder')
    return bad


def sound(st):
    """What is wrong with a state: nothing if it is sound."""
    bad = [fault for i in range(len(st.nodes)) for fault in node_faults(st, i)] + removed_faults(st)
    if sum(lists(st, i) for i in range(len(st.nodes))) > st.L:
        bad.append('store')
    if len(set(st.active)) != len(st.active) or any(not 0 <= n < len(st.nodes) for n in st.active):
        bad.append('active list')
    if any(not 0 <= w <= WEIGHT_MAX for w in st.weight + st.original):
        bad.append('weight')
    for s in range(2 * st.E):
        if not 0 <= st.growth[s] <= GROWTH_MAX:
            bad.append(f'growth {s}')
        if st.holder[s] != NONE and not (
            0 <= st.grandson[s] < len(st.nodes) and st.nodes[st.grandson[s]].vertex != NONE
        ):
            bad.append(f'grandson {s}')
    return bad
