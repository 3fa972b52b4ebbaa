"""The calls. Each takes a State, changes it as docs/SPECIFICATION.md 5 to 8 say, and answers a tuple."""
from . import passes
from .state import DUAL_MAX, GROW, GROWTH_MAX, NONE, SHRINK, STAY, Node, opp

CIRCLE_MAX = 63


def lists(st, n):
    return len(st.nodes[n].boundary) + len(st.nodes[n].overgrown)


def store_short(st, named, c):
    """Refusal 9."""
    used = sum(lists(st, i) for i in range(len(st.nodes)) if i not in named)
    return st.L - used < c * (2 * st.E + st.V)


def bad_node(st, n):
    return not 0 <= n < len(st.nodes) or st.nodes[n].removed


def join_active(st, n):
    """The node stands in the active list, behind the others unless it stood there already."""
    if n not in st.active:
        st.active.append(n)


def held_test(st, v):
    """The test for refusal 5: whether a defect is refused at a vertex, and how many sides were read."""
    if st.virtual[v] or st.defect[v] or st.vholder[v] != NONE:
        return True, 0
    for i, t in enumerate(st.at[v]):
        if st.holder[t] != NONE:
            return True, i + 1
    return False, len(st.at[v])


def insert_defect(st, v, state):
    if not 0 <= v < st.V or state not in (0, 1, 2):
        return ('refused', 3)
    if held_test(st, v)[0]:
        return ('refused', 5)
    if len(st.nodes) >= st.N:
        return ('refused', 8)
    if store_short(st, set(), 1):
        return ('refused', 9)
    n = len(st.nodes)
    st.defect[v] = True
    st.vholder[v] = st.vgrandson[v] = n
    for t in st.at[v]:
        st.holder[t] = st.grandson[t] = n
    st.nodes.append(Node(v, NONE, state, boundary=list(st.at[v])))
    join_active(st, n)
    return ('node', n)


def insert_blossom(st, state, circle):
    if state not in (0, 1, 2) or any(bad_node(st, m) for m in circle):
        return ('refused', 3)
    if any(st.nodes[m].parent != NONE for m in circle):
        return ('refused', 6)
    if len(circle) % 2 == 0 or not 3 <= len(circle) <= CIRCLE_MAX or len(set(circle)) != len(circle):
        return ('refused', 7)
    if len(st.nodes) >= st.N:
        return ('refused', 8)
    if store_short(st, set(circle), len(circle) + 1):
        return ('refused', 9)
    n = len(st.nodes)
    for m in circle:
        passes.do_prepare(st, m, 0)
    boundary = []
    for m in circle:
        for s in st.nodes[m].boundary:
            if st.holder[s] == m:
                boundary.append(s)
                st.holder[s] = n
        st.nodes[m].state, st.nodes[m].parent = STAY, n
    st.nodes.append(Node(NONE, circle[0], state, boundary=boundary))
    join_active(st, n)
    return ('node', n)


def set_state(st, n, state):
    if bad_node(st, n) or state not in (0, 1, 2):
        return ('refused', 3)
    if st.nodes[n].parent != NONE:
        return ('refused', 6)
    if st.nodes[n].state == STAY and state != STAY:
        join_active(st, n)
    st.nodes[n].state = state
    return ('done',)


def prepare(st, n, direction):
    if bad_node(st, n) or direction not in (0, 1):
        return ('refused', 3)
    if st.nodes[n].parent != NONE:
        return ('refused', 6)
    if store_short(st, {n}, 1):
        return ('refused', 9)
    return ('prepared', passes.do_prepare(st, n, direction))


def half_toward_zero(x):
    return -((-x) // 2) if x < 0 else x // 2


def shrink_stop(st, n):
    """The answer of a shrinking defect or blossom at dual variable 0."""
    node, peer = st.nodes[n], None
    if node.vertex == NONE:
        return ('expand', n)
    for t in st.at[node.vertex]:
        o = opp(t)
        if (
            st.growth[t] + st.growth[o] == st.weight[t // 2]
            and st.holder[o] != NONE
            and st.nodes[st.holder[o]].state == GROW
        ):
            if peer is None:
                peer = (st.holder[o], st.grandson[o])
            elif st.holder[o] != peer[0]:
                return ('conflict', *peer, st.holder[o], st.grandson[o])
    return ('stop', n) + (peer or ())


def gap_of(st, n, s):
    """What a growing node meets at a boundary side: a limit, None where there is none, or an answer."""
    o = opp(s)
    gap, p = st.weight[s // 2] - st.growth[s] - st.growth[o], st.holder[o]
    if p == n or p != NONE and st.nodes[p].state == SHRINK:
        return None
    if p != NONE:
        local = half_toward_zero(gap) if st.nodes[p].state == GROW else gap
        return local if local != 0 else ('conflict', p, st.grandson[o], n, st.grandson[s])
    if gap != 0:
        return gap
    return ('virtual', n, st.grandson[s], st.end[o], 0) if st.virtual[st.end[o]] else ('refused', 13)


def scan(st, n, direction):
    """The length answer on the block as it is. A free answer ends with whether it is unlimited."""
    node, best = st.nodes[n], None
    if direction == 0:
        if node.dual == 0:
            return shrink_stop(st, n)
        best = min([node.dual] + [a for _, a in node.overgrown[-1:]])
    for s in node.boundary:
        local = gap_of(st, n, s) if direction == 1 else st.growth[s] if st.growth[s] else ('refused', 13)
        if isinstance(local, tuple):
            return local
        if local is not None:
            best = local if best is None else min(best, local)
    return ('free', -1 if best is None else best, 1 if not node.boundary else 0, best is None)


def length(st, n, direction, prep):
    if bad_node(st, n) or direction not in (0, 1):
        return ('refused', 3)
    if st.nodes[n].parent != NONE:
        return ('refused', 6)
    if prep and store_short(st, {n}, 1):
        return ('refused', 9)
    if prep:
        passes.do_prepare(st, n, direction)
    return scan(st, n, direction)


def growth_refusal(st, n, by):
    """Refusals 10 to 12 of a prepared node, or None."""
    node = st.nodes[n]
    top = [a for _, a in node.overgrown[-1:]]
    if by > 0 and any(
        st.holder[opp(s)] != n and st.growth[s] + st.growth[opp(s)] + by > st.weight[s // 2] for s in node.boundary
    ):
        return 10
    if by < 0 and any(-by > x for x in [node.dual] + top + [st.growth[s] for s in node.boundary]):
        return 11
    if any(x + by > DUAL_MAX for x in [node.dual] + top) or any(st.growth[s] + by > GROWTH_MAX for s in node.boundary):
        return 12
    return None


def grow(st, n, by):
    if bad_node(st, n):
        return ('refused', 3)
    if st.nodes[n].parent != NONE:
        return ('refused', 6)
    if by == 0:
        return ('done',)
    if store_short(st, {n}, 1):
        return ('refused', 9)
    passes.do_prepare(st, n, 1 if by > 0 else 0)
    refused = growth_refusal(st, n, by)
    if refused:
        return ('refused', refused)
    node = st.nodes[n]
    node.dual += by
    if node.overgrown:
        v, a = node.overgrown[-1]
        node.overgrown[-1] = (v, a + by)
    for s in node.boundary:
        st.growth[s] += by
    return ('done',)


def advance(st, n):
    if bad_node(st, n):
        return ('refused', 3)
    if st.nodes[n].parent != NONE:
        return ('refused', 6)
    state = st.nodes[n].state
    if state == STAY:
        return ('done',)
    answer = length(st, n, 1 if state == GROW else 0, True)
    if answer[0] != 'free' or answer[3]:
        return answer
    return grow(st, n, answer[1] if state == GROW else -answer[1])


def table(st):
    return list(st.growth)


def outermost(st, n):
    while st.nodes[n].parent != NONE:
        n = st.nodes[n].parent
    return n


def contacts(st):
    """Each contact as its edge and what stands at either end: an outermost node, or -1 for a free virtual vertex."""
    found = []
    for e in range(st.E):
        if st.growth[2 * e] + st.growth[2 * e + 1] != st.weight[e]:
            continue
        held = [NONE if st.holder[s] == NONE else outermost(st, st.holder[s]) for s in (2 * e, 2 * e + 1)]
        ends = [st.end[s] for s in (2 * e, 2 * e + 1)]
        free = [h == NONE and st.virtual[v] and st.vholder[v] == NONE for h, v in zip(held, ends)]
        two = NONE not in held and held[0] != held[1]
        if two or held[0] != NONE and free[1] or held[1] != NONE and free[0]:
            found.append((e, *(-1 if h == NONE else h for h in held)))
    return found


def inner(st, e):
    """Whether one node holds both sides of an edge: the node itself, not the blossom that it lies in."""
    return st.holder[2 * e] != NONE and st.holder[2 * e] == st.holder[2 * e + 1]


def gap(st, e):
    """What is left of an edge."""
    if not 0 <= e < st.E:
        return ('refused', 3)
    left = st.weight[e] - st.growth[2 * e] - st.growth[2 * e + 1]
    return ('inner',) if inner(st, e) else ('over', -left) if left < 0 else ('gap', left)


def representative(st, n):
    if bad_node(st, n):
        return ('refused', 3)
    while st.nodes[n].vertex == NONE:
        n = st.nodes[n].first
    return ('vertex', st.nodes[n].vertex)


def read_node(st, n):
    """What it stands for, its grow state, its parent or NONE, its dual variable."""
    if bad_node(st, n):
        return ('refused', 3)
    node = st.nodes[n]
    what = ('blossom', node.first) if node.vertex == NONE else ('defect', node.vertex)
    return (*what, node.state, node.parent, node.dual)


def clear(st):
    st.defect = [False] * st.V
    st.vholder, st.vgrandson = [NONE] * st.V, [NONE] * st.V
    st.growth, st.holder, st.grandson = [0] * (2 * st.E), [NONE] * (2 * st.E), [NONE] * (2 * st.E)
    st.nodes, st.active = [], []
    st.weight, st.reweighted = list(st.original), False
    return ('done',)
