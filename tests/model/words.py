"""The block of a state, free words zero (docs/LAYOUT.md)."""
from .state import NONE

REMOVED = 1024  # V + it is the class word of a removed node


def class_word(st, node):
    """A defect's vertex, V + the first member of a blossom, or V + 1,024."""
    return st.V + REMOVED if node.removed else node.vertex if node.vertex != NONE else st.V + node.first


def scratch_length(st):
    """Words of its scratch."""
    return 4 * st.E + min(st.V, 2 * st.E)


def words(st):
    pad = lambda xs: list(xs) + [0] * (st.N - len(st.nodes))
    first, at, store, start = [], [], [], []
    for sides in st.at:
        first.append(len(at))
        at += sides
    for n in st.nodes:
        start.append(len(store))
        store += n.boundary + [a * 1024 + v for v, a in n.overgrown]
    up = lambda xs: [x + 1 for x in xs]
    rows = [
        [st.V, st.E, st.N, st.L, len(st.nodes), len(st.active), int(st.reweighted)] + [0] * 9,
        [int(x) + 2 * int(y) for x, y in zip(st.virtual, st.defect)],
        up(st.vholder),
        up(st.vgrandson),
        first,
        st.end,
        st.growth,
        up(st.holder),
        up(st.grandson),
        at,
        st.weight,
        pad(class_word(st, n) for n in st.nodes),
        pad(n.state for n in st.nodes),
        pad(n.parent + 1 for n in st.nodes),
        pad(n.dual for n in st.nodes),
        pad(start),
        pad(len(n.boundary) for n in st.nodes),
        pad(len(n.overgrown) for n in st.nodes),
        store + [0] * (st.L - len(store)),
        st.active + [0] * (st.N - len(st.active)),
        st.original,
    ]
    return [x for row in rows for x in row]
