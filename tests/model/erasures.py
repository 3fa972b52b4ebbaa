"""A change of weights, as docs/SPECIFICATION.md 24 words it."""
from .state import WEIGHT_MAX


def modifier_refusal(st, pairs):
    """What refuses a change, or None: each number over the whole list."""
    if any(not 0 <= e < st.E for e, _ in pairs):
        return 3
    if any(not 0 <= w <= WEIGHT_MAX for _, w in pairs):
        return 4
    return 16 if st.nodes or st.reweighted else None


def load_edge_modifier(st, pairs):
    """3 4 16"""
    refused = modifier_refusal(st, pairs)
    if refused:
        return ('refused', refused)
    for e, w in pairs:
        st.weight[e] = w
    st.reweighted = bool(pairs)
    return ('done',)
