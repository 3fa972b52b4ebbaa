"""The exported calls, one row each. A call that the library gains is a row here and a method of DualModule."""
from __future__ import annotations

import ctypes
from typing import Dict, List, NamedTuple, Tuple

# Kinds of parameters, as C types. A stretch of words goes over as its address and its length.
SIZE = (ctypes.c_size_t,)
SIGNED = (ctypes.c_int64,)
FLAG = (ctypes.c_bool,)
WORDS = (ctypes.c_void_p, ctypes.c_size_t)


class Call(NamedTuple):
    """A call of include/fusion_blossom.h: its parameters between the memory that is lent, which comes first, and the
    answer, which comes last.
    """

    symbol: str
    parameters: Tuple[tuple, ...] = ()
    lent: Tuple[str, ...] = ('block', 'scratch')

    def types(self) -> List[type]:
        """The C types of all parameters, in order."""
        return [t for p in (WORDS,) * len(self.lent) + self.parameters + (WORDS,) for t in p]


TRIAL = ('block', 'second', 'scratch')  # what a call for all clusters works on

OPEN = Call('fb_open', (WORDS, WORDS, SIZE, SIZE, SIZE, SIZE))  # edges, virtual vertices, V, E, N, L
# edges, whose third words are written, sheet, virtual vertices, V, E, N, L
OPEN_SHEET = Call('fb_open_sheet', (WORDS, WORDS, WORDS, SIZE, SIZE, SIZE, SIZE))
# edges and virtual vertices, which stand where block and scratch do; defects, dual variables, growths, distances, V, E
CHECK_TABLE = Call('fb_check_table', (WORDS, WORDS, WORDS, WORDS, SIZE, SIZE))

CALLS: Dict[str, Call] = {
    'insert_defect': Call('fb_insert_defect', (SIZE, SIZE)),
    'insert_blossom': Call('fb_insert_blossom', (WORDS, SIZE)),
    'remove_blossom': Call('fb_remove_blossom', (SIZE,)),
    'load_edge_modifier': Call('fb_load_edge_modifier', (WORDS,)),
    'set_grow_state': Call('fb_set_grow_state', (SIZE, SIZE)),
    'prepare': Call('fb_prepare', (SIZE, SIZE)),
    'max_update_length': Call('fb_max_update_length', (SIZE, SIZE, FLAG)),
    'grow': Call('fb_grow', (SIZE, SIGNED)),
    'advance': Call('fb_advance', (SIZE,)),
    'clear': Call('fb_clear'),
    'representative_vertex': Call('fb_representative_vertex', (SIZE,)),
    'read_node': Call('fb_read_node', (SIZE,)),
    'gap': Call('fb_gap', (SIZE,)),
    'read_table': Call('fb_read_table', (WORDS,)),
    'contacts': Call('fb_contacts', (WORDS,)),
    'renew_active_list': Call('fb_renew_active_list', (), ('block',)),
    'prepare_all': Call('fb_prepare_all', (), TRIAL),
    'group_max_update_length': Call('fb_group_max_update_length', (WORDS,), TRIAL),
    'grow_all': Call('fb_grow_all', (SIGNED,), TRIAL),
    'calls': Call('fb_calls', (WORDS, WORDS, WORDS)),  # calls, circles, answers
}
