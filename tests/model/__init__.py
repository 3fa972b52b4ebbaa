"""An executable model of the calls, written from what docs/SPECIFICATION.md says of them, without regard to speed or
memory. It knows nothing of the code.

A state is a State; a call takes it, changes it and answers a tuple: ('free', length, empty, unlimited), ('conflict',
..), ('refused', k), ..
"""
from .call_lists import call_of, listed
from .calls import (
    advance,
    clear,
    contacts,
    gap,
    grow,
    held_test,
    inner,
    insert_blossom,
    insert_defect,
    length,
    prepare,
    read_node,
    representative,
    scan,
    set_state,
    table,
)
from .erasures import load_edge_modifier, modifier_refusal
from .keeps import keeps
from .program import Run, lines
from .remove import members, remove_blossom, remove_refusal, stops_opening
from .rounds import group_length, grow_all, prepare_all, renew_active_list
from .soundness import sound
from .state import DUAL_MAX, GROW, GROWTH_MAX, NONE, SHRINK, STAY, WEIGHT_MAX, Node, State, open_graph, opp
from .vectors import frames

__all__ = [
    'DUAL_MAX',
    'GROW',
    'GROWTH_MAX',
    'NONE',
    'Node',
    'Run',
    'SHRINK',
    'STAY',
    'State',
    'WEIGHT_MAX',
    'advance',
    'call_of',
    'clear',
    'contacts',
    'frames',
    'gap',
    'group_length',
    'grow',
    'grow_all',
    'held_test',
    'inner',
    'insert_blossom',
    'insert_defect',
    'keeps',
    'length',
    'lines',
    'listed',
    'load_edge_modifier',
    'members',
    'modifier_refusal',
    'open_graph',
    'opp',
    'prepare',
    'prepare_all',
    'read_node',
    'remove_blossom',
    'remove_refusal',
    'renew_active_list',
    'representative',
    'scan',
    'set_state',
    'sound',
    'stops_opening',
    'table',
]
