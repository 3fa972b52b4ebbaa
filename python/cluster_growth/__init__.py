"""Cluster growth on decoding graphs, by the proved library of this repository.

    from cluster_growth import DualModule

    module = DualModule(4, [(0, 1, 4), (1, 2, 4), (2, 3, 4)], virtual=[0, 3])
    one, two = module.insert_syndrome([0, 1, 1, 0])
    module.max_update_length(one)      # Free(length=2, empty=False)
    module.grow(one, 2)
    module.grow(two, 2)
    module.max_update_length(one)      # Conflict(peer=1, peer_defect=1, node=0, defect=0)
    module.read_table()[1]             # Growth(left=2, right=2)
"""
from .answers import (
    Answer,
    CallsMade,
    Conflict,
    Conflicts,
    Contact,
    Done,
    Free,
    Gap,
    Group,
    Inner,
    Left,
    Length,
    Moved,
    NeedExpand,
    NewNode,
    NodeRead,
    Opened,
    Over,
    Prepared,
    Refusal,
    ShrinkStop,
    ShrinkStopPeer,
    TouchingVirtual,
    Unlimited,
    Verdict,
    Vertex,
)
from .block import Block, Node
from .call_list import CallList, Listed
from .dual_module import DualModule, Growth, Table
from .library import Library, NoLibrary
from .matching import Matching, match
from .refusals import Refused, sentence
from .sheet import decimal, ten_thousandths
from .sizes import block_words, circle_store, enough_store, scratch_words
from .values import Direction, GrowState
from .verdict import check_table

__all__ = [
    'Answer',
    'Block',
    'CallList',
    'CallsMade',
    'Conflict',
    'Conflicts',
    'Contact',
    'Direction',
    'Done',
    'DualModule',
    'Free',
    'Gap',
    'Group',
    'Growth',
    'GrowState',
    'Inner',
    'Left',
    'Length',
    'Library',
    'Listed',
    'Matching',
    'Moved',
    'NeedExpand',
    'NewNode',
    'NoLibrary',
    'Node',
    'NodeRead',
    'Opened',
    'Over',
    'Prepared',
    'Refusal',
    'Refused',
    'ShrinkStop',
    'ShrinkStopPeer',
    'Table',
    'TouchingVirtual',
    'Unlimited',
    'Verdict',
    'Vertex',
    'block_words',
    'check_table',
    'circle_store',
    'decimal',
    'enough_store',
    'match',
    'scratch_words',
    'sentence',
    'ten_thousandths',
]
__version__ = '0.1.0'
