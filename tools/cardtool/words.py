"""The words of the text form, a row each.

A call that the library gains is a row here (and a row and a method in the package cluster_growth). One whose values
are not plain numbers, or whose answer is a list, has a function in made.py, one that moves dual variables a case in
book.py.
"""
from typing import NamedTuple, Optional, Tuple

STATES = ['stay', 'grow', 'shrink']
DIRECTIONS = ['shrink', 'grow']
NAMED = {
    'state': STATES,
    'direction': DIRECTIONS,
    'prepared': [None, 'prepared'],
}  # the words of a field, by its number


class Word(NamedTuple):
    """A word with its fields. `many` are fields that may follow again and again, in turn."""

    fields: Tuple[str, ...] = ()
    kind: Optional[int] = None  # its kind as a record; None: the program cardrun does not have it
    call: Optional[str] = None  # its name in the package cluster_growth
    many: Tuple[str, ...] = ()

    def names(self, count):
        """The names of so many fields."""
        more = count - len(self.fields)
        return self.fields + tuple(self.many[k % len(self.many)] for k in range(more)) if more > 0 else self.fields

    def takes(self, count):
        """Whether there can be so many fields."""
        more = count - len(self.fields)
        return more == 0 or more > 0 and self.many != () and more % len(self.many) == 0


GRAPH = {
    'graph': Word(('V', 'E', 'N', 'L'), 1),
    'edge': Word(('left', 'right', 'weight'), 2),
    'virtual': Word(('vertex',), 3),
}
CALLS = {
    'defect': Word(('vertex', 'state'), 4, 'insert_defect'),
    'blossom': Word(('state',), 5, 'insert_blossom', many=('node',)),
    'state': Word(('node', 'state'), 6, 'set_grow_state'),
    'prepare': Word(('node', 'direction'), 7, 'prepare'),
    'length': Word(('node', 'direction', 'prepared'), 8, 'max_update_length'),
    'grow': Word(('node', 'length'), 9, 'grow'),
    'table': Word((), 10, 'read_table'),
    'advance': Word(('node',), 11, 'advance'),
    'contacts': Word((), 12, 'contacts'),
    'clear': Word((), 13, 'clear'),
    'open-blossom': Word(('node',), None, 'remove_blossom'),
    'erase': Word((), None, 'load_edge_modifier', many=('edge', 'weight')),
    'representative': Word(('node',), None, 'representative_vertex'),
    'node': Word(('node',), None, 'read_node'),
    'gap': Word(('edge',), None, 'gap'),
    'renew': Word((), None, 'renew_active_list'),
    'prepare_all': Word((), None, 'prepare_all'),
    'group': Word((), None, 'group_max_update_length'),
    'round': Word(('length',), None, 'grow_all'),
}
WORDS = {**GRAPH, **CALLS}
KINDS = {w.kind: name for name, w in WORDS.items() if w.kind}
INSERTS = ('defect', 'blossom')


class Item:
    """A line of the graph, or a call: its number as a record, the line that it stands in, what is expected of it.

    `raw` has bytes that are taken as they are; `reason` says why they are ill-formed. Behind the end of a run
    `number` is None.
    """

    __slots__ = ('number', 'word', 'fields', 'line', 'expected', 'raw', 'reason')

    def __init__(self, number, word, fields, line=None, expected=None, raw=None, reason=None):
        self.number, self.word, self.fields, self.line = number, word, fields, line
        self.expected, self.raw, self.reason = expected, raw, reason

    def is_call(self):
        return self.reason is None and self.word in CALLS

    def text(self):
        """The item as a line of text."""
        if self.reason is not None:
            return 'bytes ' + self.raw[:10].hex(' ', -2) + (' ...' if len(self.raw) > 10 else '')
        word = WORDS[self.word]
        out = [self.word]
        for name, x in zip(word.names(len(self.fields)), self.fields):
            known = NAMED.get(name, [])
            said = known[x] if 0 <= x < len(known) else str(x)
            out += [said] if said else []
        return ' '.join(out)
