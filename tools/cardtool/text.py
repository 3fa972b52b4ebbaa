"""The text form: one call to a line, `;` between calls on one line, `#` before a comment.

    graph V E N L              edge LEFT RIGHT WEIGHT       virtual VERTEX
    defect VERTEX STATE        blossom STATE NODE NODE ...  state NODE STATE
    prepare NODE DIRECTION     length NODE DIRECTION        length NODE DIRECTION prepared
    grow NODE LENGTH           advance NODE                 representative NODE
    node NODE                  gap EDGE                     open-blossom NODE
    erase EDGE WEIGHT ...      round LENGTH                 group, prepare_all, renew
    table, contacts, clear
    at VERTEX X Y [LAYER]      observable NUMBER EDGE ...
    sheet DECIMAL ...          bytes HEX...

N and L may be left out. States are stay, grow, shrink; directions grow, shrink; their numbers stand for them too.
`at` and `observable` are no calls: where the picture has a vertex, and which edges flip a logical observable. With
`sheet`, which has the weights of the edges in their order as decimals, an edge is LEFT RIGHT. `bytes` are records as
they are. Behind a call, `→` or `->` gives the answer that is expected.
"""
import difflib
import re

from . import package  # noqa: F401
from cluster_growth import ten_thousandths

from .faults import BadInput
from .plain import short
from .script import Script
from .words import CALLS, GRAPH, NAMED, WORDS, Item

NUMBER = re.compile(r'-?[0-9]+')
DECIMAL = re.compile(r'-?[0-9]{1,6}(\.[0-9]+)?')
HEXADECIMAL = re.compile(r'([0-9a-fA-F]{2})+')
DIRECTIVES = ('at', 'observable', 'sheet', 'bytes')


def field(name, word):
    """The number of a field that is written as this word."""
    if NUMBER.fullmatch(word):
        if len(word) > 11 or not -(2**31) <= int(word) < 2**31:
            raise ValueError(f'{name} {short(word)} does not fit into 4 signed bytes')
        if name == 'prepared' and int(word) not in (0, 1):
            raise ValueError(f'prepared is 1 or 0, not {word}')
        return int(word)
    known = [w for w in NAMED.get(name, []) if w]
    if word.lower() in known:
        return NAMED[name].index(word.lower())
    if name == 'prepared':
        raise ValueError(f"behind the direction stands 'prepared' or nothing, not '{short(word)}'")
    what = f"{', '.join(known[:-1])} or {known[-1]}" if known else 'a whole number'
    raise ValueError(f"{name} is {what}, not '{short(word)}'")


def fields(name, words):
    """The numbers of a call's fields. Of a graph, N and L may be missing."""
    row = WORDS[name]
    if name == 'length' and len(words) == 2:
        words = words + ['0']
    if not row.takes(len(words)) and not (name == 'graph' and len(words) in (2, 3)):
        takes = ' '.join(row.fields + row.many) + (' ...' if row.many else '') or 'nothing'
        takes = 'V E, and N L where wanted' if name == 'graph' else takes
        stand = 'stand' if len(words) > 1 else 'stands'
        raise ValueError(f"{name} takes {takes}; here {stand} {len(words) or 'nothing'}")
    return [field(n, w) for n, w in zip(row.names(len(words)), words)]


class Parser:
    """Reads a text item by item."""

    def __init__(self):
        self.out = Script()
        self.graph_line = self.call_line = None  # where the graph and the first call stand
        self.raw = False  # behind `bytes` the order of records is the writer's affair
        self.placed = []  # (line, vertex)
        self.bare, self.weighed = None, None  # the first edge without a weight, and with one

    def place(self, words, line):
        """Takes `at VERTEX X Y [LAYER]`."""
        if len(words) not in (3, 4):
            raise ValueError('at takes vertex x y, and a layer where wanted')
        vertex = field('vertex', words[0])
        for w in words[1:]:
            if not DECIMAL.fullmatch(w):
                raise ValueError(f"x, y and layer are decimals below 1000000, not '{short(w)}'")
        if vertex in self.out.at:
            raise ValueError(f'vertex {vertex} has a place already')
        self.out.at[vertex] = tuple(float(w) for w in words[1:])
        self.placed.append((line, vertex))

    def observe(self, words):
        """Takes `observable NUMBER EDGE ...`."""
        if not words:
            raise ValueError('observable takes its number and edges')
        number, *edges = [field('edge' if i else 'observable', w) for i, w in enumerate(words)]
        self.out.observables.setdefault(number, []).extend(edges)

    def values(self, words, line):
        """Takes `sheet DECIMAL ...`."""
        if not words:
            raise ValueError('sheet takes decimals')
        self.order('sheet', line)
        self.out.sheet = (self.out.sheet or []) + [(ten_thousandths(w), line) for w in words]

    def edge(self, words, line):
        """The fields of an edge, whose weight a sheet may give."""
        if len(words) == 2:
            self.bare = self.bare or line
            return fields('edge', words + ['0'])
        self.weighed = self.weighed or line
        return fields('edge', words)

    def order(self, name, line):
        """Refuses an item that cannot stand here."""
        if self.raw:
            return
        if self.graph_line is None and name != 'graph':
            raise ValueError(f'{name} before the graph: the first word is graph')
        if self.graph_line is not None and name == 'graph':
            raise ValueError(f'a second graph (the first stands in line {self.graph_line})')
        if self.call_line is not None and (name in GRAPH or name == 'sheet'):
            raise ValueError(f'{name} behind the first call (line {self.call_line}), which opened the graph')

    def expected(self, name, answer):
        """The answers behind an arrow."""
        if name in ('', 'at', 'observable', 'sheet'):
            raise ValueError('an answer without a call')
        lines = [' '.join(a.split()) for a in answer.split(',')]
        if lines == ['']:
            raise ValueError("no answer behind the arrow; 'nothing' is for a call without lines")
        return [] if lines == ['nothing'] else lines

    def take(self, part, line):
        """Takes what stands between two `;`."""
        call, arrow, answer = part.replace('->', '→').partition('→') if '>' in part or '→' in part else (part, '', '')
        words = call.split()
        if not words and not arrow:
            return
        name, words = (words[0].lower(), words[1:]) if words else ('', [])
        expected = self.expected(name, answer) if arrow else None
        if name == 'at':
            self.place(words, line)
        elif name == 'observable':
            self.observe(words)
        elif name == 'sheet':
            self.values(words, line)
        elif name == 'bytes':
            if not HEXADECIMAL.fullmatch(''.join(words)):
                raise ValueError('bytes takes pairs of hexadecimal digits')
            self.out.items.append(Item(None, None, [], line, expected, bytes.fromhex(''.join(words))))
            self.raw = True
        elif name not in WORDS:
            near = difflib.get_close_matches(name, list(WORDS) + list(DIRECTIVES), 1)
            raise ValueError(f"unknown word '{short(name)}'" + (f"; did you mean '{near[0]}'?" if near else ''))
        else:
            values = self.edge(words, line) if name == 'edge' else fields(name, words)
            self.order(name, line)
            if name == 'graph':
                self.graph_line = self.graph_line or line
            elif name in CALLS:
                self.call_line = self.call_line or line
            self.out.items.append(Item(len(self.out.items) + 1, name, values, line, expected))

    def finish(self):
        """The script, with what only the whole of it shows."""
        if not self.out.items:
            raise BadInput('nothing is in it: the first word is graph')
        first = self.out.items[0]
        for line, vertex in self.placed:
            if first.word == 'graph' and not 0 <= vertex < first.fields[0]:
                raise BadInput(f'at names vertex {vertex}; the graph has 0 to {first.fields[0] - 1}', line)
        self.finish_sheet()
        self.out.settle()
        return self.out


    def finish_sheet(self):
        """Weights stand in the edges or in a sheet, and a sheet is for the library alone."""
        if self.out.sheet is None and self.bare is not None:
            raise BadInput('edge takes left right weight; here stand 2', self.bare)
        if self.out.sheet is not None and self.weighed is not None:
            raise BadInput('an edge with a weight beside a sheet, which has the weights', self.weighed)
        if self.out.sheet is not None and self.raw:
            raise BadInput('bytes are for the program, which takes no sheet', self.out.sheet[0][1])


def parse(data):
    """The Script of a text's bytes; BadInput where it isn't one."""
    parser = Parser()
    try:
        text = data.decode('utf-8-sig')
    except UnicodeDecodeError as e:
        raise BadInput(f'not text: byte {data[e.start]:#04x} is not UTF-8', data[: e.start].count(b'\n') + 1) from None
    for line, whole in enumerate(text.split('\n'), 1):
        code, _, comment = whole.partition('#')
        if not parser.out.items and not code.strip():
            parser.out.title = parser.out.title or comment.strip()
        for part in code.split(';'):
            try:
                parser.take(part, line)
            except ValueError as e:
                raise BadInput(str(e), line) from None
    return parser.finish()
