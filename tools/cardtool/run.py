"""A run of a script: by the program at its sizes, by the library at greater ones and for calls that only the library
has.
"""
from . import made, package, program  # noqa: F401
from cluster_growth import sentence

from .faults import NoAnswer
from .records import encode_item
from .script import LIBRARY_SIZES, PROGRAM_SIZES
from .sentences import words
from .words import CALLS, WORDS, Item


def where(item):
    """The line of an item, or its record where it stands in no line."""
    return item.line if item.line is not None else f'record {item.number}'


class Run:
    """The script, the answers of each item by its number, and what the library tells beside them (`made`, or None).

    `refused` is the number of a refused opening. Behind the record `ended` nothing was read.
    """

    def __init__(self, script, watch=None):
        self.script, self.graph, self.refused, self.made = script, script.graph, None, None
        self.by = self.runner()
        if script.well_formed and made.available() and (self.by == 'library' or self.graph.within(PROGRAM_SIZES)):
            self.made = made.Made(script, watch)
            self.refused = self.made.refused
        self.answers = self.by_program() if self.by == 'program' else self.made.answers
        self.ended = self.end()

    def runner(self):
        """Who answers. Records, and text with `bytes` in it, are the program's."""
        script = self.script
        if not script.well_formed or script.form == 'records':
            return 'program'
        if script.sheet is not None:
            return 'library'
        only = next((i for i in script.items if WORDS[i.word].kind is None), None)
        if only is None and self.graph.within(PROGRAM_SIZES) and (program.built() or not made.available()):
            return 'program'
        if made.available():
            return 'library'
        if only is not None:
            raise NoAnswer(f'{only.word} is a call of the library alone: {made.BUILD}', only.line)
        if self.graph.fault(LIBRARY_SIZES) is None:
            fault = self.graph.fault(PROGRAM_SIZES)
            raise NoAnswer(f'{fault[2]} in the program cardrun; the library takes more: {made.BUILD}', fault[1])
        return 'program'

    def by_program(self):
        """The program's answers, which must be those of the library where that ran too."""
        calls, extra = self.script.calls(), Item(len(self.script.items) + 1, 'clear', [])
        opens = self.script.well_formed and not calls  # no call: one that changes nothing opens the graph
        answers = program.answers(self.script.records() + (encode_item(extra) if opens else b''))
        fault = self.graph.fault(PROGRAM_SIZES) if self.script.well_formed else None
        if fault and answers.get((calls or [extra])[0].number) == [f'refused {fault[0]}']:
            self.refused = fault[0]
        answers.pop(extra.number if opens else None, None)
        for number in sorted(set(answers) | set(self.made.answers)) if self.made else ():
            ours, theirs = self.made.answers.get(number, []), answers.get(number, [])
            if ours != theirs:
                raise NoAnswer(
                    f"cardrun and the library differ at record {number}: {', '.join(theirs)} and {', '.join(ours)}; "
                    'one of them is older'
                )
        return answers

    def end(self):
        """The number behind which nothing was read, or None."""
        silent = any(
            i.number is None or i.reason or i.word in CALLS and i.word != 'contacts' and i.number not in self.answers
            for i in self.script.items
        )
        return max(self.answers, default=0) if silent else None

    def read(self, item):
        return item.number is not None and (self.ended is None or item.number <= self.ended)

    def opening_fault(self):
        """A refused opening as (where, words)."""
        fault = self.graph.fault(PROGRAM_SIZES if self.by == 'program' else LIBRARY_SIZES)
        if fault is None or fault[0] != self.refused:
            return self.graph.where['sizes'], f'refused {self.refused}: {sentence(self.refused)}'
        return fault[1], f'refused {self.refused}: {fault[2]}'

    def said(self, item):
        """The answers of an item; 'nothing' for a call without lines."""
        return self.answers.get(item.number, ['nothing'] if self.read(item) else ['not read: the run has ended'])

    def unexpected(self):
        """Where a run is not as it should be, as (where, words): answers that were expected and did not come,
        refusals that were not expected.
        """
        first = next(iter(self.script.calls()), None)
        if self.refused and not (first and first.expected == [f'refused {self.refused}']):
            yield self.opening_fault()
            return
        for i in self.script.items:
            got = self.answers.get(i.number, [])
            if i.expected is not None and i.expected != got:
                yield where(
                    i
                ), f"expected {', '.join(i.expected) or 'nothing'}; the answer is {', '.join(got) or 'nothing'}"
            elif i.expected is None and got and got[0].startswith('refused'):
                yield where(i), f'{got[0]}: {words(self, i, got[0])}'

    def table(self):
        """The growths at the left and right side of every edge after the last call."""
        if self.made is not None and self.made.module is not None:
            return [tuple(g) for g in self.made.module.read_table()]
        if self.refused or not self.script.well_formed:
            raise NoAnswer(*self.why_no_table())
        item = Item(len(self.script.items) + 1, 'table', [])
        got = program.answers(self.script.records() + encode_item(item))[item.number]
        return [tuple(int(x) for x in a.split()[2:]) for a in got]

    def why_no_table(self):
        """What stands in the way of a table, and where."""
        if self.refused:
            at, what = self.opening_fault()
            return f'no table: the opening is {what}', at
        bad = next(i for i in self.script.items if i.reason)
        return f'no table: an ill-formed record: {bad.reason}', where(bad)
