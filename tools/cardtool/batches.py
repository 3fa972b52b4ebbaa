"""The calls of a run once more, so many to a list of fb_calls, on a second module; the answers are compared."""
from . import made, package  # noqa: F401
from cluster_growth import CallList
from cluster_growth.call_list import KINDS

from .faults import NoAnswer
from .plain import many
from .run import where
from .words import CALLS


class Batches:
    """The lists, and what they took. A call that a list cannot have ends the list, and is made alone."""

    def __init__(self, run, most):
        self.run, self.most = run, most
        self.module = opened(run)
        self.listed, self.waiting = CallList(), []
        self.calls = self.lists = self.tests = self.alone = 0
        for item in run.script.calls():
            self.take(item)
        self.make()

    def take(self, item):
        """Puts a call into the list, or makes it."""
        if CALLS[item.word].call in KINDS:
            self.listed.call(*made.named(item))
            self.waiting.append(item)
            if len(self.waiting) == self.most:
                self.make()
        else:
            self.make()
            self.alone += 1
            self.compare(item, made.answer(self.module, item), 'alone')

    def make(self):
        """Makes the calls that wait."""
        if not self.waiting:
            return
        said = self.module.calls(self.listed)
        for item, answer in zip(self.waiting, said.answers):
            self.compare(item, [str(answer)], 'by fb_calls')
        self.calls, self.lists, self.tests = self.calls + len(self.waiting), self.lists + 1, self.tests + said.tests
        self.listed, self.waiting = CallList(), []

    def compare(self, item, said, how):
        """The answer of a call must be that of the run."""
        want = self.run.answers.get(item.number, [])
        if said != want:
            lines = [', '.join(x) or 'nothing' for x in (said, want)]
            raise NoAnswer(f'made again {how}, the call answers {lines[0]}; the run has {lines[1]}', where(item))

    def line(self):
        """What came of it, in words."""
        alone = f"; {many(self.alone, 'call')} alone" if self.alone else ''
        return (
            f"the same by fb_calls, {self.most} to a list: {many(self.calls, 'call')} in {many(self.lists, 'list')}, "
            f"{many(self.tests, 'test')} of memory{alone}"
        )


def report(run, most):
    """The line about the lists of a run."""
    return 'no lists of calls: the opening was refused' if run.refused else Batches(run, most).line()


def opened(run):
    """A second module for a run."""
    if not run.script.well_formed:
        raise NoAnswer('an ill-formed record ends the run: there are no lists of calls')
    if not made.available():
        raise NoAnswer(f'fb_calls is a call of the library alone: {made.BUILD}')
    module = made.opened(run.graph)
    if isinstance(module, int):
        raise NoAnswer(f'the library refuses the opening, {module}, and the run did not')
    return module
