"""Makes the calls of a script on the library, and keeps what only the block tells."""
import glob
import os
from array import array

from . import package
from cluster_growth import Conflicts, DualModule, NoLibrary, Refused, library

from .faults import NoAnswer
from .words import CALLS

BUILD = 'tools/build-library.sh builds the library from its proof'


def available():
    """Whether the library has been built."""
    return library.find() is not None


def older(path):
    """Whether a source file of the crates is newer than a file that was built from them."""
    when = os.path.getmtime(path)
    sources = glob.iglob(os.path.join(package.TOP, 'crates', '*', 'src', '**'), recursive=True)
    return any(os.path.getmtime(s) > when for s in sources if os.path.isfile(s))


def stale():
    """Whether a source file of the crates is newer than the library that was built from them."""
    found = library.find()
    return found is not None and library.VARIABLE not in os.environ and older(found)


def table(module, fields):
    growths = module.read_table().growths
    return [f'edge {e} {growths[2 * e]} {growths[2 * e + 1]}' for e in range(len(module.edges))]


def contacts(module, fields):
    return [str(c) for c in module.contacts()]


def group(module, fields):
    """The answer, and a line for each conflict and each stop."""
    try:
        said = module.group_max_update_length()
    except Refused as e:
        return [f'refused {e.number}']
    listed = said.conflicts + said.stops if isinstance(said, Conflicts) else ()
    return [str(said)] + [str(a) for a in listed]


# calls that answer with a list
OWN = {'table': table, 'contacts': contacts, 'group': group}
# calls whose values are not plain numbers
VALUES = {'blossom': lambda fields: [array('q', fields[1:]), fields[0]], 'erase': lambda fields: [array('q', fields)]}


def named(item):
    """A call by its name in the package, with its values."""
    return CALLS[item.word].call, *VALUES.get(item.word, list)(item.fields)


def answer(module, item):
    """The lines that a call answers, as cardrun writes them."""
    if item.word in OWN:
        return OWN[item.word](module, item.fields)
    return [str(module.call(*named(item)))]


def opened(graph, kind=DualModule):
    """The graph, opened by the library: a module, or the number of the refusal."""
    try:
        return kind(graph.V, graph.edges, graph.given, graph.N, graph.L, edge_count=graph.E, sheet=graph.sheet)
    except Refused as e:
        return e.number
    except NoLibrary as e:
        raise NoAnswer(str(e)) from None


def touching(module, item, said):
    """Where two nodes of a conflict come nearest: (edge, gap), from the boundary of the node that was asked."""
    node = item.fields[0]
    peer, block = int(said.split()[1]), module.block
    holder = block.rows['holder'].start
    edges = [s // 2 for s in block.boundary(node) if block.words[holder + (s ^ 1)] == peer + 1]
    return min(((module.gap(e).gap, e) for e in edges), default=(None, None))[::-1]


class Made:
    """The answers by number; by how much each `advance` moved; where each conflict is; which nodes each opening made
    outermost again; the weights at each call that a change of them stands at; the module as the last call left it.
    """

    def __init__(self, script, watch=None, book=None, kind=DualModule):
        self.answers, self.moved, self.meets, self.module, self.book = {}, {}, {}, None, book
        self.outermost, self.weights = {}, {}
        calls = script.calls()
        self.module = opened(script.graph, kind)
        if isinstance(self.module, int):
            if calls:
                self.answers[calls[0].number] = [f'refused {self.module}']
            self.module, self.refused = None, self.module
            return
        self.refused = None
        if watch:
            watch.start(self.module)
        for item in calls:
            self.make(item)
            if watch:
                watch.watch(self.module, item, self)

    def make(self, item):
        """Makes one call."""
        module, block = self.module, self.module.block
        before = module.call('read_node', item.fields[0]) if item.word == 'advance' else None
        if item.word == 'open-blossom':
            members = [n for n in range(block.count()) if block.node(n).parent == item.fields[0]]
        if self.book is not None:
            self.book.before(module, item)
        said = self.answers[item.number] = answer(module, item)
        if self.book is not None:
            self.book.after(item, said)
        if item.word == 'open-blossom' and said == ['done']:
            self.outermost[item.number] = members
        if module.block.reweighted():
            self.weights[item.number] = module.block.weights()
        if before is not None and said == ['done']:
            self.moved[item.number] = module.read_node(item.fields[0]).dual - before.dual
        if said and said[0].startswith('conflict') and int(said[0].split()[3]) == item.fields[0]:
            self.meets[item.number] = touching(module, item, said[0])
