"""Lists of calls on library and model: words of random calls, and the single calls that they are."""
import ctypes
import os
import sys
from array import array

sys.dont_write_bytecode = True
sys.path.insert(0, os.path.join(os.path.dirname(os.path.dirname(os.path.abspath(__file__))), 'rounds'))
from compared import SEEN, Compared, M, compare, said, tidied, words as words_of  # noqa: E402
from cluster_growth.answers import read_rows  # noqa: E402
from model.call_lists import CALLS, KINDS  # noqa: E402

KIND = {**{name: kind for kind, (name, _) in KINDS.items()}, 'blossom': 5, 'length': 8, 'grow': 9}
NAMES = {
    'defect': 'insert_defect',
    'blossom': 'insert_blossom',
    'state': 'set_grow_state',
    'prepare': 'prepare',
    'length': 'max_update_length',
    'grow': 'grow',
    'advance': 'advance',
    'clear': 'clear',
    'representative': 'representative_vertex',
    'node': 'read_node',
    'gap': 'gap',
}  # in the package
STRANGE = [-1, -(2**63), 2**63 - 1, 2**32, 5000, 1024, 0, 1, 2, 3, 10, 12, 17]  # words that are none, mostly


def shrinking(rng, st):
    """A call that prepares for shrinking, if it is not refused."""
    n = rng.randrange(len(st.nodes))
    circle = ('blossom', 1, rng.sample(range(len(st.nodes)), 3 if len(st.nodes) > 2 else 1))
    return rng.choice([('prepare', n, 0), ('length', n, 0, True), ('grow', n, -1), ('advance', n), circle])


def random_calls(rng, st, count, shrinks=0.0):
    """Calls of a list, each chosen on the state that those before it leave, as far as that is sound."""
    st, out = st.copy(), []
    while len(out) < count:
        call = shrinking(rng, st) if st.nodes and rng.random() < shrinks else compare.call(rng, st)
        if call[0] not in NAMES:
            n = rng.randrange(len(st.nodes) + 1)
            call = rng.choice([('representative', n), ('node', n), ('gap', rng.randrange(st.E + 1))])
        out.append(call)
        if not M.sound(st):
            CALLS[call[0]](st, *call[1:])
    return out


def encoded(rng, calls):
    """The words of calls, with anything in those that have no meaning, and the list of their circles, with others
    between them.
    """
    words, circles = array('q'), array('q')
    for name, *values in calls:
        if name == 'blossom':
            circles.extend(rng.randint(-3, 9) for _ in range(rng.randrange(3)))
            values, circle = [values[0], len(circles), len(values[1])], values[1]
            circles.extend(circle)
        words.extend([KIND[name], *values] + [rng.choice(STRANGE) for _ in range(3 - len(values))])
    return words, circles


def spoiled(rng, words, circles):
    """The same with strange words among them, and circles that go beyond the list."""
    for _ in range(rng.choice([0, 0, 1, 2, 5]) if words else 0):
        words[rng.randrange(len(words))] = rng.choice(STRANGE)
    if circles and rng.random() < 0.2:
        circles.pop()
    if circles and rng.random() < 0.1:
        circles[rng.randrange(len(circles))] = rng.choice(STRANGE)
    return words, circles


class Twin:
    """Block and scratch of a module once more, and single calls on them."""

    def __init__(self, m, lengths=(0, 0)):
        self.library = m.library.calls
        self.block, self.scratch = (type(memory).from_buffer_copy(memory) for memory in (m._block, m._scratch))
        self.memory = memory_of(self.block, self.scratch, lengths)

    def call(self, words, circles, answer):
        """The call that four words are; where they are none, the gap of an edge that is none, which is refused as
        they must be.
        """
        name, *values = M.call_of(words, circles)
        if name == 'none':
            name, values = 'gap', [2**64 - 1]
        if name == 'blossom':
            circle = circles[words[2] : words[2] + words[3]]
            values = [*circle.buffer_info(), values[0]]
        self.library[NAMES[name]](*self.memory, *values, ctypes.addressof(answer), 5)


def memory_of(block, scratch, lengths=(0, 0)):
    """Addresses and lengths of block and scratch, the lengths so many words less."""
    return [x for m, less in zip((block, scratch), lengths) for x in (ctypes.addressof(m), len(m) - less)]


class Lists(Compared):
    """A list of calls by fb_calls, by single calls and on the model."""

    def together(self, m, rng, words, circles, room, lengths=(0, 0)):
        """The list by fb_calls, and by single calls on a twin: every word that is left. What is answered."""
        self.litter(m, rng)
        twin = Twin(m, lengths)
        got = array('Q', [rng.randrange(99) for _ in range(room)])
        want = got[:]
        lists = [x for list_ in (words, circles, got) for x in list_.buffer_info()]
        count = m.library.calls['calls'](*memory_of(m._block, m._scratch, lengths), *lists, *m._told)
        for i in range(min(len(words) // 4, room // 5)):
            answer = (ctypes.c_size_t * 5)(*want[5 * i : 5 * i + 5])
            twin.call(words[4 * i : 4 * i + 4], circles, answer)
            want[5 * i : 5 * i + 5] = array('Q', answer)
        self.assertEqual(got, want)
        self.assertEqual(bytes(m._block), bytes(twin.block))
        self.assertEqual(bytes(m._scratch), bytes(twin.scratch))
        return m._answer[:count], got

    def listed(self, m, st, rng, words, circles, room=None):
        """The same on the model too. How often memory was tested."""
        room = 5 * (len(words) // 4) + rng.randrange(5) if room is None else room
        told, got = self.together(m, rng, words, circles, room)
        want, tests = M.listed(st, words, circles, room)
        self.assertEqual(told, [20, len(want), tests])
        self.assertEqual([str(a) for a in read_rows(got, len(want))], [said(a) for a in want])
        self.assertEqual(tidied(m), words_of(st))
        for a in want:
            SEEN[f'refused {a[1]}' if a[0] == 'refused' else a[0]] += 1
        SEEN[f'{min(tests, 2)} tests'] += 1
        return tests

    def random_list(self, m, st, rng, most=12, shrinks=0.0):
        """A list of random calls, spoiled now and then, and room for all of them or for fewer."""
        words, circles = spoiled(rng, *encoded(rng, random_calls(rng, st, rng.randint(0, most), shrinks)))
        room = rng.randrange(len(words) * 2 + 1) if rng.random() < 0.2 else None
        return self.listed(m, st, rng, words, circles, room)
