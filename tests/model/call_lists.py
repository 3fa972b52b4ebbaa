"""A list of calls in words, as docs/SPECIFICATION.md 25 has it: the calls one after another, and how often memory is
tested.
"""
from . import calls
from .keeps import keeps
from .soundness import sound

GREATEST = 2**63 - 1  # a word below 0 counts as this one
KINDS = {
    4: ('defect', 2),
    6: ('state', 2),
    7: ('prepare', 2),
    11: ('advance', 1),
    13: ('clear', 0),
    14: ('representative', 1),
    15: ('node', 1),
    16: ('gap', 1),
}  # calls whose values are the words behind the kind
CALLS = {
    'defect': calls.insert_defect,
    'blossom': calls.insert_blossom,
    'state': calls.set_state,
    'prepare': calls.prepare,
    'length': calls.length,
    'grow': calls.grow,
    'advance': calls.advance,
    'clear': calls.clear,
    'representative': calls.representative,
    'node': calls.read_node,
    'gap': calls.gap,
    'none': lambda st: ('refused', 3),
}


def natural(x):
    return x if x >= 0 else GREATEST


def call_of(words, circles):
    """The call that four words are, as its name and values."""
    kind, x, y, z = map(natural, words)
    if kind == 5:
        return ('blossom', x, [natural(m) for m in circles[y : y + z]]) if y + z <= len(circles) else ('none',)
    if kind == 8:
        return ('length', x, y, z == 1) if z <= 1 else ('none',)
    if kind == 9:
        return 'grow', x, words[2]
    name, count = KINDS.get(kind, ('none', 0))
    return (name, *(x, y)[:count])


def listed(st, words, circles, room):
    """The answers of the calls that have room, and how often memory was tested: before the first of them, and where it
    is not certain that a call kept the state sound. Behind a test that fails every call is refused 2.
    """
    said, tests, known, bad = [], 0, False, False
    for i in range(min(len(words) // 4, room // 5)):
        name, *values = call_of(words[4 * i : 4 * i + 4], circles)
        if not known and not bad:
            tests, bad = tests + 1, bool(sound(st))
        if bad:
            said.append(('refused', 2))
            continue
        known = keeps(st, name, *values)
        said.append(CALLS[name](st, *values))
    return said, tests
