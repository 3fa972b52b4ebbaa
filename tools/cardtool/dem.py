"""Stim's detector error models, read from their text.

    error(0.01) D0 D1 L0 ^ D2        a mechanism: detectors and observables that it flips, split into parts by ^
    detector(1, 2, 0) D0             coordinates of a detector
    shift_detectors(0, 0, 1) 24      added to the coordinates and the detector numbers behind it
    logical_observable L0
    repeat 5 { .. }
"""
import re
from typing import Dict, List, NamedTuple, Tuple

from .faults import BadInput
from .plain import short

INSTRUCTION = re.compile(r'([A-Za-z_][A-Za-z0-9_]*)\s*(?:\(([^)]*)\))?\s*(.*)')
TAG = re.compile(r'\[(?:[^\]\\]|\\.)*\]')
MOST_STEPS = 500_000  # instructions, with repeats
NAMES = ('error', 'detector', 'shift_detectors', 'logical_observable', 'repeat')


class Instruction(NamedTuple):
    """An instruction with its arguments and what it names: parts of an error as (detectors, observables), detectors,
    observables, a count or a shift.
    """

    name: str
    arguments: List[float]
    names: list
    line: int
    body: list  # of a repeat


class Mechanism(NamedTuple):
    """A part of an error: its probability, detectors and observables, and the line that it comes from."""

    probability: float
    detectors: Tuple[int, ...]
    observables: Tuple[int, ...]
    line: int


class Model:
    """The mechanisms in order, the coordinates of detectors, and how many detectors and observables there are."""

    def __init__(self, most_detectors):
        self.mechanisms: List[Mechanism] = []
        self.coordinates: Dict[int, Tuple[float, ...]] = {}
        self.detectors = self.observables = 0
        self.most = most_detectors
        self.first = 0  # what shift_detectors has added so far
        self.shift: List[float] = []
        self.steps = 0

    def detector(self, relative, line):
        number = self.first + relative
        if number >= self.most:
            raise BadInput(f'detector {number}: at most {self.most} can be', line)
        self.detectors = max(self.detectors, number + 1)
        return number


def index(target, letter, line):
    """The number of a target D5 or L0."""
    if not re.fullmatch(letter + '[0-9]{1,9}', target):
        raise BadInput(f"a target is {letter} and a number here, not '{short(target)}'", line)
    return int(target[1:])


def numbers(words, line):
    """Arguments in parentheses."""
    out = []
    for w in words.split(',') if words and words.strip() else []:
        try:
            out.append(float(w))
        except ValueError:
            raise BadInput(f"'{short(w.strip())}' is no number", line) from None
        if not abs(out[-1]) < 1e6:
            raise BadInput(f'{short(w.strip())} is out of range', line)
    return out


def odd(values):
    """Those that are there an odd number of times, in order."""
    return tuple(sorted(v for v in set(values) if values.count(v) % 2))


def parts(targets, line):
    """The parts of an error, each as its detectors and its observables."""
    out = [[]]
    for t in targets:
        if t == '^':
            out.append([])
        else:
            out[-1].append(t)
    if len(out) > 1 and not all(out):
        raise BadInput('^ stands between two parts of an error', line)
    found = []
    for part in out:
        ds = odd([index(t, 'D', line) for t in part if t[:1] != 'L'])
        ls = odd([index(t, 'L', line) for t in part if t[:1] == 'L'])
        if len(ds) not in (1, 2):
            named = ' '.join(f'D{d}' for d in ds) or 'none'
            raise BadInput(
                f'a part of an error with {len(ds)} detectors ({short(named)}): a matching graph has one or two; '
                'Stim splits errors with decompose_errors=True',
                line,
            )
        found.append((ds, ls))
    return found


def named(name, arguments, targets, line):
    """What the targets of an instruction name."""
    if name == 'error':
        if len(arguments) != 1 or not 0 <= arguments[0] <= 1:
            raise BadInput('an error has one probability from 0 to 1', line)
        return parts(targets, line)
    if name in ('detector', 'logical_observable'):
        return [index(t, 'D' if name == 'detector' else 'L', line) for t in targets]
    if name == 'repeat':
        if len(targets) != 2 or targets[1] != '{' or not re.fullmatch('[0-9]{1,18}', targets[0]):
            raise BadInput('repeat takes a count and {', line)
    elif len(targets) != 1 or not re.fullmatch('[0-9]{1,9}', targets[0]):
        raise BadInput('shift_detectors takes a number', line)
    return [int(targets[0])]


def instructions(text):
    """The instructions of a text, blocks nested."""
    stack, opened = [[]], []
    for line, words in enumerate(text.split('\n'), 1):
        words = TAG.sub('', words).partition('#')[0].strip()
        if words == '}':
            if not opened:
                raise BadInput('} without a repeat', line)
            stack.pop()
            opened.pop()
        if words in ('', '}'):
            continue
        found = INSTRUCTION.fullmatch(words)
        name = found[1].lower() if found else ''
        if name not in NAMES:
            raise BadInput(f"no instruction of a detector error model: '{short(words)}'", line)
        arguments, body = numbers(found[2], line), []
        stack[-1].append(Instruction(name, arguments, named(name, arguments, found[3].split(), line), line, body))
        if name == 'repeat':
            if len(stack) > 50:
                raise BadInput('repeats are nested more than 50 deep', line)
            stack.append(body)
            opened.append(line)
    if opened:
        raise BadInput('a repeat without its }', opened[-1])
    return stack[0]


def take(model, i):
    """One instruction."""
    if i.name == 'error':
        for ds, ls in i.names:
            model.mechanisms.append(
                Mechanism(i.arguments[0], tuple([model.detector(d, i.line) for d in ds]), ls, i.line)
            )
            model.observables = max([model.observables] + [x + 1 for x in ls])
    elif i.name == 'detector':
        place = tuple(x + (model.shift[k] if k < len(model.shift) else 0) for k, x in enumerate(i.arguments))
        for d in i.names:
            number = model.detector(d, i.line)
            if place:
                model.coordinates[number] = place
    elif i.name == 'logical_observable':
        model.observables = max([model.observables] + [x + 1 for x in i.names])
    else:
        model.first += i.names[0]
        add = i.arguments + [0.0] * (len(model.shift) - len(i.arguments))
        model.shift = [x + (model.shift[k] if k < len(model.shift) else 0) for k, x in enumerate(add)]


def play(model, block):
    """The instructions of a block in order, repeats unrolled."""
    for i in block:
        model.steps += 1
        if model.steps > MOST_STEPS:
            raise BadInput(f'with its repeats the model has more than {MOST_STEPS} instructions', i.line)
        if i.name == 'repeat':
            for _ in range(i.names[0] if i.body else 0):
                play(model, i.body)
        else:
            take(model, i)


def read(data, most_detectors=100_000):
    """The Model of a file's bytes."""
    try:
        text = data.decode('utf-8-sig')
    except UnicodeDecodeError as e:
        raise BadInput(f'not text: byte {data[e.start]:#04x} is not UTF-8', data[: e.start].count(b'\n') + 1) from None
    model = Model(most_detectors)
    play(model, instructions(text))
    if not model.mechanisms:
        raise BadInput('no error is in it')
    return model
