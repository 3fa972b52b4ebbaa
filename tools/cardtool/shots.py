"""Shots: which detectors fired. One to a line, as 01 text, as `shot D5 D9 L0`, or as detector numbers."""
import re

from .faults import BadInput
from .plain import short

FORMS = ('01', 'dets', 'hits')


def form_of(lines, detectors, observables):
    """Which form the lines have."""
    if all(l.split()[0] == 'shot' for l in lines):
        return 'dets'
    if all(re.fullmatch('[01]+', l) and len(l) in (detectors, detectors + observables) for l in lines):
        return '01'
    return 'hits'


def fired(words, form, detectors, observables, line):
    """The detectors and observables of one shot."""
    if form == '01':
        if not re.fullmatch('[01]*', words) or len(words) not in (detectors, detectors + observables):
            raise BadInput(
                f'a shot of {detectors} digits 0 or 1, one for each detector, and {observables} for the observables '
                f'where wanted; here are {len(words)}',
                line,
            )
        return [k for k, b in enumerate(words[:detectors]) if b == '1'], [
            k for k, b in enumerate(words[detectors:]) if b == '1'
        ]
    targets = words.split()[1:] if form == 'dets' else re.split(r'[,\s]+', words.strip()) if words.strip() else []
    ds, ls = [], []
    for t in targets:
        found = re.fullmatch('([DL]?)([0-9]{1,9})', t)
        if not found or form == 'dets' and not found[1]:
            raise BadInput(f"a detector is {'D and a' if form == 'dets' else 'a'} number here, not '{short(t)}'", line)
        number, most = int(found[2]), observables if found[1] == 'L' else detectors
        if number >= most:
            raise BadInput(f"{'observable' if found[1] == 'L' else 'detector'} {number}: the model has {most}", line)
        (ls if found[1] == 'L' else ds).append(number)
    return sorted(set(ds)), sorted(set(ls))


def shot(data, which, detectors, observables, form=None):
    """The detectors and observables of the shot that is asked for, from 0."""
    try:
        lines = data.decode('utf-8-sig').split('\n')
    except UnicodeDecodeError as e:
        raise BadInput(f'not text: byte {data[e.start]:#04x} is not UTF-8', data[: e.start].count(b'\n') + 1) from None
    lines = lines[:-1] if lines[-1] == '' else lines
    lines = [l.strip() for l in lines]
    form = form or form_of([l for l in lines if l] or ['shot'], detectors, observables)
    if not 0 <= which < len(lines):
        raise BadInput(f'shot {which}: there are 0 to {len(lines) - 1}')
    return fired(lines[which], form, detectors, observables, which + 1)
