"""Files in and out, and complaints about them."""
import json
import re
import sys

from . import json_form, records, sheets, text
from .faults import BadInput
from .plain import complain
from .script import Script
from .write_text import text_of

MOST_COMPLAINTS = 10
ERROR_MODEL = re.compile(rb'(#[^\n]*\n|\s)*(error|detector|shift_detectors|logical_observable|repeat)\s*[\[(0-9LD]')


def read(path):
    """The bytes of a file."""
    if path == '-':
        return sys.stdin.buffer.read()
    with open(path, 'rb') as f:
        return f.read()


def write(path, words):
    """Writes a file, or standard output for None or -."""
    if path in (None, '-'):
        sys.stdout.write(words)
        sys.stdout.flush()
    else:
        with open(path, 'w', encoding='utf-8') as f:
            f.write(words)


def write_bytes(path, data):
    """The same with bytes."""
    if path in (None, '-'):
        sys.stdout.buffer.write(data)
        sys.stdout.buffer.flush()
    else:
        with open(path, 'wb') as f:
            f.write(data)


def write_script(path, script, as_json, comments=()):
    """Writes a script as text, or as JSON where that is asked for or the name says so."""
    if as_json or path is not None and path.endswith('.json'):
        write(path, json.dumps(json_form.script_of(script)) + '\n')
    else:
        write(path, text_of(script, comments))


def script_in(path):
    """The script in a file, with the weights of its sheet; what became of these is said."""
    script = script_from(read(path))
    if script.sheet is not None:
        sheets.weigh(script)
        if script.graph.vanished is not None:
            complain(sheets.counted(script.graph.sheet, script.graph.vanished))
    return script


def script_from(data):
    """The script in a file's bytes: text, records or JSON."""
    if not data.strip():
        raise BadInput('the file is empty')
    if records.looks_like_records(data):
        out = Script()
        out.items, out.form = records.split(data), 'records'
        out.settle()
        return out
    if data.lstrip()[:1] in (b'{', b'['):
        return json_form.script(json_form.load(data))
    if ERROR_MODEL.match(data):
        raise BadInput('a detector error model: card.py import makes a graph of it')
    return text.parse(data)


def placed(name, at, words):
    """A complaint with the file and the line, or the place, that it is about."""
    return f'{name}:{at}: {words}' if isinstance(at, int) else f'{name}: {at}: {words}' if at else f'{name}: {words}'


def judge(name, run):
    """Names what was not as it should be. The status."""
    bad = list(run.unexpected())
    for at, words in bad[:MOST_COMPLAINTS]:
        complain(placed(name, at, words))
    if len(bad) > MOST_COMPLAINTS:
        complain(f'{name}: and {len(bad) - MOST_COMPLAINTS} more')
    return 1 if bad else 0
