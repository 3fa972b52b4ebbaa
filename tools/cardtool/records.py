"""Records of the program cardrun: length of the rest (2 bytes), kind (2 bytes), fields of 4 signed bytes,
little-endian.
"""
import struct

from .words import CALLS, KINDS, WORDS, Item

LONGEST = 65535  # bytes of a record behind its length


def looks_like_records(data):
    """Whether a file holds records and not text: no text has a zero byte, and every record of fewer than 256 bytes
    has one at its second place.
    """
    return b'\0' in data[:4]


def encode_item(item):
    """The bytes of an item."""
    if item.raw is not None:
        return item.raw
    kind = WORDS[item.word].kind
    if kind is None:
        raise ValueError(f'{item.word} is no record: only the library has it')
    body = struct.pack(f'<H{len(item.fields)}i', kind, *item.fields)
    if len(body) > LONGEST:
        raise ValueError(f'a record of {len(body)} bytes: at most {LONGEST} can be')
    return struct.pack('<H', len(body)) + body


def wrong(number, opened, kind, size, fields):
    """Why a record of this kind with so many bytes of fields is ill-formed here, or None."""
    if kind not in KINDS:
        return f'unknown kind {kind}'
    name = KINDS[kind]
    word = WORDS[name]
    if size % 4 or not word.takes(size // 4):
        return f"{size} bytes of fields; {name} has {4 * len(word.fields)}{' or more' if word.many else ''}"
    if name == 'length' and fields[2] not in (0, 1):
        return f'the field for preparing is {fields[2]}, not 1 or 0'
    if number == 1 and name != 'graph':
        return f'{name} before the graph'
    if number > 1 and name == 'graph':
        return 'a second graph'
    if opened and name not in CALLS:
        return f'{name} behind the first call'
    return None


def split(data):
    """The records of an input, in order.

    The first that is ill-formed ends the run; what is behind it comes as one last stretch.
    """
    at, number, opened, out = 0, 0, False, []
    while at < len(data):
        number += 1
        size = struct.unpack_from('<H', data, at)[0] if at + 2 <= len(data) else 0
        raw = data[at : at + 2 + size]
        kind, fields = None, []
        if at + 2 > len(data):
            reason = 'the input ends inside a record, after 1 byte of its length'
        elif len(raw) < 2 + size:
            reason = f'the input ends inside a record: {len(raw) - 2} of {size} bytes are there'
        elif size < 2:
            reason = f'a length of {size} leaves no room for the kind'
        else:
            kind = struct.unpack_from('<H', raw, 2)[0]
            fields = list(struct.unpack_from(f'<{(size - 2) // 4}i', raw, 4))
            reason = wrong(number, opened, kind, size - 2, fields)
        out.append(Item(number, KINDS.get(kind), fields, raw=raw, reason=reason))
        at += len(raw)
        if reason:
            if at < len(data):
                out.append(
                    Item(None, None, [], raw=data[at:], reason=f'{len(data) - at} bytes behind the end of the run')
                )
            break
        opened = opened or KINDS[kind] in CALLS
    return out


def lines(data):
    """The text of an input, as lines."""
    offset = 0
    for i in split(data):
        if i.reason is None:
            yield i.text()
        for k in range(0, len(i.raw) if i.reason else 0, 24):
            note = f"  # offset {offset}: {'ill-formed: ' if i.number else ''}{i.reason}" if k == 0 else ''
            yield 'bytes ' + i.raw[k : k + 24].hex(' ', -2) + note
        offset += len(i.raw)
