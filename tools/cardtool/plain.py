"""What goes to the terminal: no control bytes, whatever a file or its name holds."""
import re
import sys

# C0 without the line feed, DEL, C1, the marks that turn the direction of writing, and halves of surrogate pairs
CONTROL = re.compile('[\x00-\x09\x0b-\x1f\x7f-\x9f\u200e\u200f\u202a-\u202e\u2066-\u2069\ud800-\udfff]')


def plain(words):
    """Words with control characters written as codes."""
    return CONTROL.sub(lambda m: f'\\x{ord(m[0]):02x}', words)


def short(words, most=60):
    """Words from a file, cut where they are long."""
    return words if len(words) <= most else words[:most] + '...'


def many(count, one, more=None):
    """A number with the word for one, or for more."""
    return f'{count} {one if count == 1 else more or one + "s"}'


def say(words):
    """A line to standard output."""
    print(plain(words))


def complain(words):
    """A line to standard error, behind what standard output has."""
    sys.stdout.flush()
    print(plain(words), file=sys.stderr)
