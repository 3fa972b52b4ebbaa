"""Runs records through the program cardrun and reads its lines."""
import os
import re
import subprocess
import sys

from . import unproved
from .faults import NoAnswer
from .package import TOP
from .plain import short

LINE = re.compile(r'[0-9]+ [a-z]+( -?[0-9]+)*')


def path():
    """The program: the one that CARDRUN names, or the one of this repository."""
    return os.environ.get('CARDRUN') or os.path.join(TOP, 'target', 'bin', 'cardrun')


def built():
    return os.path.exists(path())


def lines(records):
    """What the program writes for these records."""
    program = path()
    try:
        done = subprocess.run([program], input=records, stdout=subprocess.PIPE)
    except OSError as e:
        said = None if 'CARDRUN' in os.environ or built() else unproved.lines(TOP, records)
        if said is None:
            raise NoAnswer(
                f"cannot run {os.path.relpath(program)} ({e.strerror}): "
                "build it with 'tools/build-programs.sh cardrun', or name it in CARDRUN"
            ) from None
        print("NOT PROVED YET: answers of 'rt try'. 'tools/build-programs.sh' proves and builds the program", file=sys.stderr)
        return said
    if done.returncode:
        raise NoAnswer(f'{os.path.relpath(program)} ended with status {done.returncode}')
    said = done.stdout.decode(errors='replace')
    for line in said.splitlines():
        if not LINE.fullmatch(line):
            raise NoAnswer(f"{os.path.relpath(program)} wrote '{short(line, 40)}', which is no line of cardrun")
    return said


def answers(records):
    """The answers by the number of their record."""
    out = {}
    for line in lines(records).splitlines():
        number, _, answer = line.partition(' ')
        out.setdefault(int(number), []).append(answer)
    return out
