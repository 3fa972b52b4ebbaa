"""The command line of tools/card.py.

Text, records and JSON are told apart by what is in them; - is standard input. Texts up to V 64, E 128, N 32, L 2,000,
and records, are run by the program cardrun (target/bin/cardrun, or the one that CARDRUN names); greater graphs, up to
V 1,024, E 4,096, N 1,024, L 65,536, by the library (tools/build-library.sh, or the one that FUSION_BLOSSOM_LIBRARY
names).

Status: 0 all is as it should be; 1 a refusal, or an answer, a table or a picture that is not as expected; 2 bad
input; 3 a run that the check does not cover. The forms stand in docs/FORMS.md.
"""
import argparse
import os
import re
import sys

from . import actions, made
from .faults import Fault
from .files import placed
from .plain import complain, plain, short

MOST_TO_A_LIST = 1_000_000


def batch(word):
    """How many calls to a list."""
    if not (re.fullmatch('[0-9]{1,7}', word) and 1 <= int(word) <= MOST_TO_A_LIST):
        raise argparse.ArgumentTypeError(f"calls to a list are 1 to {MOST_TO_A_LIST}, not '{short(word)}'")
    return int(word)


OUT = {'-o': dict(dest='out', metavar='OUT', help='the file that is written')}
JSON = {'--json': dict(action='store_true', help='as JSON')}
ELSEWHERE = {
    '--table': dict(metavar='TABLE', help='a table from elsewhere: text, CSV or JSON with edge, left and right'),
    '--duals': dict(
        metavar='DUALS',
        help='dual variables from elsewhere: text, CSV or JSON with vertex and dual; no call is made then',
    ),
}
COMMANDS = {
    'run': (
        actions.do_run,
        'every call with its answer',
        {
            '--batch': dict(
                type=batch, metavar='N', help='once more by fb_calls, N calls to a list: the answers must be the same'
            ),
            **JSON,
            **OUT,
        },
    ),
    'table': (actions.do_table, 'the growth table after the last call, as CSV', {**JSON, **OUT}),
    'check': (
        actions.do_check,
        'compares the table with the one from distances and dual variables',
        ELSEWHERE,
    ),
    'handover': (
        actions.do_handover,
        'the table, the dual variables and the distances as a table file for tablecheck',
        {**ELSEWHERE, **OUT},
    ),
    'verdict': (
        actions.do_verdict,
        'the verdicts of tablecheck on a table file, and which rule fails first (found by the tool, not proved)',
        {},
    ),
    'explain': (
        actions.do_explain,
        'how the growths of one edge follow from distances and dual variables',
        {'edge': dict(type=int, help='the number of an edge')},
    ),
    'import': (
        actions.do_import,
        "a graph from Stim's detector error model, with the defects of a shot where wanted",
        {
            '--shots': dict(metavar='FILE', help='shots, one to a line: 01 text, `shot D5 D9 L0`, or detector numbers'),
            '--shot': dict(type=int, default=0, metavar='K', help='which of them, from 0'),
            '--fired': dict(metavar='NUMBERS', help='the detectors that fired, in place of a file'),
            '--greatest': dict(
                type=int, default=1_000_000, metavar='W', help='what the greatest weight becomes (even)'
            ),
            '--sheet': dict(
                action='store_true', help='weights as decimals of four places, of which the library makes even numbers'
            ),
            '--component': dict(
                type=int, metavar='K', help='only one connected part of the detectors, the greatest being 0'
            ),
            '--title': dict(help='the title of pictures'),
            **JSON,
            **OUT,
        },
    ),
    'match': (
        actions.do_match,
        'lets all defects grow together and pairs up those that meet; -o writes the text with all calls',
        OUT,
    ),
    'draw': (actions.do_draw, 'the graph with the growths after the last call, as SVG', OUT),
    'page': (actions.do_page, 'one HTML file that steps through the calls', OUT),
    'encode': (actions.do_encode, 'text to records', OUT),
    'decode': (actions.do_decode, 'records to text; ill-formed records as bytes, with offset and reason', {}),
}


class Parser(argparse.ArgumentParser):
    """A parser whose messages have no control bytes."""

    def _print_message(self, message, file=None):
        super()._print_message(plain(message) if message else message, file)


def parser():
    out = Parser(prog='card.py', description=__doc__, formatter_class=argparse.RawDescriptionHelpFormatter)
    commands = out.add_subparsers(dest='command', required=True, metavar='COMMAND')
    for command, (_, words, options) in COMMANDS.items():
        sub = commands.add_parser(command, help=words, description=words)
        sub.add_argument(
            'file',
            help='a detector error model' if command == 'import' else 'text, records or JSON; - for standard input',
        )
        for option, about in options.items():
            sub.add_argument(option, **about)
    return out


def main(words=None):
    args = parser().parse_args(words)
    sys.stdout.reconfigure(encoding='utf-8', errors='backslashreplace')
    sys.stderr.reconfigure(encoding='utf-8', errors='backslashreplace')
    name = args.file if args.file != '-' else 'standard input'
    try:
        if made.stale():
            complain('the library is older than the crates: tools/build-library.sh builds it again')
        return COMMANDS[args.command][0](args, name)
    except Fault as e:
        complain(placed(name, e.line, str(e)))
        return e.status
    except BrokenPipeError:  # the reader of our lines has gone
        os.dup2(os.open(os.devnull, os.O_WRONLY), 1)
        return 1
    except OSError as e:
        complain(f'{e.filename}: {e.strerror}')
        return 2
