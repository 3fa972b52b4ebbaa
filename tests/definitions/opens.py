#!/usr/bin/env python3
"""Writes crates/*/specs/Opens.antt: in each crate one name that opens its definitions and those of the crates below.

Run it from the top of the repository after adding, renaming or removing a definition."""
import re
import textwrap

MODULES = {
    'graph': ['Basic', 'State', 'Open', 'Sound', 'Active', 'Node'],
    'pass': ['Work', 'Grow', 'Shrink', 'Prepare'],
    'answers': ['Answer', 'Numbers'],
    'update_length': ['Scan'],
    'growth': ['Growth'],
    'calls': ['Refuse', 'Insert', 'Occupied', 'Each', 'Contacts', 'Round', 'Remove', 'Erasures', 'Calls'],
    'records': ['Text', 'Record', 'Lines', 'Run'],
}
BELOW = {
    'graph': [],
    'pass': ['graph'],
    'answers': [],
    'update_length': ['answers'],
    'growth': [],
    'calls': ['pass', 'update_length', 'growth'],
    'records': ['calls'],
}

for crate, modules in MODULES.items():
    uses, names = [], []
    for below in BELOW[crate]:
        alias = below.title().replace('_', '')
        uses.append(f'use Rattle.{below}.specs.Opens as {alias}')
        names.append(f'{alias}.everything')
    for module in modules:
        text = open(f'crates/{crate}/specs/{module}.antt').read()
        uses.append(f'use Rattle.{crate}.specs.{module}')
        names += [f'{module}.{n}' for n in re.findall(r'(?m)^\s*unfoldable pub (\S+) :', text)]
    with open(f'crates/{crate}/specs/Opens.antt', 'w') as out:
        and_below = ' and of those below' if BELOW[crate] else ''
        out.write(f'-- A name that opens all definitions of this crate{and_below}: under `unfolding everything` a '
                  'closed term computes.\n')
        out.write('use Rattle.std.specs.Prelude.{ℕ}\n' + '\n'.join(uses) + '\n\n')
        named = textwrap.fill(' '.join(names), 116, initial_indent='unfolding ', subsequent_indent='    ', break_on_hyphens=False)
        out.write('unfoldable pub everything : ℕ\n' + named + '\neverything = 0\n')
