#!/usr/bin/env python3
"""The commands of the documents write what the documents say."""
import os
import re
import subprocess
import unittest

from common import BUILT, TOP, InFolder, content, needs_library
from cardtool.text import DIRECTIVES
from cardtool.words import CALLS, KINDS, WORDS
from cluster_growth import call_list, calls, refusals


def steps(page):
    """Commands of a page, with what they write: lines that are set in by four, a command behind `$`."""
    out, inside = [], False
    for line in page.splitlines():
        here = out and "<<'END'" in out[-1][0] and not out[-1][0].endswith('\nEND')
        if here:
            out[-1][0] += '\n' + line[4:]
        elif line.startswith('    $ '):
            out.append([line[6:], ''])
            inside = True
        elif line.startswith('    ') and inside:
            out[-1][1] += line[4:] + '\n'
        else:
            inside = False
    return out


@needs_library
@unittest.skipUnless(BUILT, 'cardrun is not built: tools/build-programs.sh')
class Documents(InFolder):
    def follow(self, name, least):
        found = steps(content('docs', name).decode())
        self.assertGreaterEqual(len(found), least)
        for folder in ('tools', 'examples', 'target', 'python', 'tests'):
            os.symlink(os.path.join(TOP, folder), os.path.join(self.folder, folder))
        for command, want in found:
            r = subprocess.run(['sh', '-c', command], stdout=subprocess.PIPE, stderr=subprocess.STDOUT, cwd=self.folder)
            self.assertEqual(r.stdout.decode(), want, command)

    def test_first_graph(self):
        self.follow('FIRST-GRAPH.md', 12)

    def test_distance_15(self):
        self.follow('DISTANCE-15.md', 9)

    def test_forms(self):
        self.follow('FORMS.md', 4)

    def test_every_command_is_told_about(self):
        from cardtool.command import COMMANDS

        pages = ''.join(content('docs', name).decode() for name in ('FIRST-GRAPH.md', 'DISTANCE-15.md', 'FORMS.md'))
        for command in COMMANDS:
            self.assertTrue(re.search(rf'card\.py {command}\b|`{command}\b', pages), command)


class Words(unittest.TestCase):
    def test_every_word_and_refusal_stands_in_forms(self):
        page = content('docs', 'FORMS.md').decode()
        for word in list(WORDS) + list(DIRECTIVES):
            self.assertTrue(re.search(rf'(?m)^\| `{word}[ `]', page), word)
        for number, sentence in refusals.SENTENCES.items():
            self.assertIn(f'| {number} | {sentence} |', page)

    def test_every_call_of_the_package_has_a_word(self):
        """A list of calls is no word: `run --batch` makes lists of words, under the kinds that their records have."""
        words = {w.call: w.kind for w in CALLS.values()}
        self.assertEqual(set(words) | {'calls'}, set(calls.CALLS))
        self.assertNotIn('calls', words)
        records = {name: kind for name, kind in call_list.KINDS.items() if kind in KINDS}
        self.assertEqual(records, {name: kind for name, kind in words.items() if kind and name in call_list.KINDS})
        self.assertLessEqual(set(call_list.KINDS), set(words))


if __name__ == '__main__':
    unittest.main()
