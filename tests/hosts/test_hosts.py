#!/usr/bin/env python3
"""The header and the hosts:

C and C++ take the header, it says what the package says, and every host comes to its result.
"""
import os
import re
import shutil
import subprocess
import sys
import tempfile
import unittest

TOP = os.path.dirname(os.path.dirname(os.path.dirname(os.path.abspath(__file__))))
sys.dont_write_bytecode = True
sys.path.insert(0, os.path.join(TOP, 'python'))
from cluster_growth import answers, call_list, calls, refusals, sizes  # noqa: E402

LIB = os.path.join(TOP, 'target', 'lib')
built = unittest.skipUnless(
    os.path.exists(os.path.join(LIB, 'libfusion_blossom.a')), 'the library is not built: tools/build-library.sh'
)


def header():
    with open(os.path.join(TOP, 'include', 'fusion_blossom.h'), encoding='utf-8') as f:
        return f.read()


class Header(unittest.TestCase):
    def compiled(self, compiler, standard, code, *libraries):
        """Compiles and runs a program that includes the header; what it writes."""
        if not shutil.which(compiler):
            self.skipTest(f'{compiler} is not here')
        with tempfile.TemporaryDirectory() as folder:
            source, out = os.path.join(folder, 'x.cpp' if '++' in compiler else 'x.c'), os.path.join(folder, 'x')
            with open(source, 'w') as f:
                f.write('#include "fusion_blossom.h"\n#include <stdio.h>\n' + code)
            words = [
                compiler,
                f'-std={standard}',
                '-Wall',
                '-Wextra',
                '-Werror',
                '-pedantic',
                '-I' + os.path.join(TOP, 'include'),
                source,
                *libraries,
                '-o',
                out,
            ]
            done = subprocess.run(words, stdout=subprocess.PIPE, stderr=subprocess.STDOUT, text=True)
            self.assertEqual((done.returncode, done.stdout), (0, ''))
            return subprocess.run([out], stdout=subprocess.PIPE, text=True).stdout

    def test_numbers_and_sentences_are_those_of_the_package(self):
        code = 'int main(void) { printf("%d %d %d %d %d %d\\n", FB_BLOCK(5, 7, 9, 11), FB_SCRATCH(5, 7), FB_STORE(5, 7),\n'
        code += 'FB_STORE_BLOSSOMS(5, 7, 2, 3), FB_STORE_CIRCLE(5, 7), FB_MOST_WEIGHT);\n'
        code += (
            'for (size_t k = 1; k < 18; k++) puts(fb_refusal_sentence(k));\nputs(fb_refusal_sentence(99));\nreturn 0; }'
        )
        said = self.compiled('cc', 'c99', code).splitlines()
        self.assertEqual(
            said[0],
            f'{sizes.block_words(5, 7, 9, 11)} {sizes.scratch_words(5, 7)} {sizes.enough_store(5, 7)} '
            f'{sizes.enough_store(5, 7, 2, 3)} {sizes.circle_store(5, 7)} {sizes.MOST_WEIGHT}',
        )
        self.assertEqual(said[1:18], [refusals.SENTENCES.get(k, 'no such refusal') for k in range(1, 18)])
        self.assertEqual(said[18], 'no such refusal')
        limits = {name: int(x) for name, x in re.findall(r'#define (FB_MOST_\w+) (\d+)', header())}
        for name in ('VERTICES', 'EDGES', 'NODES', 'STORE', 'CIRCLE', 'WEIGHT', 'DUAL', 'VALUE'):
            self.assertEqual(limits['FB_MOST_' + name], getattr(sizes, 'MOST_' + name))

    def test_cases_and_calls_are_those_of_the_package(self):
        cases = dict(re.findall(r'(FB_\w+) = (\d+)', header()[header().index('/* Cases of an answer') :]))
        self.assertEqual(sorted(map(int, cases.values())), sorted(answers.CASES))
        declared = {name: text for name, text in re.findall(r'size_t (fb_\w+)\(([^)]*)\)', header())}
        rows = {c.symbol: c for c in [calls.OPEN, calls.OPEN_SHEET, calls.CHECK_TABLE, *calls.CALLS.values()]}
        self.assertEqual(set(declared), set(rows))
        for symbol, row in rows.items():
            self.assertEqual(len(row.types()), declared[symbol].count(',') + 1, symbol)
        kinds = [int(kind) for kind in re.findall(r'FB_CALL_\w+ = (\d+)', header())]
        self.assertEqual(kinds, list(call_list.KINDS.values()))
        rows_of = re.findall(r'(?:FB_ANSWER|FB_ENTRY|FB_CALL) = (\d+)', header())
        self.assertEqual([int(x) for x in rows_of], [answers.ROW, answers.ROW, call_list.CALL])

    @built
    def test_it_links_from_cpp(self):
        code = 'int main() { size_t a[FB_ANSWER]; size_t k = fb_clear(nullptr, 0, nullptr, 0, a, FB_ANSWER);\n'
        code += 'printf("%zu %zu %zu\\n", k, a[0], a[1]); return 0; }'
        said = self.compiled('g++', 'c++11', code, os.path.join(LIB, 'libfusion_blossom.a'))
        self.assertEqual(said, '2 11 1\n')  # an empty block has a wrong length


@built
class Hosts(unittest.TestCase):
    def test_they_decode_and_check_themselves(self):
        if not shutil.which('cc'):
            self.skipTest('cc is not here')
        for seed in ('1', '2', '3'):
            done = subprocess.run(
                [os.path.join(TOP, 'hosts', 'run.sh'), seed],
                stdout=subprocess.PIPE,
                stderr=subprocess.STDOUT,
                text=True,
            )
            self.assertEqual(done.returncode, 0, done.stdout)
            self.assertIn('defects that the correction leaves: 0\n', done.stdout)
            self.assertIn('12 conflict 1 1 0 0\n', done.stdout)


if __name__ == '__main__':
    unittest.main()
