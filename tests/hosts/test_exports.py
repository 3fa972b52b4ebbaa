#!/usr/bin/env python3
"""The archives for C export what the libraries do, under the same contracts, and the header declares just that."""
import glob
import os
import re
import unittest

TOP = os.path.dirname(os.path.dirname(os.path.dirname(os.path.abspath(__file__))))
EXPORT = re.compile(r'#\[unsafe\(no_mangle\)\]\npub extern "C" fn (\w+)\((.*?)\n\{\n(.*?)\n\}\n', re.S)
ARCHIVES = 'fusion_blossom_c', 'lines_export_c'


def content(*path):
    with open(os.path.join(TOP, *path), encoding='utf-8') as f:
        return f.read()


def exports(crate):
    """Each export of a crate by its name: parameters and contract, and its body, both without line breaks."""
    text = ''.join(content(p) for p in glob.glob(os.path.join(TOP, 'crates', crate, 'src', '**', '*.rt'), recursive=True))
    return {name: tuple(re.sub(r'\s+', ' ', x) for x in rest) for name, *rest in EXPORT.findall(text)}


class Exports(unittest.TestCase):
    def test_each_is_the_call_of_a_library_under_its_contract(self):
        crates = [os.path.basename(c) for c in glob.glob(os.path.join(TOP, 'crates', '*'))]
        libraries = {n: (c, x) for c in crates if c not in ARCHIVES for n, (x, _) in exports(c).items()}
        archives = {n: x for c in ARCHIVES for n, x in exports(c).items()}
        self.assertEqual(set(archives), set(libraries))
        for name, (said, body) in archives.items():
            crate, wanted = libraries[name]
            self.assertEqual(said, wanted, name)
            arguments = re.findall(r'(\w+): ', wanted.partition('ensures')[0])
            self.assertEqual(re.findall(r'[\w:]+', body), [f'{crate}::{name}', *arguments])

    def test_the_header_declares_them(self):
        declared = re.findall(r'(?m)^size_t (\w+)\(', content('include', 'fusion_blossom.h'))
        self.assertEqual(sorted(declared), sorted(n for c in ARCHIVES for n in exports(c)))


if __name__ == '__main__':
    unittest.main()
