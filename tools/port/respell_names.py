#!/usr/bin/env python3
"""Spells this repository's own definitions and lemmas as its toolchain does: words in snake case.

usage: respell_names.py [--list] FOLDER     FOLDER has crates/

A name in camel case that begins with a small letter, as sideAt, becomes side_at, also where it is one part of a name
with dashes, as in sideAt-below. It is changed in the .antt files, in the ghost use items and clauses of .rt files, and
in the lines of must-fail/*.edit that change such a text. Names of the library and of Rust code stay. A name whose new
spelling stands in one of its files already stays as it is, and is printed with 'left:'.
"""

import os
import re
import sys

NAME = re.compile(r"[^\s(){}.;,@\"«»]+")
# A name with the dot before it: a lemma of LEMMAS stands behind none.
WORD = re.compile(r"\.?" + NAME.pattern)
PART = re.compile(r"[a-z][a-z0-9]*(?:[A-Z][A-Za-z0-9]*)+'*")
# Names of the library in this spelling.
LIBRARY = {"noText"}
# Lemmas whose name would be their function's, and two variables named so.
LEMMAS = {n: n + "_lem" for n in "is_removed opened_rows join_free take_step first_live rows_end carried_from".split()}
# Where a text of a .rt file is antt: a ghost use item, and the braces behind requires, ensures, ghost and invariant.
HEAD = re.compile(r"\bghost use [^;]*;|\b(?:requires|ensures|ghost|invariant)\*?(?: +\w+)?:? *\{")


def snake(word):
    return re.sub(r"(?<=[a-z0-9])[A-Z]", lambda m: "_" + m[0].lower(), word)


def respelled(name):
    if name in LIBRARY:
        return name
    if name in LEMMAS:
        return LEMMAS[name]
    return "-".join(snake(p) if PART.fullmatch(p) else p for p in name.split("-"))


def antt(text, staying):
    """The text with its names respelled, comments and strings as they are."""
    def one(m):
        name = m[0].lstrip(".")
        if name in staying or m[0] != name and name in LEMMAS:
            return m[0]
        return "." * (len(m[0]) - len(name)) + respelled(name)

    out = []
    for line in text.split("\n"):
        code, dashes, comment = line.partition("-- ") if not line.endswith("--") else (line, "", "")
        parts = re.split(r'("(?:[^"\\]|\\.)*")', code)
        parts[::2] = [WORD.sub(one, p) for p in parts[::2]]
        out.append("".join(parts) + dashes + comment)
    return "\n".join(out)


def ghosts(text):
    """The stretches of a .rt file that are antt."""
    at = 0
    while m := HEAD.search(text, at):
        end = m.end()
        if text[end - 1] == "{":
            depth = 1
            while depth and end < len(text):
                depth += {"{": 1, "}": -1}.get(text[end], 0)
                end += 1
        yield m.start(), end
        at = end


def rust(text, staying):
    out, at = [], 0
    for a, b in ghosts(text):
        out += [text[at:a], antt(text[a:b], staying)]
        at = b
    return "".join(out) + text[at:]


def files(root):
    for folder, dirs, names in os.walk(os.path.join(root, "crates")):
        dirs[:] = sorted(d for d in dirs if d != "out")
        for n in sorted(names):
            if n.endswith((".antt", ".rt", ".edit")):
                yield os.path.join(folder, n)


def edit(text, staying):
    """An edit: the lines of one of an .antt file as antt, of a .rt file where they hold a clause."""
    of_antt, out = False, []
    for line in text.split("\n"):
        if line.startswith("file: "):
            of_antt = line.strip().endswith(".antt")
        if line.startswith(("old: ", "new: ")):
            line = line[:5] + (antt if of_antt else rust)(line[5:], staying)
        out.append(line)
    return "\n".join(out)


def turn(path, text, staying):
    if path.endswith(".antt"):
        return antt(text, staying)
    return (edit if path.endswith(".edit") else rust)(text, staying)


def words(path, text):
    """The names of a file that stand behind no dot."""
    if path.endswith(".rt"):
        text = re.sub(r"\w+(?=(?:<[^()\n]*>)?\()", " ", re.sub(r"//.*", "", text))
    else:
        text = re.sub(r"(?m)(?:^|\s)--.*", "", text)
    return {m[0] for m in re.finditer(r"(?<![^\s(){};,@\"«»])" + NAME.pattern, text)}


def main(argv):
    listing = "--list" in argv
    root = [a for a in argv if not a.startswith("--")][0]
    texts = {p: open(p, encoding="utf-8").read() for p in files(root)}
    left, seen = set(), {}
    for p, text in texts.items():
        if p.endswith(".edit"):
            continue
        here = words(p, text)
        for n in sorted(here):
            new = respelled(n)
            if new != n and n not in LEMMAS:
                seen[n] = new
                if new in here and new not in LEMMAS or LEMMAS.get(new) in here:
                    left.add(n)
                    print(f"left: {os.path.relpath(p, root)}: {n}, since {new} stands there")
    if listing:
        for n in sorted(seen):
            print(n, "->", seen[n])
        return 0
    for p, text in texts.items():
        new = turn(p, text, left)
        if new != text:
            with open(p, "w", encoding="utf-8") as f:
                f.write(new)
    print(f"respell_names: {len(seen) - len(left)} names respelled, {len(left)} left")
    return 0


if __name__ == "__main__":
    raise SystemExit(main(sys.argv[1:]))
