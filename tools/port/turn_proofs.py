#!/usr/bin/env python3
"""Turns the proofs of functions, Proof.antt, into Invariants.antt and Answers.antt.

usage: turn_proofs.py NAMES.json CRATE [FUNCTION..]

NAMES.json is what 'rt check --generated DIR --old-names' writes in the crate's folder CRATE. Each goal gets its name of
today, each step of the code that an answer cites too, and '.before' goes. An answer that only says 'search rules' goes
as well: the check finds it. Where a goal or a step has no name of today, a line that begins 'look:' says so.
"""

import json
import os
import re
import sys

NAME = r"[^\s(){}.;,@\"«»]+"
PATH = re.compile(rf"(?<![^\s(){{}};,@\"«»←])([A-Za-z]\w*)((?:\.{NAME})+)")


def alike(name):
    return re.sub(r"[-_]", "", name).lower()


class Rows:
    """What the names say of one function."""

    def __init__(self, data):
        self.data = data
        self.needs = data["needs"]
        self.at = [a[0] for a in data["asked_at"]]
        self.places = {p[0]: p for p in data["places"]}

    code = ""

    def up(self, place, n):
        for _ in range(n):
            place = self.places[place][1] if place in self.places else None
        return place

    def above(self, place):
        while place in self.places:
            yield self.places[place]
            place = self.places[place][1]


def blocks(text):
    """The file's top-level lines, each with the indented ones below it."""
    out = []
    for line in text.split("\n"):
        if out and (line[:1] in (" ", ")", "]", "}") or not line.strip() and False):
            out[-1] += "\n" + line
        elif line.strip():
            out.append(line)
    return out


class Body:
    def __init__(self, rows, place, said, alias=None, helpers=None):
        self.helpers = helpers or {}
        self.deeper = 0
        self.rows, self.place, self.said = rows, place, said
        self.alias = dict(alias or {})

    def step(self, place, field, want):
        """Today's name of a step: of one with this name at the place or above, else below, else of one that a count tells apart."""
        for whole in (True, False):
            for at in (place, self.place):
                new = self.found(at, field, whole)
                if new:
                    return new
        return None

    def found(self, place, field, whole):
        wanted = {alike(field), alike(field.replace("_lem", "").replace("_Is", "_"))}
        wanted = wanted if whole else {re.sub(r"\d+$", "", w) for w in wanted}
        for p in self.rows.above(place):
            old, new = p[2]
            if old and (alike(old) if whole else re.sub(r"\d+$", "", alike(old))) in wanted:
                return new
        return None

    def path(self, m):
        head, fields = m[1], m[2].split(".")[1:]
        if head not in self.alias:
            return m[0]
        place, up = self.alias[head], 0
        while fields and fields[0] == "before":
            fields.pop(0)
            up += 1
        place = self.rows.up(place, up)
        if not fields:
            return "c"
        fields[0] = {"pre": "requires"}.get(fields[0], fields[0])
        f = fields[0]
        if f in ("type-inv", "well-formed"):
            fields[0] = f.replace("-", "_")
        elif f not in ("args", "requires", "ranges", "utf8", "type_inv", "well_formed", "auto"):
            new = self.step(place, f, m[0])
            if new is None:
                self.said.append(f"no step for {m[0]}")
            else:
                fields[0] = new
        fields = ["type_inv" if x == "type-inv" else x for x in fields]
        if fields[0] in ("args", "ranges") and len(fields) > 1:
            fields[1] = fields[1].replace("-", "_")
        if len(fields) > 2 and fields[1] in ("new", "auto") and fields[2] in "01":
            k = fields.index("0", 2)
            fields[2:k + 1] = [self.lent(fields[0], k - 2) or fields[k]]
        if len(fields) > 1 and fields[1] == "given":
            fields = self.given(fields, place, m[0])
        return ".".join(["c"] + fields)

    def given(self, fields, place, said):
        """What an arm gives: 'is', and the parts of the variant by the pattern's names."""
        arm = re.search(r"-in-([A-Z]\w*?)-\d+$", fields[0])
        variant = arm[1] if arm else next((p[2][1][3:] for p in self.rows.above(self.place) if p[2][1].startswith("in-")), None)
        if variant is None or len(fields) < 3:
            self.said.append(f"no arm for {said}")
            return fields
        if fields[2] == "1":
            return [f"in-{variant}", "is"] + fields[3:]
        k = fields.index("0", 3) if "0" in fields[3:] else len(fields) - 1
        found = re.search(rf"\b{variant}\(([^()]*)\)\s*(?:=>|=)", self.rows.code)
        names = [x.strip() for x in found[1].split(",")] if found else []
        n = k - 3
        name = names[n] if n < len(names) and names[n] != "_" else f"field-{n}"
        return [f"in-{variant}", name] + fields[k + 1:]

    def lent(self, step, n):
        """The parameter at place n of the function called at this step."""
        for p in self.rows.data["places"]:
            if p[2][1] == step and p[3]:
                names = self.rows.data["params"].get(p[3]) or []
                return names[n] if n < len(names) else None
        return None

    def helped(self, m):
        """A call of a helper at a place above: its argument is the record of that place."""
        if m[2] not in self.alias:
            return m[0]
        k, place = 0, self.place
        while place is not None and place != self.helpers[m[1]]:
            k, place = k + 1, self.rows.up(place, 1)
        if place is None:
            self.said.append(f"no way to {self.helpers[m[1]]} for {m[0]}")
            return m[0]
        return m[1] + " \1" + ".before" * (k + self.deeper)

    def turn(self, text):
        """Turns paths, and notes what a let binds to a place."""
        for m in re.finditer(rf"\blet ({NAME}) =\s+([a-zA-Z]\w*)((?:\.before)*)\s+in\b", text):
            if m[2] in self.alias:
                self.alias[m[1]] = self.rows.up(self.alias[m[2]], m[3].count(".before"))
        for m in list(re.finditer(rf"\blet ({NAME}) =\s+([a-zA-Z]\w*(?:\.[^\s.()]+)*\.given)\s+in\b\s*", text)):
            if m[2].split(".")[0] in self.alias:
                text = text.replace(m[0], "")
                text = re.sub(rf"(?<![\w.'-]){re.escape(m[1])}\.(?=[01])", m[2].replace("\\", "") + ".", text)
        for m in re.finditer(rf"\blet ({NAME}) =\s+([a-zA-Z]\w*)((?:\.before)*)\.({NAME})\s+in\b", text):
            if m[2] in self.alias:
                step = self.step(self.rows.up(self.alias[m[2]], m[3].count(".before")), m[4], m[0])
                def lent(x, step=step):
                    k = len(x[3].split("."))
                    return f"{x[1]}.{x[2]}." + (self.lent(step, k - 1) or x[3])
                if step:
                    text = re.sub(rf"(?<![\w.'-])({re.escape(m[1])})\.(new|auto)\.((?:1\.)*0)(?![\w'-])", lent, text)
        if self.helpers:
            names = "|".join(map(re.escape, self.helpers))
            text = re.sub(rf"(?<![\w.'-])({names}) (\w+)((?:\.before)*)(?![\w.'-])", self.helped, text)
        out, at = [], 0
        for m in re.finditer(rf"\blet ({NAME}) =\s+([a-zA-Z]\w*)((?:\.before)*)\s+in\b", text):
            if m[2] in self.alias:
                out.append(PATH.sub(self.path, text[at:m.start()]))
                self.alias[m[1]] = self.rows.up(self.alias[m[2]], m[3].count(".before"))
                at = m.end()
                while at < len(text) and text[at] in " \n" and text[at:].lstrip():
                    at += 1
                out.append("")
        out.append(PATH.sub(self.path, text[at:]))
        text = "".join(out).replace("c\2", "c")
        # the test of an 'if' that says 'not' tells of what it denies
        text = re.sub(r"not-(false|true) _ (c\.if-not-[^ ()]*\.\1)", r"\2", text)
        for a in self.alias:
            if a != "c":
                text = re.sub(rf"(?<![\w.'-]){re.escape(a)}(?![\w'.-])", "c", text)
        return text


def turn(path, function, crate, rows, said):
    text = open(path, encoding="utf-8").read()
    bs = blocks(text)
    helpers = {}
    if "to_z-of_z (sfits_of" in text:
        text = text.replace("to_z-of_z (sfits_of", "to_z-of_z {w = w64} (sfits_of")
        if not re.search(r"mir\.Syntax\.\{[^}]*w64", text):
            text = "use mir.Syntax.{w64}\n" + text
        bs = blocks(text)
    uses, answers, invariants, others = [], [], [], []
    i = 0
    heads = {}
    order = None
    for b in bs:
        m = re.match(rf"pub ({NAME}) =|", b)
    # the order of the goals, as the last block has it
    for b in bs:
        m = re.search(r"\(\s*tie\.spec([^)]*)\)", b, re.S)
        if m:
            order = m[1].split()
    loops = [n for n in (order or []) if n.startswith(("invariant-", "decreases-"))]
    order = [n for n in (order or []) if n not in loops]
    sigs = {}
    while i < len(bs):
        b = bs[i]
        if b.startswith("use "):
            if not re.search(r"\.(Statement|Tie)\b", b) and "borrow.Author.Rules" not in b:
                uses.append(b)
            elif "borrow.Author.Rules" in b:
                uses.append(b)
            i += 1
            continue
        m = re.match(rf"(abbrev |unfoldable )?(pub )?({NAME}) :(\s)", b)
        if not m:
            others.append(b)
            i += 1
            continue
        name, sig = m[3], b[m.end(3):]
        group = [b]
        i += 1
        while i < len(bs) and (bs[i].startswith(("unfolding ", "opaque ")) or re.match(rf"{re.escape(name)}(?![^\s(){{}}.;,])", bs[i]) and not re.match(rf"{re.escape(name)} :", bs[i])):
            group.append(bs[i])
            i += 1
        t = re.search(r"tie\.(Need-)?([^\s()]+)", sig)
        if "tie.close" in "".join(group):
            continue
        if t and re.match(r"\s*:\s*tie\.", sig):
            if t[2].startswith(("invariant-", "decreases-")) and not t[1]:
                invariants.append((name, t[2], group))
            else:
                answers.append((name, t[2], group))
        else:
            others.append("\n".join(group))
    out, inv = [], []
    used = set()
    helpers, kept = {}, []
    for o in others:
        m = re.match(rf"(?:(?:abbrev|unfoldable|pub) )*({NAME}) :.*?\((\w+) : tie\.([A-Z]{NAME})", o, re.S)
        if m:
            places = rows.data["places"]
            want = alike(m[3])
            k = next((i for i, p in enumerate(places) if alike(p[0]) == want), None)
            if k is None:
                said.append(f"{function}: no place {m[3]} for {m[1]}")
                kept.append(o)
                continue
            new = rows.data["places_by_name"][k]
            o = re.sub(rf"tie\.{re.escape(m[3])}((?: (?:invariant|decreases)-loop\d*)*)", new, o)
            at = next(i for i in range(len(o)) if re.match(rf"\n(?:unfolding|{re.escape(m[1])})(?![^\s])", o[i:]))
            turned = [Body(rows, places[k][0], said, {m[2]: places[k][0]}, helpers).turn(x) for x in (o[:at], o[at:])]
            o = "".join(turned).replace("\1", "c")
            if m[2] != "c":
                o = re.sub(rf"(?<![\w.'-]){re.escape(m[2])}(?![\w'-])", "c", o)
            helpers[m[1]] = places[k][0]
            line = f"use Rattle.{crate}.proofs.{'.'.join(function)}.Goals.{{{new}}}"
            uses += [] if line in uses else [line]
        kept.append(o)
    others = kept
    for name, need, group in answers:
        k = None
        want = alike(name)
        olds = [alike(o) for o, _ in rows.needs]
        news = [alike(n) for _, n in rows.needs]
        plain = re.sub(r"^(overflow|nonzero)-", "", need)
        if alike(need) in olds and (alike(plain) not in olds or alike(plain) == alike(need)):
            k = olds.index(alike(need))
        elif alike(plain) in olds:
            k = olds.index(alike(plain))
        elif alike(need) in news:
            k = news.index(alike(need))
        elif want in olds:
            k = olds.index(want)
        body = "\n".join(g for g in group[1:])
        eqs = [g for g in group[1:] if not g.startswith(("unfolding ", "opaque "))]
        plain_search = len(eqs) == 1 and len(eqs) == len(group) - 1 and re.search(r"=\s*search rules\s*$", eqs[0])
        if k is None:
            if not plain_search:
                said.append(f"{function}: no goal for {name} ({need})")
                others.append("-- look: no goal\n" + "\n".join("-- " + l for g in group for l in g.split("\n")))
            continue
        new, place = rows.needs[k][1], rows.at[k]
        if plain_search:
            continue
        used.add(new)
        said_here = []
        lines = [f"pub {new} : goal.{new}"]
        for g in group[1:]:
            if g.startswith(("unfolding ", "opaque ")):
                lines.append(g)
                continue
            m = re.match(rf"{re.escape(name)}((?:\s+[^\s=]+)*?)\s*=(?=\s)", g)
            args = m[1].split()
            rest = g[m.end():]
            for v in args[1:]:
                if re.search(rf"(?<![\w'-]){re.escape(v)}(?![\w'-])", rest):
                    said_here.append(f"uses {v}")
            b = Body(rows, place, said_here, {args[0]: place} if args else {}, helpers)
            b.deeper = int(rows.needs[k][0].startswith("element_copy_out"))
            turned = b.turn(rest).replace("\1", "c")
            if args and args[0] != "c":
                turned = re.sub(rf"(?<![\w.'-]){re.escape(args[0])}(?![\w'-])", "c", turned)
            lines.append(f"{new} {'c' if args else ''} =".replace("  ", " ") + turned)
        said += [f"{function}: {new}: {s}" for s in said_here]
        out.append("\n".join(lines))
    for name, what, group in invariants:
        inv.append((name, what, group))
    mod = "Rattle." + crate + ".proofs." + ".".join(function)
    return uses, out, inv, others, mod, loops


SUBS = "₀"


def invariants_text(uses, inv, rows, mod, said, function):
    if not inv:
        return None
    out = []
    for name, what, group in inv:
        kind, _, rest = what.partition("-")
        k = 0
        loops = rows.data["loops"]
        n = re.search(r"loop-?(\d*)$", what)
        number = int(n[1]) if n and n[1] else 1
        if number > len(loops):
            said.append(f"{function}: no loop for {what}")
            continue
        loop = loops[number - 1]
        new = loop[0][1]
        for g in group[1:]:
            m = re.match(rf"{re.escape(name)}((?:\s+[^\s=]+)*?)\s*=(?=\s)", g)
            if not m:
                out.append(g)
                continue
            args, body = m[1].split(), g[m.end():]
            body = turned_names(args, body, number - 1, rows, said, function)
            out.append(f"abbrev pub {kind}-{new} : goal.{kind}-{new}\n{kind}-{new} l ={body}")
    return "\n".join(uses) + f"\nuse {mod}.Given as goal\n\n" + "\n\n".join(out) + "\n"


def turned_names(args, body, k, rows, said, function):
    variables, changed = rows.data["loops"][k][1], rows.data["changed"][k]
    moving = [v for v, c in zip(variables, changed) if c]
    if len(args) == len(variables) + len(moving):
        to = ["l.initial." + v if c else "l." + v for v, c in zip(variables, changed)] + ["l." + v for v in moving]
        pairs = list(zip(args, to))
    else:
        said.append(f"{function}: {args} for {variables} {changed}")
        pairs = [(a, "l.initial." + a[:-1] if a.endswith(SUBS) else "l." + a.replace("-", "_")) for a in args]
    table = {a: t for a, t in pairs if a != "_"}
    return re.sub(rf"(?<![^\s(){{}};,@←])({NAME})", lambda m: table.get(m[1], m[1]), body)


def code_of(crate, function):
    """The text of a function."""
    for folder, _, fs in os.walk(os.path.join(crate, "src")):
        for f in fs:
            text = open(os.path.join(folder, f), encoding="utf-8").read()
            m = re.search(rf"^( *)(?:pub )?(?:extern \"C\" )?fn {re.escape(function[-1])}\b.*?^\1\}}", text, re.S | re.M)
            if m and (f[:-3] in function or f in ("lib.rt", "main.rt") or len(fs) == 1):
                return m[0]
    return ""


def main(argv):
    names, crate = json.load(open(argv[0])), os.path.abspath(argv[1])
    name = os.path.basename(crate)
    only = argv[2:]
    said = []
    by = {}
    for key, data in names.items():
        m = re.match(rf"Rattle-{name}-proofs\.(.*)\.Lts[^.]*$", key)
        if m:
            by[m[1]] = data
    for folder, dirs, fs in os.walk(os.path.join(crate, "proofs")):
        if "Proof.antt" not in fs:
            continue
        function = os.path.relpath(folder, os.path.join(crate, "proofs")).split(os.sep)
        key = ".".join(function)
        if only and key not in only:
            continue
        if key not in by:
            said.append(f"{key}: no names")
            continue
        rows = Rows(by[key])
        rows.code = code_of(crate, function)
        path = os.path.join(folder, "Proof.antt")
        uses, out, inv, others, mod, loops = turn(path, function, name, rows, said)
        os.remove(path)
        it = invariants_text([u for u in uses if not u.startswith(f"use {mod}.Goals.")], inv, rows, mod, said, key)
        if it:
            with open(os.path.join(folder, "Invariants.antt"), "w") as f:
                f.write(it)
        if out or others:
            with open(os.path.join(folder, "Answers.antt"), "w") as f:
                f.write("\n".join(uses) + f"\nuse {mod}.Goals as goal\n\n" + "\n\n".join(others + out) + "\n")
        if not os.listdir(folder):
            os.removedirs(folder)
    for s in said:
        print("look:", s if isinstance(s, str) else s)


if __name__ == "__main__":
    main(sys.argv[1:])
