#!/usr/bin/env python3
"""Moves laws and theorems of some crates from specs/ to proofs/, their statements unchanged.

usage: move_laws.py FOLDER     FOLDER has crates/

Edits of must-fail/ change definitions of these crates. The prover refuses such an edit where a law or a theorem fails,
and today's rt counts that only where they stand in proofs/.
"""

import os
import re
import sys

CRATES = "calls distance dual_module dual_module_read growth length_theorem own_tables pass small_patches table_claim table_theorem".split()


def lines(path):
    return open(path, encoding="utf-8").read().split("\n") if os.path.exists(path) else []


def main(top):
    crates = os.path.join(top, "crates")
    names = []
    for c in CRATES:
        specs, proofs = os.path.join(crates, c, "specs"), os.path.join(crates, c, "proofs")
        os.makedirs(proofs, exist_ok=True)
        moved = [f[:-5] for f in sorted(os.listdir(specs)) if re.fullmatch(r"(\w*Theorems|laws)\.antt", f)]
        moved += ["Examples"] if c == "length_theorem" else []  # they cite a theorem
        if os.path.isdir(os.path.join(specs, "laws")):
            os.rename(os.path.join(specs, "laws"), os.path.join(proofs, "laws"))
        for m in moved:
            os.rename(os.path.join(specs, m + ".antt"), os.path.join(proofs, m + ".antt"))
        if os.path.isdir(os.path.join(proofs, "laws")) and "laws" not in moved:
            moved.append("laws")
        kept, gone = [], []
        for line in lines(os.path.join(specs, "Lib.antt")):
            m = re.match(r"pub mod (\w+)", line)
            (gone if m and m[1] in moved else kept).append(line)
        with open(os.path.join(specs, "Lib.antt"), "w", encoding="utf-8") as f:
            f.write("\n".join(kept))
        there = [x for x in lines(os.path.join(proofs, "Lib.antt")) if x.strip()]
        with open(os.path.join(proofs, "Lib.antt"), "w", encoding="utf-8") as f:
            f.write("\n".join(there + [f"pub mod {m}" for m in sorted(moved)]) + "\n")
        names += [(c, m) for m in moved]
        print(c, *moved)
    change = re.compile(r"\bRattle\.(" + "|".join(CRATES) + r")\.specs\.(laws|\w*Theorems)\b")
    for folder, dirs, files in os.walk(crates):
        dirs[:] = [d for d in dirs if d != "out"]
        for f in files:
            if f.endswith((".antt", ".rt", ".edit")):
                p = os.path.join(folder, f)
                text = open(p, encoding="utf-8").read()
                new = change.sub(r"Rattle.\1.proofs.\2", text)
                if new != text:
                    open(p, "w", encoding="utf-8").write(new)


if __name__ == "__main__":
    main(sys.argv[1])
