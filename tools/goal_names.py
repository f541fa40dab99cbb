#!/usr/bin/env python3
"""Respells, in the answers and invariants of proofs/, the names that the checker makes from the code: source names keep
their underscores, and the checker's own words of two parts have one.

usage: python3 tools/goal_names.py        at the top of the repository, once, after tools/respell.py
"""

import glob
import os
import re

WORDS = "in_ok in_err in_default in_empty overflow_add overflow_mul overflow_sub overflow_cast slice_bounds from_residual type_inv copy_from_slice to_be_bytes saturating_add deref_mut push_str is_some is_none is_empty push_reserved with_capacity".split()
IDENT = re.compile(r"\b[A-Za-z][A-Za-z0-9]*(?:_[A-Za-z0-9]+)+\b")
DASHED = re.compile(r"(?<![^\s(){};.,])[A-Za-z_][A-Za-z0-9_]*(?:-[A-Za-z0-9_]+)+")


def main():
    for crate in sorted(glob.glob("crates/*")):
        idents = set(WORDS)
        for path in glob.glob(crate + "/src/**/*.rt", recursive=True):
            text = re.sub(r"//.*", "", open(path, encoding="utf-8").read())
            text = "\n".join(l for l in text.split("\n") if not re.match(r"\s*(ghost|requires|ensures)\b", l))
            idents.update(IDENT.findall(text))
        order = sorted(idents, key=lambda i: (-i.count("_"), i))
        for path in glob.glob(crate + "/proofs/**/*.antt", recursive=True):
            if os.path.basename(path) not in ("Answers.antt", "Invariants.antt"):
                continue

            def turn(m):
                name = "-" + m.group(0) + "-"
                for i in order:
                    name = name.replace("-" + i.replace("_", "-") + "-", "-" + i + "-")
                return name[1:-1]

            text = open(path, encoding="utf-8").read()
            new = "\n".join(DASHED.sub(turn, l) if not l.startswith("use ") else re.sub(r"\{.*\}", lambda b: DASHED.sub(turn, b.group(0)), l) if ".Goals" in l or ".Given" in l else l for l in text.split("\n"))
            if new != text:
                open(path, "w", encoding="utf-8").write(new)


if __name__ == "__main__":
    main()
