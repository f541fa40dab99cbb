#!/usr/bin/env python3
"""Respells this repository's own definitions and lemmas: words in snake case, facts and types in upper camel case.

usage: python3 tools/respell.py        at the top of the repository, once, right after the toolchain's port.py

The names are those that specs/ and the lemma files of proofs/ define with a dash in them, with their record fields,
constructors and local names. They are respelled wherever specs/, proofs/, clauses and ghost items name them, and
between backquotes in README.md and docs/. Names that Rattle makes (goals, steps), names of the library, the code
itself, comments, strings and files that programs read or write are left alone.
"""

import glob
import os
import re
import sys

TOKEN = re.compile(r"[^\s(){};.,λ\"⌜⌝«»↦|]+")
DEFINES = re.compile(
    r"^[ \t]*(?:abbrev |unfoldable )*(?:pub )?(?:abbrev |unfoldable )*(?:record |data )?([^\s(){};:.,]+)(?:[ \t]+[({][^\n]*?)?[ \t]+:(?=\s)",
    re.M,
)
LOCAL = re.compile(r"\b(?:let|as) ([^\s(){};:.,]+)(?=\s*[:=,}])")
# names that would fall together with a word of the library that their files use, or that hold a word of the older one
SPECIAL = {
    "getD-same": "get_or_same",
    "bit-and": "bit_of_and",
    "bit-or": "bit_of_or",
    "Page-plans": "PlansOfPage",
    "fresh-Cells": "fresh_cells",
    "not-Free": "not_free",
}
# arguments, which no signature names
ARGUMENTS = "is-best is-label is-opposite is-order is-out is-rest is-taken at-k not-Free not-member count-first counted-well same-pages".split()


def files(*patterns):
    found = []
    for p in patterns:
        found += [f for f in glob.glob(p, recursive=True) if "/out/" not in f]
    return sorted(found)


def lemma_file(path):
    return os.path.basename(path) not in ("Answers.antt", "Invariants.antt", "Choices.antt", "Proof.antt")


def code_of(line, mark):
    """The line up to its comment, and the comment."""
    at = line.find(mark)
    return (line, "") if at < 0 else (line[:at], line[at:])


def names():
    found = set(ARGUMENTS)
    for path in files("crates/*/src/**/*.rt"):
        found.update(LOCAL.findall("\n".join(l for l in open(path, encoding="utf-8").read().split("\n") if l.startswith("ghost use"))))
    for path in files("crates/*/specs/**/*.antt", "crates/*/proofs/**/*.antt"):
        text = "\n".join(code_of(l, "--")[0] for l in open(path, encoding="utf-8").read().split("\n"))
        for m in DEFINES.finditer(text):
            after = text[m.end() :].lstrip()
            if lemma_file(path) or not after.startswith("goal."):
                found.add(m.group(1))
        found.update(LOCAL.findall(text))
    return {n for n in found if re.fullmatch(r"[A-Za-z][A-Za-z0-9]*(?:-[A-Za-z0-9]+)+'?", n)}


def respelled(name):
    if name in SPECIAL:
        return SPECIAL[name]
    parts = name.split("-")
    if name[0].isupper():
        return "".join(p[:1].upper() + p[1:] for p in parts)
    return "_".join(parts)


def turn(text, to):
    return TOKEN.sub(lambda m: to.get(m.group(0), m.group(0)), text)


def turn_rt(text, to):
    """Clauses, ghost items and their imports; a ghost item may go over several lines."""
    out = []
    for line in text.split("\n"):
        code, comment = code_of(line, "//")
        pieces = re.split(r'("(?:[^"\\]|\\.)*")', code)
        out.append("".join(p if i % 2 else turn(p, to) for i, p in enumerate(pieces)) + comment)
    return "\n".join(out)


def main():
    to = {n: respelled(n) for n in names()}
    taken = {}
    for path in files("crates/*/specs/**/*.antt", "crates/*/proofs/**/*.antt", "crates/*/src/**/*.rt"):
        for t in TOKEN.findall(open(path, encoding="utf-8").read()):
            taken.setdefault(t, path)
    for old, new in sorted(to.items()):
        if new in taken:
            print(f"look: {old} becomes {new}, a word that {taken[new]} has already")
    if "--dry" in sys.argv:
        for old, new in sorted(to.items()):
            print(old, new)
        return
    for path in files("crates/*/specs/**/*.antt", "crates/*/proofs/**/*.antt"):
        text = open(path, encoding="utf-8").read()
        new = "\n".join(turn(a, to) + b for a, b in (code_of(l, "--") for l in text.split("\n")))
        if new != text:
            open(path, "w", encoding="utf-8").write(new)
    for path in files("crates/*/src/**/*.rt"):
        text = open(path, encoding="utf-8").read()
        new = turn_rt(text, to)
        if new != text:
            open(path, "w", encoding="utf-8").write(new)
    for path in files("README.md", "docs/*.md"):
        text = open(path, encoding="utf-8").read()
        new = re.sub(r"`[^`\n]+`", lambda m: turn(m.group(0)[:-1].replace("`", "` ", 1), to).replace("` ", "`", 1) + "`", text)
        if new != text:
            open(path, "w", encoding="utf-8").write(new)


if __name__ == "__main__":
    main()
