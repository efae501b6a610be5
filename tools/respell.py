#!/usr/bin/env python3
"""Brings the repository's own definitions and lemmas to snake case, in specs/, proofs/, clauses and docs/.

usage: python3 tools/respell.py        at the top of a repository that /opt/rattle/port/port.py has just turned

A word in camel case becomes snake case. A dash stays where it joins the names of two functions, as in `sum_over-map`, and
becomes `_` elsewhere. A lemma that would then have its function's name gets `_lem`. Names that the check makes (goals,
invariants, measures) keep their dashes, and so do names of the library. Functions of src/ are not renamed.
"""

import glob
import re

DECLARES = re.compile(r"^\s*(?:unfoldable |abbrev |pub |record |data )*([^\s:(){}]+)(?: \{[^}]*\}| \([^)]*\))* : (.*)$")
NAME = re.compile(r"[^\W\d](?:[\w']|-(?=\w))*")
CAMEL = re.compile(r"[a-z][a-z0-9]*(?:[A-Z][a-z0-9]*)+")
WORDS = {"length", "take", "drop", "append", "reverse", "map", "add", "le"}


def snake(name):
    return re.sub(r"([a-z0-9])([A-Z])", lambda m: m.group(1) + "_" + m.group(2).lower(), name)


def logic():
    return sorted(glob.glob("crates/*/specs/*.antt") + glob.glob("crates/*/proofs/**/*.antt", recursive=True))


def declared():
    """The names that the repository declares: definitions, and lemmas with all else."""
    definitions, others = set(), set()
    for path in logic():
        for line in open(path, encoding="utf-8"):
            m = DECLARES.match(line)
            if not m or m.group(2).startswith("goal."):
                continue
            name = m.group(1)
            if not name[0].islower():
                continue
            (definitions if "abbrev" in line or "unfoldable" in line or "/specs/" in path else others).add(name)
    return definitions, others - definitions


def spellings():
    definitions, others = declared()
    new = {n: snake(n).replace("-", "_") for n in definitions}
    functions = set(new.values()) | WORDS
    for n in sorted(others):
        to = snake(n)
        if not all(part in functions for part in to.split("-")):
            to = to.replace("-", "_")
        new[n] = to + "_lem" if to in set(new.values()) else to
    return {a: b for a, b in new.items() if a != b}


def turn(text, new):
    def spelt(name):
        if name in new:
            return new[name]
        return snake(name) if CAMEL.fullmatch(name) else name

    return NAME.sub(lambda m: spelt(m.group(0)), text)


def main():
    new = spellings()
    sources = sorted(glob.glob("crates/*/src/**/*.rt", recursive=True))
    for path in logic() + sources:
        text = open(path, encoding="utf-8").read()
        turned = turn(text, new)
        if turned != text:
            open(path, "w", encoding="utf-8").write(turned)
    for path in sorted(glob.glob("docs/*.md")) + ["README.md"]:
        text = open(path, encoding="utf-8").read()
        turned = re.sub(r"`[^`\n]*`", lambda m: turn(m.group(0), new), text)
        if turned != text:
            open(path, "w", encoding="utf-8").write(turned)
    for old in sorted(new):
        print(old, new[old])


main()
