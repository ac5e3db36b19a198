#!/usr/bin/env python3
"""Spells this repository's definitions and lemmas as the rest of the toolchain's are: words in snake case, types in camel case.

usage: tools/respell.py        at the top of the repository, once, after the toolchain's own port.py

The names stand in respelling.tsv, old and new. They are turned wherever they stand as a whole name in specs/ and proofs/, and in
the ghost items, clauses and ghost imports of src/. Code, strings and comments of src/ keep theirs. A second run would turn
insert_all again.
"""

import glob
import os
import re

TOP = os.path.dirname(os.path.dirname(os.path.realpath(__file__)))
NAME = re.compile(r"[A-Za-z0-9_'≢≡≤-]+")
CLAUSE = re.compile(r"^\s*(?:ghost\b|pub ghost\b|requires\b|ensures\b)")


def table():
    with open(os.path.join(TOP, "tools", "respelling.tsv"), encoding="utf-8") as rows:
        return dict(row.rstrip("\n").split("\t") for row in rows)


def turned(text, names):
    return NAME.sub(lambda m: names.get(m.group(0), m.group(0)), text)


def turned_source(text, names):
    """A clause may run over lines: it ends where its braces are closed."""
    out, depth = [], 0
    for line in text.splitlines(keepends=True):
        if depth > 0 or CLAUSE.match(line):
            depth = max(0, depth + line.count("{") - line.count("}"))
            line = turned(line, names)
        out.append(line)
    return "".join(out)


def main():
    names = table()
    crates = os.path.join(TOP, "crates", "*")
    for kind, turn in (("specs/**/*.antt", turned), ("proofs/**/*.antt", turned), ("src/**/*.rt", turned_source)):
        for path in sorted(glob.glob(os.path.join(crates, kind), recursive=True)):
            with open(path, encoding="utf-8") as file:
                old = file.read()
            new = turn(old, names)
            if new != old:
                with open(path, "w", encoding="utf-8") as file:
                    file.write(new)


if __name__ == "__main__":
    main()
