#!/usr/bin/env python3
"""Prints the clauses that the edits of the gate break, each with its edits.

    tests/clauses.py             all of them
    tests/clauses.py WORD..      those whose text has one of these words, such as `seek` or `check`

An edit, crates/NAME/must-fail/EDIT.edit, names each clause that it breaks in a line `# clause: CLAUSE` at its top; rt reads no line
that begins with #. A clause is one that docs/PROVED.md states, or a part of it.

exit status:
  0  each edit names a clause
  1  some edit names none: each such edit is printed on standard error
"""
import collections
import glob
import os
import re
import sys

TOP = os.path.dirname(os.path.dirname(os.path.abspath(__file__)))
MARK = "# clause: "


def gate_edits():
    """The edits that the gate tries, by their paths from the top."""
    return sorted(os.path.relpath(path, TOP) for path in glob.glob(os.path.join(TOP, "crates", "*", "must-fail", "*.edit")))


def clauses_broken_by(edit):
    """The clauses that the top of this edit names, in order."""
    with open(os.path.join(TOP, edit), encoding="utf-8") as file:
        head = file.read().partition("file: ")[0]
    return [line[len(MARK):] for line in head.split("\n") if line.startswith(MARK)]


def edits_by_clause():
    """By clause the edits that break it. Clauses come in the order of their letters, and an edit that names none comes under None."""
    found = collections.defaultdict(list)
    for edit in gate_edits():
        for clause in clauses_broken_by(edit) or [None]:
            found[clause].append(edit)
    return {clause: found[clause] for clause in sorted(found, key=lambda it: (it or "").replace("`", ""))}


def main(words):
    """Prints the clauses, and gives the exit status."""
    found = edits_by_clause()
    nameless = found.pop(None, [])
    for clause, edits in found.items():
        if not words or set(words) & set(re.findall(r"\w+", clause)):
            print(clause, *edits, sep="\n    ")
    for edit in nameless:
        print(f"clauses.py: {edit} names no clause that it breaks", file=sys.stderr)
    return 1 if nameless else 0


if __name__ == "__main__":
    if sys.argv[1:] in (["--help"], ["-h"]):
        sys.exit(print(__doc__, end=""))
    sys.exit(main(sys.argv[1:]))
