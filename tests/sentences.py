#!/usr/bin/env python3
"""Sets what `seek` says of bad lines beside what `knot decide` answers: the same line, the same status, and a reason for it, which
`knot` says on a terminal too. Where its standard error is none, it says nothing.

    python3 tests/sentences.py                  20,000 random changes of the examples of `decide` and of the texts below
    python3 tests/sentences.py --cases 500      fewer
    python3 tests/sentences.py --seed 2         others

`knot` names the first bad line exactly, by a proof; why it is bad is found beside it, and no proof speaks of that. A case differs
where the status or the line is another one, where the reason is that none was found or the two report different ones, and where `seek`
finds fault with a text that `knot` takes. Status 0 where none does.
"""
import argparse
import os
import re
import subprocess
import sys
import tempfile
from collections import Counter
from concurrent.futures import ThreadPoolExecutor

import changes
import terminals

TOP = os.path.dirname(os.path.dirname(os.path.abspath(__file__)))
KNOT = os.environ.get("KNOT", os.path.join(TOP, "crates", "knot", "out", "knot"))
SEEK = os.environ.get("SEEK", os.path.join(TOP, "crates", "seek", "out", "seek"))

# Texts that have what the examples of `decide` lack: tables, all families of quandles, long braids, two grids.
TEXTS = [
    b"x 4 3 2 1 0\no 2 1 0 4 3\nbraid 3 1 -2 1 -2\nquandle table 3\n0 2 1\n2 1 0\n1 0 2\nquandle alexander 5 2\nquandle trivial 2\n",
    b"# two grids\nx 0 1 2\no 1 2 0\n\nx 1 0\no 0 1\nquandle tetrahedral\nquandle dihedral 7\n",
    b"braid 8 1 2 3 4 5 6 7 -1\nbraid 1\nquandle table 2\n0 0\n1 1\nquandle table 1\n0\n",
]


def bases():
    found = [base for base in changes.examples(os.path.join(TOP, "examples"), [b"decide"]) if base[1] == b"decide"]
    return found + [(f"text {number}", b"decide", [], text) for number, text in enumerate(TEXTS)]


def said_by_knot(text):
    """The status, the line that is named, if one is, and what is reported on a terminal."""
    status, said, told = terminals.run([KNOT, "decide", "--budget", "2"], text)
    named = re.fullmatch(rb"(?:malformed|limit) line ([0-9]+)\n", said)
    return status, int(named[1]) if named else None, told


def said_by_seek(text):
    """The status, the line that is named, and the reason."""
    with tempfile.NamedTemporaryFile() as file:
        file.write(text)
        file.flush()
        done = subprocess.run([SEEK, "--steps", "0", "--quiet", file.name], capture_output=True)
        name = re.escape(file.name.encode())
    named = re.fullmatch(rb"seek: " + name + rb", line ([0-9]+): (.*)\n", done.stderr)
    return done.returncode, int(named[1]) if named else None, named[2] if named else done.stderr


def difference(text):
    """What differs, and the kind of reason, without its numbers and tokens."""
    status, line, told = said_by_knot(text)
    own, place, reason = said_by_seek(text)
    kind = re.sub(rb"`[^`]*`|-?[0-9]+", b"_", reason).decode(errors="replace") if place else ""
    if line is None:
        return (None if place is None and own in (0, 1) else f"knot takes it, seek: status {own}, {reason}"), kind
    if (own, place) != (status, line):
        return f"knot: status {status}, line {line}; seek: status {own}, line {place}, {reason}", kind
    if told != b"knot: line %d: %s\n" % (place, reason):
        return f"knot reports {told}, seek: {reason}", kind
    if reason.startswith(b"the line is not what is due"):
        return f"no reason: {reason}", kind
    return None, kind


def main():
    words = argparse.ArgumentParser(description=__doc__, formatter_class=argparse.RawDescriptionHelpFormatter)
    words.add_argument("--cases", type=int, default=20_000)
    words.add_argument("--seed", default="1")
    words.add_argument("--kinds", action="store_true", help="also print each kind of reason, and how often it came")
    asked = words.parse_args()
    for program in (KNOT, SEEK):
        if not os.access(program, os.X_OK):
            sys.exit(f"build the programs first: {program}")
    all_bases = bases()
    lines = sorted({line for base in all_bases for line in base[3].split(b"\n") if line})
    texts = [changes.make(asked.seed, number, all_bases, lines)[1] for number in range(asked.cases)]
    kinds, failed = Counter(), 0
    with ThreadPoolExecutor(max_workers=os.cpu_count()) as pool:
        for text, (differs, kind) in zip(texts, pool.map(difference, texts)):
            kinds[kind] += 1
            if differs:
                failed += 1
                if failed <= 20:
                    print(f"{differs}\n{text!r}\n")
    if asked.kinds:
        for kind, count in kinds.most_common():
            print(f"{count:6} {kind or 'no bad line'}")
    print(f"{asked.cases} cases, {len(kinds)} kinds of reasons, {failed} different")
    sys.exit(1 if failed else 0)


if __name__ == "__main__":
    main()
