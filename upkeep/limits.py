#!/usr/bin/env python3
"""Finds limits that are written as numbers again: changes MAX_SIZE, MAX_ORDER and MAX_LARGE_ORDER in a copy, and proves and tests it.

    python3 upkeep/limits.py                       48 becomes 20, 32 becomes 12 and 128 becomes 100, in every crate
    python3 upkeep/limits.py 20 12 100 NAME..      in these crates and those below them

A proof, a worked row or a test that fails there says one of the numbers where it should name the constant.
A number of columns up to 48 and orders up to 32 and 128 still fit in the digits of a key and in the tables. The worked rows of grid_core
and of quandle_core that spell a limit on purpose are changed with it.
The examples, the stored run and must-fail edits are not tried. From nothing it takes as long as the proofs of the gate do."""

import glob
import os
import shutil
import subprocess
import sys
import tempfile

TOP = os.path.dirname(os.path.dirname(os.path.abspath(__file__)))
LIMITS = (("grid_core", "MAX_SIZE", 48), ("quandle_core", "MAX_ORDER", 32), ("quandle_core", "MAX_LARGE_ORDER", 128))


def turn(top, crate, name, old, new):
    """Gives the constant of a crate another value, in its one line and in the worked row that spells it."""
    for folder, ending, sign in (("src", ".rt", ": usize ="), ("proofs", ".antt", " ≡")):
        was, now = (f"{name}{sign} {value}" for value in (old, new))
        turned = 0
        for path in sorted(glob.glob(f"{top}/crates/{crate}/{folder}/*{ending}")):
            with open(path, encoding="utf-8") as file:
                text = file.read()
            if was in text:
                with open(path, "w", encoding="utf-8") as file:
                    file.write(text.replace(was, now))
                turned += text.count(was)
        if turned != 1:
            sys.exit(f"{crate} says {was} {turned} times in {folder}")


def crates_by_floor(top):
    """The crates by floor, lowest first, each with the crates below it."""
    found = {}
    with open(f"{top}/crates.txt", encoding="utf-8") as file:
        for line in file:
            name, colon, below = line.partition("#")[0].partition(":")
            if colon:
                found[name.split()[0]] = below.split()
    return found


def crates_below(found, names):
    """These crates and all below them, lowest first; all where none is named."""
    kept, left = set(), list(names or found)
    while left:
        name = left.pop()
        if name in found and name not in kept:
            kept.add(name)
            left += found[name]
    return [name for name in found if name in kept]


def main():
    values = [word for word in sys.argv[1:] if word.isdigit()]
    names = [word for word in sys.argv[1:] if not word.isdigit()]
    values = values if len(values) == len(LIMITS) else ["20", "12", "100"]
    failed = []
    with tempfile.TemporaryDirectory(prefix="knot-limits-") as top:
        shutil.copytree(f"{TOP}/crates", f"{top}/crates", ignore=shutil.ignore_patterns("out"))
        for name in ("crates.txt", "HANDLES"):
            shutil.copy(f"{TOP}/{name}", top)
        for (crate, name, old), value in zip(LIMITS, values):
            turn(top, crate, name, old, value)
        for crate in crates_below(crates_by_floor(top), names):
            for words in (["rt", "check"], ["rt", "try", "--test"]):
                ran = subprocess.run(words, cwd=f"{top}/crates/{crate}", capture_output=True, text=True)
                said = [line for line in (ran.stdout + ran.stderr).split("\n") if ": error" in line or "FAILED" in line or "panicked" in line]
                if ran.returncode and not (words[1] == "try" and "has no #[test] function" in ran.stdout + ran.stderr):
                    failed.append(f"{crate} ({words[1]})")
                    print(f"{crate}: {' '.join(words)} fails", *said[:8], sep="\n    ", flush=True)
                else:
                    print(f"{crate}: {' '.join(words)} passes", flush=True)
    print(f"with {values[0]} columns and order {values[1]}: {len(failed)} fail", *failed)
    return 1 if failed else 0


if __name__ == "__main__":
    sys.exit(main())
