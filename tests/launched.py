#!/usr/bin/env python3
"""Makes a small tree whose launchers call given programs as ./knot and ./seek call those of this one, and build nothing.

    tests/launched.py FOLDER      KNOT and SEEK name the programs; without them those of this tree are taken
"""
import os
import shutil
import sys

TOP = os.path.dirname(os.path.dirname(os.path.abspath(__file__)))
# What the launchers need. The list of quandles with cocycles is what ./seek is given where its words name none.
LAUNCHERS, LISTS = ("knot", "seek", "launch"), os.path.join("quandles", "weights")
# A launcher builds anew where a source is newer than the program: here there is one, and it is older.
OLD = 946_684_800


def program_of(name):
    """The path of a program, whether it is there or not: what its variable names, or what was built in this tree."""
    given = os.environ.get(name.upper())
    return os.path.abspath(given) if given else os.path.join(TOP, "crates", name, "out", name)


def put_launchers(folder):
    """Puts launchers and links to the programs into a folder, which may have other files of the tree already."""
    for name in LAUNCHERS:
        shutil.copy2(os.path.join(TOP, name), os.path.join(folder, name))
    if not os.path.exists(os.path.join(folder, LISTS)):
        os.makedirs(os.path.dirname(os.path.join(folder, LISTS)), exist_ok=True)
        os.symlink(os.path.join(TOP, LISTS), os.path.join(folder, LISTS))
    crates = os.path.join(folder, "crates.txt")
    with open(crates, "w", encoding="utf-8"):
        pass
    os.utime(crates, (OLD, OLD))
    for name in ("knot", "seek"):
        os.makedirs(os.path.join(folder, "crates", name, "out"))
        os.symlink(program_of(name), os.path.join(folder, "crates", name, "out", name))


if __name__ == "__main__":
    if len(sys.argv) != 2 or sys.argv[1].startswith("-"):
        sys.exit(__doc__.strip())
    os.makedirs(sys.argv[1])
    put_launchers(sys.argv[1])
