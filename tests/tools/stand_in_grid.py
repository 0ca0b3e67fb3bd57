#!/usr/bin/env python3
"""Stands for `knot grid` in tests of the scripts. It answers by the number of crossings, and draws nothing.

Three crossings have the right trefoil of docs/GUIDE.md, other numbers that many and two columns. An edge that doesn't come twice is
rejected; five crossings are no diagram, six are too many. CALLS names a file that gets the input of each call.
"""
import os
import re
import sys

TREFOIL = "x 4 3 2 1 0\no 2 1 0 4 3\n"


def main():
    text = sys.stdin.read()
    if sys.argv[1:] != ["grid"]:
        print("usage: knot JOB")
        return 2
    if os.environ.get("CALLS"):
        with open(os.environ["CALLS"], "a", encoding="utf-8") as file:
            file.write(text)
    edges = [int(edge) for row in re.findall(r"X\[([0-9,]+)\]", text) for edge in row.split(",")]
    for edge in sorted(set(edges)):
        if edges.count(edge) != 2:
            print(f"rejected edge {edge}")
            return 8
    crossings = len(edges) // 4
    if crossings in (5, 6):
        print("rejected plane" if crossings == 5 else "limit columns 50")
        return 8 if crossings == 5 else 4
    rows = list(range(crossings + 2))
    print(TREFOIL if crossings == 3 else f"x {' '.join(map(str, rows))}\no {' '.join(map(str, rows[1:] + rows[:1]))}\n", end="")
    return 0


if __name__ == "__main__":
    sys.exit(main())
