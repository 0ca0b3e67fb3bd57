#!/usr/bin/env python3
"""Counts how many pairs `knot decide` joins: a diagram, and where a random walk of moves from it ends, by the number of columns there.

    python3 bench/reach.py                    twelve walks for each number of columns, at three settings; a minute or two
    python3 bench/reach.py --program FILE     the same pairs by another build of knot

A walk tries 400 moves of all kinds but slides, passes over those that are not legal, never has more columns than it is to end with,
and goes on until it has these. A quandle that distinguishes nothing keeps colours out of it.
"""
import argparse
import random
import subprocess
import time

from grids import RIGHT_TREFOIL, legal_after, picked
from knot_workbench.diagrams import grid_text
from knot_workbench.tables.knots import UNKNOT
from measure import PROGRAM, built

WALKS = 12
TRIES = 400
REACHED_SIZES = (6, 7, 8, 9, 10)
SETTINGS = ((20_000, 1), (500_000, 0), (500_000, 1))
# Of twenty moves five are to be shifts, seven exchanges, and up to four stabilisations.
SHARES = (0.25, 0.6, 0.8)


def walk_end(dice, start, size):
    """Where a walk ends that has so many columns at its end and never more."""
    here = start
    for _ in range(TRIES):
        here = legal_after(here, picked(dice, len(here.xs), size, SHARES)) or here
    while len(here.xs) < size:
        further = legal_after(here, picked(dice, len(here.xs), size, SHARES))
        if further and len(further.xs) >= len(here.xs):
            here = further
    return here


def joins(program, text, budget, spare):
    """Whether the diagrams of an input are joined."""
    words = [program, "decide", "--budget", str(budget), "--spare", str(spare)]
    return subprocess.run(words, input=text.encode(), capture_output=True).returncode == 0


def main():
    parser = argparse.ArgumentParser(description=__doc__, formatter_class=argparse.RawDescriptionHelpFormatter)
    parser.add_argument("--program", default=PROGRAM)
    program = parser.parse_args().program
    built(program)
    dice = random.Random(1)
    for name, start in (("unknot", UNKNOT), ("right trefoil", RIGHT_TREFOIL)):
        for size in REACHED_SIZES:
            if size <= len(start.xs):
                continue
            inputs = [grid_text(start) + grid_text(walk_end(dice, start, size)) + "quandle trivial 1\n" for _ in range(WALKS)]
            for budget, spare in SETTINGS:
                begun = time.perf_counter()
                joined = sum(joins(program, text, budget, spare) for text in inputs)
                seconds = (time.perf_counter() - begun) / WALKS
                print(f"{name:14} {size:3} columns, budget {budget:7}, spare {spare}: {joined:3} of {WALKS} joined, {seconds:.2f} s each", flush=True)


if __name__ == "__main__":
    main()
