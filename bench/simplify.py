#!/usr/bin/env python3
"""Times `knot simplify` on diagrams at the ends of random walks, and counts how many disguised unknots `knot decide` joins to the
smallest one.

    python3 bench/simplify.py                    a minute or two
    python3 bench/simplify.py --program FILE     another build of knot, which need not have the job `simplify`
    python3 bench/simplify.py --print 18 3       the input alone: the right trefoil's walk to 18 columns by the seed 3

A walk makes 3,000 legal moves of all kinds but slides, never more columns than it is to end with, and goes on until it has these."""
import argparse
import os
import random
import subprocess
import tempfile

from grids import RIGHT_TREFOIL, legal_after, picked
from knot_workbench.diagrams import grid_text
from knot_workbench.tables.knots import UNKNOT
from measure import PROGRAM, best, built, write_input

WALK_LENGTH = 3_000
# Of ten moves three are to be shifts, four exchanges, and up to one and a half stabilisations.
MOVE_SHARES = (0.3, 0.7, 0.85)


def long_walk_end(grid, size, seed):
    """Where a walk of so many moves or more ends that has so many columns at its end and never more."""
    dice, done = random.Random(seed), 0
    while done < WALK_LENGTH or len(grid.xs) < size:
        move = picked(dice, len(grid.xs), size, MOVE_SHARES)
        if done >= WALK_LENGTH and move[0] == "destabilise":
            continue
        further = legal_after(grid, move)
        if further is not None:
            grid, done = further, done + 1
    return grid


def time_simplify(program, path):
    print(f"{'from':14} {'columns':>7} {'seed':>4} {'to':>3} {'moves':>6} {'end':>12} {'seconds':>8} {'MB':>6}")
    for name, start in (("unknot", UNKNOT), ("right trefoil", RIGHT_TREFOIL)):
        for size in (10, 14, 18, 22):
            for seed in (1, 2, 3):
                write_input(path, grid_text(long_walk_end(start, size, seed)))
                seconds, memory, text = best([program, "simplify"], path, 3)
                lines = text.splitlines()
                print(f"{name:14} {size:7} {seed:4} {len(lines[0].split()) - 1:3} {lines[2].split()[1]:>6} {lines[-1]:>12} {seconds:8.4f} {memory / 1e6:6.1f}", flush=True)


def count_joined(program, path):
    """Sixty disguised unknots, fifteen for each number of columns, and how many of them are joined to the smallest diagram."""
    print(f"{'columns':>7} {'joined':>6} {'of':>3} {'seconds each':>12}")
    for size in (6, 8, 10, 12):
        joined = spent = 0
        for seed in range(15):
            write_input(path, grid_text(UNKNOT) + grid_text(long_walk_end(UNKNOT, size, seed)) + "quandle trivial 1\n")
            seconds, _, text = best([program, "decide"], path, 1)
            joined += text.startswith("certificate 2\nequal")
            spent += seconds
        print(f"{size:7} {joined:6} {15:3} {spent / 15:12.4f}", flush=True)


def main():
    parser = argparse.ArgumentParser(description=__doc__, formatter_class=argparse.RawDescriptionHelpFormatter)
    parser.add_argument("--program", default=PROGRAM)
    parser.add_argument("--print", nargs=2, type=int, metavar=("COLUMNS", "SEED"))
    words = parser.parse_args()
    if words.print:
        print(grid_text(long_walk_end(RIGHT_TREFOIL, *words.print)), end="")
        return
    built(words.program)
    with tempfile.TemporaryDirectory() as folder:
        path = os.path.join(folder, "input")
        write_input(path, grid_text(UNKNOT))
        if subprocess.run([words.program, "simplify"], stdin=open(path, "rb"), stdout=subprocess.DEVNULL).returncode == 0:
            time_simplify(words.program, path)
        count_joined(words.program, path)


if __name__ == "__main__":
    main()
