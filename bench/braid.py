#!/usr/bin/env python3
"""Counts the instructions of `knot braid`, by callgrind, and what they come to for a letter of the word.

    python3 bench/braid.py

Inputs are grids in which the Os lie a fixed number of rows below the Xs, round the circle: of each size the grid with the longest
word, with a quandle of order 1 and with the tetrahedral one. Instructions are those above a run on the unknot with the same quandle."""
import os
import tempfile

from grids import below
from knot_workbench.diagrams import grid_text
from knot_workbench.tables.knots import UNKNOT
from measure import built, instructions, output_lines, wants_no_words, write_input


def letters(path, grid):
    write_input(path, grid_text(grid) + "quandle trivial 1\n")
    return len(output_lines("braid", path)[0].split()) - 2


def main():
    wants_no_words(__doc__)
    built()
    print(f"{'columns':>7} {'strands':>7} {'letters':>7} {'quandle':12} {'list':>5} {'instructions':>12} {'a letter':>8}")
    with tempfile.TemporaryDirectory() as folder:
        path = os.path.join(folder, "input")
        for size in (5, 10, 24):
            grid = max((below(size, rows) for rows in range(1, size)), key=lambda g: letters(path, g))
            count = letters(path, grid)
            for quandle in ("trivial 1", "tetrahedral"):
                write_input(path, grid_text(UNKNOT) + f"quandle {quandle}\n")
                start = instructions("braid", path)
                write_input(path, grid_text(grid) + f"quandle {quandle}\n")
                lines = output_lines("braid", path)
                took = instructions("braid", path) - start
                strands, found = int(lines[0].split()[1]), lines[2]
                print(f"{size:7} {strands:7} {count:7} {quandle:12} {found.split()[1]:>5} {took:12,} {took / count:8,.0f}")


if __name__ == "__main__":
    main()
