#!/usr/bin/env python3
"""Counts the instructions of `knot weights`, by callgrind, and what they come to for a crossing of a colouring.

    python3 bench/weights.py

Inputs are grids in which the Os lie a fixed number of rows below the Xs, round the circle: of each size the grid with the most
crossings, given twice; with the tetrahedral quandle, and with trivial ones, each by a cocycle that is not 0. Instructions are those
above a run on the unknot, given twice, with the same quandle and cocycle; reading, both lists of colourings and printing are in them."""
import os
import tempfile

from grids import below
from knot_workbench.diagrams import crossings, grid_text
from knot_workbench.tables.knots import UNKNOT
from measure import built, instructions, output_lines, wants_no_words, write_input

TETRAHEDRAL = "quandle tetrahedral\nweight 2\n0 1 1 0\n1 0 1 0\n1 1 0 0\n0 0 0 0\n"


def trivial_block(order):
    rows = "\n".join(" ".join(str(int(x != y)) for y in range(order)) for x in range(order))
    return f"quandle trivial {order}\nweight 5\n{rows}\n"


def main():
    wants_no_words(__doc__)
    built()
    print(f"{'columns':>7} {'crossings':>9} {'quandle':12} {'colourings':>10} {'instructions':>13} {'a crossing':>10}")
    with tempfile.TemporaryDirectory() as folder:
        path = os.path.join(folder, "input")
        for size in (5, 10, 24):
            grid = max((below(size, rows) for rows in range(1, size)), key=lambda grid: len(crossings(grid)))
            count = len(crossings(grid))
            for name, cocycle in (("tetrahedral", TETRAHEDRAL), ("trivial 2", trivial_block(2)), ("trivial 16", trivial_block(16))):
                write_input(path, 2 * grid_text(UNKNOT) + cocycle)
                start = instructions("weights", path)
                write_input(path, 2 * grid_text(grid) + cocycle)
                lines = output_lines("weights", path)
                if lines[0].startswith("wide"):
                    continue
                colourings = sum(map(int, lines[0].split()[1:]))
                took = instructions("weights", path) - start
                print(f"{size:7} {count:9} {name:12} {colourings:10} {took:13,} {took / (2 * colourings * count):10,.1f}")


if __name__ == "__main__":
    main()
