#!/usr/bin/env python3
"""Times `knot code` on grids with many crossings, and `knot grid` on codes; counts instructions a crossing.

    python3 bench/code.py                  crossings, seconds, bytes written
    python3 bench/code.py --instructions   also instructions a crossing of `knot code`, counted by callgrind
"""
import os
import tempfile

from grids import below, rectangles
from knot_workbench.diagrams import crossings, grid_text
from knot_workbench.tables.knots import UNKNOT
from measure import PROGRAM, best, built, instructions, output_lines, wants_instructions, write_input


def crossing_count(grid):
    return len(crossings(grid))


def rows():
    """A name, and the grid: of each size, of the grids whose Os lie some rows below the Xs, the ones with the most and the fewest crossings."""
    for size in (5, 10, 24):
        grids = sorted((below(size, rows) for rows in range(1, size)), key=crossing_count)
        yield f"{size} columns, most", grids[-1]
        yield f"{size} columns, fewest", grids[0]


def drawn_rectangles(path, size):
    """Of the code of rectangles in so many columns: its crossings, the columns of the grid that is drawn, and seconds."""
    write_input(path, grid_text(rectangles(size)))
    write_input(path, "\n".join(output_lines("code", path)) + "\n")
    seconds, _, written = best([PROGRAM, "grid"], path)
    return crossing_count(rectangles(size)), len(written.splitlines()[0].split()) - 1, seconds


def main():
    with_instructions = wants_instructions(__doc__)
    built()
    with tempfile.TemporaryDirectory() as folder:
        path = os.path.join(folder, "input")
        start = None
        if with_instructions:
            write_input(path, grid_text(UNKNOT))
            start = instructions("code", path)
        print(f"{'grid':20} {'crossings':>9} {'bytes':>6} {'seconds':>8}" + (f" {'instructions':>12} {'a crossing':>10}" if with_instructions else ""))
        for name, grid in rows():
            write_input(path, grid_text(grid))
            seconds, _, written = best([PROGRAM, "code"], path)
            count = int(written.splitlines()[0].split()[1])
            if count != crossing_count(grid):
                raise SystemExit(f"{name}: {count} crossings, and not {crossing_count(grid)}")
            line = f"{name:20} {count:9} {len(written):6} {seconds:8.4f}"
            if with_instructions:
                taken = instructions("code", path) - start
                line += f" {taken:12} {taken / max(count, 1):10.0f}"
            print(line)
        for size in (8, 24):
            count, columns, seconds = drawn_rectangles(path, size)
            print(f"a code of {count} crossings, drawn in {columns} columns: {seconds:.4f} s")


if __name__ == "__main__":
    main()
