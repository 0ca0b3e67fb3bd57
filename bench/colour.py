#!/usr/bin/env python3
"""Times `knot colour` on generated grids, and counts instructions a colouring.

    python3 bench/colour.py                  seconds, bytes written a second
    python3 bench/colour.py --instructions   also instructions a colouring, counted by callgrind
"""
import os
import tempfile

from grids import torus
from knot_workbench.diagrams import Grid, grid_text
from measure import PROGRAM, best, built, instructions, wants_instructions, write_input


def unlinked_pairs(size):
    """Unlinked unknots side by side: one bottom for each pair of columns, and no row passes under a column."""
    return Grid(tuple(range(size)), tuple(c + 1 if c % 2 == 0 else c - 1 for c in range(size)))


def turned_unknots(grid):
    """The same with the lowest pair of rows on the right: the list's order is not that in which colours are found."""
    return Grid(grid.xs[::-1], grid.os[::-1])


def rows():
    """A name, the columns, and the input."""
    for size, order in ((2, 16), (4, 16), (6, 16), (8, 16), (8, 8), (8, 4), (16, 4), (24, 2), (6, 32), (32, 2)):
        yield f"{size // 2} unknots, trivial {order}", size, grid_text(unlinked_pairs(size)) + f"quandle trivial {order}\n"
    for size, order in ((8, 16), (16, 4)):
        yield f"{size // 2} unknots turned, trivial {order}", size, grid_text(turned_unknots(unlinked_pairs(size))) + f"quandle trivial {order}\n"
    for name in ("trivial 2", "dihedral 3", "tetrahedral", "dihedral 5", "dihedral 7"):
        yield f"trefoil, {name}", 5, grid_text(torus(5)) + f"quandle {name}\n"
    yield "24 columns, dihedral 15", 24, grid_text(torus(24)) + "quandle dihedral 15\n"
    yield "24 columns, trivial 16", 24, grid_text(torus(24)) + "quandle trivial 16\n"
    yield "48 columns, trivial 32", 48, grid_text(torus(48)) + "quandle trivial 32\n"
    yield "48 columns, dihedral 31", 48, grid_text(torus(48)) + "quandle dihedral 31\n"


def listed_counts(written):
    """How many colourings the lists of an output say they hold."""
    return sum(int(line.split()[1]) for line in written.splitlines() if line.startswith("list "))


def main():
    with_instructions = wants_instructions(__doc__)
    built()
    with tempfile.TemporaryDirectory() as folder:
        path = os.path.join(folder, "input")
        start = None
        if with_instructions:
            write_input(path, grid_text(unlinked_pairs(2)) + "quandle trivial 1\n")
            start = instructions("colour", path)
        print(f"{'grid and quandle':30} {'columns':>7} {'colourings':>10} {'bytes':>9} {'seconds':>8} {'MB/s':>6} {'MB':>6}"
              + (f" {'instructions a colouring':>25}" if with_instructions else ""))
        for name, columns, text in rows():
            write_input(path, text)
            seconds, memory, written = best([PROGRAM, "colour"], path)
            size, count = len(written), listed_counts(written)
            line = f"{name:30} {columns:7} {count:10} {size:9} {seconds:8.4f} {size / 1e6 / seconds:6.0f} {memory / 1e6:6.1f}"
            if with_instructions:
                taken = instructions("colour", path) - start
                line += f" {taken / max(count, 1):25.0f}"
            print(line)


if __name__ == "__main__":
    main()
