#!/usr/bin/env python3
"""Times `knot check` on certificates of `different`, and counts instructions a line of their lists.

    python3 bench/different.py                  seconds, MB/s, peak memory, and the ratio to wc -l
    python3 bench/different.py --instructions   also instructions a line, counted by callgrind
"""
import itertools
import os
import sys
import tempfile

from colour import turned_unknots
from knot_workbench.diagrams import Grid, grid_text
from measure import PROGRAM, best, built, instructions, wants_instructions


def stairs(unknots, width):
    """Unlinked unknots side by side, each of so many columns and with one bottom; no row passes under a column."""
    columns = range(unknots * width)
    return Grid(tuple(columns), tuple(c + 1 if (c + 1) % width else c + 1 - width for c in columns))


def colour_lists(unknots, width, order):
    """The lines of all colourings of these unknots by a trivial quandle: each has one colour for all its columns."""
    return [" ".join(f"{c}" for c in colours for _ in range(width)) for colours in itertools.product(range(order), repeat=unknots)]


def certificate(first, second, order, turn=False):
    """Unknots, as (how many, columns of each), against others, with their complete lists, and how many lines these have."""
    grids = [stairs(*unknots) for unknots in (first, second)]
    head = "".join(grid_text(turned_unknots(grid) if turn else grid) for grid in grids) + f"different trivial {order}\n"
    lists = [colour_lists(*unknots, order) for unknots in (first, second)]
    body = "".join(f"list {len(lines)}\n" + "".join(line + "\n" for line in lines) for lines in lists)
    return (head + body).encode(), sum(map(len, lists))


def rows():
    """A name, the columns of the first diagram, the input and its lines of colours."""
    for first, second, order in (((2, 2), (1, 2), 16), ((3, 2), (2, 2), 16), ((4, 2), (3, 2), 16), ((4, 6), (3, 8), 16), ((8, 3), (7, 3), 4)):
        for turn in (False, True):
            name = f"{first[0]} and {second[0]} unknots{' turned' if turn else ''}, trivial {order}"
            yield name, first[0] * first[1], *certificate(first, second, order, turn)


def main():
    with_instructions = wants_instructions(__doc__)
    built()
    with tempfile.TemporaryDirectory() as folder:
        path = os.path.join(folder, "input")
        print(f"{'diagrams and quandle':38} {'columns':>7} {'lines':>7} {'MB':>6} {'seconds':>8} {'MB/s':>6} {'memory':>7} {'wc -l':>6}"
              + (f" {'instructions a line':>20}" if with_instructions else ""))
        start = None
        if with_instructions:
            with open(path, "wb") as out:
                out.write(certificate((2, 2), (1, 2), 1)[0])
            start = instructions("check", path)
        for name, columns, data, lines in rows():
            with open(path, "wb") as out:
                out.write(data)
            seconds, memory, written = best([PROGRAM, "check"], path)
            if written != "accepted\n":
                sys.exit(f"{name}: {written!r}")
            base, _, _ = best(["wc", "-l"], path)
            mega = len(data) / 1e6
            line = (f"{name:38} {columns:7} {lines:7} {mega:6.2f} {seconds:8.4f} {mega / seconds:6.0f} "
                    f"{memory / 1e6:7.1f} {seconds / base:6.1f}")
            if with_instructions:
                line += f" {(instructions('check', path) - start) / lines:20.0f}"
            print(line)


if __name__ == "__main__":
    main()
