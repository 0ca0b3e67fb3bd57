#!/usr/bin/env python3
"""Stands for knot in tests of the census, and called with a name that begins with seek for seek: slowly, and for small diagrams.

All that can be computed whole is answered by the independent reader of the formats. `simplify` makes those destabilisations that are there
without further moves, and calls what is left irreducible up to six columns. The searches of `decide` and `seek` join diagrams by shifts
alone. Where the variable LOG names a file, each call appends its words to it. Where LONELY is set, searches join nothing at all.
"""
import os
import sys

sys.path[:0] = [os.path.join(os.path.dirname(os.path.realpath(__file__)), *parts) for parts in (("..",), ("..", "..", "tools"))]

import plain_orbits
import reader
from reader.answers import Least
from knot_workbench.diagrams import Grid, grid_of, grid_text
from knot_workbench.moves import Illegal, made, tidied
from knot_workbench.texts import Lines, move_text, read_diagram

IS_SEEK = os.path.basename(sys.argv[0]).startswith("seek")


def joined(first, second):
    """Shifts that join two grids, or None."""
    size = len(first.xs)
    if os.environ.get("LONELY") or size != len(second.xs):
        return None
    for across in range(size):
        for up in range(size):
            grid, moves = first, [("shift", "columns", across)] * (across > 0) + [("shift", "rows", up)] * (up > 0)
            for move in moves:
                grid = made(grid, move)
            if grid == second:
                return tidied(first, moves)
    return None


def simplified(grid):
    """A grid after all destabilisations that are found, and these."""
    moves = []
    while True:
        steps = [("destabilise", column, row) for column in range(len(grid.xs) - 1) for row in range(len(grid.xs) - 1)]
        for move in steps:
            try:
                grid = made(grid, move)
            except Illegal:
                continue
            moves.append(move)
            break
        else:
            return grid, moves


def moves_text(word, moves):
    return f"{word} {len(moves)}\n" + "".join(move_text(move) + "\n" for move in moves)


def searched(text):
    """The end of a search: status and text."""
    lines = Lines(text)
    moves = joined(grid_of(read_diagram(lines)), grid_of(read_diagram(lines)))
    if moves is not None:
        return 0, "certificate 2\n" + moves_text("equal", moves)
    return 1, "" if IS_SEEK else "certificate 2\nunknown budget 2\n"


def answered(words, text):
    """Status and text of a call."""
    found = reader.answer([word.encode() for word in words], text.encode())
    if isinstance(found, reader.Searched):
        return searched(text)
    if isinstance(found, Least):
        grid, moves = plain_orbits.least(Grid(*found.grid))
        return 0, grid_text(grid) + moves_text("moves", moves) + "whole\n"
    if isinstance(found, reader.Simplified):
        grid, moves = simplified(Grid(*found.grid))
        return 0, grid_text(grid) + moves_text("moves", moves) + ("irreducible\n" if len(grid.xs) < 7 else "spent 20000\n")
    return found.status, found.text.decode()


def main():
    words = sys.argv[1:]
    if os.environ.get("LOG"):
        with open(os.environ["LOG"], "a", encoding="utf-8") as log:
            log.write(" ".join(["seek"] * IS_SEEK + words) + "\n")
    text = sys.stdin.read()
    status, said = answered(["decide"] if IS_SEEK else words, text)
    if IS_SEEK and status == 0 and "different" in said:
        said = said if said.startswith("certificate 2") else "certificate 2\n" + said
    if IS_SEEK and status == 3:
        said = ""
    sys.stdout.write(said)
    return status


if __name__ == "__main__":
    sys.exit(main())
