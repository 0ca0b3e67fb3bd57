"""The value of a grid's Alexander polynomial at one number: a candidate with another value isn't worth a walk. No answer rests on it."""
from typing import List

from .diagrams import Grid

# The field that is counted in, and the number.
PRIME, PLACE = 2 ** 61 - 1, 1_234_567


def alexander_square(grid: Grid) -> int:
    """The square of the Alexander polynomial of a knot at `PLACE`, modulo `PRIME`. Mirror images and reverses have the same.

    The determinant of the powers t^w, where w are the winding numbers of the corners of cells, is the polynomial times (1 − t)^(n − 1), up to
    the sign and a power of t (Manolescu, Ozsváth and Sarkar 2009). Both go where the values at t and at 1/t are multiplied.
    """
    turns, whole = windings(grid), 1
    for place in (PLACE, pow(PLACE, -1, PRIME)):
        powers = {turn: pow(place, turn, PRIME) for row in turns for turn in row}
        whole *= determinant([[powers[turn] for turn in row] for row in turns]) * pow(1 - place, 1 - len(turns), PRIME)
    return whole % PRIME


def windings(grid: Grid) -> List[List[int]]:
    """How often the diagram winds about the lower left corner of each cell, by columns."""
    lines, line = [], [0] * len(grid.xs)
    for x, o in zip(grid.xs, grid.os):
        lines.append(line)
        low, high, by = (x, o, 1) if x < o else (o, x, -1)
        line = [turn + by * (low < row <= high) for row, turn in enumerate(line)]
    return lines


def determinant(rows: List[List[int]]) -> int:
    """The determinant of a square table modulo `PRIME`."""
    found = 1
    while rows:
        pivot = next((row for row in rows if row[0]), None)
        if pivot is None:
            return 0
        place = rows.index(pivot)
        found = found * pivot[0] * (-1) ** place % PRIME
        rest, inverse = pivot[1:], pow(pivot[0], -1, PRIME)
        rows = [[(entry - row[0] * inverse * over) % PRIME for entry, over in zip(row[1:], rest)] for row in rows[:place] + rows[place + 1:]]
    return found
