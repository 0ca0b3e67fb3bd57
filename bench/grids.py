"""Grids for the benches, and lists and walks of moves from them; diagrams and moves are those of python/knot_workbench/, whose place is known here."""
import os
import random
import sys

sys.path.insert(0, os.path.join(os.path.dirname(os.path.abspath(__file__)), "..", "python"))
from knot_workbench.diagrams import CORNERS, Grid
from knot_workbench.moves import Illegal, made

RIGHT_TREFOIL = Grid((4, 3, 2, 1, 0), (2, 1, 0, 4, 3))


def below(size, rows):
    """The grid whose Xs fall by one row a column, and whose Os lie so many rows below them, round the circle."""
    return Grid(tuple(range(size - 1, -1, -1)), tuple((size - 1 - column - rows) % size for column in range(size)))


def torus(size):
    """The grid whose Xs fall by one row a column and whose Os lie two rows below, round the circle."""
    return below(size, 2)


def rectangles(size):
    """The grid of so many columns, an even number, with most crossings: rectangles about a centre, each narrower and higher than the one before."""
    half = size // 2
    xs = tuple(half - 1 - column if column < half else half + size - 1 - column for column in range(size))
    return Grid(xs, tuple(size - 1 - row for row in xs))


def line(move):
    """The line of a move."""
    return " ".join(map(str, move))


def legal_after(grid, move):
    """The grid that a move leads to, or None where it is not legal."""
    try:
        return made(grid, move)
    except Illegal:
        return None


def trades(grid, turns, seed):
    """A walk of shifts and exchanges, as (line, line of the inverse) pairs."""
    dice = random.Random(seed)
    steps, size = [], len(grid.xs)
    while len(steps) < turns:
        kind = dice.randrange(4)
        which = "columns" if kind in (0, 2) else "rows"
        if kind < 2:
            by = dice.randrange(1, size)
            there, back = ("shift", which, by), ("shift", which, size - by)
        else:
            there = back = ("exchange", which, dice.randrange(size - 1))
        further = legal_after(grid, there)
        if further is not None:
            steps.append((line(there), line(back)))
            grid = further
    return steps


def loop_of(steps):
    """The lines of a walk and its way back: a list of moves from a grid to itself."""
    return [there for there, _ in steps] + [back for _, back in reversed(steps)]


def resizing(grid):
    """Stabilisations at each column, kind and corner, each undone at once."""
    lines = []
    for column in range(len(grid.xs)):
        for kind, marks in (("x", grid.xs), ("o", grid.os)):
            for corner in CORNERS:
                lines += [f"stabilise {column} {kind} {corner}", f"destabilise {column} {marks[column]}"]
    return lines


def picked(dice, size, most, shares):
    """A move of any kind but slides, picked at random; it may not be legal. Below the first share it is a shift, below the second an
    exchange, below the third a stabilisation where there are fewer columns than `most`, and else a destabilisation."""
    kind = dice.random()
    if kind < shares[0]:
        return ("shift", dice.choice(("columns", "rows")), dice.randrange(1, size))
    if kind < shares[1]:
        return ("exchange", dice.choice(("columns", "rows")), dice.randrange(size - 1))
    if kind < shares[2] and size < most:
        return ("stabilise", dice.randrange(size), dice.choice("xo"), dice.choice(CORNERS))
    return ("destabilise", dice.randrange(size - 1), dice.randrange(size - 1))
