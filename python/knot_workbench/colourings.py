"""Colourings of grids and of braids by a quandle."""
from typing import List, Optional, Sequence, Tuple

from .diagrams import Braid, Diagram, Grid, Rows, bottoms, covers, ends, is_up
from .quandles import Quandle

MAX_COLOURINGS = 65536


def fits(quandle: Quandle, diagram: Diagram) -> bool:
    """Whether the program takes the quandle for the diagram."""
    exponent = diagram.strands if isinstance(diagram, Braid) else bottoms(diagram)
    return len(quandle.over) ** exponent <= MAX_COLOURINGS


def walk(grid: Grid, quandle: Quandle, colours: Sequence[int], row: int) -> List[Tuple[int, int, int]]:
    """The pieces of a row from left to right as (left column, right column, colour)."""
    left, right = ends(grid, row)
    colour, start = colours[left], left
    pieces = []
    for column in range(left + 1, right):
        if covers(grid, column, row):
            pieces.append((start, column, colour))
            start = column
            colour = (quandle.back if is_up(grid, column) else quandle.over)[colour][colours[column]]
    pieces.append((start, right, colour))
    return pieces


def is_colouring(grid: Grid, quandle: Quandle, colours: Sequence[int]) -> bool:
    """Whether each row comes out right."""
    return all(walk(grid, quandle, colours, row)[-1][2] == colours[ends(grid, row)[1]] for row in range(len(grid.xs)))


def fixed_points(braid: Braid, quandle: Quandle, first: Optional[int] = None) -> List[Rows]:
    """All tuples of colours at the feet that the braid leaves as they are; with `first`, those that begin with it."""
    over, back = quandle.over, quandle.back
    order = len(over)
    found: List[Rows] = [()]
    for position in range(braid.strands):
        colours = range(order) if position or first is None else (first,)
        found = [old + (colour,) for old in found for colour in colours]
    kept = []
    for feet in found:
        colours = list(feet)
        for letter in braid.letters:
            place = abs(letter) - 1
            left, right = colours[place], colours[place + 1]
            if letter > 0:
                colours[place], colours[place + 1] = over[right][left], left
            else:
                colours[place], colours[place + 1] = right, back[left][right]
        if tuple(colours) == feet:
            kept.append(feet)
    return kept
