"""The signature of a link, from a grid: that of the form of Gordon and Litherland (1978) on the surface of the dark regions, with its correction."""
from fractions import Fraction
from typing import Dict, List, Tuple, Union

from .diagrams import Grid, crossings, ends, is_up

# A symmetric table, by rows of what isn't 0.
Form = Dict[int, Dict[int, Fraction]]


def signature(grid: Grid) -> int:
    """The signature of the link of a grid; that of the right trefoil is -2."""
    region, is_dark = regions(grid)
    form: Form = {}
    correction = 0
    for column, row, _ in crossings(grid):
        # The upper strand, which is the column, turned to its left, goes through dark regions, or through light ones.
        sign = 1 if is_dark[column][row + 1] else -1
        one, other = (region[column + (sign > 0)][row + 1], region[column + (sign < 0)][row])
        for here, there in ((one, other), (other, one)):
            if one != other:
                add(form, here, here, sign)
                add(form, here, there, -sign)
        # Both strands run the same way from one dark region to the other.
        if is_up(grid, column) == ((grid.os[ends(grid, row)[0]] == row) != (sign > 0)):
            correction += sign
    return signs_of(without(form, region[0][0])) - correction


def regions(grid: Grid) -> Tuple[List[List[int]], List[List[bool]]]:
    """Of each cell between the lines of columns and of rows, those outside with them, the number of its region and whether that is dark. The
    regions at both sides of a segment differ in it, and the outer one is light."""
    size = len(grid.xs)
    spans = [sorted(marks) for marks in zip(grid.xs, grid.os)]
    is_dark = [[sum(low < cell <= high for low, high in spans[:line]) % 2 == 1 for cell in range(size + 1)] for line in range(size + 1)]
    root = {(line, cell): (line, cell) for line in range(size + 1) for cell in range(size + 1)}

    def top(at: Tuple[int, int]) -> Tuple[int, int]:
        while root[at] != at:
            root[at] = root[root[at]]
            at = root[at]
        return at
    for line in range(size):
        low, high = spans[line]
        left, right = ends(grid, line)
        for cell in range(size + 1):
            if not low < cell <= high:
                root[top((line, cell))] = top((line + 1, cell))
            if not left < cell <= right:
                root[top((cell, line))] = top((cell, line + 1))
    numbers = {at: number for number, at in enumerate(sorted({top(at) for at in root}))}
    return [[numbers[top((line, cell))] for cell in range(size + 1)] for line in range(size + 1)], is_dark


def add(form: Form, row: int, column: int, entry: Union[int, Fraction]) -> None:
    """Adds to an entry of a form."""
    into = form.setdefault(row, {})
    into[column] = into.get(column, Fraction(0)) + entry
    if not into[column]:
        del into[column]


def without(form: Form, place: int) -> Form:
    """A form without a row and its column."""
    return {row: {column: entry for column, entry in entries.items() if column != place} for row, entries in form.items() if row != place}


def signs_of(form: Form) -> int:
    """How many more positive than negative squares a form has. The shortest rows go first, so that few entries are made."""
    found = 0
    while form:
        place = min((row for row in form if form[row].get(row)), key=lambda row: len(form[row]), default=None)
        if place is None:
            place = next((row for row in form if form[row]), None)
            if place is None:
                return found
            # All squares are 0: a sum of two rows, and of two columns, has one that isn't.
            other = next(iter(form[place]))
            for column, entry in list(form[other].items()):
                add(form, place, column, entry)
            for row in list(form):
                if other in form[row]:
                    add(form, row, place, form[row][other])
            continue
        entries = form.pop(place)
        pivot = entries.pop(place)
        found += 1 if pivot > 0 else -1
        for row, entry in entries.items():
            del form[row][place]
            for column, times in entries.items():
                add(form, row, column, -entry * times / pivot)
    return found
