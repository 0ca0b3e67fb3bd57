"""Weights of a grid's colourings: the colourings are found row by row from below, and each counts its crossings by a cocycle.

A cocycle φ mod k is a square of numbers: line x has φ(x, 0), φ(x, 1), and so on.
"""
from collections import Counter

from .cocycles import MAX_MODULUS, cocycle_fault, cocycle_text, read_cocycle, read_weighed_quandles
from .colourings import walk
from .diagrams import covers, ends, is_up

__all__ = ("MAX_MODULUS", "all_met", "cocycle_fault", "cocycle_text", "colourings", "is_connected", "pairs_met", "read_cocycle", "read_weighed_quandles", "rows_from_below",
           "weight_lists")


# Colourings and weights


def rows_from_below(grid):
    """For each row its left and right column, whether each begins there as the row is reached, and the columns that it passes under."""
    rows = []
    for row in range(len(grid.xs)):
        left, right = ends(grid, row)
        begins = [min(grid.xs[column], grid.os[column]) == row for column in (left, right)]
        rows.append((left, right, *begins, [column for column in range(left + 1, right) if covers(grid, column, row)]))
    return rows


def colourings(grid, quandle, first=None):
    """Yields all colourings as lists of colours by column; with `first`, those in which the left end of the lowest row has this colour.

    A row that is the lower end of both its columns, a bottom, leaves a colour to choose; all others follow, or don't come right.
    """
    over, back = quandle.over, quandle.back
    order = range(len(over))
    rows = [(*row[:4], [(column, *((back, over) if is_up(grid, column) else (over, back))) for column in row[4]]) for row in rows_from_below(grid)]
    colours = [None] * len(grid.xs)

    def end_of(colour, passed):
        for column, onward, _ in passed:
            colour = onward[colour][colours[column]]
        return colour

    def start_of(colour, passed):
        for column, _, backward in reversed(passed):
            colour = backward[colour][colours[column]]
        return colour

    def go_on(place):
        if place == len(rows):
            yield list(colours)
            return
        left, right, left_begins, right_begins, passed = rows[place]
        if left_begins and right_begins:
            for colour in order if place or first is None else (first,):
                colours[left] = colour
                colours[right] = end_of(colour, passed)
                yield from go_on(place + 1)
            return
        if left_begins:
            colours[left] = start_of(colours[right], passed)
        elif right_begins:
            colours[right] = end_of(colours[left], passed)
        elif end_of(colours[left], passed) != colours[right]:
            return
        yield from go_on(place + 1)

    yield from go_on(0)


def pairs_met(grid, quandle, colours):
    """How often a colouring counts each φ(x, y), with signs: y is the colour of the column of a crossing, and x that of the row's strand on
    the column's right-hand side."""
    met = Counter()
    for row in range(len(grid.xs)):
        pieces = walk(grid, quandle, colours, row)
        to_the_right = grid.os[pieces[0][0]] == row
        for (_, column, before), (_, _, after) in zip(pieces, pieces[1:]):
            up = is_up(grid, column)
            met[after if up else before, colours[column]] += 1 if up != to_the_right else -1
    return met


def is_connected(table):
    """Whether the translations of a quandle lead from each colour to each other one, by its table."""
    seen, waiting = {0}, [0]
    while waiting:
        found = set(table[waiting.pop()]) - seen
        seen |= found
        waiting += found
    return len(seen) == len(table)


def all_met(grid, quandle, connected):
    """What all colourings count, and how many colourings each represents. Of a connected quandle each colour of the lowest row sees the same
    weights, since translations change a cocycle by a coboundary; so one colour is enough."""
    return [pairs_met(grid, quandle, colours) for colours in colourings(grid, quandle, 0 if connected else None)], len(quandle.over) if connected else 1


def weight_lists(found, cocycles, modulus):
    """How many colourings have each list of weights, one for each cocycle, by what `all_met` found."""
    counted = Counter()
    for met in found[0]:
        counted[tuple(sum(times * cocycle[x][y] for (x, y), times in met.items()) % modulus for cocycle in cocycles)] += found[1]
    return counted
