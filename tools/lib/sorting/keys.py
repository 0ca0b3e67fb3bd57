"""Forms of grid diagrams, and the moves between diagrams of given forms.

A *form* is the least translate of a grid, by the rows of the Xs and then of the Os: bytes, first the one and then the other. A *key* is the
least form that shifts and exchanges reach, over the four turns. Diagrams with one key are one knot up to mirror image and reversal.
"""
import functools
from typing import List, Tuple

from knot_workbench.diagrams import Grid, Move, as_grid
from knot_workbench.moves import made


@functools.lru_cache(None)
def downward(size: int) -> List[bytes]:
    """Tables for bytes.translate that take the rows of a grid of this size down by 0, 1, 2 and so on."""
    return [bytes((row - by) % size for row in range(size)) + bytes(range(size, 256)) for by in range(size)]


# ---- forms

def form_of(grid: Grid) -> bytes:
    """The form of a grid."""
    return form_and_way(grid)[0]


def form_and_way(grid: Grid) -> Tuple[bytes, List[Move]]:
    """The form of a grid, and the shifts that lead there."""
    size, xs, os = grid.size, bytes(grid.xs), bytes(grid.os)
    # The least begins with a nought, and then with the least step that there is.
    least, places = size, []
    for place, (row, following) in enumerate(zip(xs, xs[1:] + xs[:1])):
        step = following - row if following > row else following - row + size
        if step < least:
            least, places = step, [place]
        elif step == least:
            places.append(place)
    down = downward(size)
    form, place = min([((xs[place:] + xs[:place] + os[place:] + os[:place]).translate(down[xs[place]]), place) for place in places])
    return form, [("shift", which, number) for which, number in (("columns", place), ("rows", xs[place])) if number]


def grid_of_form(found: bytes) -> Grid:
    """A form as a grid."""
    size = len(found) // 2
    return as_grid(tuple(found[:size]), tuple(found[size:]))


# ---- ways

def after(grid: Grid, moves: List[Move]) -> Grid:
    """Where moves lead."""
    for move in moves:
        grid = made(grid, move)
    return grid


def shifts_between(grid: Grid, aim: Grid) -> List[Move]:
    """The shifts that lead from a grid to a translate of it."""
    size = grid.size
    for by in range(size):
        down = (grid.xs[by] - aim.xs[0]) % size
        if all((grid.xs[(by + place) % size] - down) % size == aim.xs[place] and (grid.os[(by + place) % size] - down) % size == aim.os[place]
               for place in range(size)):
            return [("shift", which, number) for which, number in (("columns", by), ("rows", down)) if number]
    raise AssertionError("a grid is no translate of its form")
