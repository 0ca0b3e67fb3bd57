"""Sums of knots as grids."""
from .diagrams import Grid


def shifted_to(grid: Grid, column: int, row: int, kind: str) -> Grid:
    """The grid shifted such that an O (kind "o") or an X (kind "x") is in this column and row."""
    size = len(grid.xs)
    marks = grid.os if kind == "o" else grid.xs
    across, up = -column % size, (row - marks[0]) % size
    xs, os_ = (tuple((line[(place + across) % size] + up) % size for place in range(size)) for line in grid)
    return Grid(xs, os_)


def sum_of_grids(first: Grid, second: Grid) -> Grid:
    """A grid of the sum of two knots, of one column less than both have together.

    The first is shifted such that its corner on the right and above has an O, the second such that its corner on the left and below has an
    X. The second is put to the right of the first and above it, such that both corners are one cell, which is then left empty: the column there
    leads from an X of the first to an O of the second, and the row back. No other part of the two meets.
    """
    size = len(first.xs)
    low = shifted_to(first, size - 1, size - 1, "o")
    high = shifted_to(second, 0, 0, "x")
    up = size - 1
    xs = low.xs + tuple(row + up for row in high.xs[1:])
    os_ = low.os[:-1] + tuple(row + up for row in high.os)
    return Grid(xs, os_)
