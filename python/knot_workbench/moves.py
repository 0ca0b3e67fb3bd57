"""Moves on grids and what they make of colours, by the definitions of docs/DEFINITIONS.md. A move is a tuple as diagrams.read_moves has it.

Nothing here is proved: `check` of the program makes the moves itself.
"""
from typing import List, Sequence

from .diagrams import MAX_SIZE, Grid, Move, as_grid, ends, is_up
from .faults import Illegal
from .quandles import Quandle


def made(grid: Grid, move: Move) -> Grid:
    """The grid that a move leads to. Raises Illegal with the cause as the program writes it."""
    word = move[0]
    if word == "shift":
        return shifted(grid, move[1], move[2])
    if word in ("exchange", "slide"):
        return swapped(grid, word, move[1], move[2])
    if word == "stabilise":
        return stabilised(grid, *move[1:])
    return destabilised(grid, *move[1:])


def transposed(grid: Grid) -> Grid:
    """Columns and rows in each other's place."""
    size = len(grid.xs)
    return as_grid(tuple(grid.xs.index(row) for row in range(size)), tuple(grid.os.index(row) for row in range(size)))


def shifted(grid: Grid, which: str, by: int) -> Grid:
    size = len(grid.xs)
    if not 0 < by < size:
        raise Illegal("range")
    if which == "columns":
        return as_grid(grid.xs[by:] + grid.xs[:by], grid.os[by:] + grid.os[:by])
    return as_grid(tuple((row - by) % size for row in grid.xs), tuple((row - by) % size for row in grid.os))


def swapped(grid: Grid, word: str, which: str, place: int) -> Grid:
    if which == "rows":
        return transposed(swapped(transposed(grid), word, "columns", place))
    xs, os_ = list(grid.xs), list(grid.os)
    if place + 1 >= len(xs):
        raise Illegal("range")
    first, second = sorted((xs[place], os_[place])), sorted((xs[place + 1], os_[place + 1]))
    shared = len(set(first) & set(second))
    if word == "exchange":
        if shared:
            raise Illegal("touching")
        inside = sum(first[0] < row < first[1] for row in second)
        if inside == 1:
            raise Illegal("interleaved")
    elif shared == 2:
        raise Illegal("touching")
    elif shared == 0:
        raise Illegal("apart")
    for marks in (xs, os_):
        marks[place], marks[place + 1] = marks[place + 1], marks[place]
    return as_grid(tuple(xs), tuple(os_))


def stabilised(grid: Grid, column: int, kind: str, corner: str) -> Grid:
    size = len(grid.xs)
    if column >= size:
        raise Illegal("range")
    if size == MAX_SIZE:
        raise Illegal("full")
    own, other = (grid.xs, grid.os) if kind == "x" else (grid.os, grid.xs)
    row = own[column]

    def up(old: int) -> int:
        return old + (old > row)

    # The corner has the other kind; the other mark of the old column and row go on away from it.
    corner_high, corner_right = int(corner.startswith("high")), int(corner.endswith("right"))
    new_own, new_other = [], []
    for place in range(size):
        if place != column:
            mark = up(other[place])
            new_own.append(up(own[place]))
            new_other.append(mark if other[place] != row else row + 1 - corner_high)
            continue
        for side in (0, 1):
            if side == corner_right:
                new_own.append(row + 1 - corner_high)
                new_other.append(row + corner_high)
            else:
                new_own.append(row + corner_high)
                new_other.append(up(other[place]))
    xs, os_ = (new_own, new_other) if kind == "x" else (new_other, new_own)
    return Grid(tuple(xs), tuple(os_))


def destabilised(grid: Grid, column: int, row: int) -> Grid:
    size = len(grid.xs)
    if column + 1 >= size or row + 1 >= size:
        raise Illegal("range")
    block = {(kind, place, marks[place]) for kind, marks in (("x", grid.xs), ("o", grid.os)) for place in (column, column + 1)
             if marks[place] in (row, row + 1)}
    if len(block) != 3:
        raise Illegal(f"block {len(block)}")
    kind = "x" if sum(mark[0] == "x" for mark in block) == 2 else "o"

    def down(old: int) -> int:
        return old - (old > row)

    own, other = (grid.xs, grid.os) if kind == "x" else (grid.os, grid.xs)
    (corner_column,) = (mark[1] for mark in block if mark[0] != kind)
    kept = 2 * column + 1 - corner_column
    new_own, new_other = [], []
    for place in range(size):
        if place == column:
            new_own.append(row)
            new_other.append(down(other[kept]))
        elif place != column + 1:
            new_own.append(down(own[place]))
            new_other.append(down(other[place]))
    xs, os_ = (new_own, new_other) if kind == "x" else (new_other, new_own)
    return Grid(tuple(xs), tuple(os_))


def undone(grid: Grid, move: Move) -> Move:
    """The move that leads back from where a legal move leads to."""
    word, size = move[0], len(grid.xs)
    if word == "shift":
        return "shift", move[1], size - move[2]
    if word == "stabilise":
        return "destabilise", move[1], (grid.xs if move[2] == "x" else grid.os)[move[1]]
    if word == "destabilise":
        return stabilisation_at(grid, *move[1:])
    return move


def stabilisation_at(grid: Grid, column: int, row: int) -> Move:
    """The stabilisation that makes a block of three marks. The kind is that of two of them, and the corner is where the third one is."""
    block = {(kind, side, marks[column + side] - row) for kind, marks in (("x", grid.xs), ("o", grid.os)) for side in (0, 1)
             if marks[column + side] in (row, row + 1)}
    kind = "x" if sum(mark[0] == "x" for mark in block) == 2 else "o"
    ((_, side, height),) = (mark for mark in block if mark[0] != kind)
    return "stabilise", column, kind, ("low", "high")[height] + ("left", "right")[side]


def back(grid, moves):
    """The moves that lead back from where moves from a grid lead to. Raises Illegal where one of them isn't legal."""
    found = []
    for move in moves:
        there = made(grid, move)
        found.append(undone(grid, move))
        grid = there
    return found[::-1]


def turned(size, moves, is_mirror, is_reverse):
    """Moves on the mirror image of a grid of this size, on the grid run through backwards, or both, that lead to where the moves lead,
    turned likewise. Mirror images are upside down, and in a reverse Xs and Os have changed places, as in diagrams.mirror_image and reverse."""
    found = []
    for move in moves:
        word = move[0]
        if is_mirror and word == "shift" and move[1] == "rows":
            move = word, "rows", size - move[2]
        elif is_mirror and (word in ("exchange", "slide") and move[1] == "rows" or word == "destabilise"):
            move = word, move[1], size - 2 - move[2]
        elif word == "stabilise":
            kind = "xo".replace(move[2], "") if is_reverse else move[2]
            height = {"low": "high", "high": "low"}[move[3].removesuffix("left").removesuffix("right")]
            side = move[3].removeprefix("low").removeprefix("high")
            move = word, move[1], kind, height + side if is_mirror else move[3]
        found.append(move)
        size += {"stabilise": 1, "destabilise": -1}.get(word, 0)
    return found


def tidied(grid, moves):
    """Moves that lead from a grid to where the given ones lead, with at most one shift of columns and then one of rows in each run of shifts."""
    kept, size, by = [], len(grid.xs), {"columns": 0, "rows": 0}
    for move in [*moves, None]:
        if move and move[0] == "shift":
            by[move[1]] = (by[move[1]] + move[2]) % size
            continue
        kept += [("shift", which, by[which]) for which in ("columns", "rows") if by[which]]
        by = {"columns": 0, "rows": 0}
        if move:
            kept.append(move)
            size += {"stabilise": 1, "destabilise": -1}.get(move[0], 0)
    return kept


def carried(grid: Grid, quandle: Quandle, colours: Sequence[int], move: Move) -> List[int]:
    """The colours that a legal move carries a colouring to."""
    word = move[0]
    colours = list(colours)
    if word == "shift" and move[1] == "columns":
        return colours[move[2]:] + colours[:move[2]]
    if word == "shift":
        for _ in range(move[2]):
            left, right = ends(grid, 0)
            turn = quandle.over if is_up(grid, left) else quandle.back
            for column in range(left + 1, right):
                colours[column] = turn[colours[column]][colours[left]]
            grid = shifted(grid, "rows", 1)
        return colours
    if word == "exchange" and move[1] == "columns":
        return carried_by_exchange(grid, quandle, colours, move[2])
    if word == "stabilise":
        return colours[:move[1] + 1] + colours[move[1]:]
    if word == "destabilise":
        return colours[:move[1] + 1] + colours[move[1] + 2:]
    return colours


def carried_by_exchange(grid: Grid, quandle: Quandle, colours: List[int], place: int) -> List[int]:
    first, second = (sorted((grid.xs[column], grid.os[column])) for column in (place, place + 1))
    old_left, old_right = colours[place], colours[place + 1]
    if first[0] < second[0] < first[1]:
        # The right column is the inner one and goes to the left under the outer one.
        old_right = (quandle.over if is_up(grid, place) else quandle.back)[old_right][old_left]
    elif second[0] < first[0] < second[1]:
        old_left = (quandle.back if is_up(grid, place + 1) else quandle.over)[old_left][old_right]
    colours[place], colours[place + 1] = old_right, old_left
    return colours
