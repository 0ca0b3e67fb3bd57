"""Grid diagrams: rows and columns, moves, and colourings."""
from functools import lru_cache
from itertools import product

from .lines import MAX_LIST, MAX_SIZE

CORNERS = {b"lowleft": (0, 0), b"lowright": (1, 0), b"highleft": (0, 1), b"highright": (1, 1)}


def size_of(grid):
    """The number of columns."""
    return len(grid[0])


def by_row(marks):
    """The columns of the marks, by row."""
    columns = [0] * len(marks)
    for column, row in enumerate(marks):
        columns[row] = column
    return tuple(columns)


def turned(grid):
    """Columns and rows in each other's place."""
    return by_row(grid[0]), by_row(grid[1])


def is_up(grid, column):
    """Whether a column runs up, from its X to its O."""
    return grid[0][column] < grid[1][column]


def covers(grid, column, row):
    """Whether a row lies strictly between the ends of a column."""
    x, o = grid[0][column], grid[1][column]
    return min(x, o) < row < max(x, o)


@lru_cache(maxsize=4096)
def rows_of(grid):
    """For each row its left end, its right end, and the columns between that cover it."""
    xs, os = turned(grid)
    rows = []
    for row in range(size_of(grid)):
        left, right = sorted((xs[row], os[row]))
        rows.append((left, right, tuple(column for column in range(left + 1, right) if covers(grid, column, row))))
    return tuple(rows)


def low(grid, column):
    """The lower end of a column."""
    return min(grid[0][column], grid[1][column])


def bottoms(grid):
    """How many rows are the lower end of both their columns."""
    return sum(low(grid, left) == row == low(grid, right) for row, (left, right, _) in enumerate(rows_of(grid)))


def print_grid(grid):
    """The two lines of a grid."""
    return "".join(f"{word} {' '.join(map(str, marks))}\n" for word, marks in zip("xo", grid))


class Illegal(Exception):
    """The first fault of a move, as it is printed."""


def exchanged(grid, place):
    """Columns `place` and the next one trade places, as exchanges do."""
    if place + 1 >= size_of(grid):
        raise Illegal("range")
    first, second = ({marks[column] for marks in grid} for column in (place, place + 1))
    if first & second:
        raise Illegal("touching")
    if len(kept_apart(first, second)) == 0:
        raise Illegal("interleaved")
    return traded(grid, place)


def kept_apart(first, second):
    """`disjoint` or `nested`, or nothing: how two intervals lie."""
    if max(first) < min(second) or max(second) < min(first):
        return "disjoint"
    inner, outer = sorted((first, second), key=lambda marks: max(marks) - min(marks))
    return "nested" if min(outer) < min(inner) and max(inner) < max(outer) else ""


def slid(grid, place):
    """Columns `place` and the next one trade places, as slides do."""
    if place + 1 >= size_of(grid):
        raise Illegal("range")
    first, second = ({marks[column] for marks in grid} for column in (place, place + 1))
    if len(first & second) == 2:
        raise Illegal("touching")
    if not first & second:
        raise Illegal("apart")
    return traded(grid, place)


def traded(grid, place):
    """Two neighbouring columns in each other's place, unasked."""
    return tuple(marks[:place] + (marks[place + 1], marks[place]) + marks[place + 2:] for marks in grid)


def shifted(grid, by):
    """The first columns put after the others."""
    if not 0 < by < size_of(grid):
        raise Illegal("range")
    return tuple(marks[by:] + marks[:by] for marks in grid)


def stabilised(grid, column, kind, corner):
    """One column and one row more, at a mark of this kind, with this corner of the block left out."""
    if column >= size_of(grid):
        raise Illegal("range")
    if size_of(grid) == MAX_SIZE:
        raise Illegal("full")
    i, j = CORNERS[corner.encode()]
    mine, other = grid if kind == "x" else (grid[1], grid[0])
    row = mine[column]

    def moved(old):
        return old if old < row else old + 1

    new_mine = [moved(r) for c, r in enumerate(mine) if c != column]
    new_other = [row + 1 - j if r == row else moved(r) for c, r in enumerate(other) if c != column]
    # The column of the corner has both marks in the block; the other one goes on as the old column did.
    with_corner, going_on = (row + 1 - j, row + j), (row + j, moved(other[column]))
    block = [with_corner, going_on] if i == 0 else [going_on, with_corner]
    new_mine[column:column] = [marks[0] for marks in block]
    new_other[column:column] = [marks[1] for marks in block]
    return (tuple(new_mine), tuple(new_other)) if kind == "x" else (tuple(new_other), tuple(new_mine))


def destabilised(grid, column, row):
    """The block of three marks at a column and a row becomes one mark."""
    size = size_of(grid)
    if column + 1 >= size or row + 1 >= size:
        raise Illegal("range")
    cells = [(kind, i, marks[column + i] - row) for kind, marks in enumerate(grid) for i in (0, 1)
             if marks[column + i] - row in (0, 1)]
    if len(cells) != 3:
        raise Illegal(f"block {len(cells)}")
    # The corner is the mark whose kind the other two haven't.
    (kind, i, _), = [cell for cell in cells if sum(cell[0] == other[0] for other in cells) == 1]
    new = []
    for this, marks in enumerate(grid):
        column_of = list(marks)
        if this == kind:
            kept = column_of[column + 1 - i]
        else:
            kept = row
        column_of[column:column + 2] = [kept]
        new.append(tuple(r if r <= row else r - 1 for r in column_of))
    return tuple(new)


@lru_cache(maxsize=65_536)
def apply(grid, move):
    """The grid after a move; Illegal with its first fault."""
    name = move[0]
    if name == "stabilise":
        return stabilised(grid, *move[1:])
    if name == "destabilise":
        return destabilised(grid, *move[1:])
    change = {"shift": shifted, "exchange": exchanged, "slide": slid}[name]
    return change(grid, move[2]) if move[1] == "columns" else turned(change(turned(grid), move[2]))


def carried(grid, move, quandle, colours):
    """The colours after a legal move, by the list of docs/DEFINITIONS.md."""
    name, colours = move[0], list(colours)
    if name == "stabilise":
        return colours[:move[1] + 1] + colours[move[1]:]
    if name == "destabilise":
        return colours[:move[1]] + colours[move[1] + 1:]
    if name == "shift" and move[1] == "columns":
        return colours[move[2]:] + colours[:move[2]]
    if name == "shift":
        for _ in range(move[2]):
            left, right, _ = rows_of(grid)[0]
            change = quandle.table if is_up(grid, left) else quandle.back
            for column in range(left + 1, right):
                colours[column] = change[colours[column]][colours[left]]
            grid = apply(grid, ("shift", "rows", 1))
        return colours
    if name == "exchange" and move[1] == "columns":
        place = move[2]
        first, second = ({marks[column] for marks in grid} for column in (place, place + 1))
        if kept_apart(first, second) == "nested":
            first_is_outer = max(first) > max(second)
            outer, inner = (place, place + 1) if first_is_outer else (place + 1, place)
            # The inner one goes to the left where the outer one is the first.
            change = quandle.table if first_is_outer == is_up(grid, outer) else quandle.back
            colours[inner] = change[colours[inner]][colours[outer]]
        colours[place], colours[place + 1] = colours[place + 1], colours[place]
    return colours


def play(grid, moves):
    """The last grid, or the place and the fault at which the moves stop; and the size of the largest on the way."""
    largest = size_of(grid)
    for place, move in enumerate(moves):
        try:
            grid = apply(grid, move)
        except Illegal as fault:
            return None, f"step {place} {fault}", largest
        largest = max(largest, size_of(grid))
    return grid, None, largest


def walk(grid, quandle, row, colours):
    """The colour in which the walk of a row comes to its right end."""
    left, _, between = rows_of(grid)[row]
    colour = colours[left]
    for column in between:
        colour = (quandle.back if is_up(grid, column) else quandle.table)[colour][colours[column]]
    return colour


def is_colouring(grid, quandle, colours):
    """Whether the walk of each row comes to the colour of its right end."""
    return all(walk(grid, quandle, row, colours) == colours[right] for row, (_, right, _) in enumerate(rows_of(grid)))


def plain_colourings(grid, quandle):
    """All lists of colours, and of these the colourings: the definition itself, for small ones."""
    return [colours for colours in product(range(quandle.order), repeat=size_of(grid)) if is_colouring(grid, quandle, colours)]


# Longer lists would take much memory.
MOST_KEPT = 5000
KEPT_COLOURINGS = {}


def colourings(grid, quandle):
    """The complete list. Row by row from below: a bottom is free, a row in which one column begins says its colour, and
    a row in which both end says whether it closes."""
    key = grid, quandle.key
    if key in KEPT_COLOURINGS:
        return KEPT_COLOURINGS[key]
    found = list_colourings(grid, quandle)
    if len(found) <= MOST_KEPT:
        if len(KEPT_COLOURINGS) > 20_000:
            KEPT_COLOURINGS.clear()
        KEPT_COLOURINGS[key] = found
    return found


def list_colourings(grid, quandle):
    """The complete list, in order."""
    partial = [[None] * size_of(grid)]
    for row, (left, right, between) in enumerate(rows_of(grid)):
        begins_left, begins_right = low(grid, left) == row, low(grid, right) == row
        steps = [(column, quandle.back if is_up(grid, column) else quandle.table) for column in between]
        returns = [(column, quandle.table if is_up(grid, column) else quandle.back) for column in reversed(between)]
        further = []
        for colours in partial:
            if begins_left and not begins_right:
                colour = colours[right]
                for column, change in returns:
                    colour = change[colour][colours[column]]
                colours[left] = colour
                further.append(colours)
                continue
            for start in range(quandle.order) if begins_left else (colours[left],):
                colour = start
                for column, change in steps:
                    colour = change[colour][colours[column]]
                if begins_right:
                    colours = list(colours)
                    colours[left], colours[right] = start, colour
                    further.append(colours)
                elif colours[right] == colour:
                    further.append(colours)
        partial = further
    return sorted(map(tuple, partial))


def fits(grid, quandle):
    """Whether the bottoms have at most as many colours as a list may have lines."""
    return quandle.order ** bottoms(grid) <= MAX_LIST


def print_list(lists):
    """A list of colourings as it is printed."""
    return f"list {len(lists)}\n" + "".join(f"{' '.join(map(str, colours))}\n" for colours in lists)


def print_move(move):
    """A move as it is printed."""
    return " ".join(map(str, move))
