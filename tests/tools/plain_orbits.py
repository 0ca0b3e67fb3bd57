"""What `knot simplify` and `knot least` answer, found by a plain listing of all diagrams that exchanges reach; and random steps on grids."""
from lib.sorting.keys import after, form_of, grid_of_form, shifts_between
from lib.sorting.reduced import short_place, taken_away
from knot_workbench.moves import made


def is_apart(one, other):
    """Whether two chords of a circle have four ends and don't interleave."""
    low, high = sorted(one)
    return not set(one) & set(other) and sum(low < end < high for end in other) != 1


def exchanges(grid):
    """The exchanges of a grid round the circle, each as moves, those round the end after a shift."""
    columns = list(zip(grid.xs, grid.os))
    rows = [(grid.xs.index(row), grid.os.index(row)) for row in range(grid.size)]
    for which, chords in (("columns", columns), ("rows", rows)):
        for place, chord in enumerate(chords):
            if is_apart(chords[place - 1], chord):
                yield [("exchange", which, place - 1)] if place else [("shift", which, 1), ("exchange", which, grid.size - 2)]


def orbit(grid):
    """The forms that shifts and exchanges reach, each once, with moves from the grid to it."""
    start = form_of(grid)
    seen, ahead = {start}, [(start, shifts_between(grid, grid_of_form(start)))]
    for here, way in ahead:
        yield here, way
        for steps in exchanges(grid_of_form(here)):
            there = after(grid_of_form(here), steps)
            form = form_of(there)
            if form not in seen:
                seen.add(form)
                ahead.append((form, way + steps + shifts_between(there, grid_of_form(form))))


def simplified(grid):
    """A grid after all destabilisations that shifts and exchanges lead to, and the moves there."""
    moves = []
    while grid.size > 2:
        short = next(((form, way) for form, way in orbit(grid) if short_place(form)), None)
        if short is None:
            break
        steps = short[1] + taken_away(grid_of_form(short[0]), *short_place(short[0]))
        grid, moves = after(grid, steps), moves + steps
    return grid, moves


def least(grid):
    """The least diagram that shifts and exchanges reach, and the moves there."""
    form, moves = min(orbit(grid))
    return grid_of_form(form), moves


def walked(grid, dice, steps):
    """A grid after random shifts and exchanges."""
    for _ in range(steps):
        for move in dice.choice([*exchanges(grid), [("shift", "rows", 1)], [("shift", "columns", 1)]]):
            grid = made(grid, move)
    return grid
