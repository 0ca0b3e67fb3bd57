"""Grids made smaller, and their keys; what is found of a form is found once.

A column whose two marks lie in neighbouring rows can be exchanged with each column that has no mark in these rows. So it comes beside one
that has, and a destabilisation takes it away, unless these two columns are a component of their own. The same holds of rows. A grid without
such a column or row is *short*. There `knot simplify` looks for a smaller grid, and where it finds none, `knot least` has the key.
"""
from typing import Callable, Dict, List, NamedTuple, Optional, Sequence, Tuple, Union

from knot_workbench.diagrams import Grid, Move
from knot_workbench.moves import tidied, transposed, turned
from knot_workbench.tables.knots import TURNS, Turn
from lib.sorting.keys import after, form_and_way, grid_of_form

# A job of knot: of a grid, another one and the moves that lead there.
Job = Callable[[Grid], Tuple[Grid, Sequence[Move]]]


class Reduced(NamedTuple):
    """A key; and the turn and the moves by which a grid comes there: they lead from the turned grid to the key's."""

    key: bytes
    turn: Turn
    moves: Tuple[Move, ...]


class Shorter(NamedTuple):
    """A form that a grid is led to, and the moves."""

    form: bytes
    moves: Tuple[Move, ...]


def through(form: bytes, found: Shorter, end: Reduced) -> Reduced:
    """The key of a form by that of a shorter one, to which it leads."""
    moves = turned(len(form) // 2, found.moves, *end.turn) + list(end.moves)
    return Reduced(end.key, end.turn, tuple(tidied(grid_of_form(form), moves)))


def short_place(form: bytes) -> Optional[Tuple[str, int]]:
    """The first column, or else row, that can be taken away since its marks are neighbours, also round the end; None where there is none."""
    size = len(form) // 2
    xs, os = form[:size], form[size:]
    for place in range(size):
        if (xs[place] - os[place]) % size in (1, size - 1) and os[xs.index(os[place])] != xs[place]:
            return "columns", place
    for row in range(size):
        one, other = xs.index(row), os.index(row)
        if (one - other) % size in (1, size - 1) and os[one] != xs[other]:
            return "rows", row
    return None


def taken_away(grid: Grid, which: str, place: int) -> List[Move]:
    """Moves that take away a column or a row that `short_place` has found."""
    size, other = grid.size, "rows" if which == "columns" else "columns"
    seen = transposed(grid) if which == "rows" else grid
    low, high = sorted((seen.xs[place], seen.os[place]))
    moves: List[Move] = [("shift", which, place)] if place else []
    if high - low > 1:
        # The marks are in the first row and the last, which a shift makes the second and the first.
        moves.append(("shift", other, size - 1))
        low, high = 0, 1
    here = after(grid, moves)
    seen = transposed(here) if which == "rows" else here
    marked = {place for place in range(1, size) if {seen.xs[place], seen.os[place]} & {low, high}}
    steps = min(marked)
    moves += [("exchange", which, step) for step in range(steps - 1)]
    moves.append(("destabilise", steps - 1, low) if which == "columns" else ("destabilise", low, steps - 1))
    return moves


class Reducer:
    """Ways from forms to their keys, by the jobs `simplify` and `least` of knot. A key is the least over some turns, which are a group."""

    def __init__(self, simplify: Job, least: Job, turns: Sequence[Turn] = TURNS) -> None:
        self.simplify, self.least, self.turns = simplify, least, turns
        self.links: Dict[bytes, Tuple[List[Move], bytes]] = {}
        self.ends: Dict[bytes, Reduced] = {}

    def of_grid(self, grid: Grid) -> Reduced:
        """The key of a grid, and how it comes there."""
        here, moves = self.short(grid)
        end = self.of_form(here)
        moves = turned(grid.size, moves, *end.turn) + list(end.moves)
        return Reduced(end.key, end.turn, tuple(tidied(end.turn.of(grid), moves)))

    def short(self, grid: Grid) -> Tuple[bytes, Sequence[Move]]:
        """The form of a short grid that a grid leads to, and the moves. No program is asked."""
        here, moves = form_and_way(grid)
        while True:
            if here not in self.links:
                place = short_place(here)
                if place is None:
                    return here, tidied(grid, moves)
                self.keep_link(here, taken_away(grid_of_form(here), *place))
            more, here = self.links[here]
            moves = moves + more

    def of_form(self, form: bytes) -> Reduced:
        """The key of a short form, and how its grid comes there."""
        if form not in self.ends:
            found = self.step(form)
            self.ends[form] = through(form, found, self.of_form(found.form)) if isinstance(found, Shorter) else found
        return self.ends[form]

    def step(self, form: bytes) -> Union[Reduced, Shorter]:
        """The key of a short form, or where `simplify` finds a smaller grid a shorter one, and how its grid comes there."""
        grid = grid_of_form(form)
        there, moves = self.simplify(grid)
        if there.size < grid.size:
            here, more = self.short(there)
            return Shorter(here, (*moves, *more))
        return self.key(grid)

    def keep_link(self, form: bytes, moves: List[Move]) -> None:
        """Keeps moves from the grid of a form, with shifts to the form of where they lead."""
        found, way = form_and_way(after(grid_of_form(form), moves))
        self.links[form] = moves + way, found

    def key(self, grid: Grid) -> Reduced:
        """The least of the diagrams that shifts and exchanges reach over the turns, and how a grid comes there."""
        found = []
        for turn in self.turns:
            there, moves = self.least(turn.of(grid))
            found.append(Reduced(bytes(there.xs + there.os), turn, tuple(moves)))
        return min(found)
