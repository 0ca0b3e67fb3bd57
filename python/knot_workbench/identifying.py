"""Which knot of a table a diagram is, with a certificate.

The diagram is made smaller, and its numbers of colourings name a few candidates in the table. Walks of `seek` join the diagram to the diagram
of one, mirrored or reversed as need be. Short walks to all candidates come before longer ones, and no walk is tried to a candidate with
another Alexander polynomial. Nothing is believed of what is found before `knot check` has accepted the certificate.
"""
import threading
from typing import Any, Dict, Iterator, List, NamedTuple, Optional, Sequence, Tuple, Union

from .alexander import alexander_square
from .certificates import Certificate, Equal, Evidence
from .diagrams import Diagram, Grid, Move, grid_of
from .given import diagram as diagram_given
from .jobs import certificate_of, simplify
from .moves import tidied
from .programs import answered
from .tables.knots import UNKNOT, KnotTable, Parts, name_of
from .tables.numbers import row_of

# The budgets of `simplify`, the first for every diagram, the second where no short walk joined one.
FIRST_BUDGET, LATER_BUDGET = 1_000, 20_000

# The rounds of walks: a seed, and the steps of each candidate's walk. The first is the short walk of `seek` alone.
ROUNDS = ((1, 32_768), (2, 250_000), (3, 1_500_000), (4, 8_000_000))


class Identified(NamedTuple):
    """What a diagram is.

    `components`   how many it has; of a link of several no more is known
    `parts`        the knot of the table, or the parts of a sum, each a name and a turn; () for the unknot; None where it is none or open
    `certificate`  moves that lead to the table's diagram, accepted by the checker; None where there are no parts
    `candidates`   where no walk joined the diagram to one: those that no number distinguishes it from. Without any, its numbers differ from those of
                   the unknot, of each knot of the table, and of each sum of them of at most twelve crossings
    """

    components: int
    parts: Optional[Parts]
    certificate: Optional[Certificate]
    candidates: Tuple[Parts, ...]

    @property
    def name(self) -> Optional[str]:
        """As `10_132 mirrored`, `3_1 # 4_1` or `unknot`; None where it has none."""
        return None if self.parts is None else name_of(self.parts)

    @property
    def answer(self) -> str:
        """The name, `none of the table`, `open`, or as `link of 2 components`."""
        if self.components > 1:
            return f"link of {self.components} components"
        return self.name or ("open" if self.candidates else "none of the table")


_tables: Dict[Optional[str], KnotTable] = {}
_lock = threading.Lock()


def table_of(table: Union[KnotTable, str, None]) -> KnotTable:
    """A table itself, or by its path, or the one to twelve crossings; each is read once."""
    if isinstance(table, KnotTable):
        return table
    with _lock:
        if table not in _tables:
            _tables[table] = KnotTable(table)
        return _tables[table]


def components_of_grid(grid: Grid) -> int:
    """How many components a grid diagram has."""
    ahead, count = set(range(len(grid.xs))), 0
    column_of = {row: column for column, row in enumerate(grid.xs)}
    while ahead:
        column, count = ahead.pop(), count + 1
        while column_of[grid.os[column]] in ahead:
            column = column_of[grid.os[column]]
            ahead.remove(column)
    return count


def identify(diagram: Any, table: Union[KnotTable, str, None] = None, *, first: Optional[Parts] = None,
             rounds: Sequence[Tuple[int, int]] = ROUNDS) -> Identified:
    """Which knot of a table a diagram is, which may be given as other calls take it: by default of the prime knots to twelve crossings, or a sum
    of such of at most twelve crossings.

    `first` is tried before other candidates, unless it has another Alexander polynomial, by all walks. `rounds` are the seeds and steps of
    walks, the shortest first. Raises TableError where the table can't be used; NoProgram, OverLimit, Failed as other calls; and
    Rejected where the checker doesn't accept what was found."""
    diagram = diagram_given(diagram)
    grid = grid_of(diagram)
    components = components_of_grid(grid)
    if components > 1:
        return Identified(components, None, None, ())
    known = table_of(table)
    small, moves, is_spent = smaller(grid, FIRST_BUDGET)
    if small.size == UNKNOT.size:
        return named_unknot(diagram, small, moves)
    likely, unlikely = by_likelihood(small, known, known.candidates(row_of(small, known.listed)), first)
    for (seed, steps), few in rounds_of(likely, first, rounds):
        if is_spent and few and (seed, steps) != rounds[0]:
            small, more, _ = smaller(small, LATER_BUDGET)
            moves, is_spent = moves + more, False
            if small.size == UNKNOT.size:
                return named_unknot(diagram, small, moves)
        for parts in few:
            target = known.grid(parts)
            verdict = sought(small, target, seed, steps)
            if isinstance(verdict, Equal):
                return named(diagram, parts, target, [*moves, *verdict.moves])
            if verdict is not None:
                likely.remove(parts)
    return Identified(1, None, None, (*likely, *unlikely))


def rounds_of(likely: List[Parts], first: Optional[Parts], rounds: Sequence[Tuple[int, int]]) -> Iterator[Tuple[Tuple[int, int], List[Parts]]]:
    """Rounds, each with the candidates whose turn it is, of those that are still likely. One that is expected comes by all rounds before others:
    of its turns that aren't known to differ from it, another one may be joined sooner."""
    for is_first in (True, False):
        for effort in rounds:
            yield effort, [parts for parts in likely if (parts == first) == is_first]


def by_likelihood(grid: Grid, known: KnotTable, candidates: List[Parts], first: Optional[Parts]) -> Tuple[List[Parts], List[Parts]]:
    """Candidates for a grid in the order in which they are tried, and those that have another Alexander polynomial. `first` is in front, and
    after it are those whose diagrams in the table have nearly as many columns as the grid."""
    # The turns of one knot have one polynomial.
    is_one = len({tuple(name for name, _ in parts) for parts in candidates}) < 2
    due = None if is_one else alexander_square(grid)
    likely: List[Parts] = []
    unlikely: List[Parts] = []
    grids = {parts: known.grid(parts) for parts in candidates}
    for parts in sorted(candidates, key=lambda parts: (parts != first, abs(grids[parts].size - grid.size))):
        (likely if is_one or alexander_square(grids[parts]) == due else unlikely).append(parts)
    return likely, unlikely


def smaller(grid: Grid, budget: int) -> Tuple[Grid, List[Move], bool]:
    """What `knot simplify` makes of a grid, the moves that lead there, and whether a larger budget may find more."""
    found = simplify(grid, budget=budget)
    return found.grid, list(found.moves), not found.is_irreducible


def sought(first: Grid, second: Grid, seed: int, steps: int) -> Optional[Evidence]:
    """What `seek` finds of two grids by its own quandles and walks: a verdict, or None."""
    if first == second:
        return Equal(())
    words = ["--quiet", "--no-weights", f"--seed={seed}", f"--steps={steps}", "-"]
    ran = answered("seek", words, first.text + second.text, also=(1,))
    return None if ran.status == 1 else certificate_of("seek", first, second, (), ran.text).verdict


def named_unknot(diagram: Diagram, small: Grid, moves: List[Move]) -> Identified:
    """What is known by moves from a diagram to one of two columns."""
    across: List[Move] = [] if small == UNKNOT else [("shift", "columns", 1)]
    return named(diagram, (), UNKNOT, [*moves, *across])


def named(diagram: Diagram, parts: Parts, target: Grid, moves: List[Move]) -> Identified:
    """What is known by moves from a diagram to that of the table. Raises Rejected where the checker doesn't accept them."""
    certificate = Certificate(diagram, target, Equal(tuple(tidied(grid_of(diagram), moves))))
    certificate.check()
    return Identified(1, parts, certificate, ())
