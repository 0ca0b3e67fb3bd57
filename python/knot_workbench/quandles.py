"""Quandles by their tables, those that have names, and the texts of their lines."""
from typing import Callable, List, NamedTuple, Optional, Sequence, Tuple

from .diagrams import Rows

MAX_ORDER = 32
MAX_LARGE_ORDER = 128
MAX_QUANDLES = 64

QuandleTable = Tuple[Rows, ...]


class Quandle(NamedTuple):
    """A quandle: its name as in a line `quandle`, and by colours `over[x][y]`, which is x ▷ y, and `back[x][y]`, which is x ◁ y."""

    name: str
    over: QuandleTable
    back: QuandleTable

    @property
    def order(self) -> int:
        """How many colours it has."""
        return len(self.over)

    @property
    def text(self) -> str:
        """Its line, with the lines of its table where it has no other name."""
        return quandle_text(self)


def quandle_fault(table: Sequence[Sequence[int]]) -> Optional[str]:
    """What is wrong with a table as a quandle, or None."""
    order = len(table)
    for row in table:
        if len(row) != order or any(not 0 <= entry < order for entry in row):
            return f"a line of the table has not {order} numbers below {order}"
    colours = range(order)
    for x in colours:
        if table[x][x] != x:
            return f"{x} ▷ {x} is not {x}"
    for y in colours:
        if len({table[x][y] for x in colours}) != order:
            return f"the map from x to x ▷ {y} is no bijection"
    for x in colours:
        for y in colours:
            for z in colours:
                if table[table[x][y]][z] != table[table[x][z]][table[y][z]]:
                    return f"({x} ▷ {y}) ▷ {z} is not ({x} ▷ {z}) ▷ ({y} ▷ {z})"
    return None


def quandle_of(name: str, table: Sequence[Sequence[int]]) -> Quandle:
    """The quandle of a table that is one."""
    order = len(table)
    back = [[0] * order for _ in range(order)]
    for x in range(order):
        for y in range(order):
            back[table[x][y]][y] = x
    return Quandle(name, tuple(map(tuple, table)), tuple(map(tuple, back)))


def table_by(order: int, rule: Callable[[int, int], int]) -> List[List[int]]:
    """The table of an order by a rule for x ▷ y."""
    return [[rule(x, y) for y in range(order)] for x in range(order)]


def trivial(order: int) -> Quandle:
    """The quandle of an order with x ▷ y = x."""
    return quandle_of(f"trivial {order}", table_by(order, lambda x, y: x))


def dihedral(order: int) -> Quandle:
    """The quandle of an order n with x ▷ y = 2y − x mod n."""
    return quandle_of(f"dihedral {order}", table_by(order, lambda x, y: (2 * y - x) % order))


def alexander(order: int, factor: int) -> Quandle:
    """The quandle of an order n and a factor t, which has an inverse mod n, with x ▷ y = tx + (1 − t)y mod n."""
    return quandle_of(f"alexander {order} {factor}", table_by(order, lambda x, y: (factor * x + (1 - factor) * y) % order))


def tetrahedral() -> Quandle:
    """The quandle of order 4 of the rotations of a tetrahedron."""
    return quandle_of("tetrahedral", [[0, 3, 1, 2], [2, 1, 3, 0], [3, 0, 2, 1], [1, 2, 0, 3]])


def built_in_list() -> List[Quandle]:
    """The five quandles that the programs take where none is given."""
    return [trivial(2), dihedral(3), tetrahedral(), dihedral(5), dihedral(7)]


def quandle_text(quandle: Quandle) -> str:
    """The lines of an item, the first one with its name."""
    lines = [f"quandle {quandle.name}"]
    if quandle.name.startswith("table"):
        lines += [" ".join(map(str, row)) for row in quandle.over]
    return "\n".join(lines) + "\n"
