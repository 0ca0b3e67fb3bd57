"""2-cocycles and shadow cocycles of quandles, and their texts.

A cocycle φ mod k is a square of numbers: line x has φ(x, 0), φ(x, 1), and so on. A shadow cocycle θ mod k is a cube.
"""
import itertools
from typing import List, NamedTuple, Optional, Sequence, Tuple

from .faults import BadText
from .quandles import MAX_ORDER, Quandle, QuandleTable
from .texts import Lines, number_of, read_quandle

MAX_MODULUS = 255


class Cocycle(NamedTuple):
    """A 2-cocycle of a quandle: its modulus, and `values[x][y]`, which is φ(x, y)."""

    modulus: int
    values: QuandleTable

    @property
    def text(self) -> str:
        """The line `weight` and the lines of its table."""
        return cocycle_text(self.values, self.modulus)


class ShadowCocycle(NamedTuple):
    """A shadow cocycle of a quandle: its modulus, and `values[w][x][y]`, which is θ(w, x, y); None where it is that of Mochizuki's formula."""

    modulus: int
    values: Optional[Tuple[QuandleTable, ...]]

    @property
    def text(self) -> str:
        """The line `shadow` and the lines of its table, if it has one."""
        if self.values is None:
            return "shadow mochizuki\n"
        return f"shadow {self.modulus}\n" + "".join(" ".join(map(str, row)) + "\n" for square in self.values for row in square)


def cocycle_fault(table: Sequence[Sequence[int]], cocycle: Sequence[Sequence[int]], modulus: int) -> Optional[str]:
    """The first law that a square of numbers fails as a cocycle, or None."""
    order = len(table)
    for x in range(order):
        if cocycle[x][x] % modulus:
            return f"φ({x}, {x}) is not 0"
    for x, y, z in itertools.product(range(order), repeat=3):
        if (cocycle[x][y] + cocycle[table[x][y]][z] - cocycle[x][z] - cocycle[table[x][z]][table[y][z]]) % modulus:
            return f"the law fails at {x}, {y}, {z}"
    return None


def cocycle_text(cocycle: Sequence[Sequence[int]], modulus: int) -> str:
    """The line `weight` and the lines of the table."""
    return f"weight {modulus}\n" + "".join(" ".join(map(str, row)) + "\n" for row in cocycle)


def read_cocycle(lines: Lines, quandle: Quandle) -> Tuple[int, List[List[int]]]:
    """The modulus and the square of an item `weight` after its quandle."""
    line, tokens = lines.take("the line 'weight'")
    if tokens[0] != "weight" or len(tokens) != 2:
        raise BadText("a line 'weight' with a modulus is due", line)
    modulus = number_of(tokens[1], line)
    if not 2 <= modulus <= MAX_MODULUS:
        raise BadText(f"a modulus is 2 to {MAX_MODULUS}", line)
    order = len(quandle.over)
    square = []
    for _ in range(order):
        line, tokens = lines.take("a line of the cocycle")
        square.append([number_of(token, line) for token in tokens])
        if len(square[-1]) != order or any(value >= modulus for value in square[-1]):
            raise BadText(f"the line has not {order} numbers below {modulus}", line)
    fault = cocycle_fault(quandle.over, square, modulus)
    if fault:
        raise BadText(f"no cocycle: {fault}", line)
    return modulus, square


def shadow_fault(table: Sequence[Sequence[int]], cube: Sequence[Sequence[Sequence[int]]], modulus: int) -> Optional[str]:
    """The first law that a cube of numbers fails as a shadow cocycle, or None."""
    order = len(table)
    for w, x in itertools.product(range(order), repeat=2):
        if cube[w][x][x] % modulus:
            return f"θ({w}, {x}, {x}) is not 0"
    for a, b, c, d in itertools.product(range(order), repeat=4):
        one = cube[a][c][d] + cube[table[a][c]][table[b][c]][d] + cube[a][b][c]
        other = cube[table[a][b]][c][d] + cube[a][b][d] + cube[table[a][d]][table[b][d]][table[c][d]]
        if (one - other) % modulus:
            return f"the law fails at {a}, {b}, {c}, {d}"
    return None


def read_shadow(lines: Lines, quandle: Quandle) -> ShadowCocycle:
    """A shadow cocycle, an item `shadow` after its quandle."""
    line, tokens = lines.take("the line 'shadow'")
    order = len(quandle.over)
    if tokens[0] != "shadow" or len(tokens) != 2:
        raise BadText("a line 'shadow' with a modulus or 'mochizuki' is due", line)
    if order > MAX_ORDER:
        raise BadText(f"the quandle of a shadow cocycle has at most {MAX_ORDER} colours", line)
    if tokens[1] == "mochizuki":
        if order < 2 or any(order % divisor == 0 for divisor in range(2, order)) or any(
                quandle.over[x][y] != (2 * y - x) % order for x in range(order) for y in range(order)):
            raise BadText("the formula is that of a dihedral quandle of prime order", line)
        return ShadowCocycle(order, None)
    modulus = number_of(tokens[1], line)
    if not 2 <= modulus <= MAX_MODULUS:
        raise BadText(f"a modulus is 2 to {MAX_MODULUS}", line)
    cube = []
    for _ in range(order):
        square = []
        for _ in range(order):
            line, tokens = lines.take("a line of the shadow cocycle")
            square.append(tuple(number_of(token, line) for token in tokens))
            if len(square[-1]) != order or any(value >= modulus for value in square[-1]):
                raise BadText(f"the line has not {order} numbers below {modulus}", line)
        cube.append(tuple(square))
    fault = shadow_fault(quandle.over, cube, modulus)
    if fault:
        raise BadText(f"no shadow cocycle: {fault}", line)
    return ShadowCocycle(modulus, tuple(cube))


def read_weighed_quandles(lines: Lines) -> List[Tuple[Quandle, Optional[Tuple[int, List[List[int]]]]]]:
    """Quandles to the end of the text, each with the modulus and the cocycle that are after it, or None. Those with a shadow cocycle are
    left out."""
    found = []
    while lines.peek() == "quandle":
        quandle = read_quandle(lines)
        if lines.peek() == "shadow":
            read_shadow(lines, quandle)
            continue
        found.append((quandle, read_cocycle(lines, quandle) if lines.peek() == "weight" else None))
    lines.done()
    return found
