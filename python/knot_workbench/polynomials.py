"""Invariants that people know: the Alexander polynomial, the determinant, the Jones polynomial and the signature. They are worked out here, from a
grid, and no proof speaks of them; `seek` and `numbers` have evidence instead.
"""
from typing import Any, Callable, Dict, List, NamedTuple, Optional, Sequence, Tuple

from .alexander import PRIME, determinant
from .diagrams import Grid, covers, crossings, ends, grid_of, is_up
from .given import diagram as diagram_given
from .identifying import components_of_grid
from .signatures import signature

# As many columns may be side by side in a row where the Jones polynomial is worked out: the work grows fourfold with two more.
MOST_OPEN = 16

# A Laurent polynomial in A: coefficients by powers.
Laurent = Dict[int, int]
# A combination of ways in which the strands that a line cuts are joined below it: each strand has its partner's place.
Joined = Dict[Tuple[int, ...], Laurent]

LOOP = {2: -1, -2: -1}


class Invariants(NamedTuple):
    """Of a link without regard to the diagram.

    `components`   how many it has
    `alexander`    the coefficients of its Alexander polynomial from the lowest power, with the last one positive; none where it is 0
    `determinant`  the size of that polynomial at -1
    `jones`        pairs of twice a power of t and its coefficient, from the lowest; None where the diagram has more than 16 columns side by
                   side: `simplify` may help
    `signature`    that of the right trefoil is -2
    """

    components: int
    alexander: Tuple[int, ...]
    determinant: int
    jones: Optional[Tuple[Tuple[int, int], ...]]
    signature: int

    @property
    def alexander_text(self) -> str:
        """The Alexander polynomial as people write it, from the constant."""
        return terms_text((2 * power, coefficient) for power, coefficient in enumerate(self.alexander))

    @property
    def jones_text(self) -> Optional[str]:
        """The Jones polynomial as people write it, or None."""
        return None if self.jones is None else terms_text(self.jones)


def invariants(of: Any) -> Invariants:
    """The invariants of a diagram, which may be given as other calls take it. The right trefoil's Jones polynomial is t + t^3 - t^4."""
    grid = grid_of(diagram_given(of))
    alexander = alexander_polynomial(grid)
    at_minus_one = sum(coefficient * (-1) ** power for power, coefficient in enumerate(alexander))
    return Invariants(components_of_grid(grid), alexander, abs(at_minus_one), jones_polynomial(grid), signature(grid))


def terms_text(terms: Any) -> str:
    """A sum of coefficients times powers, which are given by twice their exponents."""
    text = ""
    for twice, coefficient in terms:
        if coefficient:
            power = "" if twice == 0 else "t" if twice == 2 else f"t^{twice // 2}" if twice % 2 == 0 else f"t^({twice}/2)"
            size = "" if abs(coefficient) == 1 and power else str(abs(coefficient))
            text += (" - " if coefficient < 0 else " + ") + size + (" " if size and power else "") + power
    return "0" if not text else ("-" if text.startswith(" -") else "") + text[3:]


# The Alexander polynomial: a minor of the linear equations of colourings by x ▷ y = t x + (1 - t) y

def alexander_polynomial(grid: Grid) -> Tuple[int, ...]:
    """Its coefficients from the lowest power, with the last one positive; none where it is 0.

    The equation of a row, times a power of t, has at most as many powers as the row has crossings. So the minor is known by its values at as
    many places as the grid has crossings, and one more. Coefficients are taken to be less than the prime's half."""
    places = range(2, len(crossings(grid)) + 3)
    found = interpolated(places, [determinant(minor_at(grid, place)) for place in places])
    signed = [value if value <= PRIME // 2 else value - PRIME for value in found]
    powers = [power for power, value in enumerate(signed) if value]
    if not powers:
        return ()
    kept = signed[powers[0]:powers[-1] + 1]
    return tuple(kept if kept[-1] > 0 else [-value for value in kept])


def minor_at(grid: Grid, place: int) -> List[List[int]]:
    """The equations of all rows but the last, with the last column's colour 0, at a place modulo the prime."""
    found = []
    for row in range(len(grid.xs) - 1):
        left, right = ends(grid, row)
        colour, scale = [0] * len(grid.xs), 1
        colour[left] = 1
        for column in range(left + 1, right):
            if covers(grid, column, row):
                if is_up(grid, column):
                    colour[column] += (place - 1) * scale
                    scale = scale * place % PRIME
                else:
                    colour = [entry * place % PRIME for entry in colour]
                    colour[column] += (1 - place) * scale
        colour[right] -= scale
        found.append([entry % PRIME for entry in colour[:-1]])
    return found


def interpolated(places: Sequence[int], values: Sequence[int]) -> List[int]:
    """The coefficients of the polynomial that has these values at these places, modulo the prime."""
    differences = list(values)
    for step in range(1, len(places)):
        for at in range(len(places) - 1, step - 1, -1):
            differences[at] = (differences[at] - differences[at - 1]) * pow(places[at] - places[at - step], -1, PRIME) % PRIME
    found: List[int] = []
    for place, difference in zip(reversed(places), reversed(differences)):
        # Times t less the place, and the next difference.
        found = [(low - place * high) % PRIME for low, high in zip([0, *found], [*found, 0])]
        found[0] = (found[0] + difference) % PRIME
    return found


# The Jones polynomial: Kauffman's bracket, row by row from below

def jones_polynomial(grid: Grid) -> Optional[Tuple[Tuple[int, int], ...]]:
    """Pairs of twice a power and its coefficient; None where too many columns are side by side."""
    size = len(grid.xs)
    if max(sum(covers(grid, column, row) for column in range(size)) + 2 for row in range(size)) > MOST_OPEN:
        return None
    states: Joined = {(): {0: 1}}
    for row in range(size):
        states = above(grid, row, states)
    bracket = over_loop(states[()])
    writhe = sum(sign for _, _, sign in crossings(grid))
    sign = -1 if writhe % 2 else 1
    return tuple(sorted(((3 * writhe - power) // 2, sign * coefficient) for power, coefficient in bracket.items()))


def above(grid: Grid, row: int, states: Joined) -> Joined:
    """What is joined above a row. The strand that runs along the row passes under those between its ends."""
    left, right = ends(grid, row)
    left_begins, right_begins = (min(grid.xs[column], grid.os[column]) == row for column in (left, right))
    first = sum(covers(grid, column, row) for column in range(left))
    count = sum(covers(grid, column, row) for column in range(left + 1, right))
    if left_begins and not right_begins:
        for place in reversed(range(first, first + count)):
            states = mixed(states, place, 1, -1)
        return states
    if left_begins:
        states = mapped(states, lambda joined: (begun(joined, first), False))
        first += 1
    for place in range(first, first + count):
        states = mixed(states, place, -1, 1)
    return states if right_begins else mapped(states, lambda joined: ends_joined(joined, first + count))


def begun(joined: Tuple[int, ...], place: int) -> Tuple[int, ...]:
    """With two new strands at a place, which are joined to one another."""
    moved = [partner + 2 * (partner >= place) for partner in joined]
    return (*moved[:place], place + 1, place, *moved[place:])


def ends_joined(joined: Tuple[int, ...], place: int) -> Tuple[Tuple[int, ...], bool]:
    """Without the strands at a place and the next one, which end in one another, and whether that closes a loop."""
    one, two = joined[place], joined[place + 1]
    rest = list(joined)
    rest[one], rest[two] = two, one
    return tuple(partner - 2 * (partner > place) for at, partner in enumerate(rest) if at not in (place, place + 1)), one == place + 1


def mapped(states: Joined, change: Callable[[Tuple[int, ...]], Tuple[Tuple[int, ...], bool]]) -> Joined:
    """Each way changed, and times the value of a loop where one is closed."""
    found: Joined = {}
    for joined, sums in states.items():
        after, closes = change(joined)
        for by, times in (LOOP if closes else {0: 1}).items():
            add_shifted(found, after, sums, by, times)
    return found


def mixed(states: Joined, place: int, stays: int, turns: int) -> Joined:
    """A crossing of the strands at a place and the next one: A to one power times the way as it is, and to another times that in which both end
    in one another, and two others begin."""
    found: Joined = {}
    for joined, sums in states.items():
        add_shifted(found, joined, sums, stays, 1)
    turned = mapped(states, lambda joined: ends_joined(joined, place))
    for joined, sums in turned.items():
        add_shifted(found, begun(joined, place), sums, turns, 1)
    return found


def add_shifted(found: Joined, joined: Tuple[int, ...], sums: Laurent, by: int, times: int) -> None:
    """Adds a polynomial times a power of A and a number."""
    into = found.setdefault(joined, {})
    for power, coefficient in sums.items():
        into[power + by] = into.get(power + by, 0) + times * coefficient


def over_loop(sums: Laurent) -> Laurent:
    """A polynomial that the value of a loop divides, divided by it."""
    left, found = {power: coefficient for power, coefficient in sums.items() if coefficient}, {}
    while left:
        power = max(left)
        coefficient = -left.pop(power)
        found[power - 2] = coefficient
        below = left.get(power - 4, 0) + coefficient
        if below:
            left[power - 4] = below
        else:
            left.pop(power - 4, None)
    return found
