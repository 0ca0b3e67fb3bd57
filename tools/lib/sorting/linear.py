"""Linear quandles that distinguish two knots: x ▷ y = t x + (1 − t) y mod a prime p. A knot has more than p colourings where its Alexander polynomial
has the root t mod p. Nothing rests on that: it only says by which quandle two knots are worth counting."""
from typing import Optional

from knot_workbench.alexander import alexander_square, windings
from knot_workbench.diagrams import Grid
from knot_workbench.quandles import MAX_ORDER
from lib.sorting.apart import MOST_CHOICES, seeds_of

# The most colours that a quandle in evidence by numbers may have.
MOST_COLOURS = 128

PRIMES = [prime for prime in range(3, MOST_COLOURS) if all(prime % part for part in range(2, prime))]


def block_between(first: Grid, second: Grid) -> Optional[str]:
    """The lines, after the word `quandle`, of a linear quandle of fewest colours by which two knots have other numbers, where the checker can
    count by it; None where there is none."""
    if alexander_square(first) == alexander_square(second):
        return None
    seeds = max(len(seeds_of(first)), len(seeds_of(second)))
    one, other = windings(first), windings(second)
    for prime in PRIMES:
        if prime ** seeds > MOST_CHOICES:
            return None
        for root in range(prime - 1, 1, -1):
            # The polynomial has with a root its inverse too.
            if pow(root, -1, prime) <= root and is_root(one, root, prime) != is_root(other, root, prime):
                return block_text(prime, root)
    return None


def is_root(turns, root: int, prime: int) -> bool:
    """Whether the Alexander polynomial of a knot has a root, by the winding numbers of its grid."""
    rows = [[pow(root, turn, prime) for turn in row] for row in turns]
    for place in range(len(rows)):
        pivot = next((number for number in range(place, len(rows)) if rows[number][place]), None)
        if pivot is None:
            return True
        rows[place], rows[pivot] = rows[pivot], rows[place]
        inverse = pow(rows[place][place], -1, prime)
        for number in range(place + 1, len(rows)):
            times = rows[number][place] * inverse % prime
            if times:
                rows[number] = [(entry - times * over) % prime for entry, over in zip(rows[number], rows[place])]
    return False


def block_text(prime: int, root: int) -> str:
    """A linear quandle, by its name where that may be there, else by its table."""
    if prime <= MAX_ORDER:
        return f"alexander {prime} {root}\n"
    return f"table {prime}\n" + "".join(" ".join(str((root * x + (1 - root) * y) % prime) for y in range(prime)) + "\n" for x in range(prime))
