"""What distinguishes classes: numbers of colourings, with columns that settle a diagram, by which `knot check` counts them anew."""
import itertools
import math

from knot_workbench.diagrams import covers, ends
from lib.sorting.keys import grid_of_form

# As many choices of colours at the seeds, and of the outer colour, does the checker try.
MOST_CHOICES = 1 << 21

# The fewest seeds are looked for among so many choices of columns; where there are more, few seeds will do.
MOST_SEEDS = 50_000


def blocks_in(text):
    """The texts of the blocks of a list, each from its name on."""
    lines = [line for line in text.splitlines() if line.strip() and not line.lstrip().startswith("#")]
    found = []
    for line in lines:
        if line.startswith("quandle "):
            found.append("")
        found[-1] += line.removeprefix("quandle ") + "\n"
    return found


def seeds_of(grid):
    """The fewest columns whose colours settle those of all others; of a large grid few such columns."""
    rows = [(1 << left | 1 << right, sum(1 << column for column in range(left + 1, right) if covers(grid, column, row)))
            for row in range(grid.size) for left, right in (ends(grid, row),)]
    tried = 0
    for count in range(1, grid.size + 1):
        tried += math.comb(grid.size, count)
        if tried > MOST_SEEDS:
            break
        for seeds in itertools.combinations(range(grid.size), count):
            if settled(sum(1 << seed for seed in seeds), rows) == (1 << grid.size) - 1:
                return seeds
    known, found = 0, []
    while known != (1 << grid.size) - 1:
        found.append(max((column for column in range(grid.size) if not known >> column & 1),
                         key=lambda column: bin(settled(known | 1 << column, rows)).count("1")))
        known = settled(known | 1 << found[-1], rows)
    return tuple(sorted(found))


def settled(columns, rows):
    """The columns that some settle, as bits: a row all of whose crossing columns are settled leads from one end to the other."""
    while True:
        more = columns
        for both, over in rows:
            if over & ~more == 0 and both & more:
                more |= both
        if more == columns:
            return columns
        columns = more


def cost(block, seeds):
    """How many choices the checker tries of a block by so many seeds; None where these are too many for it."""
    choices = block.order ** (seeds + block.is_shadow)
    return choices if choices <= MOST_CHOICES else None


def numbers_in(text):
    """Of a verdict by numbers the text of the block, and the numbers of both diagrams; None of any other."""
    _, mark, said = text.partition("different numbers ")
    if not mark:
        return None
    block, _, counted = said.partition("seeds ")
    first, second = (tuple(map(int, line.split()[1:])) for line in counted.splitlines() if line.startswith("numbers "))
    return block, first, second


class Seeds:
    """The seeds of keys, found once. Those of a diagram are those of all its turns too."""

    def __init__(self):
        self.known = {}

    def of(self, key):
        """The seeds of a key's diagram."""
        if key not in self.known:
            self.known[key] = seeds_of(grid_of_form(key))
        return self.known[key]
