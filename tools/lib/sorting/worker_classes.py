"""What a worker is asked of the classes of a table: names, codes, braids, what distinguishes two of them, and rulings on certificates."""
import collections
import random
import re

from knot_workbench.alexander import alexander_square
from knot_workbench.answers import REJECTED
from knot_workbench.diagrams import MAX_SIZE, MAX_STRANDS, grid_of
from knot_workbench.moves import back, turned
from knot_workbench.tables.knots import UNKNOT
from lib.codes.entries import code_text
from lib.codes.smaller import reduced
from lib.sorting.keys import grid_of_form, shifts_between
from lib.sorting.searches import DECIDE, SEEK_WALKS
from lib.sorting.worker import table_at

# So often is a braid word made shorter, each time by other random relations.
BRAIDS = 4

# The name of a class: the parts of the table, the table's diagram after a turn, and moves to that from the first key of the class.
Named = collections.namedtuple("Named", "parts aim moves")

# A braid whose closure is a knot of a key, with a turn and moves that lead from the turned closure to the key.
Braided = collections.namedtuple("Braided", "braid turn moves")


def distinguish(worker, asked):
    """The text of what distinguishes two grids, or nothing. Asked are a name, the grids and a search."""
    name, first, second, search = asked
    found = search.find(worker, first, second)
    return name, found if isinstance(found, str) else ""


def find_name(worker, asked):
    """The first key of a class with its name by the table, or None. Asked are this key, its row, and of each key of the class a turn and moves
    that lead from the turned diagram to the first."""
    key, row, ways = asked
    grid = grid_of_form(key)
    if grid.size == UNKNOT.size:
        return key, Named((), UNKNOT, shifts_between(grid, UNKNOT))
    known = table_at(worker.table)
    polynomial, aims = alexander_square(grid), [(parts, known.grid(parts)) for parts in known.candidates(row)]
    aims = [(parts, aim) for parts, aim in aims if alexander_square(aim) == polynomial]
    return key, name_by_search(worker, grid, aims) or name_by_key(worker, aims, ways)


def name_by_search(worker, grid, aims):
    """The name by a search that joins a grid to a diagram of the table, or None."""
    for search in (DECIDE, *SEEK_WALKS):
        for parts, aim in aims:
            found = search.find(worker, grid, aim)
            if isinstance(found, tuple):
                return Named(parts, aim, found)
    return None


def name_by_key(worker, aims, ways):
    """The name by a diagram of the table that leads to one of the keys of a class, or None."""
    for parts, aim in aims:
        there = worker.reducer.of_grid(aim)
        if there.key in ways:
            further, moves = ways[there.key]
            turn = there.turn.then(further)
            moves = turned(aim.size, there.moves, *further) + list(moves)
            return Named(tuple((name, one.then(turn)) for name, one in parts), turn.of(aim), back(turn.of(aim), moves))
    return None


def write_code(worker, asked):
    """The planar diagram code of a grid, in one entry. The name that comes with it is answered too."""
    name, grid = asked
    _, said = worker.answered(worker.knot, ["code"], grid.text)
    return name, code_text([row.split(",") for row in re.findall(r"X\[([0-9,]+)\]", said)])


def find_braid(worker, asked):
    """A braid whose closure is the knot of a key after a turn; or None, where none is found that a certificate may have. Asked are a name, a key
    and a turn."""
    name, key, base = asked
    grid = base.of(grid_of_form(key))
    word = worker.word_of(grid)
    found = min((reduced(word, random.Random(seed)) for seed in range(BRAIDS)), key=lambda one: (one.strands, len(one.letters), one.letters))
    if found.strands > MAX_STRANDS or len(found.letters) + 2 * found.strands > MAX_SIZE:
        return name, None
    closure = grid_of(found)
    there = worker.reducer.of_grid(closure)
    if there.key == key:
        return name, Braided(found, there.turn, there.moves)
    for search in (DECIDE, *SEEK_WALKS):
        moves = search.find(worker, closure, grid)
        if isinstance(moves, tuple):
            return name, Braided(found, base, turned(closure.size, moves, *base))
    return name, None


def check_file(worker, path):
    """What the checker says of a certificate in a file."""
    with open(path, encoding="utf-8") as source:
        return path, check_text(worker, source.read())[1]


def check_text(worker, text):
    """What the checker says of a certificate."""
    _, said = worker.answered(worker.knot, ["check"], text, also=(REJECTED,))
    return text, said.strip()
