"""What is in the texts, item by item, and the shape of each input."""
import re
from functools import lru_cache
from math import gcd

from .braids import closure
from .diagrams import CORNERS
from .lines import (LIMIT, MALFORMED, MAX_CROSSINGS, MAX_IN_LETTER, MAX_IN_MOVE, MAX_LARGE_ORDER, MAX_LIST, MAX_ORDER, MAX_QUANDLES, MAX_SIZE, MAX_STRANDS,
    MAX_WEIGHTS, are_numbers, are_short, at_most, is_letter, is_number, is_short)
from .weights import by_formula, is_cocycle, is_dihedral_of_prime_order, is_shadow_cocycle


def read_marks(lines, word):
    """The numbers of a line `x` or `o` that holds its form and its limits."""
    tokens = lines.due()
    lines.form(tokens[0] == word and are_numbers(tokens[1:]))
    lines.limits(len(tokens) - 1 <= MAX_SIZE and are_short(tokens[1:]))
    return [int(token) for token in tokens[1:]]


def read_grid(lines):
    """The rows of the crosses and of the rings, column by column."""
    xs = read_marks(lines, b"x")
    lines.content(len(xs) >= 2 and sorted(xs) == list(range(len(xs))))
    lines.advance()
    os = read_marks(lines, b"o")
    lines.content(sorted(os) == list(range(len(xs))) and all(x != o for x, o in zip(xs, os)))
    lines.advance()
    return tuple(xs), tuple(os)


def read_braid(lines):
    """The number of strands, and the letters."""
    tokens = lines.due()
    lines.form(tokens[0] == b"braid" and len(tokens) >= 2 and is_number(tokens[1])
               and all(is_letter(token) for token in tokens[2:]))
    lines.limits(at_most(tokens[1], MAX_STRANDS) and are_short(tokens[2:])
                 and len(tokens) - 2 + 2 * int(tokens[1]) <= MAX_SIZE)
    strands, letters = int(tokens[1]), [int(token) for token in tokens[2:]]
    lines.content(strands >= 1 and all(1 <= abs(letter) < strands for letter in letters))
    lines.advance()
    return strands, letters


def read_diagram(lines):
    """A grid, or the closure of a braid."""
    return closure(*read_braid(lines)) if lines.begins_with(b"braid") else read_grid(lines)


# How many numbers are after the name of a quandle.
NAMES = {b"trivial": 1, b"dihedral": 1, b"tetrahedral": 0, b"alexander": 2, b"table": 1}


class Quandle:
    """A name as it is printed, and its table with the inverse of each column."""

    def __init__(self, name, table, is_table):
        self.name, self.table, self.order = name, table, len(table)
        self.back = [[0] * self.order for _ in table]
        for y in range(self.order):
            for x in range(self.order):
                self.back[table[x][y]][y] = x
        self.key = (name, tuple(map(tuple, table)))
        rows = [" ".join(map(str, row)) for row in table] if is_table else []
        self.printed = "\n".join([name, *rows]) + "\n"


def trivial(n):
    """The table in which no colour changes another."""
    return [[x] * n for x in range(n)]


def dihedral(n):
    """The table of reflections of a polygon with n corners."""
    return [[(2 * y - x) % n for y in range(n)] for x in range(n)]


def alexander(n, t):
    """The table of x, y to t x + (1 - t) y mod n."""
    return [[(t * x + (1 - t) * y) % n for y in range(n)] for x in range(n)]


TETRAHEDRAL = [[0, 3, 1, 2], [2, 1, 3, 0], [3, 0, 2, 1], [1, 2, 0, 3]]


def is_quandle(table):
    """The three laws, tried for all colours."""
    n = len(table)
    colours = range(n)
    return (all(table[x][x] == x for x in colours)
            and all(len({table[x][y] for x in colours}) == n for y in colours)
            and all(table[table[x][y]][z] == table[table[x][z]][table[y][z]] for x in colours for y in colours for z in colours))


def read_rows(lines, n, bound, count=None):
    """n lines, or so many, of n numbers below a bound; leaves the last one in place, for what is to be said of them all."""
    table = []
    for row in range(n if count is None else count):
        if row:
            lines.advance()
        tokens = lines.due()
        lines.form(are_numbers(tokens))
        lines.limits(are_short(tokens))
        numbers = [int(token) for token in tokens]
        lines.content(len(numbers) == n and all(number < bound for number in numbers))
        table.append(numbers)
    return table


def read_name(lines, *words, is_one_too_many=False, largest=MAX_ORDER):
    """A line of these words and the name of a quandle, and the lines of its table, which has at most the largest order."""
    tokens = lines.due()
    lines.form(tuple(tokens[:len(words)]) == words)
    tokens = tokens[len(words) - 1:]
    lines.form(len(tokens) >= 2 and tokens[1] in NAMES and len(tokens) == 2 + NAMES[tokens[1]] and are_numbers(tokens[2:]))
    kind = tokens[1].decode()
    lines.limits(not is_one_too_many and (kind == "tetrahedral" or at_most(tokens[2], largest if kind == "table" else MAX_ORDER)) and are_short(tokens[2:]))
    numbers = [int(token) for token in tokens[2:]]
    lines.content(kind == "tetrahedral" or numbers[0] >= 1)
    lines.content(kind != "alexander" or (numbers[1] < numbers[0] and gcd(numbers[1], numbers[0]) == 1))
    if kind == "table":
        lines.advance()
        table = read_rows(lines, numbers[0], numbers[0])
        lines.content(is_quandle(table))
    elif kind == "tetrahedral":
        table = TETRAHEDRAL
    else:
        table = {"trivial": trivial, "dihedral": dihedral, "alexander": alexander}[kind](*numbers)
    lines.advance()
    return Quandle(" ".join([kind, *map(str, numbers)]), table, kind == "table")


BUILT_IN = [Quandle("trivial 2", trivial(2), False), Quandle("dihedral 3", dihedral(3), False),
            Quandle("tetrahedral", TETRAHEDRAL, False), Quandle("dihedral 5", dihedral(5), False),
            Quandle("dihedral 7", dihedral(7), False)]


def read_quandles(lines):
    """Any number of quandles; the built-in list where there are none."""
    quandles = []
    while lines.begins_with(b"quandle"):
        quandles.append(read_name(lines, b"quandle", is_one_too_many=len(quandles) == MAX_QUANDLES))
    return quandles or BUILT_IN


DIRECTIONS = (b"columns", b"rows")


def has_form_of_move(tokens):
    """Whether the tokens are those of a move, whatever its numbers."""
    word = tokens[0]
    if word in (b"shift", b"exchange", b"slide"):
        return len(tokens) == 3 and tokens[1] in DIRECTIONS and is_number(tokens[2])
    if word == b"stabilise":
        return len(tokens) == 4 and is_number(tokens[1]) and tokens[2] in (b"x", b"o") and tokens[3] in CORNERS
    return word == b"destabilise" and len(tokens) == 3 and are_numbers(tokens[1:])


@lru_cache(maxsize=4096)
def move_of(tokens):
    """The move of a line, or the status of its fault."""
    if not has_form_of_move(tokens):
        return MALFORMED
    if not all(at_most(token, MAX_IN_MOVE) for token in tokens if is_number(token)):
        return LIMIT
    return tuple(int(token) if is_number(token) else token.decode() for token in tokens)


def may_follow(before, move):
    """Whether a move may be in a tidy list directly after another one."""
    return move[0] != "shift" or before[0] != "shift" or (before[1], move[1]) == ("columns", "rows")


def read_move_lines(lines, number, tidy=False):
    """So many lines of moves; of a tidy list each may have to follow the one before it."""
    moves = []
    for _ in range(number):
        move = move_of(lines.due())
        lines.form(move != MALFORMED)
        lines.limits(move != LIMIT)
        lines.content(not tidy or not moves or may_follow(moves[-1], move))
        moves.append(move)
        lines.advance()
    return moves


def read_count(lines, word, bound=None):
    """A line of a word and a number."""
    tokens = lines.due()
    lines.form(len(tokens) == 2 and tokens[0] == word and is_number(tokens[1]))
    lines.limits(is_short(tokens[1]) and (bound is None or int(tokens[1]) <= bound))
    lines.advance()
    return int(tokens[1])


def read_moves(lines):
    """The line `moves N`, and N moves."""
    return read_move_lines(lines, read_count(lines, b"moves"))


# The steps between braids that are named by a place alone.
PLACED = (b"far", b"triple", b"cancel", b"turn")


def has_form_of_step(tokens):
    """Whether the tokens are those of a step between braids."""
    word = tokens[0]
    if word in PLACED:
        return len(tokens) == 2 and is_number(tokens[1])
    if word == b"insert":
        return len(tokens) == 3 and is_number(tokens[1]) and is_letter(tokens[2])
    if word == b"grow":
        return len(tokens) == 2 and tokens[1] in (b"plus", b"minus")
    return tokens == (b"shrink",)


def read_steps(lines):
    """The line `steps N`, and N steps."""
    steps = []
    for _ in range(read_count(lines, b"steps")):
        tokens = lines.due()
        lines.form(has_form_of_step(tokens))
        word, further = tokens[0].decode(), tokens[1:]
        if word in ("grow", "shrink"):
            steps.append((word, *further))
        else:
            lines.limits(at_most(further[0], MAX_IN_MOVE) and at_most(further[-1].lstrip(b"-"), MAX_IN_LETTER if word == "insert" else MAX_IN_MOVE))
            steps.append((word, *map(int, further)))
        lines.advance()
    return steps


def read_colours(lines, size, order):
    """A line of one colour for each column."""
    tokens = lines.due()
    lines.form(tokens[0] == b"colours" and are_numbers(tokens[1:]))
    lines.limits(len(tokens) - 1 <= MAX_SIZE and are_short(tokens[1:]))
    colours = [int(token) for token in tokens[1:]]
    lines.content(len(colours) == size and all(colour < order for colour in colours))
    lines.advance()
    return colours


def read_list(lines, size, order):
    """The line `list N`, and N lists of colours."""
    colourings = []
    for _ in range(read_count(lines, b"list", MAX_LIST)):
        tokens = lines.due()
        lines.form(are_numbers(tokens))
        lines.limits(are_short(tokens))
        colours = tuple(int(token) for token in tokens)
        lines.content(len(colours) == size and all(colour < order for colour in colours))
        colourings.append(colours)
        lines.advance()
    return colourings


def read_version(lines):
    """2 after the line `certificate 2`, and 1 where no such line stands."""
    if not lines.begins_with(b"certificate"):
        return 1
    tokens = lines.due()
    lines.form(len(tokens) == 2 and is_number(tokens[1]))
    lines.limits(is_short(tokens[1]))
    lines.content(int(tokens[1]) == 2)
    lines.advance()
    return 2


def read_verdict(lines, first, second):
    """A verdict of either version: its word, and what is after it."""
    tidy = read_version(lines) == 2
    tokens = lines.due()
    if tokens[0] == b"equal":
        return "equal", read_move_lines(lines, read_count(lines, b"equal"), tidy)
    if tokens[0] == b"different":
        quandle = read_name(lines, b"different")
        return "different", quandle, [read_list(lines, len(grid[0]), quandle.order) for grid in (first, second)]
    lines.form(tokens[0] == b"unknown" and len(tokens) >= 2 and {b"budget": 3, b"exhausted": 4}.get(tokens[1]) == len(tokens)
               and are_numbers(tokens[2:]))
    lines.limits(are_short(tokens[2:]))
    lines.advance()
    return ("unknown", tokens[1].decode(), *(int(token) for token in tokens[2:]))


def read_values(lines, word, is_value, most=None):
    """The numbers of a line that begins with the word and holds its form and its limits."""
    tokens = lines.due()
    lines.form(tokens[0] == word and all(is_value(token) for token in tokens[1:]))
    lines.limits((most is None or len(tokens) - 1 <= most) and are_short(tokens[1:]))
    return [int(token) for token in tokens[1:]]


def read_counted(lines, due):
    """The seeds of a diagram, and so many numbers of its colourings."""
    seeds = read_values(lines, b"seeds", is_number, MAX_SIZE)
    lines.advance()
    numbers = read_values(lines, b"numbers", is_number)
    lines.content(len(numbers) == due)
    lines.advance()
    return seeds, numbers


def read_linked(lines):
    """The number of components of a link, and its linking numbers."""
    components = read_count(lines, b"components")
    numbers = read_values(lines, b"numbers", is_letter)
    lines.advance()
    return components, numbers


def read_evidence(lines):
    """Evidence by numbers, after the line `certificate 3`: its word, and what is after it."""
    lines.advance()
    if tuple(lines.due()) == (b"different", b"linking"):
        lines.advance()
        return "linking", [read_linked(lines) for _ in range(2)]
    quandle = read_name(lines, b"different", b"numbers", largest=MAX_LARGE_ORDER)
    cocycle = read_any_cocycle(lines, quandle) if is_cocycle_next(lines) else None
    return "numbers", quandle, cocycle, [read_counted(lines, cocycle[0] if cocycle else 1) for _ in range(2)]


def two_diagrams(lines):
    """Two diagrams."""
    return read_diagram(lines), read_diagram(lines)


def problem(lines):
    """Two diagrams and quandles."""
    return (*two_diagrams(lines), read_quandles(lines))


def read_block(lines, **of_name):
    """A quandle, perhaps with a cocycle of either kind after it."""
    quandle = read_name(lines, b"quandle", **of_name)
    return quandle, read_any_cocycle(lines, quandle) if is_cocycle_next(lines) else None


def read_class(lines, blocks):
    """A diagram, its seeds, and its numbers by each block; None where nothing is said."""
    grid = read_diagram(lines)
    seeds = read_values(lines, b"seeds", is_number, MAX_SIZE)
    lines.advance()
    counts = []
    for _, cocycle in blocks:
        if lines.begins_with(b"wide"):
            read_count(lines, b"wide")
            counts.append(None)
            continue
        counts.append(read_values(lines, b"numbers", is_number))
        lines.content(len(counts[-1]) == (cocycle[0] if cocycle else 1))
        lines.advance()
    return grid, seeds, counts


def read_open_pair(lines, classes):
    """Two classes that are left open."""
    tokens = lines.due()
    lines.form(len(tokens) == 3 and tokens[0] == b"classes" and are_numbers(tokens[1:]))
    lines.limits(are_short(tokens[1:]))
    first, second = map(int, tokens[1:])
    lines.content(first < second < classes)
    lines.advance()
    return first, second


def read_row(lines, classes):
    """A diagram, its class, and moves."""
    grid = read_diagram(lines)
    tokens = lines.due()
    lines.form(len(tokens) == 2 and tokens[0] == b"class" and is_number(tokens[1]))
    lines.limits(is_short(tokens[1]))
    lines.content(int(tokens[1]) < classes)
    lines.advance()
    return grid, int(tokens[1]), read_moves(lines)


def read_table(lines):
    """Blocks, classes, pairs of classes that are left open, and rows, after the line `certificate 4`."""
    lines.advance()
    blocks = [read_block(lines, largest=MAX_LARGE_ORDER) for _ in range(read_count(lines, b"blocks", MAX_QUANDLES))]
    classes = [read_class(lines, blocks) for _ in range(read_count(lines, b"classes"))]
    left = {read_open_pair(lines, len(classes)) for _ in range(read_count(lines, b"open"))}
    return blocks, classes, left, [read_row(lines, len(classes)) for _ in range(read_count(lines, b"rows"))]


def certificate(lines):
    """A table where the line `certificate 4` is first. Else a problem, whose quandles are passed over, and a verdict or evidence by numbers."""
    if lines.tokens is not None and tuple(lines.tokens) == (b"certificate", b"4"):
        return ("table", *read_table(lines)),
    first, second = two_diagrams(lines)
    read_quandles(lines)
    if lines.tokens is not None and tuple(lines.tokens) == (b"certificate", b"3"):
        return read_evidence(lines), first, second
    return read_verdict(lines, first, second), first, second


def diagram_and_moves(lines):
    """A diagram, moves, and perhaps a quandle and colours."""
    grid = read_diagram(lines)
    moves = read_moves(lines)
    if lines.tokens is None:
        return grid, moves, None, None
    quandle = read_name(lines, b"quandle")
    return grid, moves, quandle, read_colours(lines, len(grid[0]), quandle.order)


def diagram_and_quandles(lines):
    """A diagram and quandles."""
    return read_diagram(lines), read_quandles(lines)


def braid_and_quandles(lines):
    """A braid and quandles."""
    return read_braid(lines), read_quandles(lines)


def lone_diagram(lines):
    """One diagram."""
    return (read_diagram(lines),)


def counted(lines, word, most):
    """The number of a line that begins with the word, if one is next."""
    if not lines.begins_with(word):
        return None
    tokens = lines.due()
    lines.form(len(tokens) == 2 and is_number(tokens[1]))
    lines.limits(at_most(tokens[1], most))
    lines.advance()
    return int(tokens[1])


def read_crossings(lines):
    """Rows of four names each, and their number where it is reported."""
    due, rows = counted(lines, b"crossings", MAX_CROSSINGS), []
    while lines.tokens is not None and lines.tokens[0] not in (b"loops", b"gauss"):
        names = [token for token in lines.tokens if token not in (b"X", b"PD")]
        lines.form(are_numbers(names) and len(names) % 4 == 0)
        lines.limits(all(map(is_short, names)) and len(rows) + len(names) // 4 <= MAX_CROSSINGS)
        rows += [tuple(map(int, names[at:at + 4])) for at in range(0, len(names), 4)]
        lines.content(due is None or len(rows) <= due)
        lines.advance()
    lines.content(due is None or len(rows) == due)
    return rows


PASSAGE = re.compile(rb"([OU])(0|[1-9][0-9]*)([+-])\Z")


def read_gauss(lines):
    """The passages of each line `gauss`: whether over, the crossing's number, and whether positive."""
    walks = []
    while lines.begins_with(b"gauss"):
        met = [PASSAGE.match(token) for token in lines.tokens[1:]]
        lines.form(met and all(met))
        lines.limits(all(at_most(one[2], MAX_CROSSINGS) for one in met))
        walks.append([(one[1] == b"O", int(one[2]), one[3] == b"+") for one in met])
        lines.advance()
    return walks


def code_text(lines):
    lines.with_blanks_for(b"[](){},;")
    rows = read_crossings(lines)
    loops = counted(lines, b"loops", MAX_SIZE // 2) or 0
    return rows, loops, read_gauss(lines) if rows else []


def two_braids_and_steps(lines):
    """Two braids, and steps."""
    return read_braid(lines), read_braid(lines), read_steps(lines)


def read_cocycle(lines, quandle):
    """`weight k`, and a cocycle mod k of the quandle."""
    tokens = lines.due()
    lines.form(len(tokens) == 2 and tokens[0] == b"weight" and is_number(tokens[1]))
    lines.limits(at_most(tokens[1], MAX_WEIGHTS))
    modulus = int(tokens[1])
    lines.content(modulus >= 2)
    lines.advance()
    values = read_rows(lines, quandle.order, modulus)
    lines.content(is_cocycle(quandle, modulus, values))
    lines.advance()
    return modulus, values


def read_shadow(lines, quandle):
    """`shadow k`, and a shadow cocycle mod k of the quandle, which has few colours; or `shadow mochizuki`."""
    tokens = lines.due()
    named = tuple(tokens[1:]) == (b"mochizuki",)
    lines.form(len(tokens) == 2 and tokens[0] == b"shadow" and (named or is_number(tokens[1])))
    lines.limits(quandle.order <= MAX_ORDER)
    if named:
        lines.content(is_dihedral_of_prime_order(quandle))
        lines.advance()
        return quandle.order, by_formula(quandle.order)
    lines.limits(at_most(tokens[1], MAX_WEIGHTS))
    modulus = int(tokens[1])
    lines.content(modulus >= 2)
    lines.advance()
    rows = read_rows(lines, quandle.order, modulus, quandle.order ** 2)
    values = [rows[first:first + quandle.order] for first in range(0, len(rows), quandle.order)]
    lines.content(is_shadow_cocycle(quandle, modulus, values))
    lines.advance()
    return modulus, values


def is_cocycle_next(lines):
    """Whether a cocycle of either kind begins in the next line."""
    return lines.begins_with(b"weight") or lines.begins_with(b"shadow")


def read_any_cocycle(lines, quandle):
    """A shadow cocycle where a line `shadow` is next, else a cocycle."""
    return (read_shadow if lines.begins_with(b"shadow") else read_cocycle)(lines, quandle)


def pair_and_weights(lines):
    """Two diagrams, a quandle, and a cocycle of it of either kind."""
    first, second = two_diagrams(lines)
    quandle = read_name(lines, b"quandle")
    return first, second, quandle, *read_any_cocycle(lines, quandle)


def diagram_and_blocks(lines):
    """A diagram, and any number of quandles, each perhaps with a cocycle after it; the built-in list where there are none."""
    grid, blocks = read_diagram(lines), []
    while lines.begins_with(b"quandle"):
        blocks.append(read_block(lines, is_one_too_many=len(blocks) == MAX_QUANDLES, largest=MAX_LARGE_ORDER))
    return grid, blocks or [(quandle, None) for quandle in BUILT_IN]
