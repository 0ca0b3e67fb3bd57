"""Both sides of the limits of docs/FORMATS.md: of bytes, columns, letters, orders, quandles, blocks, seeds, lists and numbers.

The limits are the constants of the independent reader, which has them from that page.
"""
import re

import reader
from reader.lines import MAX_LARGE_ORDER, MAX_LIST, MAX_ORDER, MAX_QUANDLES, MAX_SIZE

from .inputs import GOOD, SHIFTED, TABLE, TREFOIL, UNKNOT, Case, jobs

# Lengths of moves: the limit of the jobs that take most of them.
MOST_MOVES = 32 * reader.MEBIBYTE


def limit(job, name, data, *further):
    """A case of this section, of a job."""
    return Case("limits", f"{job.decode()}: {name}", [job, *further], data)


def around(most):
    """The numbers about a limit."""
    return most - 1, most, most + 1, most + 2


def filled(text, unit, size):
    """A text with a unit after it again and again, and then remarks, up to a number of bytes."""
    text = text + unit * max(0, (size - len(text) - 2) // len(unit))
    return text + b"#" * (size - len(text))


# Bytes

def bytes_at_limits(job, most):
    """Inputs of a job about its most bytes."""
    good = GOOD[job]
    for size in (*around(most), 2 * most):
        yield limit(job, f"{size} bytes, a remark", good + b"#" * (size - len(good)))
        yield limit(job, f"{size} bytes, line feeds", good + b"\n" * (size - len(good)))
        yield limit(job, f"{size} bytes of nothing", b"\x00" * size)
        yield limit(job, f"{size} blanks", b" " * size)
    yield limit(job, "as long as it may be, and no line feed behind", filled(good, b" \n", most - 1) + b"x")


def moves_at_limits():
    """Lists of moves about the most bytes of `replay` and of `check`."""
    one = b"shift rows 1\n"
    for size in (reader.MEBIBYTE - 13, reader.MEBIBYTE - 1, reader.MEBIBYTE, reader.MEBIBYTE + 1):
        number = (size - 40) // len(one)
        yield limit(b"replay", f"{size} bytes of moves", filled(UNKNOT + b"moves %d\n" % number + one * number, b"#\n", size))
    for size in (MOST_MOVES, MOST_MOVES + 1):
        number = (size - 60) // len(one)
        yield limit(b"check", f"{size} bytes of moves", filled(SHIFTED + b"equal %d\n" % number + one * number, b"#\n", size))


# Columns, strands and letters

def staircase(columns):
    """A grid of the unknot with so many columns."""
    return b"x " + b" ".join(b"%d" % row for row in range(columns)) + b"\no " + b" ".join(b"%d" % ((row + 1) % columns) for row in range(columns)) + b"\n"


def columns_at_limits():
    """Grids of few columns, of half of the most, about the most, and of many."""
    for columns in (2, 3, MAX_SIZE // 2, MAX_SIZE // 2 + 1, *around(MAX_SIZE), 100, 1000):
        grid = staircase(columns)
        yield limit(b"code", f"{columns} columns", grid)
        yield limit(b"colour", f"{columns} columns", grid)
        yield limit(b"decide", f"{columns} columns", grid + UNKNOT, b"--budget=50")
        for last in (b"o 1 0 2", b"stabilise 0 x lowleft", b"stabilise 255 x lowleft"):
            yield limit(b"replay", f"{columns} columns, {last}", grid + b"moves 1\n" + last + b"\n")


def braids_at_limits():
    """Closed braids of up to ten strands and fifty letters: some closures have too many columns."""
    for strands in range(11):
        for letters in range(0, 51):
            word = b"".join(b" %d" % (1 + place % max(1, strands - 1)) for place in range(letters))
            yield limit(b"close", f"{strands} strands, {letters} letters", b"braid %d" % strands + word + b"\nquandle trivial 1\n")


# Quandles

def table_rows(order):
    """The lines of the table of a trivial quandle."""
    return b"".join(b" ".join([b"%d" % x] * order) + b"\n" for x in range(order))


def orders_at_limits():
    """Quandles of all kinds, of orders about the most for lists of colours."""
    half = MAX_ORDER // 2
    for order in (0, 1, 2, half, half + 1, MAX_ORDER - 1, MAX_ORDER, MAX_ORDER + 1, 100):
        for name in (b"trivial %d", b"dihedral %d", b"alexander %d 1", b"alexander %d 0", b"table %d"):
            line = name % order + b"\n" + (table_rows(order) if name.startswith(b"table") else b"")
            yield limit(b"colour", f"{name} {order}", UNKNOT + b"quandle " + line)
            yield limit(b"check", f"{name} {order}", UNKNOT + UNKNOT + b"different " + line + b"list 0\nlist 0\n")


def large_orders_at_limits():
    """Tables of more colours, in evidence by numbers and for `numbers`, up to one too many."""
    for order in (MAX_ORDER + 1, MAX_LARGE_ORDER - 1, MAX_LARGE_ORDER, MAX_LARGE_ORDER + 1):
        front = UNKNOT + UNKNOT + b"certificate 3\ndifferent numbers table %d\n" % order + table_rows(order)
        yield limit(b"check", f"numbers by a table of {order}", front + b"seeds 0\nnumbers %d\nseeds 0\nnumbers %d\n" % (order, order))
        yield limit(b"check", f"a shadow cocycle of a table of {order}", front + b"shadow 2\n")
        yield from numbers_by_table(order)


def numbers_by_table(order):
    """A table for `numbers`, alone, with a cocycle or a shadow cocycle, and with a quandle after it."""
    zeros = (b"0 " * order + b"\n") * order
    shadow = b"shadow 2\n" + zeros * order if order == MAX_ORDER + 1 else b"shadow 2\n"
    front = TREFOIL + b"quandle table %d\n" % order + table_rows(order)
    for further in (b"", b"weight 2\n" + zeros, shadow, b"quandle dihedral 3\n", b"quandle dihedral %d\n" % order):
        yield limit(b"numbers", f"a table of {order}, {further[:12]}", front + further)


def alexander_quandles():
    """All pairs of numbers after `alexander`, of which some are none."""
    for first in range(1, MAX_ORDER + 1):
        for second in range(0, MAX_ORDER + 2):
            yield limit(b"colour", f"alexander {first} {second}", UNKNOT + b"quandle alexander %d %d\n" % (first, second))


def quandles_at_limits():
    """About the most quandles, and a line after them that is a further one, a bad one, or none."""
    for number in around(MAX_QUANDLES):
        for last in (b"", b"quandle foo\n", b"quandle trivial 0\n", b"quandle trivial 17\n", b"quandle alexander 4 2\n", b"quandle\n", b"foo\n",
                     b"quandle trivial 01\n", b"quandle table 2\n0 0\n1 1\n", b"quandle table 2\n0 0\n1 0\n"):
            many = b"quandle trivial 1\n" * number + last
            yield limit(b"colour", f"{number} quandles and {last}", UNKNOT + many)
            yield limit(b"close", f"{number} quandles and {last}", b"braid 1\n" + many)
            yield limit(b"decide", f"{number} quandles and {last}", SHIFTED + many)
            yield limit(b"check", f"{number} quandles and {last}", SHIFTED + many + b"equal 1\nshift rows 1\n")
            yield limit(b"check", f"{number} quandles and another", SHIFTED + many + b"different trivial 2\nlist 0\nlist 0\n")


# Evidence, and tables

def blocks_at_limits():
    """Tables by about the most blocks."""
    for number in (0, 1, *around(MAX_QUANDLES)):
        for last in (b"", b"quandle foo\n", b"quandle trivial 1\nweight 2\n0\n", b"quandle trivial 1\nshadow 2\n0\n",
                     b"quandle trivial %d\n" % (MAX_LARGE_ORDER + 1), b"classes 1\n"):
            blocks = b"quandle trivial 1\n" * (number - (last.startswith(b"quandle"))) + last
            claims = UNKNOT + b"seeds 0\n" + b"numbers 1\n" * number
            yield limit(b"check", f"a table by {number} blocks, {last}", b"certificate 4\nblocks %d\n" % number + blocks + b"classes 1\n" + claims + b"open 0\nrows 0\n")


def seeds_at_limits():
    """About as many seeds as a diagram has columns at most."""
    for number in (0, 1, 2, *around(MAX_SIZE)):
        for seeds in (b" 0" * number, b"".join(b" %d" % (place % 2) for place in range(number)), b" 1" * number):
            yield limit(b"check", f"evidence by {number} seeds, {seeds[:4]}", TREFOIL + UNKNOT
                        + b"certificate 3\ndifferent numbers dihedral 3\nseeds 0 1\nnumbers 9\nseeds" + seeds + b"\nnumbers 3\n")
            yield limit(b"check", f"a class by {number} seeds, {seeds[:4]}",
                        b"certificate 4\nblocks 1\nquandle trivial 1\nclasses 1\n" + UNKNOT + b"seeds" + seeds + b"\nnumbers 1\nopen 0\nrows 0\n")


def tables_that_end():
    """Tables that end at the number of what is due next."""
    for front, line in ((b"", b"blocks"), (b"blocks 0\n", b"classes"), (b"blocks 0\nclasses 0\n", b"open"), (b"blocks 0\nclasses 0\nopen 0\n", b"rows")):
        for number in (0, 1, MAX_QUANDLES, MAX_QUANDLES + 1, MAX_LIST + 1, 999_999_999, 1_000_000_000, 2**64):
            yield limit(b"check", f"a table that ends at {line.decode()} {number}", b"certificate 4\n" + front + line + b" %d\n" % number)


def lists_at_limits():
    """Lists of the most colourings, and one more, of four unknots side by side."""
    four = b"x 0 1 2 3 4 5 6 7\no 1 0 3 2 5 4 7 6\n"
    whole = [b"%d %d %d %d %d %d %d %d\n" % (a, a, b, b, c, c, d, d) for a in range(16) for b in range(16) for c in range(16) for d in range(16)]
    two = b"list 16\n" + b"".join(b"%d %d\n" % (a, a) for a in range(16))
    for number in (MAX_LIST - 1, MAX_LIST, MAX_LIST + 1):
        lines = (whole + whole)[:number]
        yield limit(b"check", f"a list of {number}", four + UNKNOT + b"different trivial 16\nlist %d\n" % number + b"".join(lines) + two)
    yield limit(b"colour", f"a list of {MAX_LIST}", four + b"quandle trivial 16\n")
    yield limit(b"decide", f"a list of {MAX_LIST}", four + UNKNOT + b"quandle trivial 16\n")
    for number in (b"%d" % MAX_LIST, b"%d" % (MAX_LIST + 1), b"999999999", b"1000000000", b"0%d" % MAX_LIST):
        yield limit(b"check", f"no list of {number}", UNKNOT + UNKNOT + b"different trivial 2\nlist " + number + b"\n")


# Numbers in all places

MOVES = b"moves 7\nshift rows 1\nshift columns 1\nexchange rows 0\nslide columns 0\nstabilise 0 x lowleft\ndestabilise 0 1\nstabilise 1 o highright\n"
EXAMPLES = (
    (b"replay", TREFOIL + MOVES + b"quandle table 2\n0 0\n1 1\ncolours 0 0 0 0 0\n"),
    (b"check", TREFOIL + UNKNOT + b"quandle alexander 5 2\ndifferent table 2\n0 0\n1 1\nlist 1\n0 1 0 1 0\nlist 1\n0 0\n"),
    (b"check", TREFOIL + b"braid 2 1 -1\n" + b"equal 7\n" + MOVES.split(b"\n", 1)[1]),
    (b"check", SHIFTED + b"unknown exhausted 5 2\n"), (b"check", SHIFTED + b"unknown budget 5\n"),
    (b"check", SHIFTED + b"certificate 2\nequal 2\nshift columns 2\nshift rows 1\n"),
    (b"check", TREFOIL + UNKNOT + b"certificate 3\ndifferent numbers table 2\n0 0\n1 1\nweight 3\n0 2\n1 0\nseeds 0 1\nnumbers 2 0 0\nseeds 0\nnumbers 2 0 0\n"),
    (b"check", TREFOIL + UNKNOT + b"certificate 3\ndifferent numbers dihedral 3\nseeds 0 1\nnumbers 9\nseeds 0\nnumbers 3\n"),
    (b"check", TREFOIL + UNKNOT + b"certificate 3\ndifferent numbers dihedral 3\nshadow mochizuki\nseeds 0 1\nnumbers 9 0 18\nseeds 0\nnumbers 9 0 0\n"),
    (b"weights", TREFOIL + UNKNOT + b"quandle trivial 2\nshadow 3\n0 0\n0 0\n0 0\n0 0\n"),
    (b"check", TREFOIL + UNKNOT + b"certificate 3\ndifferent linking\ncomponents 2\nnumbers -1 1\ncomponents 1\nnumbers\n"),
    (b"check", TABLE),
    (b"close", b"braid 3 1 -2 1\nquandle dihedral 3\nquandle tetrahedral\n"),
    (b"braid", TREFOIL + b"quandle dihedral 3\n"),
    *((job, GOOD[job]) for job in (b"linking", b"braidcheck", b"weights", b"numbers", b"grid")),
)
# Small ones, those about the limits, about what fits a byte, a word of 16 bits and nine digits, and what is none.
VALUES = (b"0", b"-0", b"1", b"-1", b"7", b"15", b"16", b"17", b"23", b"24", b"25", b"31", b"32", b"33", b"47", b"48", b"49", b"254", b"255", b"256",
          b"65535", b"65536", b"65537", b"999999999", b"1000000000", b"-999999999", b"-1000000000", b"4294967295", b"4294967296",
          b"18446744073709551616", b"00", b"+1", b"1.", b"a", b"")


def numbers_in_places():
    """Each number of an example in turn at its limits."""
    for job, text in EXAMPLES:
        for place, match in enumerate(re.finditer(rb"(?<= )-?\d+|(?<=\n)\d+", text)):
            for value in VALUES:
                yield limit(job, f"number {place} as {value.decode()}", text[:match.start()] + value + text[match.end():])


def limits():
    """All cases of this section."""
    for job in (job for job in jobs() if reader.JOBS[job][2] is not None):
        yield from bytes_at_limits(job, reader.JOBS[job][2])
    for part in (moves_at_limits, columns_at_limits, braids_at_limits, orders_at_limits, large_orders_at_limits, alexander_quandles, quandles_at_limits,
                 blocks_at_limits, seeds_at_limits, tables_that_end, lists_at_limits, numbers_in_places):
        yield from part()
