"""Entries of a table of knots as diagrams: braid words, arc presentations, and PD, DT and Gauss codes. codes/kinds.py says which is which."""
import collections

from ..code_grids import NoGrid
from ..codes.brackets import are_numbers, nested
from ..codes.reading import code_in
from ..diagrams import MAX_STRANDS
from ..faults import BadCode, Fault

MAX_COLUMNS = 48


class EntryError(Fault):
    """An entry of the table can't be had as a diagram."""


# How the entries of one column are read. reads: what each entry is, "braid", "PD", "DT" or "Gauss", or None. grids: makes grids of PD codes.
Conventions = collections.namedtuple("Conventions", "arcs mirror reverse reads grids")

# The text of a diagram; remarks on how it was read; warnings, where it may not be what was meant; and the code that it was, a CodeOf, or None.
Read = collections.namedtuple("Read", "text remarks warnings code", defaults=(None,))


def diagram_of(entry, strands, conventions):
    """The diagram that an entry means, a Read; `strands` is what a column of strands says, or None."""
    try:
        code = code_in(entry, conventions.reads)
        return drawn(code, conventions) if code else word_or_arcs(nested(entry), strands, conventions)
    except (BadCode, NoGrid) as fault:
        raise EntryError(str(fault)) from None


def word_or_arcs(value, strands, conventions):
    """The diagram of a list that is no code."""
    if are_numbers(value):
        return read_braid_word(value, strands, conventions)
    if len(value) == 2 and isinstance(value[0], int) and isinstance(value[1], list) and are_numbers(value[1]):
        if strands is not None and strands != value[0]:
            raise EntryError(f"the entry has {value[0]} strands, and the column of strands {strands}")
        return read_braid_word(value[1], value[0], conventions)
    if are_pairs(value):
        return arcs_of(value, conventions)
    raise EntryError("the entry is neither a braid word, a list of pairs, nor a PD, DT or Gauss code")


def are_pairs(items):
    """Whether these are one or more lists of two numbers each."""
    return bool(items) and all(isinstance(item, list) and len(item) == 2 and are_numbers(item) for item in items)


# --- codes


def drawn(code, conventions):
    """The grid that `knot grid` draws of a code."""
    xs, os_ = conventions.grids.of(code.text)
    return read_columns(list(zip(xs, os_)), [remark_on(code)], conventions)._replace(code=code)


def remark_on(code):
    """How the grid of a code was had."""
    if code.kind == "PD":
        return "by `knot grid`, of a PD code"
    made = f"by `knot grid`, of a PD code made of a {code.kind} code"
    if code.parts > 1:
        return f"{made}, in which each of {code.parts} parts may be mirrored"
    return f"{made}, which the mirror image has too" if code.parts else made


def read_columns(columns, remarks, conventions):
    """The two lines of a grid whose columns run from the row of their X to that of their O."""
    if conventions.mirror:
        columns = [(len(columns) - 1 - tail, len(columns) - 1 - head) for tail, head in columns]
    if conventions.reverse:
        columns = [(head, tail) for tail, head in columns]
    xs = " ".join(str(tail) for tail, _ in columns)
    os_ = " ".join(str(head) for _, head in columns)
    return Read(f"x {xs}\no {os_}\n", remarks, [])


# --- braid words


def read_braid_word(letters, strands, conventions):
    """The line `braid` of a word."""
    if strands is None:
        strands = max((abs(letter) for letter in letters), default=0) + 1
    if strands < 1:
        raise EntryError("a braid has one strand or more")
    if strands > MAX_STRANDS:
        raise EntryError(f"{strands} strands, and a braid has at most {MAX_STRANDS}")
    for place, letter in enumerate(letters, 1):
        if not 1 <= abs(letter) < strands:
            raise EntryError(f"letter {place} is {letter}, and {strands} strands have the letters 1 to {strands - 1} and their negatives"
                             if strands > 1 else f"letter {place} is {letter}, and one strand has no letters")
    columns = len(letters) + 2 * strands
    if columns > MAX_COLUMNS:
        raise EntryError(f"{len(letters)} letters on {strands} strands make {columns} columns, and a grid has at most {MAX_COLUMNS}")
    if conventions.mirror:
        letters = [-letter for letter in letters]
    if conventions.reverse:
        letters = letters[::-1]
    return Read(" ".join(["braid", str(strands), *map(str, letters)]) + "\n", [], missing_letters(letters, strands))


def missing_letters(letters, strands):
    """A warning where a word leaves letters out. No strand crosses over at these, so the closure is split."""
    missing = sorted(set(range(1, strands)) - set(map(abs, letters)))
    if not letters or not missing:
        return []
    which = "letter " + str(missing[0]) + " is" if len(missing) == 1 else "letters " + ", ".join(map(str, missing)) + " are"
    return [f"{which} missing, so the closure is split"]


# --- arc presentations


def arcs_of(pairs, conventions):
    """The two lines of the grid of an arc presentation."""
    size = len(pairs)
    if size > MAX_COLUMNS:
        raise EntryError(f"{size} pairs, and a grid has at most {MAX_COLUMNS} columns")
    if size < 2:
        raise EntryError("one pair alone, and a grid has two columns or more")
    pairs = from_zero(pairs)
    pairs, turned = oriented(pairs)
    remarks = []
    if turned:
        remarks.append("turned, so that each row has one X and one O: pair " + ", ".join(str(pair + 1) for pair in turned))
    if conventions.arcs == "rows":
        pairs = columns_of_rows(pairs)
    return read_columns(pairs, remarks, conventions)


def from_zero(pairs):
    """The pairs with numbers from 0. They may be written from 1, as is usual, or from 0: each number comes twice."""
    size = len(pairs)
    counts = {}
    for place, (tail, head) in enumerate(pairs, 1):
        if tail == head:
            raise EntryError(f"pair {place} has the number {tail} twice")
        for number in (tail, head):
            counts[number] = counts.get(number, 0) + 1
    first = 0 if 0 in counts else 1
    for number in sorted(counts):
        if not first <= number < first + size:
            raise EntryError(f"the number {number} is in a pair, and {size} pairs have the numbers {first} to {first + size - 1}")
        if counts[number] != 2:
            raise EntryError(f"the number {number} comes {counts[number]} times, and not twice")
    missing = [number for number in range(first, first + size) if number not in counts]
    if missing:
        raise EntryError(f"the number {missing[0]} is missing")
    return [(tail - first, head - first) for tail, head in pairs]


def oriented(pairs):
    """The pairs turned so that along each component the second number of a pair is the first of the next, and which were turned.

    Each component runs as the first of its pairs is written.
    """
    places = {}
    for place, pair in enumerate(pairs):
        for number in pair:
            places.setdefault(number, []).append(place)
    done = [None] * len(pairs)
    for start, pair in enumerate(pairs):
        place, (tail, head) = start, pair
        while done[place] is None:
            done[place] = (tail, head)
            other, = (another for another in places[head] if another != place)
            place, tail = other, head
            head = pairs[place][1] if pairs[place][0] == tail else pairs[place][0]
    return done, [place for place, pair in enumerate(pairs) if done[place] != tuple(pair)]


def columns_of_rows(pairs):
    """The columns of a diagram given by its rows: row r runs from its first column to its second.

    Rows run from O to X and columns from X to O. So the column in which a row ends has its X there, and that in which it begins its O.
    """
    xs = [None] * len(pairs)
    os_ = [None] * len(pairs)
    for row, (tail, head) in enumerate(pairs):
        os_[tail] = row
        xs[head] = row
    return list(zip(xs, os_))
