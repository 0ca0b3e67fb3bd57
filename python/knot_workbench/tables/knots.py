"""Tables of knots: names, diagrams, rows of numbers and kinds of symmetry, and how a row is looked up.

A table NAME.csv has a line for each knot. Beside it are NAME.numbers.txt, its rows of numbers, and perhaps NAME.symmetry.csv. docs/FORMATS.md
and `tools/knot_table.py --help` have their forms. A knot of the table has four *turns*: as it is, mirrored, reversed, or both. Rows of the
first two are listed, and those of the other two are these with negative weights.
"""
import csv
import hashlib
import os
import re
import threading
from functools import reduce
from typing import Dict, Iterable, Iterator, List, NamedTuple, Optional, Sequence, Tuple

from ..diagrams import Grid, diagram_text
from ..faults import BadDiagram
from ..sums import sum_of_grids
from .numbers import (Block, Row, RowCounts, blocks_of, counts_of, counts_of_sum, may_be_one, of_sum, opposite, row_in,
                      text_of_row)
from .rows import TableError

UNKNOT = Grid((0, 1), (1, 0))

# The most crossings that the parts of a sum have in all.
SUM_CROSSINGS = 12

# An arc presentation as the tables have it: for each column the rows of its X and its O, from 1.
ARCS = re.compile(r"\{\{[0-9]{1,3},[0-9]{1,3}\}(,\{[0-9]{1,3},[0-9]{1,3}\})+\}")

HERE = os.path.dirname(os.path.dirname(os.path.realpath(__file__)))
REMAKE = "make it anew by tools/knot_table.py"


class Turn(NamedTuple):
    """Whether a diagram is mirrored, and whether it is run through backwards."""

    is_mirrored: bool = False
    is_reversed: bool = False

    @property
    def words(self) -> str:
        """What is after a name."""
        return " mirrored" * self.is_mirrored + " reversed" * self.is_reversed

    def of(self, grid: Grid) -> Grid:
        """A grid after the turn."""
        grid = grid.mirror() if self.is_mirrored else grid
        return grid.reverse() if self.is_reversed else grid

    def then(self, other: "Turn") -> "Turn":
        """This turn and then another one."""
        return Turn(self.is_mirrored != other.is_mirrored, self.is_reversed != other.is_reversed)


SAME, MIRRORED, REVERSED, BOTH = TURNS = (Turn(), Turn(True), Turn(False, True), Turn(True, True))

# The columns of a file of symmetries.
SYMMETRIES = (("mirror", MIRRORED), ("reverse", REVERSED), ("mirror_reverse", BOTH))


class TableKnot(NamedTuple):
    """A knot of a table: its name and another one, how many crossings it has, a grid, and the turns that are known to leave it the same, or not."""

    name: str
    other_name: str
    crossings: int
    grid: Grid
    same: Tuple[Turn, ...]
    different: Tuple[Turn, ...]

    def turns(self) -> List[Turn]:
        """Turns that aren't known to make one knot, the first ones first."""
        found: List[Turn] = []
        for turn in TURNS:
            if not any(turn.then(other) in (SAME, *self.same) for other in found):
                found.append(turn)
        return found


# The parts of a sum, or one alone: each a name and a turn. The unknot has none.
Parts = Tuple[Tuple[str, Turn], ...]


def name_of(parts: Parts) -> str:
    """The name of a knot, a sum or the unknot."""
    return " # ".join(name + turn.words for name, turn in parts) or "unknot"


def data_folder(name: str) -> Optional[str]:
    """The folder of this name in the tree that this module is in, or in the prefix that it is installed in; None where there is none."""
    places = [os.path.join(os.path.dirname(os.path.dirname(HERE)), name)]
    above = HERE
    while os.path.dirname(above) != above:
        above, folder = os.path.split(above)
        if folder == "lib":
            places.append(os.path.join(above, "share", "knot-workbench", name))
    return next((place for place in places if os.path.isdir(place)), None)


def default_table() -> str:
    """The path of the table to twelve crossings. Raises TableError where there is none."""
    folder = data_folder("tables")
    if folder is None:
        raise TableError("there is no folder tables/ beside this module: name a table")
    return os.path.join(folder, "prime-knots-to-12.csv")


def default_list() -> str:
    """The path of the list of quandles by which rows are counted. Raises TableError where there is none."""
    folder = data_folder("tables")
    if folder is None:
        raise TableError("there is no folder tables/ beside this module, by whose list rows are counted")
    return os.path.join(folder, "list.txt")


def larger_quandles() -> List[str]:
    """The files of quandles of more than 32 colours. Raises TableError where there are none."""
    folder = data_folder("quandles")
    if folder is None:
        raise TableError("there is no folder quandles/ beside this module, with larger quandles")
    return sorted(os.path.join(folder, "larger", name) for name in os.listdir(os.path.join(folder, "larger")) if name.endswith(".txt"))


def text_digest(text: str) -> str:
    """The SHA-256 of a text."""
    return hashlib.sha256(text.encode()).hexdigest()


def text_in(path: str) -> str:
    """The text of a file. Raises TableError."""
    try:
        with open(path, encoding="utf-8", newline="") as source:
            return source.read()
    except OSError as error:
        raise TableError(f"{path}: {error.strerror}") from None
    except UnicodeDecodeError as error:
        raise TableError(f"{path}: not UTF-8 at byte {error.start}") from None


def beside(path: str, ending: str) -> str:
    """The path of a file that belongs to a table."""
    return (path[:-4] if path.endswith(".csv") else path) + ending


# Reading

def records(path: str, text: str, columns: Sequence[str]) -> Iterator[Tuple[int, Dict[str, str]]]:
    """The rows of a table with the numbers of their lines. Raises TableError where a column is missing, or a row has another width."""
    reader = csv.reader(text.splitlines(keepends=True), strict=True)
    line, header = 1, None
    try:
        for fields in reader:
            if header is None:
                header = fields
                missing = [column for column in columns if column not in header]
                if missing:
                    raise TableError(f"{path}: no column is called '{missing[0]}'")
            elif len(fields) != len(header):
                raise TableError(f"{path}:{line}: the row has {len(fields)} fields, and the header {len(header)}: the table was cut or changed")
            else:
                yield line, dict(zip(header, fields))
            line = reader.line_num + 1
    except csv.Error as error:
        raise TableError(f"{path}:{line}: {error}: the table was cut or changed") from None
    if header is None:
        raise TableError(f"{path}: the table is empty")


def grid_of_arcs(path: str, line: int, entry: str) -> Grid:
    """The grid of an arc presentation, whose numbers count from 1. Raises TableError."""
    if not ARCS.fullmatch(entry):
        raise TableError(f"{path}:{line}: the arc presentation can't be read")
    numbers = [int(number) - 1 for number in re.findall("[0-9]+", entry)]
    try:
        return Grid(numbers[::2], numbers[1::2])
    except BadDiagram as error:
        raise TableError(f"{path}:{line}: the arc presentation is none: {error}") from None


def read_knots(path: str) -> Dict[str, TableKnot]:
    """The knots of a table by their names. Raises TableError."""
    known = read_symmetries(beside(path, ".symmetry.csv"))
    found: Dict[str, TableKnot] = {}
    for line, row in records(path, text_in(path), ("name", "crossings", "arc_notation")):
        name = row["name"]
        if not name or name in found:
            raise TableError(f"{path}:{line}: " + (f"'{name}' is there twice" if name else "the row has no name"))
        if not re.fullmatch("[0-9]{1,3}", row["crossings"]):
            raise TableError(f"{path}:{line}: '{row['crossings'][:20]}' is no number of crossings")
        same, different = known.get(name, ((), ()))
        found[name] = TableKnot(name, row.get("dt_name", ""), int(row["crossings"]), grid_of_arcs(path, line, row["arc_notation"]), same, different)
    return found


def read_symmetries(path: str) -> Dict[str, Tuple[Tuple[Turn, ...], Tuple[Turn, ...]]]:
    """The turns that leave a knot the same, and those that don't, by names; none where there is no such file. Raises TableError."""
    found: Dict[str, Tuple[Tuple[Turn, ...], Tuple[Turn, ...]]] = {}
    if not os.path.exists(path):
        return found
    for line, row in records(path, text_in(path), ("name", *(column for column, _ in SYMMETRIES))):
        said = {turn: row[column].partition(" ")[0] for column, turn in SYMMETRIES}
        if not set(said.values()) <= {"equal", "different", "open"}:
            raise TableError(f"{path}:{line}: a symmetry is 'equal', 'different' or 'open'")
        same, different = (tuple(turn for turn in said if said[turn] == word) for word in ("equal", "different"))
        if len(same) == 2 or len(same) == len(different) == 1:
            raise TableError(f"{path}:{line}: two symmetries show the third, and here it is another one: the table was changed")
        found[row["name"]] = same, different
    return found


def require_symmetries(path: str, knots: Iterable[str]) -> None:
    """Raises TableError where there is a file of symmetries that lacks a knot of its table."""
    symmetries = beside(path, ".symmetry.csv")
    known = read_symmetries(symmetries)
    missing = next((name for name in knots if name not in known), None) if os.path.exists(symmetries) else None
    if missing:
        raise TableError(f"{symmetries}: {missing} of {path} is missing: the table was cut or changed")


def rows_text(of_list: str, knots: Iterable[Tuple[TableKnot, str, str]]) -> str:
    """The file of the rows of a table: a list's text, and knots with the texts of their two rows."""
    lines = [f"{knot.name},{text_digest(diagram_text(knot.grid))},{row},{mirrored}\n" for knot, row, mirrored in knots]
    text = f"list {text_digest(of_list)}\nknots {len(lines)}\n" + "".join(lines)
    return text + f"end {text_digest(text)}\n"


def read_rows(path: str, table: str, knots: Dict[str, TableKnot], listed: str, list_path: str) -> Dict[str, Tuple[str, str]]:
    """The texts of the two rows of each knot. Raises TableError where the file isn't whole, or belongs to another list or other diagrams."""
    text = text_in(path)
    body, mark, end = text.rpartition("end ")
    if not mark or end != text_digest(body) + "\n":
        raise TableError(f"{path}: the file was cut or changed: {REMAKE}")
    lines = body.splitlines()
    if lines[0] != f"list {text_digest(listed)}":
        raise TableError(f"{path}: the rows were counted by another list than {list_path}: {REMAKE}")
    found = {}
    for line in lines[2:]:
        name, said, row, mirrored = line.split(",")
        if name not in knots:
            raise TableError(f"{table}: {name} is missing, which {path} has: the table was cut or changed")
        if said != text_digest(diagram_text(knots[name].grid)):
            raise TableError(f"{table}: the diagram of {name} isn't the one whose numbers {path} has: the table was changed")
        found[name] = row, mirrored
    missing = next((name for name in knots if name not in found), None)
    if missing:
        raise TableError(f"{path}: {missing} of {table} has no row: {REMAKE}")
    return found


# Looking up

class KnotTable:
    """A table with its rows. Raises TableError where a file is missing, was cut or changed, or doesn't belong to the others; symmetries may be
    missing with `is_partial`."""

    def __init__(self, path: Optional[str] = None, listed: Optional[str] = None, *, is_partial: bool = False) -> None:
        self.path = path or default_table()
        list_path = listed or default_list()
        self.listed = text_in(list_path)
        self.blocks: List[Block] = blocks_of(self.listed)
        self.knots = read_knots(self.path)
        if not is_partial:
            require_symmetries(self.path, self.knots)
        self.rows = read_rows(beside(self.path, ".numbers.txt"), self.path, self.knots, self.listed, list_path)
        self.digest = text_digest("".join(f"{name} {texts}" for name, texts in self.rows.items()))
        self.by_row: Dict[str, List[Tuple[str, bool]]] = {}
        self.wide: List[str] = []
        for name, texts in self.rows.items():
            if any("?" in text for text in texts):
                self.wide.append(name)
            for text, is_mirrored in zip(texts, (False, True)):
                self.by_row.setdefault(text, []).append((name, is_mirrored))
        self.order = {name: place for place, name in enumerate(self.knots)}
        self._known: Dict[Tuple[str, bool], Row] = {}
        self._lock = threading.Lock()
        self._sums: Optional[Dict[RowCounts, List[Parts]]] = None
        self._wide_sums: List[RowCounts] = []

    def row(self, name: str, turn: Turn = SAME) -> Row:
        """The row of a knot after a turn."""
        is_second = turn.is_mirrored != turn.is_reversed
        if (name, is_second) not in self._known:
            self._known[name, is_second] = row_in(self.rows[name][is_second], self.blocks)
        row = self._known[name, is_second]
        return opposite(row, self.blocks) if turn.is_reversed else row

    def candidates(self, row: Row) -> List[Parts]:
        """The unknot, the knots of the table and the sums of some, in this order, as far as a row doesn't distinguish them from its own."""
        unknot: List[Parts] = [()] if may_be_one(row, [block.unknot for block in self.blocks]) else []
        return [*unknot, *self.prime_candidates(row), *self.sum_candidates(row)]

    def prime_candidates(self, row: Row) -> List[Parts]:
        """The knots of the table, as `candidates`, by their order there; of turns that are known to make one knot the first."""
        if None in row:
            found = {(name, turn) for name in self.knots for turn in TURNS if may_be_one(row, self.row(name, turn))}
        else:
            found = set()
            for is_reversed in (False, True):
                text = text_of_row(opposite(row, self.blocks) if is_reversed else row, self.blocks)
                # A reverse has the row of the mirror image with negative weights.
                found |= {(name, Turn(is_mirrored != is_reversed, is_reversed)) for name, is_mirrored in self.by_row.get(text, ())}
            found |= {(name, turn) for name in self.wide for turn in TURNS if may_be_one(row, self.row(name, turn))}
        names = sorted({name for name, _ in found}, key=self.order.__getitem__)
        return [((name, turn),) for name in names for turn in self.knots[name].turns() if (name, turn) in found]

    def sum_candidates(self, row: Row) -> List[Parts]:
        """The sums of knots of the table of at most twelve crossings in all, as `candidates`."""
        counts, sums = counts_of(row), self.sums_by_counts()
        near = list(sums.get(counts, []))
        for key in sums if None in counts else self._wide_sums:
            if key != counts and may_be_one(counts, key):
                near += sums[key]
        return [parts for parts in near if may_be_one(row, self.sum_row(parts))]

    def sum_row(self, parts: Parts) -> Row:
        """The row of a sum, or of one knot alone."""
        rows = [self.row(name, turn) for name, turn in parts]
        return reduce(lambda one, other: of_sum(one, other, self.blocks), rows)

    def sums_by_counts(self) -> Dict[RowCounts, List[Parts]]:
        """The sums by their counts, made once, also where several threads ask for them."""
        with self._lock:
            if self._sums is None:
                found: Dict[RowCounts, List[Parts]] = {}
                for parts, counts in self.all_sums():
                    found.setdefault(counts, []).append(parts)
                self._sums, self._wide_sums = found, [counts for counts in found if None in counts]
            return self._sums

    def all_sums(self) -> Iterator[Tuple[Parts, RowCounts]]:
        """All sums of at most twelve crossings in all, each once, with their counts."""
        least = min((knot.crossings for knot in self.knots.values()), default=SUM_CROSSINGS)
        summands = [(knot.crossings, (name, turn), counts_of(self.row(name, turn))) for name, knot in self.knots.items()
                    if knot.crossings + least <= SUM_CROSSINGS for turn in knot.turns()]

        def longer(parts: Parts, counts: Optional[RowCounts], begin: int, left: int) -> Iterator[Tuple[Parts, RowCounts]]:
            for place in range(begin, len(summands)):
                crossings, part, more = summands[place]
                if crossings <= left:
                    whole = more if counts is None else counts_of_sum(counts, more, self.blocks)
                    if counts is not None:
                        yield (*parts, part), whole
                    if crossings + least <= left:
                        yield from longer((*parts, part), whole, place, left - crossings)

        yield from longer((), None, 0, SUM_CROSSINGS)

    def grid(self, parts: Parts) -> Grid:
        """The diagram of a knot of the table after its turn, of a sum, or of the unknot."""
        grids = [turn.of(self.knots[name].grid) for name, turn in parts]
        return reduce(sum_of_grids, grids) if grids else UNKNOT

    def parts_of(self, said: str) -> Optional[Parts]:
        """The parts that a name means, as `10_132`, `K11n34`, `m3_1`, `3_1 mirrored # 4_1`, or () for the unknot; None where it means none.

        Another spelling of a name, or its other name, will do."""
        if folded_name(said) in ("unknot", "0_1", "01", "0"):
            return ()
        names = {folded_name(one): knot.name for knot in self.knots.values() for one in (knot.other_name, knot.name) if one}
        found = []
        for part in said.split("#"):
            words = part.split()
            turn = Turn("mirrored" in words or "mirror" in words, "reversed" in words or "reverse" in words)
            core = "".join(word for word in words if word not in ("mirrored", "mirror", "reversed", "reverse"))
            if folded_name(core) not in names and core[:1] in "mr" and core[1:]:
                turn, core = turn.then(Turn(core[0] == "m", core[0] == "r")), core[1:]
            if folded_name(core) not in names:
                return None
            found.append((names[folded_name(core)], self.first_turn(names[folded_name(core)], turn)))
        return tuple(sorted(found, key=lambda part: (self.order[part[0]], part[1])))

    def first_turn(self, name: str, turn: Turn) -> Turn:
        """Of the turns that are known to make the same of a knot as this one the first."""
        return next(first for first in self.knots[name].turns() if first.then(turn) in (SAME, *self.knots[name].same))


def folded_name(name: str) -> str:
    """A name without its marks, in small letters, and without a K in front: `K11n_34` and `11n34` are one, `10_132` and `10132` are not."""
    small = re.sub(r"[\s()]+", "", name).casefold().removeprefix("k")
    return re.sub(r"(?<=[an])_", "", small)
