"""What tabulate.py writes of a sorted table for readers: a line for each class and one for each row."""
import csv
import io

from knot_workbench.tables.knots import SAME, SYMMETRIES, name_of
from lib.codes.entries import braid_text
from lib.sorting.keys import grid_of_form

COLUMNS = ("class", "name", "crossings", "pd_notation", "braid_notation", "x", "o", "diagrams", "symmetry", "mirror", "reverse", "mirror_reverse",
           "mirror_partner", "certified", "first")

# The type of a knot by whether it is its mirror image, its reverse, and the reverse of its mirror image.
TYPES = {(True, True, True): "fully amphicheiral", (True, False, False): "positive amphicheiral", (False, False, True): "negative amphicheiral",
         (False, True, False): "reversible", (False, False, False): "chiral"}


class Class:
    """A class: its first key, and of its rows how many there are, and the first of those with fewest crossings, with its code and its grid.

    `base` is the turn that makes this row's knot of the key. `turns` are those of it that aren't one knot, `symmetry` has for each turn whether
    it is the same, different or open, `parts` its name, and `braid` a braid of it.
    """

    def __init__(self, key):
        self.key, self.rows, self.crossings, self.first, self.code, self.line, self.base = key, 0, None, None, "", "", SAME
        self.turns, self.symmetry, self.parts, self.braid = [], {}, None, None

    def add(self, name, crossings, code, line, base):
        """Adds a row."""
        self.rows += 1
        if self.crossings is None or crossings < self.crossings:
            self.crossings, self.first, self.code, self.line, self.base = crossings, name, code, line, base

    def grid(self, turn=SAME):
        """The diagram that represents it, after a turn."""
        return self.base.then(turn).of(grid_of_form(self.key))

    @property
    def name(self):
        """The name that the table of knots has, or nothing."""
        return "" if self.parts is None else name_of(self.parts)

    @property
    def type(self):
        """The symmetry type, or `open`."""
        return TYPES.get(tuple({"same": True, "different": False}.get(self.symmetry.get(word)) for word, _ in SYMMETRIES), "open")

    def partner(self, number):
        """What the mirror image is: this class itself, its mirror image or the reverse of that; or `open`."""
        if "same" in (self.symmetry["mirror"], self.symmetry["mirror_reverse"]):
            return str(number)
        return "open" if "open" in (self.symmetry["mirror"], self.symmetry["mirror_reverse"]) else f"{number} mirrored"


def csv_text(rows):
    """Rows as a text with commas."""
    out = io.StringIO(newline="")
    csv.writer(out, lineterminator="\n").writerows(rows)
    return out.getvalue()


def marks(grid):
    """The two lines of a grid without their letters."""
    return " ".join(map(str, grid.xs)), " ".join(map(str, grid.os))


def table_text(standings):
    """The table of the classes, which are counted from 1. What certificates have of each is counted as there, from 0."""
    rows = [COLUMNS]
    for number, one in enumerate(standings.classes, 1):
        certified = ", ".join(f"{standings.place[number - 1, turn]}{turn.words}" for turn in one.turns)
        rows.append((number, one.name, one.crossings, one.code, braid_text(one.braid), *marks(one.grid()), one.rows, one.type,
                     *(one.symmetry[word] for word, _ in SYMMETRIES), one.partner(number), certified, one.first))
    return csv_text(rows)
