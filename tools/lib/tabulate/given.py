"""What tabulate.py is given: all diagrams to a number of crossings, a folder of diagrams, a table of codes, or lines of pieces.py."""
import hashlib
import os

from knot_workbench.code_grids import Grids
from knot_workbench.tables.entries import Conventions
from knot_workbench.tables.rows import TableError, decoded
from lib.codes.entries import code_text
from lib.sorting.lines import in_lines
from lib.tables.files import read_bytes
from lib.tables.given import TABLES, Given as Row, of_folder, of_table, text_of_given
from lib.tabulate.choices import diagrams_to

# The most crossings of which all diagrams are made.
MOST_CROSSINGS = 12


class GivenRows:
    """The rows of a call: each a name and a diagram, which is a planar diagram code as tables have it, or what lib.tables.given gives. `faults` has
    what is to be said of rows that can't be taken. `places` says where a name is."""

    def __init__(self, options):
        self.options, self.faults, self.places = options, [], {}
        self.most = int(options.what) if options.what.isascii() and options.what.isdigit() else None
        self.conventions = Conventions(options.arcs, False, False, options.as_kind, Grids(None))

    def read(self):
        """All rows, in order. TableError where the folder or the table can't be read."""
        if self.most is not None:
            return [(name, code_text(rows)) for name, rows in diagrams_to(self.most)]
        path = self.options.what
        given = of_table(path, self.options) if path.endswith(TABLES) else of_lines(path) if os.path.isfile(path) else of_folder(path)
        found, seen = [], {}
        for one in given:
            fault = name_fault(one.name, seen)
            seen.setdefault(one.name, one.place)
            self.places.setdefault(one.name, one.place)
            if fault:
                self.faults.append(f"{one.place}: {fault}")
            else:
                found.append((one.name, one))
        return found

    def digest(self, rows):
        """The SHA-256 of the rows."""
        if self.most is not None:
            return f"all to {self.most}"
        found = hashlib.sha256()
        for name, one in rows:
            found.update(f"{name}\t{text_of_given(one, self.conventions)}\n".encode())
        return found.hexdigest()


def of_lines(path):
    """The rows of a file of lines: a name, a tab and the lines of a diagram with ' / ' between, or an answer of pieces.py to such a line, which
    has the status of a program before its lines."""
    found = []
    for number, line in enumerate(decoded(path, read_bytes(path)).split("\n"), 1):
        line = line.rstrip("\r")
        if line.startswith("#") or not line.strip():
            continue
        name, *fields = line.split("\t")
        fault = None
        if len(fields) == 2 and fields[0] != "0":
            fault = f"the program ended with status {fields[0]}: {fields[1]}"
        elif len(fields) not in (1, 2):
            fault = f"a line has a name and a diagram, parted by a tab, and here are {len(fields) + 1} fields"
        found.append(Row(name, f"{path}:{number}", in_lines(fields[-1]) if fields else "", "file", fault=fault))
    if not found:
        raise TableError(f"{path}: it has no line")
    return found


def name_fault(name, seen):
    """Why a row can't have this name, or None; `seen` has the places of those before."""
    if not name.strip() or not name.isprintable() or name.startswith("#"):
        return "the row has no name that fits in a line"
    return f"the name '{name}' is at {seen[name]} too" if name in seen else None
