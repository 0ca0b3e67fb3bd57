"""A table of knots in a file: its rows, its columns by their titles, and what a title says that its column holds."""
import csv
import io
import re

from ..faults import Fault
from .entries import EntryError

# What the option --as says that each entry of a column is.
KINDS_BY_WORD = {"braid": "braid", "dt": "DT", "gauss": "Gauss", "pd": "PD"}

# Words of titles that say what a column holds. One that names a braid or arcs is believed, whatever else it has.
TITLE_OF_DIAGRAMS = re.compile("braid|arc", re.I)
TITLES_OF_CODES = (("Gauss", re.compile("gauss", re.I)), ("DT", re.compile(r"dowker|thistlethwaite|\bdt(?:code|notation)?s?\b", re.I)),
                   ("PD", re.compile(r"planar|\bpd(?:code|notation)?s?\b", re.I)))


class TableError(Fault):
    """The table as a whole can't be read."""


def delimiter_of(path, header):
    """Tabs for a file that says so or has them; else the first of | and ; that the header has, else commas."""
    if path.endswith((".tsv", ".tab")) or "\t" in header:
        return "\t"
    for mark in "|;":
        if mark in header:
            return mark
    return ","


def decoded(path, data):
    """The text of a file in UTF-8, without a byte order mark."""
    try:
        return data.decode("utf-8-sig")
    except UnicodeDecodeError as error:
        if data[:2] in (b"\xff\xfe", b"\xfe\xff"):
            raise TableError(f"{path}: the text is UTF-16, and not UTF-8: iconv -f UTF-16 -t UTF-8 turns it; Excel saves UTF-8 as 'CSV UTF-8'") from None
        line = data.count(b"\n", 0, error.start) + 1
        raise TableError(f"{path}:{line}: the text is not UTF-8: iconv -f LATIN1 -t UTF-8 may turn it; Excel saves UTF-8 as 'CSV UTF-8'") from None


def numbered_rows(path, data, delimiter):
    """The rows that aren't empty, each with the number of its first line and its fields."""
    text = decoded(path, data)
    delimiter = delimiter or delimiter_of(path, text.split("\n", 1)[0])
    reader = csv.reader(io.StringIO(text, newline=""), delimiter=delimiter, strict=True)
    line = 1
    try:
        for fields in reader:
            if any(field.strip() for field in fields):
                yield line, fields
            line = reader.line_num + 1
    except csv.Error as error:
        raise TableError(f"{path}:{line}: {error}") from None


def folded(title):
    """A title without its blanks and marks, in small letters: `Braid Notation` and `braid_notation` are one."""
    return re.sub(r"[\s_-]+", "", title).casefold()


def column_of(path, header, name):
    """The place of a column by its title, else by its title but for blanks, marks and capitals, else by its number from 1."""
    for same in (lambda title: title.strip() == name, lambda title: folded(title) == folded(name)):
        places = [place for place, title in enumerate(header) if same(title)]
        if len(places) > 1:
            raise TableError(f"{path}: {len(places)} columns are called '{name}'; give the number of one")
        if places:
            return places[0]
    if name.isdecimal() and 1 <= int(name) <= len(header):
        return int(name) - 1
    titles = ", ".join(f"'{title.strip()}'" for title in header)
    raise TableError(f"{path}: no column is called '{name}'; there are {titles}")


def code_of_title(title):
    """The code of crossings that a title says its column has, "PD", "DT" or "Gauss", or None."""
    if TITLE_OF_DIAGRAMS.search(title):
        return None
    # A capital after a small letter begins a word, as in GaussCode, and marks part words.
    words = re.sub(r"(?<=[a-z])(?=[A-Z])|(?<=[A-Z])(?=[A-Z][a-z])|[_\W]+", " ", title)
    return next((code for code, known in TITLES_OF_CODES if known.search(words)), None)


def column_of_diagrams(path, header):
    """The title of the only column that has diagrams by its title. Raises TableError where there is none, or more than one."""
    found = [title.strip() for title in header if TITLE_OF_DIAGRAMS.search(title) or code_of_title(title) in ("PD", "DT")]
    # Where a table has both, Gauss codes say less than the others.
    found = found or [title.strip() for title in header if code_of_title(title) == "Gauss"]
    if len(found) == 1:
        return found[0]
    if found:
        raise TableError(f"{path}: {len(found)} columns have diagrams by their titles, '" + "', '".join(found) + "': say which by --diagram")
    raise TableError(f"{path}: no column has diagrams by its title: say which has them by --diagram")


class Table:
    """The rows of a table, each with its line, by the columns that the options name."""

    def __init__(self, path, data, options):
        rows = list(numbered_rows(path, data, options.delimiter))
        if not rows:
            raise TableError(f"{path}: the table is empty")
        self.path = path
        # What was read of a column, for whoever reads it to keep.
        self.seen = {}
        header = rows[0][1]
        if options.no_header:
            header = [str(place) for place in range(1, len(header) + 1)]
        else:
            rows = rows[1:]
        self.rows = rows[options.skip_rows:]
        self.header, self.width = header, len(header)
        self.name = column_of(path, header, options.name or ("1" if options.no_header else "name"))
        self.diagram = column_of(path, header, options.diagram or column_of_diagrams(path, header))
        self.second = column_of(path, header, options.second) if options.second else None
        self.strands = column_of(path, header, options.strands) if options.strands else None
        self.reads = {column: options.as_kind or code_of_title(header[column]) for column in (self.diagram, self.second) if column is not None}

    def name_of(self, fields):
        """The name of a row, which may be empty."""
        return fields[self.name].strip() if self.name < len(fields) else ""

    def check_width(self, fields):
        """Refuses a row that has more fields or fewer than the header."""
        if len(fields) != self.width:
            hint = "; a field with commas needs quotes" if len(fields) > self.width else ""
            raise EntryError(f"the row has {len(fields)} fields, and the header {self.width}{hint}")

    def strands_of(self, fields):
        """The number of strands of a row, or None where its table doesn't say it."""
        text = fields[self.strands].strip() if self.strands is not None else ""
        if not text:
            return None
        if not re.fullmatch("[0-9]{1,9}", text):
            raise EntryError(f"the number of strands is '{text[:20]}'")
        return int(text)
