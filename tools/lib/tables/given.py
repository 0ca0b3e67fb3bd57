"""Diagrams that a script is given: single ones, and those of folders and tables. No row is lost: one that can't be had says why."""
import collections
import os
import re

from knot_workbench.codes.reading import read_text
from knot_workbench.faults import Fault
from knot_workbench.tables.entries import EntryError, diagram_of
from knot_workbench.tables.rows import Table, TableError, column_of, decoded
from knot_workbench.texts import Lines, read_diagram
from lib.calls.calls import reason_of
from lib.tables.files import read_bytes

TABLES = (".csv", ".tsv", ".tab")

# name: of the file or the row. place: where it is, for messages. entry: its text. kind: how it is read: "file", "braid", "PD", "DT", "Gauss",
# or None for a table's entry without a title that says it. strands: what a column of strands says. expected: the name that the table has for it.
# fault: why it can't be had, or None.
Given = collections.namedtuple("Given", "name place entry kind strands expected fault", defaults=(None, None, None, None, None))

# A diagram; and the kind of code that it was had of, "DT" or "Gauss", if its mirror image has the code too, or None.
Had = collections.namedtuple("Had", "diagram unsigned")

# What is said of a file with several codes.
HINT = "; several lines of the file are codes of their own: make it a table with a line for each (docs/GUIDE.md, Many codes)"


# --- one diagram


def had(given, conventions):
    """The diagram that was given. Raises Fault where it can't be had."""
    if given.fault is not None:
        raise Fault(given.fault)
    if given.kind == "file":
        return of_text(given.entry, conventions)
    if not given.entry.strip():
        raise Fault("there is no diagram: the entry is empty")
    return of_entry(given.entry, given.strands, conventions._replace(reads=given.kind))


def of_text(text, conventions):
    """The diagram of a file's text: a grid or a braid as knot reads it, or a code."""
    lines = Lines(text)
    first = lines.peek()
    if first is None:
        raise Fault("there is no diagram: the file is empty")
    if first in ("x", "braid"):
        diagram = read_diagram(lines)
        lines.done()
        return Had(diagram, None)
    kept = [line for line in text.splitlines() if not line.lstrip().startswith("#")]
    try:
        return of_entry("\n".join(kept), None, conventions)
    except EntryError as fault:
        raise Fault(f"{fault}{HINT}" if sum(map(is_code, kept)) > 1 else str(fault)) from None


def is_code(line):
    """Whether a line is a whole code: of a PD code each edge comes twice in it."""
    try:
        edges = collections.Counter(edge for row in read_text(line).rows for edge in row)
    except Fault:
        return False
    return set(edges.values()) == {2}


def of_entry(entry, strands, conventions):
    """The diagram of a table's entry."""
    read = diagram_of(entry, strands, conventions)
    return Had(read_diagram(Lines(read.text)), read.code.kind if read.code and read.code.parts else None)


# --- many


def of_folder(folder):
    """The files NAME.txt of a folder, each with one diagram, by their names. TableError where the folder can't be read or has none."""
    try:
        files = sorted(name for name in os.listdir(folder) if name.endswith(".txt") and not name.startswith("."))
    except OSError as error:
        raise TableError(reason_of(error)) from None
    if not files:
        raise TableError(f"{folder}: it has no file NAME.txt")
    return [of_file(os.path.join(folder, file)) for file in files]


def of_file(path):
    """A file with one diagram, or for `-` standard input."""
    name = "standard input" if path == "-" else re.sub(r"\.txt$", "", os.path.basename(path))
    try:
        return Given(name, path, decoded(path, read_bytes(path)), "file")
    except TableError as error:
        return Given(name, path, "", "file", fault=str(error))


def of_table(path, options):
    """The rows of a table. TableError where the table or a column can't be read."""
    table = Table(path, read_bytes(path), options)
    expected = column_of(path, table.header, options.expect) if options.expect else None
    found = []
    for line, fields in table.rows:
        fault, strands = None, None
        try:
            table.check_width(fields)
            strands = table.strands_of(fields)
        except Fault as error:
            fault = str(error)
        entry = fields[table.diagram] if table.diagram < len(fields) else ""
        found.append(Given(table.name_of(fields) or f"line {line}", f"{path}:{line}", entry, table.reads[table.diagram], strands,
                           fields[expected].strip() if expected is not None and expected < len(fields) else None, fault))
    return found


def text_of_given(given, conventions):
    """All that decides what a diagram is: its entry, and how it is read."""
    reads = (conventions.reads,) if given.kind == "file" and conventions.reads else ()
    return repr((given.entry, given.kind, given.strands, given.expected, conventions.arcs, conventions.mirror, conventions.reverse, *reads))
