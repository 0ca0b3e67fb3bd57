"""Diagrams from other programs' links, and from tables of knots."""
import os
from types import SimpleNamespace
from typing import Any, List, Optional, Union

from .code_grids import Grids
from .diagrams import Grid
from .faults import Fault
from .identifying import table_of
from .jobs import from_pd
from .links import code_of_regina, code_of_sage, code_of_snappy
from .tables.entries import Conventions, EntryError, diagram_of
from .tables.rows import Table, TableError
from .texts import Lines, read_diagram


def from_sage(link: Any) -> Grid:
    """A grid of one of Sage's links. Errors as of `from_pd`."""
    return from_pd(*code_of_sage(link))


def from_regina(link: Any) -> Grid:
    """A grid of one of Regina's links. Errors as of `from_pd`."""
    return from_pd(*code_of_regina(link))


def from_snappy(link: Any) -> Grid:
    """A grid of one of SnapPy's links. Errors as of `from_pd`."""
    return from_pd(*code_of_snappy(link))


def from_table(path: Union[str, "os.PathLike[str]"], diagram: Optional[str] = None, name: Optional[str] = None, *, strands: Optional[str] = None,
               arcs: str = "columns", mirror: bool = False, reverse: bool = False, reads: Optional[str] = None, delimiter: Optional[str] = None,
               has_header: bool = True, skip_rows: int = 0, faults: Optional[List[Fault]] = None) -> Any:
    """The names and diagrams of a table of knots, a list of pairs; or a Grid of one knot by its name, as `from_table("8_19")`.

    A table is a CSV or TSV file whose column `diagram` has braid words, arc presentations, or PD, DT or Gauss codes. Where no column is named, the only
    one counts that has diagrams by its title. The names are in the column `name`: by default the one of this title, or the first where there is
    no header. The name of one knot is that of the table of prime knots to twelve crossings, as "10_132", "11n34", "3_1 mirrored" or "3_1 # 4_1":
    what is neither a path nor named with a column is taken for one.

    What an entry is, its column's title, its brackets or `reads` decide: "braid", "PD", "DT" or "Gauss". Codes are drawn by `knot grid`.
    Columns are named by their titles, or by their numbers from 1; the other words are those of tools/from_table.py. A row that can't be had
    is put into `faults` and left out where this list is given, and else raised as an EntryError. Raises TableError where the table as a whole
    can't be read, or has no knot of this name."""
    if not isinstance(path, (str, os.PathLike)):
        raise TableError(f"{path!r:.40} is neither the path of a table nor the name of a knot")
    if diagram is None and not os.path.exists(path) and not os.fspath(path).endswith((".csv", ".tsv", ".tab", ".txt")):
        return grid_named(os.fspath(path))
    try:
        with open(path, "rb") as file:
            data = file.read()
    except OSError as error:
        raise TableError(f"{os.fspath(path)}: {error.strerror}") from None
    words = SimpleNamespace(delimiter=delimiter, no_header=not has_header, skip_rows=skip_rows, name=name, diagram=diagram, second=None,
                            strands=strands, as_kind=reads)
    table = Table(os.fspath(path), data, words)
    conventions = Conventions(arcs, mirror, reverse, table.reads[table.diagram], Grids())
    found = []
    for line, fields in table.rows:
        try:
            table.check_width(fields)
            read = diagram_of(fields[table.diagram], table.strands_of(fields), conventions)
            found.append((table.name_of(fields), read_diagram(Lines(read.text))))
        except Fault as fault:
            named = EntryError(f"{os.fspath(path)}:{line}: {table.name_of(fields) or '(no name)'}: {fault}")
            if faults is None:
                raise named from None
            faults.append(named)
    return found


def grid_named(said: str) -> Grid:
    """The diagram of a knot of the default table by its name. Raises TableError."""
    table = table_of(None)
    parts = table.parts_of(said)
    if parts is None:
        raise TableError(f"'{said}' is no knot of {os.path.basename(table.path)}, and no file; a knot is named as 8_19, 11n34 or '3_1 mirrored'")
    return table.grid(parts)
