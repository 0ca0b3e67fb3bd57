"""What a caller hands in as a diagram: a Grid, a Braid, a text, or a link of another program."""
import re
from typing import Any

from .answers import reading
from .codes import Code
from .codes.kinds import kind_of_text
from .codes.planar import planar_text
from .codes.reading import code_in, read_text, without_comments
from .diagrams import Braid, Diagram, Grid
from .faults import BadDiagram, OverLimit
from .links import code_of_link
from .programs import answered
from .tables.entries import Conventions, diagram_of
from .texts import Lines, braid_fault, read_diagram, read_grid

WORD = re.compile(r"\s*[+-]?[0-9]+(?:[\s,]+[+-]?[0-9]+)*\s*")


def grid_by(text: str) -> Grid:
    """What the job `grid` of knot draws of a code."""
    lines = Lines(answered("knot", ["grid"], text).text)
    with reading("knot grid"):
        grid = read_grid(lines)
        lines.done()
    return grid


def diagram(given: Any) -> Diagram:
    """A diagram of what was given:

    - a Grid or a Braid
    - a text: a grid or a braid as the programs read it; a braid's strands and letters, as "2 1 1 1"; its letters alone in brackets, as
      "{1,1,1}"; an arc presentation, as "{{5,3},{4,2},..}"; or a PD, DT or Gauss code
    - a Code, or a link of Regina, SnapPy or Sage

    Raises BadDiagram where it is nothing of these; BadText, BadCode, EntryError where a text can't be read; OverLimit where a braid has more
    strands or letters than the programs take; and what `from_pd` raises, where a code is drawn."""
    if isinstance(given, Braid):
        fault = braid_fault(given)
        if fault:
            raise OverLimit(fault, f"strands {given.strands}" if "strands" in fault else f"columns {len(given.letters) + 2 * given.strands}")
        return given
    if isinstance(given, Grid):
        return given
    if isinstance(given, Code):
        return grid_by(given.text)
    if isinstance(given, str):
        return diagram_of_text(given)
    code = code_of_link(given)
    if code is not None:
        return grid_by(planar_text(*code))
    raise BadDiagram(f"{given!r:.40} is no diagram: give a Grid, a Braid, a text, or a link of Regina, SnapPy or Sage; lists go through "
                     "Braid, Grid, from_pd, from_dt or from_gauss")


def diagram_of_text(text: str) -> Diagram:
    """The diagram of a text. Raises BadText, BadCode, BadDiagram, EntryError."""
    if not text.strip():
        raise BadDiagram("the text of a diagram is empty")
    if WORD.fullmatch(text):
        return diagram(Braid(text))
    first = next((line.split() for line in text.splitlines() if line.strip() and not line.lstrip().startswith("#")), [""])[0]
    if first in ("x", "braid"):
        lines = Lines(text)
        found = read_diagram(lines)
        lines.done()
        return found
    text = without_comments(text)
    if kind_of_text(text)[0]:
        return grid_by(read_text(text).text)
    if text.lstrip()[:1] in "[{(":
        return diagram_of_list(text)
    raise BadDiagram(f"'{' '.join(text.split())[:40]}' is no diagram: give its strands and letters as '2 1 1 1', lines 'x' and 'o', a line 'braid', "
                     "or a PD, DT or Gauss code; from_table takes the name of a knot")


def diagram_of_list(text: str) -> Diagram:
    """The diagram of a list in brackets: a code by its numbers, an arc presentation, or the letters of a braid. Raises BadCode, EntryError."""
    code = code_in(text, "code")
    if code:
        return grid_by(code.text)
    return read_diagram(Lines(diagram_of(text, None, Conventions("columns", False, False, "braid", None)).text))
