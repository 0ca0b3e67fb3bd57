"""Knots and links as grid diagrams: whether two are the same, with evidence that a checker rules on.

    >>> from knot_workbench import Braid, Grid, seek
    >>> found = seek(Braid(2, [1, 1, 1]), Grid([4, 3, 2, 1, 0], [1, 0, 4, 3, 2]))
    >>> found.is_equal, found.check()
    (True, True)

Calls take a Grid, a Braid, a text such as "2 1 1 1", or a link of Regina, SnapPy or Sage; the docstring of `diagram` lists all forms.

The calls run the built programs knot and seek: those that `use` or the variables KNOT and SEEK name, or else those in this module's tree or
prefix, or on PATH. Nothing in this module is proved: a certificate's `check` asks the checker.

Diagrams      Grid, Braid, diagram, from_pd, from_dt, from_gauss, from_code, from_table, from_sage, from_regina, from_snappy
Quandles      quandle, Quandle, cocycle, Cocycle, ShadowCocycle, built_in_list
Searches      seek, decide, which return a Certificate, or else None (seek) or an Unknown (decide)
One diagram   colour, numbers, code, simplify, least, braid_word, replay
Two diagrams  linking, weights
Certificates  Certificate, check
Which knot    identify, by a KnotTable; invariants, which are no evidence; census, which sorts a folder of diagrams into classes
Pictures      draw, page; in a notebook diagrams and certificates show themselves
Errors        each one is a Fault; the module faults has them all

It needs Python 3.9 or later and nothing else.
"""
import sys

if sys.version_info < (3, 9):
    raise ImportError("knot_workbench needs Python 3.9 or later, and this is Python %d.%d" % sys.version_info[:2])

from .certificates import Certificate, Counted, Different, DifferentLinking, DifferentNumbers, Equal, Linked, Unknown, check
from .cocycles import Cocycle, ShadowCocycle
from .codes import Code, read_code
from .diagrams import Braid, Diagram, Grid, Move
from .drawing import draw
from .faults import (BadAnswer, BadCode, BadDiagram, BadText, Failed, Fault, Illegal, Malformed, NoFile, NoJob, NoProgram, OverLimit, Rejected,
                     TimedOut, Wide)
from .given import diagram
from .identifying import Identified, identify
from .jobs import (Colourings, Compared, Least, Numbers, Replayed, Simplified, braid_word, cocycle, code, colour, decide, from_code, from_dt,
                   from_gauss, from_pd, least, linking, numbers, quandle, replay, seek, simplify, weights)
from .pages import page
from .polynomials import Invariants, invariants
from .programs import path_of, use
from .quandles import Quandle, built_in_list
from .sorting import Census, census
from .sources import from_regina, from_sage, from_snappy, from_table
from .tables.entries import EntryError
from .tables.knots import KnotTable, Turn
from .tables.rows import TableError
from .texts import move_text

__all__ = ("BadAnswer", "BadCode", "BadDiagram", "BadText", "Braid", "Census", "Certificate", "Cocycle", "Code", "Colourings", "Compared",
           "Counted", "Diagram", "Different", "DifferentLinking", "DifferentNumbers", "EntryError", "Equal", "Failed", "Fault", "Grid",
           "Identified", "Illegal", "Invariants", "KnotTable", "Least", "Linked", "Malformed", "Move", "NoFile", "NoJob", "NoProgram",
           "Numbers", "OverLimit", "Quandle", "Rejected", "Replayed", "ShadowCocycle", "Simplified", "TableError", "TimedOut", "Turn",
           "Unknown", "Wide", "braid_word", "built_in_list", "census", "check", "cocycle", "code", "colour", "decide", "diagram", "draw",
           "from_code", "from_dt", "from_gauss", "from_pd", "from_regina", "from_sage", "from_snappy", "from_table", "identify",
           "invariants", "least", "linking", "move_text", "numbers", "page", "path_of", "quandle", "read_code", "replay", "seek",
           "simplify", "use", "weights")
