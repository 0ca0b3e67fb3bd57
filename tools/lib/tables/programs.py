"""The programs that the scripts on tables of knots call."""
import os

from knot_workbench import use
from knot_workbench.faults import NoProgram
from knot_workbench.programs import Caller
from lib import TOP
from lib.batch.programs import Programs
from lib.batch.stages import BatchError
from lib.calls.pools import processors


def use_programs(knot=None, seek=None, uses=("knot", "seek")):
    """Has the module call these programs, those of KNOT and SEEK, or what the launchers of the tree have built, which is done first where it
    is due. `uses` names those that are needed. NoProgram where one can't be run."""
    given = {name: path or os.environ.get(name.upper()) or os.path.join(TOP, name) for name, path in (("knot", knot), ("seek", seek))}
    programs = Programs(Caller(), given["knot"], given["seek"], None)
    try:
        programs.prepare(uses)
    except BatchError as error:
        raise NoProgram(str(error)) from None
    use(**{name: programs.path(name) for name in uses})


def add_program_words(words):
    """Adds the options that name the programs, and how many are run at once."""
    words.add_argument("--knot", metavar="PROGRAM", help="the program knot (default: KNOT, or ./knot of this tree)")
    words.add_argument("--seek", metavar="PROGRAM", help="the program seek (default: SEEK, or ./seek of this tree)")
    words.add_argument("--processes", type=int, default=processors(), metavar="N", help="how many at once (default: as many as there are processors)")
