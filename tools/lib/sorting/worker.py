"""What a worker of tabulate.py and census.py knows, a process of its own, and how it calls the programs."""
import functools
import os
import random

from knot_workbench import use
from knot_workbench.answers import ANSWERED
from knot_workbench.diagrams import Braid, grid_of
from knot_workbench.faults import Fault, NoProgram
from knot_workbench.programs import CALLER
from knot_workbench.tables.knots import KnotTable
from knot_workbench.texts import Lines, braid_fault, read_diagram, read_moves
from lib.codes.smaller import reduced
from lib.sorting.reduced import Reducer
from lib.sorting.searches import SHORTER, as_due


class Worker:
    """The programs, the lists of quandles, forms that were met, the turns by which diagrams are one, and of tabulate.py the table of names. Without
    a table diagrams may be links."""

    def __init__(self, knot, seek, lists, table, conventions, turns):
        self.lists, self.knot, self.seek, self.table, self.conventions = lists, knot, seek, table, conventions
        use(knot=knot, seek=seek)
        self.reducer = Reducer(self.simplified, self.least, turns)

    def answered(self, path, words, text, also=()):
        """The status and output of a call whose status is 0 or one of some others. Fault where it is none."""
        try:
            ran = CALLER.run([path, *words], text.encode())
        except OSError as error:
            raise NoProgram(f"{path}: {error.strerror}") from None
        if ran.status != ANSWERED and ran.status not in also:
            how = f"ended by signal {-ran.status}" if ran.status < 0 else f"ended with status {ran.status}"
            job = "" if words[0].startswith("-") else f" {words[0]}"
            raise Fault(f"{os.path.basename(path)}{job} {how}{': ' + ran.text.strip() if ran.text.strip() else ''}")
        return ran.status, ran.text

    def ended(self, job, grid):
        """The grid that a job of knot leads to, the moves, and how the job ended."""
        _, said = self.answered(self.knot, [job], grid.text)
        with as_due(f"knot {job}"):
            lines = Lines(said)
            return grid_of(read_diagram(lines)), read_moves(lines), lines.take("an end")[1][0]

    def least(self, grid):
        """The least grid that `least` finds, and the moves."""
        return self.ended("least", grid)[:2]

    def simplified(self, grid):
        """A grid made smaller by `simplify`, and the moves. Where its budget was spent, a walk to the closure of a shorter braid word is tried."""
        there, moves, end = self.ended("simplify", grid)
        if end != "spent":
            return there, moves
        word = reduced(self.word_of(there), random.Random(there.text))
        if braid_fault(word) is not None:
            return there, moves
        aim, _, _ = self.ended("simplify", grid_of(word))
        found = SHORTER.find(self, there, aim) if aim.size < there.size else None
        return (aim, [*moves, *found]) if isinstance(found, tuple) else (there, moves)

    def word_of(self, grid):
        """The braid word that `braid` reads off a grid."""
        _, said = self.answered(self.knot, ["braid"], grid.text + "quandle trivial 1\n")
        with as_due("knot braid"):
            words = said.splitlines()[0].split()
            return Braid(int(words[1]), [int(letter) for letter in words[2:]])


@functools.lru_cache(None)
def table_at(path):
    """A table of knots, read once."""
    return KnotTable(path)
