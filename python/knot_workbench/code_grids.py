"""Grids of planar diagram codes, by the job `grid` of knot."""
import re

from .faults import Fault, NoProgram
from .programs import CALLER, fault_of, path_of

GRID = re.compile(r"x((?: [0-9]+)+)\no((?: [0-9]+)+)\n")
CAUSES = (
    (r"rejected edge ([0-9]+)", "the edge {} doesn't occur exactly twice"),
    (r"rejected direction ([0-9]+)", "strands run against each other on the edge {}"),
    (r"rejected plane", "no diagram in the plane has this code"),
    (r"rejected empty", "the code has no crossing and no loop"),
    (r"limit columns ([0-9]+)", "its drawing takes {} columns, and a grid has at most 48"),
    (r"limit line [0-9]+", "the code has more crossings or larger numbers than `knot grid` takes"),
)

# The statuses with which the program ends where it could not read, write, or have memory.
WITHOUT_ANSWER = (5, 6, 7)


class NoGrid(Fault):
    """A code has no grid: the sentence says why."""


def cause_of(said):
    """Why a code has no grid, in words, by what `knot grid` says; None where that is something else."""
    for form, sentence in CAUSES:
        cause = re.fullmatch(form, said)
        if cause:
            return sentence.format(*cause.groups())
    return None


class Grids:
    """Makes grids of codes by one program, or by the one that programs.py finds."""

    def __init__(self, program=None):
        self.program = program

    def of(self, text):
        """The rows of the crosses and of the rings of a grid with the PD code of a text, as `knot grid` reads it. NoGrid where there is none,
        Failed where the program gave no answer, and NoProgram where it can't be run or isn't this one."""
        program = self.program or path_of("knot")
        try:
            ran = CALLER.run([program, "grid"], text.encode())
        except OSError as error:
            raise NoProgram(f"{program}: {error.strerror}") from None
        found = GRID.fullmatch(ran.text)
        if ran.status == 0 and found:
            return tuple([int(word) for word in marks.split()] for marks in found.groups())
        if ran.status in (3, 4, 8):
            raise NoGrid(cause_of(ran.text.strip()) or str(fault_of("knot", ["grid"], ran)))
        if ran.status < 0 or ran.status in WITHOUT_ANSWER:
            raise fault_of("knot", ["grid"], ran)
        told = ran.told.strip().splitlines()
        raise NoProgram(f"{program} grid ended with status {ran.status}{': ' + told[-1] if told else ''}")
