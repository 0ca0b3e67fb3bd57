"""What a page shows, read of the text of a certificate, of moves or of weights. Each move is made, and each listed colouring is tried."""
from typing import NamedTuple, Optional

from .. import certificates, cocycles, drawing, jobs, weighing
from ..colourings import MAX_COLOURINGS, fits, is_colouring
from ..diagrams import bottoms, grid_of
from ..faults import BadText, Fault
from ..quandles import built_in_list
from ..texts import Lines, read_diagram, read_moves, read_quandle, read_quandles

# A page of so many frames has some megabytes, which browsers still take.
MOST_FRAMES = 20_000


class Choices(NamedTuple):
    """What a page is made with: the name of a quandle for the colours along moves, or none of them; the frames, and whether those after
    shifts are left out."""

    quandle: Optional[str] = None
    plain: bool = False
    frames: Optional[str] = None
    no_shifts: bool = False


class Page:
    """What a page shows.

    `kind` is `equal`, `different`, `numbers`, `linking`, `weights` or `moves`; `diagrams` has for each diagram given its name, the diagram and
    its grid; `frames` those of drawing.py with their places; `quandle` and `lists` the colourings of each diagram, each with its weight or None;
    `verdict` that of version 3.
    """

    def __init__(self, kind, diagrams, frames=(), quandle=None, lists=(), cocycle=None, verdict=None):
        self.kind, self.diagrams, self.frames, self.quandle, self.lists = kind, diagrams, frames, quandle, lists
        self.cocycle, self.verdict = cocycle, verdict

    def colours_of(self, number, grid):
        """A colouring that a diagram is drawn in where no list is there, or None."""
        if self.frames:
            return self.frames[-1 if number else 0][1].colours
        return some_colouring(grid, [self.quandle])[1] if self.verdict and self.quandle else None


def read_page(text, choices):
    """The page of a text."""
    lines = Lines(text)
    first = read_diagram(lines)
    if lines.peek() not in ("x", "braid"):
        return walk_of(lines, first, choices)
    second, quandles = read_diagram(lines), read_quandles(lines)
    named = [("the first diagram", first, grid_of(first)), ("the second diagram", second, grid_of(second))]
    if lines.peek() == "weight":
        return weighed(lines, named, quandles)
    if lines.peek() == "shadow":
        raise BadText("weights by regions are shown of a certificate alone", lines.take("a verdict")[0])
    verdict, _ = certificates.read_verdict(lines, named[0][2], named[1][2])
    if isinstance(verdict, certificates.Unknown):
        raise BadText("the verdict is 'unknown', which has no evidence to be shown")
    refuse_alike(verdict)
    if isinstance(verdict, certificates.DifferentLinking):
        return Page("linking", named, verdict=verdict)
    if isinstance(verdict, certificates.DifferentNumbers):
        return Page("numbers", named, quandle=verdict.quandle, cocycle=verdict.cocycle, verdict=verdict)
    if isinstance(verdict, certificates.Different):
        for (name, _, grid), listed in zip(named, verdict[1:]):
            for place, colours in enumerate(listed):
                if not is_colouring(grid, verdict.quandle, colours):
                    raise BadText(f"line {place} of the list of {name}, counted from 0, is no colouring")
        return Page("different", named, quandle=verdict.quandle, lists=[[(colours, None) for colours in listed] for listed in verdict[1:]])
    quandle, colours = colours_by(choices, named[0][2], quandles)
    frames = drawing.along(named[0][2], list(verdict.moves), quandle, colours)
    if frames[-1].grid != named[1][2]:
        raise BadText("the moves don't lead to the second diagram")
    return Page("equal", named, drawing.chosen(frames_allowed(frames, choices), choices.frames, choices.no_shifts), quandle)


def refuse_alike(verdict):
    """Refuses a verdict `different` whose own numbers are alike."""
    if isinstance(verdict, certificates.Different) and len(verdict.first) == len(verdict.second):
        raise BadText(f"both lists have {len(verdict.first)} colourings, which shows nothing")
    if isinstance(verdict, certificates.DifferentNumbers) and verdict.first.numbers == verdict.second.numbers:
        raise BadText("the numbers of both diagrams agree, which shows nothing")
    if isinstance(verdict, certificates.DifferentLinking) and verdict.first.numbers == verdict.second.numbers:
        raise BadText("the linking numbers of both diagrams agree, which shows nothing")


def walk_of(lines, diagram, choices):
    """The page of a diagram and moves, perhaps with a quandle and colours."""
    if lines.peek() != "moves":
        raise BadText("after a diagram moves or a second diagram are due", lines.take("a second diagram")[0])
    moves, grid = read_moves(lines), grid_of(diagram)
    quandle = colours = None
    if lines.peek() == "quandle":
        quandle = read_quandle(lines)
        colours = drawing.read_colours(lines, grid, quandle)
    lines.done()
    if not quandle:
        quandle, colours = colours_by(choices, grid)
    frames = drawing.along(grid, moves, quandle, colours)
    return Page("moves", [("the diagram", diagram, grid)], drawing.chosen(frames_allowed(frames, choices), choices.frames, choices.no_shifts), quandle)


def weighed(lines, named, quandles):
    """The page of an input of `weights`."""
    if len(quandles) != 1:
        raise BadText("before a cocycle one quandle is due")
    modulus, values = cocycles.read_cocycle(lines, quandles[0])
    lines.done()
    lists = []
    for name, _, grid in named:
        if not fits(quandles[0], grid):
            raise BadText(f"the quandle is too large for {name}")
        found = sorted(weighing.colourings(grid, quandles[0]))
        lists.append([(colours, sum(times * values[x][y] for (x, y), times in weighing.pairs_met(grid, quandles[0], colours).items()) % modulus)
                      for colours in found])
    return Page("weights", named, quandle=quandles[0], lists=lists, cocycle=cocycles.Cocycle(modulus, values))


def colours_by(choices, grid, quandles=()):
    """A quandle and a colouring of a grid by it, by what is chosen: the one that is named, or one of these or of the built-in list."""
    if choices.plain:
        return None, None
    return some_colouring(grid, [jobs.quandle(choices.quandle)] if choices.quandle else [*quandles, *built_in_list()])


def some_colouring(grid, quandles):
    """The first quandle that colours a grid by two colours or more, and such a colouring; else none. `trivial` ones colour components.

    So that it doesn't take long, no more colours of bottoms are tried in all than `check` tries of one quandle."""
    left = MAX_COLOURINGS
    for quandle in quandles:
        tries = quandle.order ** bottoms(grid)
        if tries <= left:
            left -= tries
            for colours in weighing.colourings(grid, quandle):
                if len(set(colours)) > 1:
                    return quandle, colours
    return None, None


def frames_allowed(frames, choices):
    """The frames, where a page takes so many."""
    if len(frames) > MOST_FRAMES and not choices.frames:
        raise Fault(f"there are {len(frames) - 1} moves, and a page takes {MOST_FRAMES:,} frames: choose some by frames, as 0,{len(frames) // 1000},..")
    return frames
