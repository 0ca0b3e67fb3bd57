"""What knot and seek answer, by the job, the exit status and the text of a call: in short, and as a value.

    >>> answer = Answer("seek", 0, "certificate 3\\ndifferent numbers dihedral 3\\nseeds 0 1\\nnumbers 9\\nseeds 0\\nnumbers 3\\n")
    >>> answer.kind, answer.short
    ('different', 'different numbers dihedral 3: 9 / 3')
    >>> answer.value().first.numbers
    (9,)

Nothing is run here. docs/FORMATS.md has the texts.
"""
from contextlib import contextmanager
from typing import Any, Iterator, List, NamedTuple, Optional, Tuple

from .certificates import numbers_behind, read_verdict
from .diagrams import Braid, Grid, Move, Rows
from .faults import BadAnswer, BadCode, BadDiagram, BadText
from .texts import Lines, number_of, read_grid, read_moves

# Exit statuses of knot; seek has the same.
ANSWERED, UNKNOWN, NO_JOB, MALFORMED, LIMIT, REJECTED = 0, 1, 2, 3, 4, 8
WITH_ANSWER = (ANSWERED, UNKNOWN, MALFORMED, LIMIT, REJECTED)

# The kinds of answers that begin, or end, with their word.
VERDICTS = ("equal", "different", "unknown", "accepted", "rejected", "alike", "wide")


class Accepted(NamedTuple):
    """A checker's `accepted`."""


class Turned(NamedTuple):
    """The status `rejected`: the first cause why evidence doesn't hold, a move isn't legal or a code is none."""

    cause: str


class Refused(NamedTuple):
    """`malformed` or `limit`, and where: `line 4`, `bytes` or `columns 50`; empty where seek says it on standard error alone."""

    kind: str
    where: str


class Nothing(NamedTuple):
    """A search of `seek` that found nothing, and wrote nothing."""


class TooWide(NamedTuple):
    """A quandle doesn't fit diagram 1 or 2, which has so many bottoms."""

    which: int
    bottoms: int


class Compared(NamedTuple):
    """Lists of whole numbers of two diagrams. Where they `differ`, no list of moves joins the two."""

    first: Rows
    second: Rows
    differ: bool


class Simplified(NamedTuple):
    """A diagram to which shifts, exchanges and destabilisations lead. Where `is_irreducible`, nothing that shifts and exchanges reach from
    `grid` has a destabilisation; else the budget was spent."""

    grid: Grid
    moves: Tuple[Move, ...]
    is_irreducible: bool


class Least(NamedTuple):
    """A diagram to which shifts and exchanges lead. Where `is_whole`, it is the least one that they reach, a name for all that they join;
    else the budget was spent, and it is the least of those that were listed."""

    grid: Grid
    moves: Tuple[Move, ...]
    is_whole: bool


class Counts(NamedTuple):
    """Of each quandle in turn how many colourings there are, by weight where it has a cocycle; None where the quandle is too large."""

    of_each: Tuple[Optional[Rows], ...]


class Answer(NamedTuple):
    """An answer: the job, `seek` for the program of this name; the exit status; and the text on standard output."""

    job: str
    status: int
    text: str

    @property
    def kind(self) -> str:
        """One of VERDICTS; `malformed` or `limit`; `nothing` where seek found nothing; `answered` for any other text of status 0; and `none`
        where the status says that there is no answer."""
        if self.status not in WITH_ANSWER:
            return "none"
        if self.status in (MALFORMED, LIMIT):
            return "malformed" if self.status == MALFORMED else "limit"
        word = self.short.partition(" ")[0]
        if self.status == REJECTED or word in VERDICTS:
            return word if word in VERDICTS else "rejected"
        return "nothing" if self.status == UNKNOWN else "answered"

    @property
    def short(self) -> str:
        """The first line after the line of the version of a verdict. Of a quandle by a table the table is after it, and where
        the verdict is the last line, as in `linking` and `weights`, that comes first. Of evidence by numbers the quandle, or by its order a
        table, and the numbers of both diagrams."""
        lines = without_head_line(self.text).splitlines()
        if not lines:
            return ""
        if lines[0].startswith(("different numbers", "different linking")):
            numbers = [line.partition(" ")[2] for line in lines if line.partition(" ")[0] == "numbers"]
            is_weighed = any(line.startswith(("weight ", "shadow ")) for line in lines)
            return f"{lines[0]}{' by weight' if is_weighed else ''}: {' / '.join(numbers)}"
        if lines[-1] in ("different", "alike") and len(lines) > 1:
            return lines[-1] + " " + " / ".join(line.rstrip() for line in lines[:-1])
        words = lines[0].split()
        if words[:2] == ["different", "table"] and len(words) == 3 and words[2].isdecimal():
            return lines[0] + ": " + " / ".join(lines[1:1 + int(words[2])])
        return lines[0]

    @property
    def has_evidence(self) -> bool:
        """Whether it is a verdict with evidence, which `check` rules on after its problem."""
        return self.status == ANSWERED and without_head_line(self.text).partition(" ")[0] in ("equal", "different")

    def value(self) -> Any:
        """The answer as a value: Equal, Different, DifferentNumbers, DifferentLinking or Unknown of a search; Nothing, Accepted, Turned or
        Refused; Compared or TooWide; Simplified; Least; Counts; a Braid of `braid`; a Grid of `grid` and `replay`; else the text. None where the
        status says that there is no answer. Raises BadAnswer where the text has another form than is due."""
        if self.status not in WITH_ANSWER:
            return None
        if self.status in (MALFORMED, LIMIT):
            return Refused(self.kind, self.text.strip().partition(" ")[2])
        if self.status == REJECTED:
            return Turned(self.text.strip().partition(" ")[2])
        if self.status == UNKNOWN and not self.text:
            return Nothing()
        with reading(f"the job {self.job}" if self.job else "the program"):
            return value_of(self.job, Lines(self.text), self.text)


@contextmanager
def reading(job: str) -> Iterator[None]:
    """Makes a BadAnswer of what is wrong with a program's answer."""
    try:
        yield
    except (BadText, BadCode, BadDiagram) as fault:
        raise BadAnswer(f"{job} wrote a text of another form than was due: {fault}") from None


def without_head_line(text: str) -> str:
    """An answer without the line of the version of a verdict."""
    head, _, rest = text.partition("\n")
    return rest if head in ("certificate 2", "certificate 3") else text


def value_of(job: str, lines: Lines, text: str) -> Any:
    """The value of a text that a job wrote, but for refusals. Raises BadText."""
    if job in ("decide", "seek", ""):
        return read_verdict(lines)[0]
    if job in ("check", "braidcheck"):
        if text.split() != ["accepted"]:
            raise BadText("the line 'accepted' is due", 1)
        return Accepted()
    if job in ("linking", "weights"):
        return read_compared(lines, "numbers" if job == "linking" else "weights")
    if job == "numbers":
        return read_counts(lines)
    if job in ("simplify", "lower"):
        return Simplified(*read_led(lines, "irreducible"))
    if job == "least":
        return Least(*read_led(lines, "whole"))
    if job in ("braid", "reduce"):
        return read_word(lines)
    return read_grid(lines) if job in ("grid", "replay") else text


def read_compared(lines: Lines, word: str) -> Any:
    """Two lines of numbers, and `different` or `alike`; or `wide`."""
    if lines.peek() == "wide":
        return TooWide(*numbers_behind(lines, "wide", 2))
    first, second = numbers_behind(lines, word), numbers_behind(lines, word)
    line, tokens = lines.take("the line 'different' or 'alike'")
    if tokens not in (["different"], ["alike"]):
        raise BadText("the line 'different' or 'alike' is due", line)
    lines.done()
    return Compared(first, second, tokens == ["different"])


def read_counts(lines: Lines) -> Counts:
    """The lines `numbers` and `wide`, each after its quandle, whose table is passed over."""
    found: List[Optional[Rows]] = []
    while lines.peek() is not None:
        if lines.take("a quandle")[1][0] != "quandle":
            raise BadText("the line 'quandle' is due", lines.lines[lines.place - 1][0])
        while lines.peek() not in ("numbers", "wide"):
            line, tokens = lines.take("the line 'numbers' or 'wide'")
            if not tokens[0].isdecimal():
                raise BadText("the line 'numbers' or 'wide' is due", line)
        found.append(numbers_behind(lines, "numbers") if lines.peek() == "numbers" else None)
        if found[-1] is None:
            numbers_behind(lines, "wide", 1)
    return Counts(tuple(found))


def read_led(lines: Lines, end: str) -> Tuple[Grid, Tuple[Move, ...], bool]:
    """A grid, the moves that lead to it, and whether this word is after them, and not `spent`."""
    grid, moves = read_grid(lines), read_moves(lines)
    due = f"the line '{end}' or 'spent'"
    line, tokens = lines.take(due)
    if tokens != [end] and tokens[0] != "spent":
        raise BadText(f"{due} is due", line)
    lines.done()
    return grid, tuple(moves), tokens == [end]


def read_word(lines: Lines) -> Braid:
    """A braid word, which may exceed the limits that a braid has where a diagram is due. What is after it is passed over."""
    line, tokens = lines.take("the line 'braid'")
    letters = [number_of(token, line, signed=True) for token in tokens[1:]]
    if tokens[0] != "braid" or not letters:
        raise BadText("the line 'braid' is due", line)
    return Braid(letters[0], letters[1:])
