"""The errors that the module raises, by name. Each one is a `Fault`, and says in one sentence what is wrong."""
from typing import Optional


class Fault(ValueError):
    """What can't be done, in one sentence. All errors of this module are of this kind."""


class BadDiagram(Fault):
    """Numbers that make no grid diagram, or no braid."""


class BadText(Fault):
    """A text that can't be read. `line` is counted from 1, or None."""

    def __init__(self, message: str, line: Optional[int] = None) -> None:
        super().__init__(message if line is None else f"line {line}: {message}")
        self.line = line


class BadCode(Fault):
    """A text or rows that are no crossing code."""


class NoFile(Fault, OSError):
    """A file can't be read or written. It is an OSError too."""


class Illegal(Fault):
    """A move that is not legal where it is made, with the cause as the program writes it."""


class NoProgram(Fault):
    """There is no built program, or the system can't run it."""


class NoJob(Fault):
    """The program refuses the words (status 2): it is older than the job or option, or a number is out of its bounds."""


class Malformed(Fault):
    """The program can't read a line (status 3). `line` is counted from 1 in the text that was sent."""

    def __init__(self, message: str, line: Optional[int] = None) -> None:
        super().__init__(message)
        self.line = line


class OverLimit(Fault):
    """The text, a line of it or what is to be drawn exceeds a limit of the program (status 4). `limit` has the words that name it."""

    def __init__(self, message: str, limit: str = "") -> None:
        super().__init__(message)
        self.limit = limit


class Rejected(Fault):
    """The evidence doesn't hold, a move isn't legal, or a code is none (status 8). `cause` has the words that name the first cause."""

    def __init__(self, cause: str) -> None:
        super().__init__(f"rejected: {cause}")
        self.cause = cause


class Wide(Fault):
    """A quandle is too large for a diagram. `which` is 1 or 2, and `bottoms` the number of the diagram's bottoms."""

    def __init__(self, which: int, bottoms: int) -> None:
        super().__init__(f"the quandle is too large for diagram {which}, which has {bottoms} bottoms")
        self.which, self.bottoms = which, bottoms


class Failed(Fault):
    """The program ended without an answer: reading or writing failed, memory ran out, or a signal ended it. `status` says which."""

    def __init__(self, message: str, status: int) -> None:
        super().__init__(message)
        self.status = status


class TimedOut(Fault):
    """The program took longer than it was given, and was ended."""


class BadAnswer(Fault):
    """The program wrote a text of another form than docs/FORMATS.md has."""


def not_utf8(error: UnicodeDecodeError) -> str:
    """What is wrong with a text that isn't UTF-8. One that begins with the mark of UTF-16 is such a text, as Windows writes it."""
    if error.start == 0 and error.object[:2] in (b"\xff\xfe", b"\xfe\xff"):
        return "the text is UTF-16, and not UTF-8: iconv -f UTF-16 -t UTF-8 turns it"
    return f"not UTF-8 at byte {error.start}"
