"""Lines, tokens and numbers of the texts, the limits that they keep, and the statuses."""
import re
from functools import lru_cache

MAX_SIZE = 48
MAX_STRANDS = 8
MAX_ORDER = 32
MAX_LARGE_ORDER = 128
MAX_QUANDLES = 64
MAX_LIST = 65_536
MAX_IN_MOVE = 255
MAX_IN_LETTER = 127
MAX_WEIGHTS = 255
MAX_CROSSINGS = MAX_SIZE * MAX_SIZE // 2 - MAX_SIZE
MAX_CANDIDATES = 2_097_152

DONE, UNKNOWN, USAGE, MALFORMED, LIMIT, REJECTED, NOT_UTF8 = 0, 1, 2, 3, 4, 8, 10
READ_FAULT, WRITE_FAULT, OUT_OF_MEMORY = 5, 6, 7


class Fault(Exception):
    """The first bad line: its status, and its number."""

    def __init__(self, status, line):
        super().__init__(status, line)
        self.status, self.line = status, line


def tokens_of(line):
    """The tokens of a line; none where it is skipped."""
    if line.endswith(b"\r"):
        line = line[:-1]
    tokens = [token for token in line.replace(b"\t", b" ").split(b" ") if token]
    return () if tokens and tokens[0].startswith(b"#") else tuple(tokens)


# Long inputs have few different lines.
tokens_of_short = lru_cache(maxsize=4096)(tokens_of)


class Lines:
    """The lines of an input that aren't skipped, one after another, as tokens."""

    def __init__(self, data):
        self.lines = data.split(b"\n")
        if self.lines[-1] == b"":
            self.lines.pop()
        self.place = 0
        self.number = 0
        self.tokens = None
        self.advance()

    def advance(self):
        """Goes to the next line that isn't skipped; `tokens` is None at the end."""
        while self.place < len(self.lines):
            line = self.lines[self.place]
            self.place += 1
            tokens = tokens_of(line) if len(line) > 200 else tokens_of_short(line)
            if tokens:
                self.number = self.place
                self.tokens = tokens
                return
        self.number = len(self.lines) + 1
        self.tokens = None

    def with_blanks_for(self, marks):
        """Begins again, with a space for each of these bytes."""
        blanks = bytes.maketrans(marks, b" " * len(marks))
        self.lines = [line.translate(blanks) for line in self.lines]
        self.place = 0
        self.advance()

    def begins_with(self, word):
        """Whether a line is left, and its first token is this word."""
        return self.tokens is not None and self.tokens[0] == word

    def malformed(self):
        """The line is malformed."""
        raise Fault(MALFORMED, self.number)

    def over_limit(self):
        """The line is over a limit."""
        raise Fault(LIMIT, self.number)

    def due(self):
        """The tokens of the line that is due."""
        if self.tokens is None:
            self.malformed()
        return self.tokens

    def form(self, holds):
        """The line is malformed where its form does not hold."""
        if not holds:
            self.malformed()

    def limits(self, hold):
        """The line is over a limit where one does not hold."""
        if not hold:
            self.over_limit()

    def content(self, holds):
        """The line is malformed where its content does not hold, which is asked after the limits."""
        if not holds:
            self.malformed()

    def end(self):
        """No line may be left."""
        if self.tokens is not None:
            self.malformed()


NUMBER = re.compile(rb"(0|[1-9][0-9]*)\Z")
LETTER = re.compile(rb"-?(0|[1-9][0-9]*)\Z")


def is_number(token):
    """Digits without a sign or leading zeros."""
    return NUMBER.match(token) is not None


def is_letter(token):
    """A number, perhaps after a minus."""
    return LETTER.match(token) is not None


def are_numbers(tokens):
    """Whether all are numbers."""
    return all(is_number(token) for token in tokens)


def is_short(token):
    """At most nine digits."""
    return len(token.lstrip(b"-")) <= 9


def are_short(tokens):
    """Whether all have at most nine digits."""
    return all(is_short(token) for token in tokens)


def at_most(token, bound):
    """Whether a number of at most nine digits is within a bound."""
    return is_short(token) and int(token) <= bound
