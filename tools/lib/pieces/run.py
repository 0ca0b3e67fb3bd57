"""A run: the folder of a table that was cut into pieces, what is asked of each line, and which pieces have a whole answer.

  RUN/job                 what is asked, in JSON: the program, the words and the pieces, with the SHA-256 of each file
  RUN/files/..            copies of the files that the words name
  RUN/pieces/00001.txt    lines of the table: a name, a tab, the lines of the problem with ' / ' between
  RUN/answers/00001.txt   lines '#..' that say what was asked; a line for each line of the piece: its name, a tab, the status, a tab, the lines
                          of the answer with ' / ' between; and a line '#end' with the number of lines, and bytes and SHA-256 of all before
"""
import hashlib
import json
import os
import re
from contextlib import contextmanager
from typing import NamedTuple, Tuple

from lib.calls.calls import note
from lib.calls.whole_files import host_name

RUN_FORM = 1
BLOCK = 1 << 20
END = re.compile(rb"\n#end\t([0-9]+)\t([0-9]+)\t([0-9a-f]{64})\n\Z")
# More than the line '#end' can have.
TAIL = 200


class PieceError(Exception):
    """The call can't be done."""


class Piece(NamedTuple):
    """What is written down of a piece: its number of lines and of bytes, and its SHA-256."""

    lines: int
    bytes: int
    sum: str


class Run(NamedTuple):
    """What is asked of a table, and its pieces. `files` has a pair of name and SHA-256 for each file that was copied; names of `words` among
    them mean the copies; `added` has those that are put after each problem. Of an answer with status 0 the lines that begin with a word
    of `keep` are kept, or all where there is none."""

    folder: str
    job: str
    program: str
    program_sum: str
    words: Tuple[str, ...]
    files: Tuple[Tuple[str, str], ...]
    added: Tuple[str, ...]
    keep: Tuple[str, ...]
    each: int
    pieces: Tuple[Piece, ...]

    def path(self, folder, number):
        """The file of a piece in `pieces` or `answers`; pieces are counted from 1."""
        return os.path.join(self.folder, folder, f"{number:05}.txt")

    def head(self, number):
        """The first lines of an answer, bytes that say what was asked of which piece."""
        piece = self.pieces[number - 1]
        rows = [("#piece", number, piece.lines, piece.sum), ("#program", self.program_sum), ("#job", self.job, *self.words),
                *(("#file", *pair) for pair in self.files)]
        if self.keep:
            rows.append(("#keep", *self.keep))
        return "".join("\t".join(map(str, row)) + "\n" for row in rows).encode()

    def text(self):
        """The file `job`."""
        told = self._replace(pieces=tuple(" ".join(map(str, piece)) for piece in self.pieces))._asdict()
        del told["folder"]
        return json.dumps({"form": RUN_FORM, **told}, indent=1) + "\n"

    def call(self, program):
        """The words by which a program, by its path, is called."""
        names = {name for name, _ in self.files}
        words = [os.path.join(self.folder, word) if word in names else word for word in self.words]
        return [program, *([] if self.job == "seek" else [self.job]), *words]


def tell_by_name(text):
    """Says something on standard error, by the name of the script."""
    note(f"pieces.py: {text}")


def tuples(value):
    """Lists as tuples, all the way down."""
    return tuple(map(tuples, value)) if isinstance(value, list) else value


def read_run(folder):
    """The run of a folder. Raises PieceError where it is none."""
    path = os.path.join(folder, "job")
    try:
        with open(path, encoding="utf-8") as file:
            told = json.load(file)
        form = told.pop("form")
        pieces = tuple(Piece(int(row[0]), int(row[1]), row[2]) for row in map(str.split, told.pop("pieces")))
        run = Run(folder=folder, pieces=pieces, **{name: tuples(value) for name, value in told.items()})
    except OSError as error:
        raise PieceError(f"{path}: {error.strerror}; `cut` makes a run") from None
    except (ValueError, TypeError, KeyError, AttributeError, IndexError):
        raise PieceError(f"{path}: it is not as `cut` writes it") from None
    if form != RUN_FORM:
        raise PieceError(f"{path}: its form is {form}, and this pieces.py reads {RUN_FORM}")
    return run


def sha256_of(path):
    """The SHA-256 of a file, in hexadecimal digits."""
    found = hashlib.sha256()
    with open(path, "rb") as file:
        while block := file.read(BLOCK):
            found.update(block)
    return found.hexdigest()


# ---- whole answers

def end_of(run, number):
    """Where the lines of a whole answer end, and the SHA-256 that is due of them; None where first lines, last line and size say that there
    is none. The file is not read through."""
    head = run.head(number)
    try:
        with open(run.path("answers", number), "rb") as file:
            size = os.fstat(file.fileno()).st_size
            if file.read(len(head)) != head:
                return None
            file.seek(max(size - TAIL, 0))
            last = END.search(file.read())
    except FileNotFoundError:
        return None
    if not last or int(last[1]) != run.pieces[number - 1].lines:
        return None
    bytes_before = size - (len(last[0]) - 1)
    return (bytes_before, last[3].decode()) if int(last[2]) == bytes_before else None


def is_whole(run, number, by_sums=False):
    """Whether a piece has a whole answer, by its size and its ends, or `by_sums` by the SHA-256 of both files as well."""
    end = end_of(run, number)
    if end is None or not by_sums:
        return end is not None
    found = hashlib.sha256()
    with open(run.path("answers", number), "rb") as file:
        for start in range(0, end[0], BLOCK):
            found.update(file.read(min(BLOCK, end[0] - start)))
    return found.hexdigest() == end[1] and sha256_of(run.path("pieces", number)) == run.pieces[number - 1].sum


def left_of(run, by_sums=False):
    """The numbers of the pieces without a whole answer."""
    return [number for number in range(1, len(run.pieces) + 1) if not is_whole(run, number, by_sums)]


def spans_text(numbers):
    """Ascending numbers in the way of queues: 3,17-19."""
    spans = []
    for number in numbers:
        if spans and spans[-1][1] == number - 1:
            spans[-1][1] = number
        else:
            spans.append([number, number])
    return ",".join(str(first) if first == last else f"{first}-{last}" for first, last in spans)


def span_numbers(text, count):
    """The numbers of a text as `spans_text` writes it, each from 1 to count. Raises PieceError."""
    found = []
    for span in text.split(","):
        read = re.fullmatch("([0-9]{1,9})(?:-([0-9]{1,9}))?", span)
        first, last = (int(read[1]), int(read[2] or read[1])) if read else (0, 0)
        if not 1 <= first <= last <= count:
            raise PieceError(f"'{text}' names no pieces: they have the numbers 1 to {count}, and are written as 3 or 3,17-19")
        found.extend(range(first, last + 1))
    return found


# ---- files that are made bit by bit

class Summed:
    """A file that is being written, with the number and the SHA-256 of its bytes. An error of the system has the path of the file to be."""

    def __init__(self, file, path):
        self.file = file
        self.path = path
        self.bytes = 0
        self.sum = hashlib.sha256()
        self.waiting = []
        self.waiting_bytes = 0

    def write(self, data):
        """Adds some bytes; they are written in large blocks."""
        self.bytes += len(data)
        self.sum.update(data)
        self.waiting.append(data)
        self.waiting_bytes += len(data)
        if self.waiting_bytes >= BLOCK:
            self.put()

    def put(self, is_last=False):
        """Writes what waits to be written, and with the last of it sees that it is on the disk."""
        data = memoryview(b"".join(self.waiting))
        self.waiting, self.waiting_bytes = [], 0
        try:
            while data:
                data = data[self.file.write(data):]
            if is_last:
                os.fsync(self.file.fileno())
        except OSError as error:
            raise OSError(error.errno, error.strerror, self.path) from None


@contextmanager
def whole_file(path):
    """A Summed beside the path, which is put there by a rename where the block ends as it should; else nothing is left of it."""
    folder, name = os.path.split(path)
    part = os.path.join(folder, f".{name}.{host_name()}.{os.getpid()}.0.part")
    try:
        with open(part, "wb", 0) as file:
            out = Summed(file, path)
            yield out
            out.put(is_last=True)
        os.replace(part, path)
    except BaseException:
        if os.path.exists(part):
            os.unlink(part)
        raise
