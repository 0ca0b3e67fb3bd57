"""The answers of pieces: each line asked by a call of the program, many at once, and written in the order of the piece."""
import os
import time

from knot_workbench.answers import ANSWERED, WITH_ANSWER
from knot_workbench.programs import Caller
from lib.batch.programs import why_none
from lib.calls.pools import threads
from lib.calls.whole_files import sweep_parts
from lib.pieces.run import PieceError, is_whole, sha256_of, tell_by_name, whole_file

# After so many lines without an answer a piece is given up.
MOST_LOST = 10


class Unanswered(Exception):
    """A line has no answer; what is reported says how its program ended."""


# ---- one line

class Asked:
    """What is asked of each line of a run: the call, what is put after each problem, and what is kept of an answer."""

    def __init__(self, run, program, added):
        self.call = run.call(program)
        self.added = added
        self.keep = {word.encode() for word in run.keep}

    def answer(self, caller, line):
        """The line of the answer. Raises Unanswered where the program gave none."""
        name, _, text = line.rstrip(b"\n").partition(b"\t")
        ran = caller.run(self.call, text.replace(b" / ", b"\n") + b"\n" + self.added)
        if ran.status not in WITH_ANSWER:
            raise Unanswered(ran.cut or why_none(ran))
        return b"%s\t%d\t%s\n" % (name, ran.status, self.one_line(ran.status, ran.body))

    def one_line(self, status, body):
        """What a program wrote, in one line."""
        if body and not body.endswith(b"\n"):
            raise Unanswered("its answer ends within a line")
        rows = body[:-1].split(b"\n") if body else []
        if self.keep and status == ANSWERED:
            rows = [row for row in rows if row.partition(b" ")[0] in self.keep]
            if not rows:
                raise Unanswered("--keep leaves nothing of its answer")
        found = b" / ".join(rows)
        if rows and found.split(b" / ") != rows or b"\t" in found:
            raise Unanswered("its answer has a tab or a bar between spaces, and can't be put in one line")
        return found

    def tried(self, caller, line):
        """The line of the answer; or where there is none, the name and the reason."""
        try:
            return self.answer(caller, line), None
        except Unanswered as error:
            return line.partition(b"\t")[0], str(error)


# ---- pieces

def run_piece(run, asked, number, processes):
    """Answers a piece, if it has no whole answer yet. Raises Unanswered where one of its lines has none; then nothing is written."""
    piece = run.pieces[number - 1]
    path = run.path("pieces", number)
    if sha256_of(path) != piece.sum:
        raise PieceError(f"{path}: it is not as `cut` wrote it")
    require_program(run, asked.call[0])
    if is_whole(run, number, by_sums=True):
        tell_by_name(f"piece {number}: it has a whole answer")
        return
    began, caller = time.monotonic(), Caller()
    with open(path, "rb") as lines, whole_file(run.path("answers", number)) as out, threads(processes, caller.stop) as pool:
        out.write(run.head(number))
        put_answers(out, pool.in_order(lambda line: asked.tried(caller, line), lines), number)
        out.write(b"#end\t%d\t%d\t%s\n" % (piece.lines, out.bytes, out.sum.hexdigest().encode()))
        # Nothing is put in its place where another program may have answered some lines.
        require_program(run, asked.call[0])
    tell_by_name(f"piece {number}: {piece.lines} answers in {time.monotonic() - began:.1f} s")


def require_program(run, program):
    """Raises PieceError where the program isn't the one of the run any more."""
    if sha256_of(program) != run.program_sum:
        raise PieceError(f"{program}: it has changed since `cut`, so what it answers can't be joined with the other pieces")


def put_answers(out, answers, number):
    """Writes the lines of a piece's answer. Raises Unanswered where some have none, at the end, or after LOST of them."""
    lost = 0
    for row, reason in answers:
        if reason is None:
            out.write(row)
            continue
        lost += 1
        tell_by_name(f"piece {number}: {row.decode()}: no answer, {reason}")
        if lost == MOST_LOST:
            raise Unanswered(f"piece {number}: given up after {MOST_LOST} lines without an answer; nothing was written")
    if lost:
        raise Unanswered(f"piece {number}: without an answer to {lost} of its lines nothing was written")


def run_pieces(run, asked, numbers, processes):
    """Answers these pieces in turn. False where one is left without an answer."""
    # What kills have left on this host.
    sweep_parts(os.path.join(run.folder, "answers"))
    is_done = True
    for number in numbers:
        try:
            run_piece(run, asked, number, processes)
        except Unanswered as error:
            tell_by_name(str(error))
            is_done = False
    return is_done
