"""What is made of the answers of all pieces: one table of them, one of certificates, and a sample that is answered anew."""
import hashlib
import random
import re
from typing import NamedTuple

from knot_workbench.programs import Caller
from lib.batch.answers import ANSWERED
from lib.calls.pools import threads
from lib.pieces.run import PieceError, is_whole, left_of, spans_text, tell_by_name

JOBS_WITH_VERDICT = ("decide", "seek")
# A verdict with evidence, perhaps after the line of its version.
EVIDENCE = re.compile(rb"(?:certificate [0-9]+ / )?(?:equal|different)(?: |$)")


def lines_with_answers(run, number):
    """Pairs of a line of a piece and its line of the answer. Raises PieceError where a name is missing, comes twice or out of order."""
    path = run.path("answers", number)
    names = set()
    with open(run.path("pieces", number), "rb") as lines, open(path, "rb") as answers:
        rows = (row for row in answers if not row.startswith(b"#"))
        for line in lines:
            name, row = line.partition(b"\t")[0], next(rows, b"")
            found = row.partition(b"\t")[0]
            if found != name:
                why = "comes twice" if found in names else f"comes where '{name.decode()}' is due" if found else ""
                raise PieceError(f"{path}: the name '{found.decode()}' {why}" if why else f"{path}: the name '{name.decode()}' is missing")
            names.add(name)
            yield line, row
        for row in rows:
            raise PieceError(f"{path}: the name '{row.partition(bytes([9]))[0].decode()}' is none of the piece's, or comes twice")


def each_piece(run, numbers):
    """These numbers of pieces, each after its sums and its names were looked at. Raises PieceError, before the first of them where a piece has
    no whole answer."""
    left = sorted(set(left_of(run)).intersection(numbers))
    if left:
        raise PieceError(f"{len(left)} of {len(numbers)} pieces have no whole answer: {spans_text(left)}")
    for number in numbers:
        if not is_whole(run, number, by_sums=True):
            raise PieceError(f"{run.path('answers', number)}: it has been changed or cut since it was written, or its piece has: run piece {number} again")
        for _ in lines_with_answers(run, number):
            pass
        yield number


def join(run, numbers, out):
    """Writes the answers of these pieces in the order of the table. A piece at fault ends it before one of its lines is written."""
    for number in each_piece(run, numbers):
        out.writelines(row for _, row in lines_with_answers(run, number))


def again(run, numbers, out):
    """Writes each problem with its verdict `equal` or `different` as a table for the job `check`."""
    if run.job not in JOBS_WITH_VERDICT or run.keep:
        raise PieceError(f"{run.folder}: certificates come of the jobs decide and seek, without --keep")
    for number in each_piece(run, numbers):
        out.writelines(filter(None, (certificate_line(line, row) for line, row in lines_with_answers(run, number))))


def certificate_line(line, row):
    """A problem and its verdict as a line of a table, or None where there is no evidence."""
    _, status, text = row.split(b"\t", 2)
    if int(status) != ANSWERED or not EVIDENCE.match(text):
        return None
    return line.rstrip(b"\n") + b" / " + text


def write_alike(run, numbers, out):
    """Writes pairs of problems with the same answer of status 0, as a table: the first of those with an answer beside each other one. The first
    ones are held in memory."""
    first, wide = {}, 0
    for number in each_piece(run, numbers):
        for line, row in lines_with_answers(run, number):
            name, _, text = line.rstrip(b"\n").partition(b"\t")
            status, _, answer = row.partition(b"\t")[2].partition(b"\t")
            if int(status) != ANSWERED:
                continue
            wide += b" / wide " in b" / " + answer
            name_before, text_before = first.setdefault(hashlib.sha256(answer).digest(), (name, text))
            if name_before != name:
                out.write(b"%s|%s\t%s / %s\n" % (name_before, name, text_before, text))
    if wide:
        tell_by_name(f"answers by which a quandle is too large: {wide}; they are paired only with those that say the same")


# ---- answers made anew

class Ruled(NamedTuple):
    """What became of a line: its name, whether a new call answers the same, whether the checker accepts its certificate or None where it has
    none, and what is wrong."""

    name: str
    is_same: bool
    is_accepted: object
    reason: str


def sample_of(run, numbers, tries, seed):
    """Lines of these pieces, drawn without return by a seed: by the number of the piece, places from 0 on, ascending."""
    total = sum(run.pieces[number - 1].lines for number in numbers)
    if tries is None or tries >= total:
        return {number: range(run.pieces[number - 1].lines) for number in numbers}
    places = iter(sorted(random.Random(seed).sample(range(total), tries)))
    place, start, found = next(places, None), 0, {}
    for number in numbers:
        end = start + run.pieces[number - 1].lines
        while place is not None and place < end:
            found.setdefault(number, []).append(place - start)
            place = next(places, None)
        start = end
    return found


def sampled_pairs(run, sample):
    """The pairs of lines of a sample."""
    for number, places in sample.items():
        wanted = iter(places)
        place = next(wanted, None)
        for at, pair in enumerate(lines_with_answers(run, number)):
            if at == place:
                yield pair
                place = next(wanted, None)


def ruled_pair(caller, asked, checker, line, row):
    """What becomes of a line and its answer."""
    anew, reason = asked.tried(caller, line)
    is_same = reason is None and anew == row
    if reason is None and not is_same:
        reason = f"its answer is {shown(row)}, and a new call answers {shown(anew)}"
    certificate = certificate_line(line, row) if checker else None
    is_accepted = None
    if certificate:
        ran = caller.run([checker, "check"], certificate.partition(b"\t")[2].replace(b" / ", b"\n") + b"\n")
        is_accepted = ran.status == ANSWERED
        if not is_accepted:
            reason = f"its certificate is not accepted: {ran.body.decode('utf-8', 'replace').strip() or f'status {ran.status}'}"
    return Ruled(line.partition(b"\t")[0].decode(), is_same, is_accepted, reason)


def shown(row):
    """A line of an answer without its name, as far as it is reported."""
    text = row.partition(b"\t")[2].decode("utf-8", "replace").strip().replace("\t", " ")
    return f"'{text[:60]}..'" if len(text) > 60 else f"'{text}'"


def check_sample(run, asked, checker, tries, seed, processes):
    """Answers a sample of the lines anew, and has their certificates checked: the text of what came of it, and whether all is well."""
    left = set(left_of(run))
    numbers = [number for number in range(1, len(run.pieces) + 1) if number not in left]
    if left:
        tell_by_name(f"{len(left)} of {len(run.pieces)} pieces have no whole answer, and are passed over")
    if not numbers:
        raise PieceError(f"{run.folder}: no piece has a whole answer")
    sample = sample_of(run, numbers, tries, seed)
    same = accepted = certificates = count = 0
    caller = Caller()
    with threads(processes, caller.stop) as pool:
        for one in pool.in_order(lambda pair: ruled_pair(caller, asked, checker, *pair), sampled_pairs(run, sample)):
            count += 1
            same += one.is_same
            certificates += one.is_accepted is not None
            accepted += one.is_accepted is True
            if one.reason:
                tell_by_name(f"{one.name}: {one.reason}")
    text = f"{same} of {count} answers are the same when made anew"
    if checker:
        text += f"; {accepted} of {certificates} certificates accepted"
    return text, same == count and accepted == certificates
