"""The summary of a batch: a line for each problem, what is wrong with it, and the exit status that follows."""
import collections
import csv
import io
import os
import re

from knot_workbench.answers import VERDICTS, Answer
from lib.batch.answers import deciding, told_in_one_line
from lib.batch.problems import names_in, natural
from lib.batch.runs import FOLDERS, ruling_of, tell, write_named
from lib.calls.calls import reason_of, say

# name: that of the problem's file. first, second: what the problem's comments call its diagrams.
SummaryRow = collections.namedtuple("SummaryRow", "name first second verdict evidence stage seconds check")

NAME_LINE = re.compile(r"^# (name|first|second): (.*?)\r?$", re.M)


def diagram_names(problem):
    """What the comments `# first: ..` and `# second: ..` call the diagrams; `# name: ..` is the only diagram's. Else empty."""
    found = {}
    for key, name in NAME_LINE.findall(problem.decode("utf-8", "replace")):
        found.setdefault("first" if key == "name" else key, name.strip())
    return found.get("first", ""), found.get("second", "")


def in_short(tried):
    """Verdict and evidence of a try."""
    kind = Answer("", tried.status, tried.says).kind
    _, _, rest = tried.says.partition(" ")
    if kind in ("malformed", "limit"):
        return "refused", tried.says or told_in_one_line(tried.told)
    if kind == "nothing":
        # seek writes nothing then, and says on standard error what was tried; its sentence is kept with the answer.
        return "unknown", tried.says or told_in_one_line(tried.told).partition(":")[0]
    return (kind, rest) if kind in VERDICTS else ("answered", "")


def unread(name, reason):
    """The row of a problem that can't be read."""
    return SummaryRow(name, "", "", "none", reason, "", "", "")


def summary_row(batch, name):
    """The row of a problem."""
    try:
        problem, answer = batch.answer(name)
        first, second = diagram_names(problem)
        tried = deciding(answer, batch.stages)
        if tried is None:
            return SummaryRow(name, first, second, "none", "", "", "", "")
        seconds = f"{sum(one.seconds for one in answer.tried):.3f}"
        certificate = batch.certificate(name)
        check = "" if certificate is None else ruling_of(batch.path("rulings", name), certificate) or "none"
        return SummaryRow(name, first, second, *in_short(tried), tried.stage, seconds, check)
    except OSError as error:
        return unread(name, reason_of(error))


def faults_of(batch, row):
    """What is wrong with a row, in words."""
    if row.verdict == "none":
        yield row.evidence or "no answer"
        return
    stage = batch.guarded(batch.next_stage, row.name)
    if row.verdict == "refused":
        yield f"refused at stage {row.stage}: {row.evidence}"
    elif row.verdict == "rejected":
        yield f"rejected: {row.evidence}"
    elif stage:
        yield f"no answer at stage {stage.name}"
    if row.check not in ("", "accepted"):
        yield f"the certificate is not accepted: {row.check}"


def summary_bytes(rows):
    """The file of the summary."""
    out = io.StringIO(newline="")
    writer = csv.writer(out, lineterminator="\n")
    writer.writerow(SummaryRow._fields)
    writer.writerows(rows)
    return out.getvalue().encode("utf-8", "surrogateescape")


def verdict_counts(rows):
    """How many rows have which verdict, in words."""
    counts = collections.Counter(row.verdict for row in rows)
    none = counts.pop("none", 0)
    texts = [f"{count} {verdict}" for verdict, count in sorted(counts.items())]
    return ", ".join(texts + [f"{none} without an answer"] * (none > 0))


def report(batch, names, unreadable, with_summary):
    """Writes the summary, names each fault on standard error, and gives the exit status.

    `unreadable` has the names of the problems that can't be read, each with the reason.
    """
    rows = [unread(name, unreadable[name]) if name in unreadable else summary_row(batch, name) for name in names]
    if not with_summary:
        # Certificates are made and checked when the parts are put together.
        rows = [row._replace(check="") for row in rows]
    # A part that has run all it has is done, whatever was found; the call that puts the parts together says the rest.
    status = 1 if with_summary and any(row.verdict == "unknown" for row in rows) else 0
    for row in rows:
        for fault in faults_of(batch, row):
            tell(f"{batch.problem_path(row.name)}: {fault}")
            status = 3
    line = f"{len(rows)} problems: {verdict_counts(rows)}"
    if with_summary:
        write_named(os.path.join(batch.answers, "summary.csv"), summary_bytes(rows))
        checks = [row.check for row in rows if row.check]
        if checks:
            line += f"; {checks.count('accepted')} of {len(checks)} certificates accepted"
        tell_strays(batch, names)
    say(line)
    return status


def tell_strays(batch, names):
    """Names what is kept of problems that aren't there."""
    for folder in FOLDERS:
        for name in sorted(set(names_in(os.path.join(batch.answers, folder))) - set(names), key=natural):
            tell(f"{batch.path(folder, name)}: no problem of this name; not counted")
