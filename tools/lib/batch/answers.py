"""The answers that a batch keeps: how each problem was tried, what was written last, and which stage is next."""
import collections
import json
import re

from knot_workbench.answers import ANSWERED, LIMIT, MALFORMED, REJECTED, UNKNOWN, Answer
from lib.batch.stages import digest, spare_of, stage_key

FINAL = (ANSWERED, REJECTED)
REFUSALS = (MALFORMED, LIMIT)

# One try of a problem. says: the first line that the program wrote, or a verdict in short. told: what it said on standard error.
# added_too_much: a limit was passed after the last line of the problem, by what the stage had added.
Tried = collections.namedtuple("Tried", "stage text key status seconds says told added_too_much", defaults=("", False))
# What is kept of a problem: every try in order, and what the last one wrote.
Kept = collections.namedtuple("Kept", "tried body")

ANSWER_HEAD = re.compile(rb"# problem sha256 ([0-9a-f]{64}) by (.*)\n((?:# tried \{.*\}\n)+)# text sha256 ([0-9a-f]{64})\n")
OVER_AT = re.compile(r"limit line ([0-9]+)")

# How much of standard error is kept, in characters.
TOLD_KEPT = 2000


def answer_bytes(problem, job, answer):
    """The file of an answer: a head of comments, and the program's text as it came."""
    tried = "".join(f"# tried {json.dumps(one._asdict())}\n" for one in answer.tried)
    head = f"# problem sha256 {digest(problem)} by {job or '-'}\n{tried}# text sha256 {digest(answer.body)}\n"
    return head.encode() + answer.body


def read_answer(path, problem, job):
    """The answer that is kept for this problem and job; None where there is none, or it is damaged or of another problem."""
    try:
        with open(path, "rb") as file:
            data = file.read()
    except FileNotFoundError:
        return None
    head = ANSWER_HEAD.match(data)
    if not head or head[1].decode() != digest(problem) or head[2].decode() != (job or "-"):
        return None
    body = data[head.end():]
    if head[4].decode() != digest(body):
        return None
    try:
        tried = [Tried(**json.loads(line[len(b"# tried "):])) for line in head[3].splitlines()]
    except (ValueError, TypeError):
        return None
    return Kept([*tried[:-1], tried[-1]._replace(says=says(body))], body)


def says(body):
    """An answer in short, as the module writes it."""
    return Answer("", ANSWERED, body.decode("utf-8", "replace")).short


def as_answer(job, kept):
    """What is kept of a problem as the last answer of a job, which the module reads."""
    return Answer(job, kept.tried[-1].status, kept.body.decode("utf-8", "replace"))


def ended_line(problem):
    """A text whose last line has its line feed."""
    return problem if not problem or problem.endswith(b"\n") else problem + b"\n"


def kept_of(told):
    """What is kept of standard error: its last characters, and of a line that was written over what stood there last."""
    lines = [line.rstrip("\r").rpartition("\r")[2] for line in told.decode("utf-8", "replace").split("\n")]
    return "\n".join(line for line in lines if line.strip())[-TOLD_KEPT:]


def told_in_one_line(told):
    """What was said on standard error, in one line, without the name of the program before it."""
    return re.sub(r"^(?:knot|seek): ", "", " / ".join(line.strip() for line in told.splitlines()))


def adds_too_much(problem, stage, status, body):
    """Whether a limit was passed by what the stage has added, and not by the problem.

    Where no line is reported, as by seek, or where all bytes are too many, the stages that add nothing decide whether the problem is refused.
    """
    if status != LIMIT or not stage.added:
        return False
    line = OVER_AT.fullmatch(says(body))
    return line is None or int(line[1]) > ended_line(problem).count(b"\n")


def is_final(tried, stages):
    """Whether this try settles the problem: by an answer, or by a refusal in a stage that is still listed."""
    if tried.status in FINAL:
        return True
    return tried.status in REFUSALS and not tried.added_too_much and any(stage_key(stage) == tried.key for stage in stages)


def deciding(answer, stages):
    """The try that the summary shows: the one that settles the problem, else the last search.

    That is the last try of a listed stage that adds nothing, since stages that add quandles may search next to nothing.
    """
    if answer is None:
        return None
    for tried in answer.tried:
        if is_final(tried, stages):
            return tried
    listed = [stage_key(stage) for stage in stages]
    tries = [tried for tried in reversed(answer.tried) if tried.key in listed]
    searches = [tried for tried in tries if not any(word.startswith("+") for word in tried.key)]
    return [*searches, *tries, answer.tried[-1]][0]


def exhausted_spare(tried, stages):
    """The spare of a try that has seen everything within it, else -1."""
    if tried.status != UNKNOWN or not tried.says.startswith("unknown exhausted"):
        return -1
    spare = next((spare_of(stage) for stage in stages if stage_key(stage) == tried.key), None)
    return -1 if spare is None else spare


def next_stage(answer, stages):
    """The first stage that is still to be tried, or None where the problem is settled or nothing is left.

    Where a search has seen all within its spare, a stage of no more spare that adds nothing can only say the same, and is passed over.
    """
    tries = answer.tried if answer else []
    if any(is_final(tried, stages) for tried in tries):
        return None
    seen = max((exhausted_spare(tried, stages) for tried in tries), default=-1)
    keys = [tried.key for tried in tries]
    for stage in stages:
        spare = spare_of(stage)
        if stage_key(stage) not in keys and (stage.added or spare is None or spare > seen):
            return stage
    return None
