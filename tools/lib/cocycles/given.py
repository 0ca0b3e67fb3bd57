"""What a search for cocycles is given: two diagrams in one text, and files of quandles, perhaps with cocycles."""
import os
from collections import namedtuple

from knot_workbench import weighing
from knot_workbench.texts import Lines, read_diagram, read_quandles
from lib.calls import calls

# A quandle, its cocycles where they are given, as a modulus and a list of squares each, and what it is called in a message.
Candidate = namedtuple("Candidate", "quandle given name")


def candidates_of(paths):
    """The quandles of lists and of ready tables, each once with each cocycle."""
    found = {}
    for path in paths:
        with calls.naming(path):
            weighed = weighing.read_weighed_quandles(Lines(calls.input_text(path)))
        stem = os.path.basename(path).removesuffix(".txt")
        for place, (quandle, cocycle) in enumerate(weighed, 1):
            given = [(cocycle[0], [cocycle[1]])] if cocycle else None
            name = f"{stem} number {place}" if len(weighed) > 1 else stem
            found.setdefault((quandle.over, repr(given)), Candidate(quandle, given, name))
    return list(found.values())


def read_pair(text):
    """Two diagrams, and nothing else; or with quandles after them, which are left aside."""
    lines = Lines(text)
    pair = [read_diagram(lines) for _ in range(2)]
    read_quandles(lines)
    lines.done()
    return pair


def is_problem(path):
    """Whether a file begins with a diagram."""
    with calls.naming(path):
        return Lines(calls.input_text(path)).peek() in ("x", "o", "braid")


def pair_and_lists(paths):
    """The two diagrams, of the file that begins with a diagram or else of standard input, and the other files."""
    problems = [path for path in paths if is_problem(path)]
    if len(problems) > 1:
        raise calls.Fault(f"{problems[1]}: {problems[0]} begins with a diagram too: both diagrams are in one file")
    text = calls.input_text(*problems)
    with calls.naming(problems[0] if problems else "standard input"):
        return read_pair(text), [path for path in paths if path not in problems]
