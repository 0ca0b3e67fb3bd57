"""The jobs: what each answers, and the words that ask for them.

A new job is a line in JOBS: its shape, its answer, and its limit of bytes. Its shape is in items.py, its mathematics in a file of
their own, and its answer here.
"""
import re

from .answers import Answer, Least, Searched, Simplified, print_verdict
from .braids import after_step, at_feet, closure, feet_of_closure, fixed_points, range_of_step, room_for_step, shape_of_step, word_of
from .codes import linking_numbers, print_code
from .diagrams import apply, bottoms, carried, colourings, fits, is_colouring, play, print_grid, print_list
from .drawn import answer_grid
from .items import (braid_and_quandles, certificate, code_text, diagram_and_blocks, diagram_and_moves, diagram_and_quandles, lone_diagram, pair_and_weights,
    problem, two_braids_and_steps, two_diagrams)
from .lines import DONE, Fault, LIMIT, Lines, MALFORMED, MAX_LIST, NOT_UTF8, REJECTED, USAGE
from .numbers import answer_numbers, cause_of_linking, cause_of_numbers
from .tables import cause_of_table
from .weights import counts_by_weight

USAGE_LINE = b"usage: knot JOB [--workers W] [--budget B] [--spare S] [--seed N]\n"


def answer_decide(options, first, second, quandles):
    """`different` by the first quandle that distinguishes, else what a search may find."""
    for quandle in quandles:
        if fits(first, quandle) and fits(second, quandle):
            lists = [colourings(first, quandle), colourings(second, quandle)]
            if len(lists[0]) != len(lists[1]):
                return Answer(DONE, print_verdict(("different", quandle, lists)))
    return Searched(first, second, options["budget"], options["spare"])


def cause_of(first, second, verdict):
    """Why a verdict is rejected, or None."""
    if verdict[0] == "equal":
        last, stop, _ = play(first, verdict[1])
        return stop or (None if last == second else "otherend")
    if verdict[0] == "unknown":
        return "noevidence"
    _, quandle, lists = verdict
    for which, grid in enumerate((first, second), 1):
        if not fits(grid, quandle):
            return f"wide {which} {bottoms(grid)}"
    for which, (grid, given) in enumerate(zip((first, second), lists), 1):
        complete = colourings(grid, quandle)
        if given != complete:
            place = next((place for place, pair in enumerate(zip(given, complete)) if pair[0] != pair[1]), min(len(given), len(complete)))
            return f"list {which} {place}"
    return "samelength" if len(lists[0]) == len(lists[1]) else None


# Evidence by numbers, by its word.
CAUSES_BY_NUMBERS = {"numbers": cause_of_numbers, "linking": cause_of_linking}


def answer_check(_options, said, *diagrams):
    """`accepted`, or the first cause."""
    if said[0] == "table":
        cause = cause_of_table(*said[1:])
    elif said[0] in CAUSES_BY_NUMBERS:
        cause = CAUSES_BY_NUMBERS[said[0]](*diagrams, *said[1:])
    else:
        cause = cause_of(*diagrams, said)
    return Answer(REJECTED, f"rejected {cause}\n") if cause else Answer(DONE, "accepted\n")


def answer_replay(_options, grid, moves, quandle, colours):
    """The last diagram and the carried colours, or the first cause."""
    if quandle and not is_colouring(grid, quandle, colours):
        return Answer(REJECTED, "rejected colours\n")
    last, stop, _ = play(grid, moves)
    if stop:
        return Answer(REJECTED, f"rejected {stop}\n")
    if not quandle:
        return Answer(DONE, print_grid(last))
    for move in moves:
        colours = carried(grid, move, quandle, colours)
        grid = apply(grid, move)
    return Answer(DONE, print_grid(last) + f"colours {' '.join(map(str, colours))}\n")


def answer_colour(_options, grid, quandles):
    """The complete lists of one diagram."""
    return Answer(DONE, "".join(
        f"quandle {quandle.printed}" + (print_list(colourings(grid, quandle)) if fits(grid, quandle) else f"wide {bottoms(grid)}\n")
        for quandle in quandles))


def answer_close(_options, braid, quandles):
    """The closure, its feet, and all fixed points."""
    strands, letters = braid
    grid = closure(strands, letters)
    text = print_grid(grid) + f"feet {' '.join(map(str, feet_of_closure(grid, strands)))}\n"
    for quandle in quandles:
        wide = quandle.order ** strands > MAX_LIST
        text += f"quandle {quandle.printed}" + (f"wide {strands}\n" if wide else print_list(fixed_points(strands, letters, quandle)))
    return Answer(DONE, text)


def answer_code(_options, grid):
    """The code of a diagram."""
    return Answer(DONE, print_code(grid))


def answer_simplify(options, grid):
    """What a simplification may find."""
    return Simplified(grid, options["budget"])


def answer_least(options, grid):
    """What the least diagram of a class may be answered by."""
    return Least(grid, options["budget"])


def answer_sample(options):
    """What a walk of any seed has to tell."""
    return Answer(DONE, f"sample {options['seed']}\nmoves 200\naccepted\ntrivial 2: 2 2\ndihedral 3: 9 9\ntetrahedral: 16 16\n"
                        "dihedral 5: 5 5\ndihedral 7: 7 7\n")


def answer_braid(_options, grid, quandles):
    """A word of a diagram, and all fixed points of its action."""
    strands, letters = word_of(grid)
    text = f"braid {' '.join(map(str, [strands, *letters]))}\n"
    for quandle in quandles:
        text += f"quandle {quandle.printed}"
        if fits(grid, quandle):
            text += print_list(sorted(at_feet(grid, quandle, colours) for colours in colourings(grid, quandle)))
        else:
            text += f"wide {bottoms(grid)}\n"
    return Answer(DONE, text)


def print_compared(word, first, second):
    """The numbers of two diagrams, and whether they differ."""
    return "".join(" ".join([word, *map(str, numbers)]) + "\n" for numbers in (first, second)) + (
        "alike\n" if first == second else "different\n")


def answer_linking(_options, first, second):
    """The linking numbers of two diagrams."""
    return Answer(DONE, print_compared("numbers", linking_numbers(first), linking_numbers(second)))


def answer_weights(_options, first, second, quandle, modulus, values):
    """How often each weight is in the lists of two diagrams."""
    for which, grid in enumerate((first, second), 1):
        if not fits(grid, quandle):
            return Answer(DONE, f"wide {which} {bottoms(grid)}\n")
    counts = [counts_by_weight(grid, quandle, modulus, values, colourings(grid, quandle)) for grid in (first, second)]
    return Answer(DONE, print_compared("weights", *counts))


def answer_braidcheck(_options, first, second, steps):
    """`accepted`, or the first step that is not legal."""
    braid = first
    for place, step in enumerate(steps):
        for fault, holds in (("range", range_of_step), ("shape", shape_of_step), ("full", room_for_step)):
            if not holds(step, *braid):
                return Answer(REJECTED, f"rejected step {place} {fault}\n")
        braid = after_step(step, *braid)
    return Answer(DONE, "accepted\n") if braid == second else Answer(REJECTED, "rejected otherend\n")


MEBIBYTE = 1_048_576

# A job's shape, its answer, and its limit of bytes; None where the input is not read.
JOBS = {
    b"decide": (problem, answer_decide, MEBIBYTE),
    b"check": (certificate, answer_check, 32 * MEBIBYTE),
    b"replay": (diagram_and_moves, answer_replay, MEBIBYTE),
    b"colour": (diagram_and_quandles, answer_colour, MEBIBYTE),
    b"close": (braid_and_quandles, answer_close, MEBIBYTE),
    b"code": (lone_diagram, answer_code, MEBIBYTE),
    b"braid": (diagram_and_quandles, answer_braid, MEBIBYTE),
    b"linking": (two_diagrams, answer_linking, MEBIBYTE),
    b"braidcheck": (two_braids_and_steps, answer_braidcheck, MEBIBYTE),
    b"weights": (pair_and_weights, answer_weights, MEBIBYTE),
    b"numbers": (diagram_and_blocks, answer_numbers, MEBIBYTE),
    b"grid": (code_text, answer_grid, MEBIBYTE),
    b"simplify": (lone_diagram, answer_simplify, MEBIBYTE),
    b"least": (lone_diagram, answer_least, MEBIBYTE),
    b"sample": (None, answer_sample, None),
}

# The bounds of an option, and its default.
OPTIONS = {
    b"workers": (1, 64, 1),
    b"budget": (2, 500_000, 20_000),
    b"spare": (0, 4, 1),
    b"seed": (0, 2**64 - 1, 1),
}


class Refused(Exception):
    """The words ask for no job."""


def value_of(name, spelling, with_equals_sign):
    """The number of an option, within its bounds."""
    least, most, _ = OPTIONS[name]
    if re.fullmatch(rb"\+?[0-9]+", spelling):
        digits = spelling.lstrip(b"+").lstrip(b"0") or b"0"
        value = int(digits) if len(digits) <= 40 else most + 1
    elif with_equals_sign and name != b"seed" and re.fullmatch(rb"-0+", spelling):
        value = 0
    else:
        raise Refused
    if not least <= value <= most:
        raise Refused
    return value


def read_words(words):
    """The job and the options that words ask for, which are after the program's name."""
    given, jobs, words = {}, [], list(words)
    while words:
        word = words.pop(0)
        if word == b"--":
            jobs += words
            break
        if not word.startswith(b"-"):
            jobs.append(word)
            continue
        name, sign_of_equality, spelling = word.partition(b"=")
        if not name.startswith(b"--") or name[2:] not in OPTIONS or name[2:] in given:
            raise Refused
        if not sign_of_equality:
            if not words or words[0].startswith(b"-"):
                raise Refused
            spelling = words.pop(0)
        given[name[2:]] = value_of(name[2:], spelling, bool(sign_of_equality))
    if len(jobs) != 1 or jobs[0] not in JOBS:
        raise Refused
    options = {name.decode(): default for name, (_, _, default) in OPTIONS.items()}
    options.update({name.decode(): value for name, value in given.items()})
    return jobs[0], options


def is_utf8(word):
    """Whether a word is text."""
    try:
        word.decode("utf-8")
    except UnicodeDecodeError:
        return False
    return True


def answer(words, data, program=b"knot"):
    """How a call with these words and this input ends."""
    if not all(map(is_utf8, [program, *words])):
        return Answer(NOT_UTF8, b"")
    try:
        job, options = read_words(words)
    except Refused:
        return Answer(USAGE, USAGE_LINE)
    shape, answer_job, limit = JOBS[job]
    if shape is None:
        return answer_job(options)
    if len(data) > limit:
        return Answer(LIMIT, b"limit bytes\n")
    try:
        lines = Lines(data)
        items = shape(lines)
        lines.end()
    except Fault as fault:
        return Answer(fault.status, f"{'malformed' if fault.status == MALFORMED else 'limit'} line {fault.line}\n")
    return answer_job(options, *items)
