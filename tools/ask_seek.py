#!/usr/bin/env python3
"""Asks seek about diagrams that its own arguments can't give. ./seek calls it if its arguments have one of these options:

    ./seek --knot 10_132 FILE                 a knot of tables/ by its name, as another diagram
    ./seek --mirror FIRST SECOND              the mirror image of the second diagram
    ./seek --reverse FIRST SECOND             the second diagram, run through backwards
    ./seek --mirror --reverse FIRST SECOND    its mirror image, run through backwards
    ./seek --turns FIRST SECOND               the second diagram as given, and these three: a line for each

All other arguments are those of ./seek --help. Diagrams are files, --braid, --pd and --knot, or a problem. The answer to one question, its exit status
and what is said on standard error are those of seek. The answer is about the diagrams as they were turned: --problem FILE writes the problem
that has these, and the problem followed by the answer is a certificate:

    ./seek --mirror --problem problem.txt one.txt two.txt > verdict.txt
    cat problem.txt verdict.txt | ./knot check

With --turns each line has a turn and what was found, as `mirrored: equal 5`, `reversed: different dihedral 3` or `as given: open`. What was
found was accepted by `knot check`; --certificates FOLDER keeps it, as FOLDER/mirrored.txt. Four searches run at once.

exit status with --turns:
  0    each line is `equal` or `different`
  1    some line is `open`
  2    an argument is wrong
  3    a diagram or a problem is malformed
  5    a file can't be read; also 4, 6, 7 and 127, as of seek
  8    knot check rejected what was found
"""
import argparse
import os
import signal
import sys
import tempfile

from lib.calls import calls
from lib.calls.pools import threads
from lib.tables.programs import use_programs
from knot_workbench.answers import ANSWERED, MALFORMED, REJECTED, UNKNOWN, Answer
from knot_workbench.certificates import check, put_whole
from knot_workbench.code_grids import Grids
from knot_workbench.diagrams import Grid, diagram_text, mirror_image, reverse
from knot_workbench.faults import Failed, Fault, NoFile, NoProgram, Rejected, not_utf8
from knot_workbench.programs import default_cocycles, end_calls, path_of, run_program
from knot_workbench.quandles import quandle_text
from knot_workbench.sources import grid_named
from knot_workbench.texts import Lines, read_diagram, read_quandles

NAME = "seek"
# Further statuses of seek for what goes wrong here.
UNREADABLE, UNWRITABLE, WITHOUT_PROGRAM = 5, 6, 127
# The options of seek that have a value, and those of this script.
VALUED = ("--quandles", "--weights", "--out", "--seed", "--steps", "--room", "--workers", "--braid", "--pd", "--knot", "--problem", "--certificates")
# The turns of --turns: whether mirrored, whether reversed.
TURN_OF_WORD = {"as given": (False, False), "mirrored": (True, False), "reversed": (False, True), "mirrored and reversed": (True, True)}


class KeepDiagram(argparse.Action):
    """Keeps how each diagram is given, and in which order."""

    def __call__(self, parser, namespace, value, option_string=None):
        namespace.diagrams = [*(namespace.diagrams or []), (option_string, value)]


def parser():
    usage = "%(prog)s [--knot NAME] [--mirror] [--reverse] [--turns] [--problem FILE] [--certificates FOLDER] [OPTIONS OF SEEK] [PROBLEM | FIRST SECOND]"
    words = argparse.ArgumentParser(usage=usage, description=__doc__, formatter_class=argparse.RawDescriptionHelpFormatter, allow_abbrev=False)
    words.add_argument("--mirror", action="store_true", help="ask about the mirror image of the second diagram")
    words.add_argument("--reverse", action="store_true", help="ask about the second diagram run through backwards")
    words.add_argument("--turns", action="store_true", help="ask about the second diagram as given, mirrored, reversed, and both: a line for each")
    words.add_argument("--problem", metavar="FILE", help="write the problem that seek is asked about to a file")
    words.add_argument("--certificates", metavar="FOLDER", help="with --turns, keep a certificate of each line that isn't open")
    words.add_argument("--knot", metavar="NAME", action=KeepDiagram, dest="diagrams", help="a knot of tables/ as a diagram, as 10_132 or '3_1 mirrored'")
    for option in ("--file", "--braid", "--pd"):
        words.add_argument(option, action=KeepDiagram, dest="diagrams", help=argparse.SUPPRESS)
    return words


def with_options(words):
    """The words with an option before each file, and each value joined to its option: so diagrams keep their order, whatever a value begins with."""
    found, place = [], 0
    while place < len(words):
        word = words[place]
        place += 1
        if word == "--":
            return found + [f"--file={one}" for one in words[place:]]
        if word in VALUED and place < len(words):
            found.append(f"{word}={words[place]}")
            place += 1
        else:
            found.append(word if word.startswith("-") and word != "-" else f"--file={word}")
    return found


def text_at_path(path):
    """The text of a file; of standard input for `-`."""
    try:
        if path == "-":
            data = calls.input_bytes()
        else:
            with open(path, "rb") as file:
                data = file.read()
        return data.decode()
    except UnicodeDecodeError as fault:
        raise Fault(f"{path}: {not_utf8(fault)}") from None
    except OSError as fault:
        calls.end(NAME, f"{path}: {fault.strerror}", UNREADABLE)


def diagram_by(way, word):
    """A diagram that is given in one of the four ways."""
    if way == "--knot":
        return grid_named(word)
    with calls.naming(word if way != "--braid" else f"--braid '{word}'"):
        if way == "--pd":
            return Grid(*Grids().of(text_at_path(word)))
        lines = Lines(text_at_path(word) if way == "--file" else f"braid {word}\n")
        found = read_diagram(lines)
        lines.done()
    return found


def problem_of(given):
    """Both diagrams and the quandles after them. None if the words don't name two diagrams."""
    if len(given) == 2:
        return diagram_by(*given[0]), diagram_by(*given[1]), []
    if len(given) > 2 or given and given[0][0] != "--file":
        return None
    path = given[0][1] if given else "-"
    with calls.naming(path):
        lines = Lines(text_at_path(path))
        first, second, quandles = read_diagram(lines), read_diagram(lines), read_quandles(lines)
        lines.done()
    return first, second, quandles


def turned_problem(problem, is_mirrored, is_reversed):
    """The text of a problem whose second diagram is turned, if it is to be."""
    first, second, quandles = problem
    second = mirror_image(second) if is_mirrored else second
    second = reverse(second) if is_reversed else second
    name = next(name for name, turn in TURN_OF_WORD.items() if turn == (is_mirrored, is_reversed))
    remark = f"# the second diagram, {name}\n" if is_mirrored or is_reversed else ""
    return f"{diagram_text(first)}{remark}{diagram_text(second)}{''.join(map(quandle_text, quandles))}"


def seek_words(passed):
    """The words for seek, among them the default cocycles, if it counts by them."""
    listed = default_cocycles(path_of(NAME), passed)
    return [*([f"--weights={listed}"] if listed else []), *passed, "-"]


def ask_once(text, passed):
    """Becomes seek, with the problem as its standard input."""
    with tempfile.TemporaryFile() as source:
        source.write(text.encode())
        source.seek(0)
        os.dup2(source.fileno(), 0)
    # (which Python ignores, and seek would)
    for number in (signal.SIGPIPE, signal.SIGXFSZ):
        signal.signal(number, signal.SIG_DFL)
    path = path_of(NAME)
    os.execv(path, [path, *seek_words(passed)])


def found_of(text, passed):
    """What seek writes and says, if it finds something or nothing. Failed if it ends otherwise, or `knot check` rejects what it wrote."""
    ran = run_program(NAME, seek_words(passed), text)
    if ran.status not in (ANSWERED, UNKNOWN):
        raise Failed(ran.told.strip().removeprefix(f"{NAME}: ") or ran.text.strip(), ran.status)
    if ran.status == ANSWERED:
        try:
            check(text + ran.text)
        except Rejected as fault:
            raise Failed(f"knot check rejects what was found: {fault.cause}", REJECTED) from None
    return ran


def ask_all(problem, passed, folder):
    """A line for each turn: the exit status."""
    if folder:
        os.makedirs(folder, exist_ok=True)
    texts = {name: turned_problem(problem, *turn) for name, turn in TURN_OF_WORD.items()}
    is_open = False
    with threads(len(TURN_OF_WORD), end_calls) as pool:
        for name, ran in zip(TURN_OF_WORD, pool.in_order(lambda text: found_of(text, passed), texts.values())):
            if ran.status == UNKNOWN:
                is_open = True
                calls.say(f"{name}: open")
                if ran.told:
                    calls.note(f"{NAME}: {name}: {ran.told.strip().splitlines()[-1].removeprefix(f'{NAME}: ')}")
                continue
            calls.say(f"{name}: {Answer('', ANSWERED, ran.text).short}")
            if folder:
                put_whole(os.path.join(folder, f"{name.replace(' ', '-')}.txt"), texts[name] + ran.text)
    return 1 if is_open else 0


def asked(words, passed):
    """Does what the words ask for."""
    problem = problem_of(words.diagrams or [])
    if problem is None:
        parser().error("two diagrams are compared, each a file, a braid, a code or a knot, or one file with both")
    if words.turns:
        raise SystemExit(ask_all(problem, passed, words.certificates))
    text = turned_problem(problem, words.mirror, words.reverse)
    if words.problem:
        put_whole(words.problem, text)
    ask_once(text, passed)


def main():
    words, passed = parser().parse_known_args(with_options(sys.argv[1:]))
    if not (words.mirror or words.reverse or words.turns or any(way == "--knot" for way, _ in words.diagrams or [])):
        parser().error("--knot, --mirror, --reverse or --turns is missing")
    if words.turns and (words.mirror or words.reverse or words.problem or any(word.startswith("--out") for word in passed)):
        parser().error("--turns asks about all turns, and goes with none of --mirror, --reverse, --problem and --out; --certificates keeps what is found")
    if words.certificates and not words.turns:
        parser().error("--certificates goes with --turns, and --problem without it")
    read = [word for way, word in words.diagrams or [] if way in ("--file", "--pd") and os.path.exists(word)]
    if words.problem and os.path.exists(words.problem) and any(os.path.samefile(words.problem, path) for path in read):
        parser().error(f"{words.problem} would be both read and written")
    try:
        needs_knot = words.turns or any(way == "--pd" for way, _ in words.diagrams or [])
        use_programs(uses=("knot", NAME) if needs_knot else (NAME,))
        asked(words, passed)
    except NoFile as fault:
        calls.end(NAME, str(fault), UNWRITABLE)
    except NoProgram as fault:
        calls.end(NAME, str(fault), WITHOUT_PROGRAM)
    except Failed as fault:
        calls.end(NAME, str(fault), fault.status if fault.status > 0 else 128 - fault.status)


if __name__ == "__main__":
    calls.run(NAME, main, MALFORMED)
