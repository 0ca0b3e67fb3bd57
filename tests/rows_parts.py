"""What a row may expect of its call: each kind of part has a function, which is given the trial of the row, the part's text and the words of its
line that its form leaves open, and answers what differs, and None for what doesn't."""
import os
import stat

CHECKER = "knot_check"
# The statuses of an input that was read.
TAKEN = (0, 1, 8)
MALFORMED = 3
ACCEPTED = b"accepted\n"
# The functions by the forms of their parts.
EXPECTED = {}


def part(form):
    """Has a function try the parts of this form."""
    def known(function):
        EXPECTED[form] = function
        return function
    return known


def differs(what, found, wanted):
    """What is said of two values that are not the same."""
    return None if found == wanted else f"{what} is {found!r}, and not {wanted!r}"


def status_is(trial, status):
    """What is said of another exit status than this."""
    return differs("status", trial.ended.status, int(status))


def text_in(trial, name):
    """The bytes of a file, or None where there is none."""
    try:
        with open(trial.path(name), "rb") as file:
            return file.read()
    except OSError:
        return None


@part("answer STATUS")
def answer(trial, text, status):
    return [status_is(trial, status), differs("standard output", trial.ended.text, text)]


@part("front STATUS")
def front(trial, text, status):
    return [status_is(trial, status), differs("the front of standard output", trial.ended.text[:len(text)], text)]


@part("error")
def error(trial, text):
    if trial.case.words[0] != "knot":
        return [differs("standard error", trial.ended.error, text)]
    beside = trial.at_a_terminal()
    return [differs("what a terminal gets", beside.error, text), differs("the answer beside a terminal", beside[:2], trial.ended[:2])]


@part("taken")
def taken(trial, _text):
    return [None if trial.ended.status in TAKEN else f"the input isn't taken: status {trial.ended.status}, {trial.ended.text!r}"]


def accepted(trial, found):
    """What is said where a checker doesn't accept the input followed by this."""
    checkers = [["knot", "check"], *([[CHECKER]] if CHECKER in trial.programs else [])]
    return [status_is(trial, 0), *(differs("what `check` says of it", trial.call(words, trial.case.given + found).text, ACCEPTED) for words in checkers)]


@part("accepted behind it")
def accepted_behind(trial, _text):
    return accepted(trial, trial.ended.text)


@part("accepted in NAME")
def accepted_in(trial, _text, name):
    found = text_in(trial, name)
    return [f"no file {name} is written"] if found is None else accepted(trial, found)


def leads(trial, last):
    """What is wrong with a grid, moves that lead to it, and this last line."""
    lines = trial.ended.text.splitlines(keepends=True)
    reached = trial.call(["knot", "replay"], trial.case.given + b"".join(lines[2:-1]))
    return [status_is(trial, 0), differs("the last line", lines[-1:], [last]), differs("the last diagram", reached.text, b"".join(lines[:2]))]


def has_columns(lines, columns):
    """What is said where these lines are no grid of so many columns."""
    return differs("columns", [len(line.split()) - 1 for line in lines], [int(columns)] * 2)


@part("simplified to N columns")
def simplified(trial, _text, columns):
    return [*leads(trial, b"irreducible\n"), has_columns(trial.ended.text.splitlines()[:2], columns)]


@part("whole")
def whole(trial, _text):
    return leads(trial, b"whole\n")


@part("drawn in N columns")
def drawn(trial, _text, columns):
    return [status_is(trial, 0), has_columns(trial.ended.text.splitlines(), columns)]


def columns_of(words):
    """The columns of the diagram that begins with a line of these words."""
    return 2 * int(words[1]) + len(words) - 2 if words[0] == "braid" else len(words) - 1


@part("equal within N columns")
def equal(trial, _text, columns):
    lines = trial.ended.text.decode(errors="replace").splitlines()
    size = most = columns_of(trial.case.given.decode().splitlines()[0].split())
    for line in lines[2:]:
        size += line.startswith("stabilise") - line.startswith("destabilise")
        most = max(most, size)
    return [status_is(trial, 0), differs("the verdict", [line.split()[0] for line in lines[:2]], ["certificate", "equal"]),
            None if most <= int(columns) else f"a diagram along the moves has {most} columns, and not at most {columns}"]


@part("lists of NUMBERS")
def lists(trial, _text, numbers):
    said, found, is_list = [], [], False
    for line in trial.ended.text.decode(errors="replace").splitlines():
        if line.startswith("list "):
            said, found, is_list = [*said, int(line.split()[1])], [*found, 0], True
        elif line.startswith("quandle"):
            # what follows it, up to a list, is a table
            is_list = False
        elif is_list and line[:1].isdigit():
            found[-1] += 1
    wanted = [int(number) for number in numbers.split()]
    return [status_is(trial, 0), differs("the numbers of lines that are reported", said, wanted), differs("the numbers of lines", found, wanted)]


@part("written NAME")
def written(trial, text, name):
    found = text_in(trial, name)
    return [f"no file {name} is written" if found is None else differs(f"the front of {name}", found[:len(text)], text)]


@part("piped NAME")
def piped(trial, text, name):
    found = trial.pipes.got.get(name)
    return [f"nothing is written into {name}" if found is None else differs(f"the front of what {name} got", found[:len(text)], text)]


@part("linked NAME")
def linked(trial, _text, name):
    return [None if os.path.islink(trial.path(name)) else f"{name} is no symbolic link any more"]


@part("unwritten NAME")
def unwritten(trial, _text, name):
    return [f"a file {name} is written" if os.path.isfile(trial.path(name)) else None]


@part("nothing beside")
def nothing_beside(trial, _text):
    forms = ("file NAME", "link NAME to OTHER", "pipe NAME", "written NAME")
    named = {words[0].split("/")[0] for form in forms for words, _ in trial.case.parts(form)}
    return [differs("what else is there", sorted({*os.listdir(trial.folder)} - named), [])]


@part("mode MODE of NAME")
def mode(trial, _text, wanted, name):
    return [differs(f"the mode of {name}", f"{stat.S_IMODE(os.stat(trial.path(name)).st_mode):o}", wanted)]


@part("again")
def again(trial, _text):
    return [differs("the answer of the same call", trial.made()[:2], trial.ended[:2])]


@part("cut at each byte")
def cut(trial, _text):
    words, given = trial.case.words, trial.case.given
    ended = [trial.call(words, given[:length]) for length in range(len(given))]
    return [*(differs(f"cut to {length} bytes: the status", one.status, MALFORMED) for length, one in enumerate(ended[:-1])),
            *(differs("without its last line feed: the answer", one[:2], trial.ended[:2]) for one in ended[-1:])]


@part("altered at each byte")
def altered(trial, _text):
    def at(place):
        given = trial.case.given
        found = trial.call(trial.case.words, given[:place] + b"\1" + given[place + 1:])
        wanted = b"malformed line %d\n" % (given[:place].count(b"\n") + 1)
        return differs(f"altered at byte {place}: the answer", found[:2], (MALFORMED, wanted))

    return map(at, range(len(trial.case.given)))
