"""The language of rows, which the help of rows.py describes: a file of rows becomes cases, each a call with what it needs and what it must answer."""
import itertools
import os
import re
import shlex
from typing import NamedTuple

from rows_parts import CHECKER, EXPECTED

TOP = os.path.dirname(os.path.dirname(os.path.abspath(__file__)))
ROWS = os.path.join(TOP, "tests", "rows")
MARGIN = "    "
PROGRAMS = ("knot", "seek", CHECKER)
EACH = "each of"
# The parts that say how the call is made.
GIVEN = ("input", "typed input", "input is NAME", "word WORD", "file NAME", "link NAME to OTHER", "pipe NAME", "memory N",
         "output to NAME")
# Parts that are another one on a certain file: reads of a folder fail, and writes on a full device.
ON_A_FILE = {"unreadable input": "input is /", "full output": "output to /dev/full"}
# What the words of a form that are written large leave open.
OPEN = {"NAME": r"(\S+)", "OTHER": r"(\S+)", "WORD": "(.+)", "N": "([0-9]+)", "STATUS": "([0-9]+)", "MODE": "([0-7]+)", "NUMBERS": "([0-9]+(?: [0-9]+)*)"}
FORMS = {form: re.compile(" ".join(OPEN.get(word, word) for word in form.split())) for form in (EACH, *GIVEN, *EXPECTED)}
ONE_BYTE = {"\\": b"\\", "t": b"\t", "r": b"\r", "n": b"\n", "0": b"\0"}
ESCAPE = re.compile(r"\\(?:\{(?P<sum>[^}]*)\}|x(?P<byte>[0-9a-f]{2})|(?P<one>.))")
NUMBER = re.compile(r"(?P<front>\w+)(?: (?P<sign>[+-]) (?P<rest>[0-9]+))?")


class RowError(Exception):
    """A row is none, or the call can't be done; nothing was tried."""


class Part(NamedTuple):
    """A part of a row: its form, what its line has for the words that the form leaves open, and its text, or first its lines."""
    form: str
    words: tuple
    text: object


class Case(NamedTuple):
    """A call and its parts: those that say how it is made, and those that say what is expected."""
    name: str
    words: list
    given_parts: list
    wanted: list

    def parts(self, form):
        """The words and the text of each part of a form."""
        return [(part.words, part.text) for part in (*self.given_parts, *self.wanted) if part.form == form]

    @property
    def given(self):
        """The text of the input."""
        return b"".join(text for form in ("input", "typed input") for _, text in self.parts(form))


def constants():
    """The limits of the crates, by their names."""
    found = {}
    for folder, folders, names in os.walk(os.path.join(TOP, "crates")):
        folders[:] = [it for it in folders if it not in ("out", "specs", "proofs", "must-fail")]
        for name in names:
            if name.endswith(".rt"):
                with open(os.path.join(folder, name), encoding="utf-8") as file:
                    found.update(re.findall(r"^pub const (MAX_\w+): \w+ = ([0-9_]+);", file.read(), re.M))
    return {name: int(number) for name, number in found.items()}


def number_of(text, known):
    """A number, or a constant, and perhaps another one to be added or taken away."""
    parts = NUMBER.fullmatch(text)
    if not parts or not (parts["front"].isdigit() or parts["front"] in known):
        raise RowError(f"`{text}` is no number, and no constant of a crate")
    first = int(parts["front"]) if parts["front"].isdigit() else known[parts["front"]]
    return first + int(f"{parts['sign']}{parts['rest']}") if parts["sign"] else first


def sum_of(text, known):
    """What is in braces: a number, numbers from one to another, so many copies of a text, or the lines of a table."""
    copies = re.fullmatch(r'"(.*)" x (.*)', text)
    if copies:
        return bytes_of(copies[1], known) * number_of(copies[2], known)
    table = re.fullmatch(r"alexander (.*) by ([0-9]+)", text)
    if table:
        return table_by(number_of(table[1], known), int(table[2]))
    first, _, last = text.partition(" to ")
    return " ".join(map(str, range(number_of(first, known), number_of(last or first, known) + 1))).encode()


def table_by(order, factor):
    """The lines of the table of x ▷ y = factor x + (1 − factor) y mod the order, without a line feed at the end."""
    return "\n".join(" ".join(str((factor * x + (1 - factor) * y) % order) for y in range(order)) for x in range(order)).encode()


def escaped(escape, known):
    """The bytes for which an escape stands."""
    if escape["sum"] is not None:
        return sum_of(escape["sum"], known)
    if escape["byte"]:
        return bytes.fromhex(escape["byte"])
    if escape["one"] in ONE_BYTE:
        return ONE_BYTE[escape["one"]]
    raise RowError(f"`{escape[0]}` means no byte")


def bytes_of(line, known):
    """The bytes of a line, without a line feed at the end."""
    made, at = b"", 0
    for escape in ESCAPE.finditer(line):
        made += line[at:escape.start()].encode() + escaped(escape, known)
        at = escape.end()
    return made + line[at:].encode()


def text_of(lines, known):
    """The text of so many lines of a part."""
    return b"".join(bytes_of(line[:-1], known) if re.search(r"(?<!\\)(?:\\\\)*\\$", line) else bytes_of(line, known) + b"\n" for line in lines)


def blocks_of(path):
    """The lines at the margin, each with its number and the indented lines below it."""
    found, empty = [], 0
    with open(path, encoding="utf-8", newline="\n") as file:
        for number, line in enumerate(file.read().split("\n"), 1):
            if not line.strip():
                empty += 1
                continue
            if not line.startswith(MARGIN):
                if not line.startswith("#"):
                    found.append((number, line, []))
            elif found:
                found[-1][2].extend([""] * empty if found[-1][2] else [])
                found[-1][2].append(line[len(MARGIN):])
            empty = 0
    return found


def rows_of(path):
    """The rows of a file: name, call and parts, as blocks."""
    rows = []
    for block in blocks_of(path):
        if block[1].startswith("== "):
            rows.append((block[1][3:], []))
        elif rows:
            rows[-1][1].append(block)
        else:
            raise RowError(f"line {block[0]}: a row begins with a line `== NAME`")
    return rows


def words_of(name, blocks):
    """The words of a call."""
    try:
        words = shlex.split(blocks[0][1]) if blocks else []
    except ValueError as error:
        raise RowError(f"{name}: {error}") from None
    if not words or words[0] not in PROGRAMS or blocks[0][2]:
        raise RowError(f"{name}: a call is due, of knot, seek or {CHECKER}")
    return words


def part_of(number, line, lines):
    """The part that begins with this line."""
    for form, known in FORMS.items():
        found = known.fullmatch(ON_A_FILE.get(line, line))
        if found:
            return Part(form, found.groups(), lines)
    raise RowError(f"line {number}: `{line}` is no part of a row")


def groups_of(name, parts):
    """The parts of a row that say what is expected, below each `each of`; without one, the line that takes the place of `...` is None."""
    groups = []
    for part in parts:
        if part.form == EACH:
            groups.append((part.text, []))
        elif part.form in EXPECTED:
            groups = groups or [([None], [])]
            groups[-1][1].append(part)
    if not groups or not all(map(all, groups)):
        raise RowError(f"{name}: nothing is expected{' below `each of`' if groups else ''}")
    return groups


def filled(part, other, known):
    """The part with its text, in which this line takes the place of `...`."""
    return part._replace(text=text_of([other if line == "..." else line for line in part.text], known))


def cases_of(name, blocks, known):
    """The cases of a row: one, or one a line below each `each of`."""
    words, parts = words_of(name, blocks), [part_of(*block) for block in blocks[1:]]
    words += [bytes_of(part.words[0], known) for part in parts if part.form == "word WORD"]
    given = [part for part in parts if part.form in GIVEN]
    groups, places = groups_of(name, parts), itertools.count(1)
    for others, wanted in groups:
        if (others == [None]) == any("..." in part.text for part in given):
            raise RowError(f"{name}: a line `...` and parts `each of` go together")
        wanted = [filled(part, None, known) for part in wanted]
        for other in others:
            full_name = name if other is None else f"{name}, {next(places)}: {other}"
            yield Case(full_name, words, [filled(part, other, known) for part in given], wanted)


def all_cases(names):
    """The cases of these files, or of all."""
    known, made = constants(), []
    paths = sorted(os.path.join(folder, name) for folder, _, found in os.walk(ROWS) for name in found if name.endswith(".txt"))
    subjects = {os.path.relpath(path, ROWS)[:-4]: path for path in paths}
    for name in names:
        if name not in subjects:
            raise RowError(f"there is no file {name}.txt in tests/rows/")
    for subject, path in subjects.items():
        if not names or subject in names:
            try:
                made += [(subject, case) for name, blocks in rows_of(path) for case in cases_of(name, blocks, known)]
            except RowError as error:
                raise RowError(f"tests/rows/{subject}.txt, {error}") from None
    return made
