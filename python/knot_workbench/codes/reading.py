"""Codes of crossings as other programs print them, as one value: PD, DT and Gauss codes, of texts and of lists.

    >>> read_text("DT:[(4,6,2)]").rows
    [[4, 1, 5, 2], [6, 3, 1, 4], [2, 5, 3, 6]]
    >>> read_text("{-1, 2, -3, 1, -2, 3}").kind
    'Gauss'

These forms are read, with brackets of any kind, commas or blanks:

    PD     PD[X[4,2,5,1], ..], [[4,2,5,1], ..], (4,2,5,1), .., X4251 X8615 .. and X_{3,10,4,11} .. of the Knot Atlas, and what the job `code` of knot
           writes
    DT     DT[4,6,2], [4,6,2], DTCode[{6,8},{2,4}], DT:[(4,6,2)], and letters such as DT[cacbca]: the numbers of crossings and components, the
           length of each component, and then 2, 4, .. as a, b, .. and -2, -4, .. as A, B, ..
    Gauss  GaussCode[-1,2,-3,1,-2,3], {1,-2,3,-1,2,-3}, a list for each component; O1+U2+O3+U1+O2+U3+ with the signs of the crossings;
           [[[-1,2,-3,1,-2,3]],[1,1,1]], whose second list has the signs

kinds.py says which code a list without a word is. A DT code, and a Gauss code without signs of crossings, are also codes of the mirror image:
`parts` is how many parts of the diagram may each be mirrored.
"""
import re
from typing import Any, Dict, Iterable, List, NamedTuple, Optional, Sequence, Union

from ..faults import BadCode
from .brackets import are_numbers, components_in, lists_in, plain_lists, unwrapped
from .gauss import rows_of_gauss, rows_of_signed
from .kinds import KINDS, PASSAGES, in_doubt, is_of_knot, is_signed, kind_of_lists, kind_of_text, without_flips
from .planar import planar_text, rows_of_dt

MAX_CROSSINGS = 1104

ROW_WORD = re.compile(r"(?<![A-Za-z])X[pm]?\s*(?=[\[({])")
LETTERS = re.compile(r"\s*[\[({\"']*\s*([A-Za-z]{3,})\s*(\.[01]*)?\s*[\])}\"']*\s*")
PASSAGE = re.compile(r"([OU])([0-9]{1,9})([+-])")

# A crossing as the Knot Atlas writes it, X4251 or X3,10,4,11, perhaps with the marks of a subscript, X_{4251}.
EDGES = r"[0-9]{4}|[0-9]{1,9}(?:\s*,\s*[0-9]{1,9}){3}"
SHORT_CROSSING = re.compile(rf"(?<![A-Za-z])X[pm]?(?:_?\{{\s*({EDGES})\s*\}}|({EDGES})(?=[\s\])}};X]|,\s*X|,?$))")
NO_CROSSING = re.compile(r"(?<![A-Za-z])X[pm]?[_0-9][^\sX]*")

# What is said of a list of numbers that may be a code or a braid word.
DOUBTS = {"DT": "2, 4 and so on, each once: a DT code, and not a braid word; --as dt takes it for one; --as braid takes it for a word",
          "Gauss": "each number once with either sign: a Gauss code, and not a braid word; --as gauss takes it for one; --as braid takes it for a word"}


class CodeOf(NamedTuple):
    """A code of crossings.

    `kind`   "PD", "DT" or "Gauss", as it was given
    `rows`   the crossings of a planar diagram code of it
    `loops`  how many components have no crossing
    `parts`  of how many parts each may be replaced by its mirror image and has the same code; 0 where the code decides them
    `given`  the text itself, where it has the lines of knot, whose Gauss lines decide directions
    """

    kind: str
    rows: List[List[int]]
    loops: int
    parts: int
    given: Optional[str] = None

    @property
    def text(self) -> str:
        """The code as `knot grid` and `seek --pd` read it."""
        return self.given if self.given is not None else planar_text(self.rows, self.loops)


# ---- texts

def without_comments(text: str) -> str:
    """A text without the lines that begin with a `#`."""
    return "".join(line for line in text.splitlines(keepends=True) if not line.lstrip().startswith("#"))


def read_text(text: str, kind: Optional[str] = None) -> CodeOf:
    """The code of a text: of this kind, or of that which its word or its numbers decide. Raises BadCode."""
    text = without_comments(text)
    if not text.strip():
        raise BadCode("the code is empty")
    said, rest = kind_of_text(text)
    if said and kind not in (None, said):
        raise BadCode(f"the text is a {said} code by its first word, and a {kind} code is due")
    if is_of_knot(text):
        return of_knot(text)
    kind = kind or said
    if kind in (None, "Gauss") and PASSAGES.fullmatch(rest):
        return of_passages(rest)
    letters = LETTERS.fullmatch(rest) if kind == "DT" else None
    if letters:
        return of_dt(components_of_letters(letters[1]))
    return read_lists(planar_rows(rest) if kind == "PD" else lists_in(rest), kind)


def code_in(text: str, reads: Optional[str] = None) -> Optional[CodeOf]:
    """The code that a text is which may also be a braid word or an arc presentation; None for these. `reads` says what it is if it has no
    word for it: a kind of code; "braid", so that no list of numbers is a code; or "code", so that one in doubt is. Raises BadCode where a
    code can't be read, or where a list is in doubt."""
    said, _ = kind_of_text(without_comments(text))
    kind = said or (reads if reads in KINDS else None)
    if kind:
        return read_text(text, kind)
    items = lists_in(text)
    numbers = items[0] if len(items) == 1 and isinstance(items[0], list) else items
    if not are_numbers(numbers):
        kind = kind_of_lists(items)
    elif reads != "braid":
        kind = in_doubt(numbers)
        if kind and reads != "code":
            raise BadCode(DOUBTS[kind])
    return read_lists(items, kind) if kind else None


def with_brackets(text: str) -> str:
    """The text of a PD code with each crossing X4251 or X_{3,10,4,11} as X[4,2,5,1] or X[3,10,4,11]. Raises BadCode where the digits after an X
    are no four edges."""
    def crossing(found: Any) -> str:
        edges = found[1] or found[2]
        return f"X[{edges if ',' in edges else ','.join(edges)}]"

    text = SHORT_CROSSING.sub(crossing, text)
    left = NO_CROSSING.search(text)
    if left:
        raise BadCode(f"'{left[0][:20]}' is no crossing: after X come four edges, as X[4,2,5,1], X4251 or X3,10,4,11")
    return text


def planar_rows(text: str) -> List[Any]:
    """The rows of a PD code behind its word. They need no brackets at all, as for `knot grid`. Raises BadCode."""
    items = lists_in(ROW_WORD.sub("", with_brackets(text)))
    return fours(items) if are_numbers(items) and len(items) % 4 == 0 else items


def fours(numbers: Sequence[int]) -> List[List[int]]:
    """Numbers, four by four."""
    return [list(numbers[place:place + 4]) for place in range(0, len(numbers), 4)]


def of_knot(text: str) -> CodeOf:
    """A PD code in the lines of knot, which goes on as it stands. Raises BadCode."""
    text = with_brackets(text)
    rows = re.sub(r"^[ \t]*(?:crossings|loops|gauss)\b.*$", "", text, flags=re.M)
    loops = re.search(r"^[ \t]*loops[ \t]+([0-9]{1,9})", text, re.M)
    return CodeOf("PD", fours([int(edge) for edge in re.findall("[0-9]{1,9}", rows)]), int(loops[1]) if loops else 0, 0,
                  text if text.endswith("\n") else text + "\n")


def of_passages(text: str) -> CodeOf:
    """A Gauss code of passages as O1+: a component ends with its line, its bracket or a semicolon."""
    components: List[List[int]] = []
    signs: Dict[int, int] = {}
    for part in re.split(r"[\n;\])}]|gauss", text):
        found = PASSAGE.findall(part)
        if not found:
            continue
        components.append([int(number) if over == "O" else -int(number) for over, number, _ in found])
        for _, number, sign in found:
            if signs.setdefault(int(number), 1 if sign == "+" else -1) != (1 if sign == "+" else -1):
                raise BadCode(f"the crossing {number} has two signs")
    return of_signed(components, signs)


def components_of_letters(word: str) -> List[List[int]]:
    """The components of a DT code in letters. Raises BadCode."""
    values = [ord(letter) - 96 if letter.islower() else 64 - ord(letter) for letter in word]
    crossings, count = values[0], values[1]
    lengths, numbers = values[2:2 + max(count, 0)], values[2 + max(count, 0):]
    if count < 1 or len(lengths) != count or min(lengths, default=0) < 1 or sum(lengths) != crossings or len(numbers) != crossings:
        raise BadCode(f"the letters '{word[:20]}' are no DT code: the first gives the crossings, the second the components, then comes the length "
                      "of each, and a letter for each crossing")
    components = []
    for length in lengths:
        components.append([2 * number for number in numbers[:length]])
        numbers = numbers[length:]
    return components


# ---- lists

def read(code: Union[str, Iterable[Any]], kind: Optional[str] = None) -> CodeOf:
    """The code of a text or of lists. Raises BadCode."""
    return read_text(code, kind) if isinstance(code, str) else read_lists(code, kind)


def read_lists(value: Iterable[Any], kind: Optional[str] = None) -> CodeOf:
    """The code of lists of whole numbers: of this kind, or of that which they decide. Raises BadCode."""
    items = plain_lists(value)
    if not isinstance(items, list):
        raise BadCode(f"{value!r:.30} is no code: a text or lists of numbers are due")
    items = unwrapped(items)
    kind = kind or kind_of_lists(items)
    if kind is None:
        raise BadCode("the lists are those of no PD, DT or Gauss code: of a PD code each has four edges; of a DT code the numbers are 2, 4 and so on, "
                      "each once, with either sign; of a Gauss code each number comes twice, once negative")
    return {"PD": of_pd, "DT": of_dt, "Gauss": of_gauss}[kind](items)


def read_signed(code: Union[str, Iterable[Any]], signs: Union[str, Iterable[Any]]) -> CodeOf:
    """A Gauss code, a text or lists, with the signs of its crossings in the order of their numbers, 1 or -1. Raises BadCode."""
    found, given = (plain_lists(lists_in(kind_of_text(one)[1]) if isinstance(one, str) else one) for one in (code, signs))
    if not isinstance(found, list):
        raise BadCode("a Gauss code has a list of whole numbers for each component")
    if not isinstance(given, list):
        raise BadCode("a list of signs is due, 1 or -1 for each crossing")
    components, given = components_in(unwrapped(found)), unwrapped(given)
    check_components(components, "Gauss")
    crossings = sorted({abs(number) for component in components for number in component})
    if len(crossings) != len(given):
        raise BadCode(f"{len(crossings)} crossings have {len(given)} signs")
    return of_signed(components, dict(zip(crossings, given)))


def check_rows(rows: Sequence[Any]) -> None:
    """Raises BadCode where a row of a PD code hasn't four edges."""
    for place, row in enumerate(rows, 1):
        if not isinstance(row, list) or len(row) != 4 or not are_numbers(row):
            raise BadCode(f"row {place} of a PD code has four numbers, and not {str(row)[:40]}")
        if min(row) < 0:
            raise BadCode(f"row {place} has the edge {min(row)}, and the names of edges are 0 or more")


def of_pd(items: List[Any]) -> CodeOf:
    """A PD code of rows, or of the edges of one crossing."""
    rows = [items] if items and are_numbers(items) else items
    check_rows(rows)
    if not rows:
        raise BadCode("a PD code without rows doesn't say how many unknots it has")
    return CodeOf("PD", within(rows), 0, 0)


def of_dt(items: List[Any]) -> CodeOf:
    """A DT code of a list for each component, perhaps with SnapPy's flips."""
    items = without_flips(items)
    components = [items] if are_numbers(items) else items
    check_components(components, "DT")
    if not all(components):
        raise BadCode(f"component {components.index([]) + 1} of a DT code has no crossing")
    made = rows_of_dt(components)
    return CodeOf("DT", within(made.rows), 0, made.parts)


def of_gauss(items: List[Any]) -> CodeOf:
    """A Gauss code of a list for each component, perhaps with the signs of the crossings."""
    if is_signed(items):
        return read_signed(items[0], items[1])
    components = [items] if are_numbers(items) else items
    check_components(components, "Gauss")
    made = rows_of_gauss(components)
    return CodeOf("Gauss", within(made.rows), components.count([]), made.parts)


def of_signed(components: List[List[int]], signs: Dict[int, int]) -> CodeOf:
    """A Gauss code with signs by the crossing."""
    return CodeOf("Gauss", within(rows_of_signed(components, signs)), components.count([]), 0)


def check_components(components: List[Any], kind: str) -> None:
    """Raises BadCode where one isn't a list of numbers, or none has a number."""
    for place, component in enumerate(components, 1):
        if not isinstance(component, list) or not are_numbers(component):
            raise BadCode(f"a {kind} code has a list of whole numbers for each component, and component {place} is {str(component)[:40]}")
    if not any(components):
        raise BadCode(f"a {kind} code without numbers has no crossing")


def within(rows: List[List[int]]) -> List[List[int]]:
    """The rows, where they aren't more than `knot grid` takes."""
    if len(rows) > MAX_CROSSINGS:
        raise BadCode(f"the code has {len(rows)} crossings, and at most {MAX_CROSSINGS} are taken")
    return rows
