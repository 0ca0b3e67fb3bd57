"""Certificates: two diagrams, perhaps quandles, and a verdict on the two with its evidence."""
import os
from typing import Any, Dict, List, NamedTuple, Optional, Sequence, Tuple, Union

from .cocycles import Cocycle, ShadowCocycle, read_cocycle, read_shadow
from .diagrams import Braid, Diagram, Grid, Move, Rows, diagram_text, grid_of
from .faults import BadDiagram, BadText, Fault, Illegal, NoFile, Rejected, not_utf8
from .moves import carried, made
from .programs import answered
from .quandles import MAX_LARGE_ORDER, Quandle, quandle_text
from .texts import Lines, move_text, number_of, quandle_named, read_diagram, read_moves, read_quandle, read_quandles


class Equal(NamedTuple):
    """The verdict `equal`: moves that lead from the first diagram to the second."""

    moves: Tuple[Move, ...]


class Different(NamedTuple):
    """The verdict `different`: a quandle and all colourings of the first diagram and of the second, by column."""

    quandle: Quandle
    first: Tuple[Rows, ...]
    second: Tuple[Rows, ...]


class Unknown(NamedTuple):
    """The verdict `unknown`: a search found no evidence.

    Where `exhausted`, moves within `columns` columns reach `diagrams` canonical diagrams from the two, and all were seen. Otherwise the search
    stopped at a budget of so many, and `columns` is None.
    """

    exhausted: bool
    diagrams: int
    columns: Optional[int]

    @property
    def is_equal(self) -> None:
        """None: it isn't known."""
        return None

    def __bool__(self) -> bool:
        """False, as of None: no evidence was found."""
        return False


class Counted(NamedTuple):
    """Of one diagram: the columns of seeds, and how many colourings it has, with a cocycle how many of each weight."""

    seeds: Rows
    numbers: Rows


class DifferentNumbers(NamedTuple):
    """The verdict `different numbers` of version 3: a quandle, perhaps a cocycle of either kind, and how many colourings each diagram has."""

    quandle: Quandle
    cocycle: Optional[Union[Cocycle, ShadowCocycle]]
    first: Counted
    second: Counted


class Linked(NamedTuple):
    """Of one diagram: how many components it has, and their linking numbers, over all ordered pairs and ascending."""

    components: int
    numbers: Rows


class DifferentLinking(NamedTuple):
    """The verdict `different linking` of version 3: the linking numbers of each diagram."""

    first: Linked
    second: Linked


Evidence = Union[Equal, Different, DifferentNumbers, DifferentLinking]
Verdict = Union[Equal, Different, DifferentNumbers, DifferentLinking, Unknown]


class Certificate:
    """Two diagrams, the quandles of the problem, and the verdict `equal` or `different` with its evidence.

    `first`, `second`  the diagrams, each a Grid or a Braid
    `quandles`         those after the diagrams, which the verdict doesn't need
    `verdict`          Equal, Different, DifferentNumbers or DifferentLinking
    `version`          1, 2 or 3: of version 2 no shift of columns is after a shift, and none of rows after one of rows; version 3 has
                       numbers for evidence

    Nothing is believed of it before `check`.
    """

    def __init__(self, first: Diagram, second: Diagram, verdict: Evidence, quandles: Sequence[Quandle] = (), version: int = 2) -> None:
        for diagram in (first, second):
            if not isinstance(diagram, (Grid, Braid)):
                raise BadDiagram(f"{diagram!r:.40} is neither a Grid nor a Braid")
        if not isinstance(verdict, (Equal, Different, DifferentNumbers, DifferentLinking)):
            raise Fault(f"{verdict!r:.40} is no verdict with evidence")
        self.first, self.second, self.verdict = first, second, verdict
        self.quandles, self.version = tuple(quandles), version

    @classmethod
    def parse(cls, text: str) -> "Certificate":
        """The certificate of a text: a problem and a verdict, as `check` reads them. Raises BadText, also for the verdict `unknown`."""
        if not isinstance(text, str):
            raise BadText(f"{text!r:.40} is no text")
        lines = Lines(text)
        first, second, quandles = read_diagram(lines), read_diagram(lines), read_quandles(lines)
        verdict, version = read_verdict(lines, grid_of(first), grid_of(second))
        if isinstance(verdict, Unknown):
            raise BadText("the verdict is 'unknown', which has no evidence")
        return cls(first, second, verdict, quandles, version)

    @classmethod
    def load(cls, path: Union[str, "os.PathLike[str]"]) -> "Certificate":
        """The certificate in a file. Raises BadText, and NoFile where the file can't be read."""
        try:
            with open(path, encoding="utf-8") as source:
                return cls.parse(source.read())
        except UnicodeDecodeError as error:
            raise BadText(not_utf8(error)) from None
        except OSError as error:
            raise NoFile(f"{os.fspath(path)}: {error.strerror}") from error

    @property
    def is_equal(self) -> bool:
        """Whether it says that the two are the same."""
        return isinstance(self.verdict, Equal)

    @property
    def moves(self) -> Tuple[Move, ...]:
        """The moves of `equal`, each as the words and numbers of its line. Raises Fault where the verdict is `different`."""
        if not isinstance(self.verdict, Equal):
            raise Fault("a certificate of 'different' has no moves")
        return self.verdict.moves

    @property
    def text(self) -> str:
        """The whole certificate, as `check` reads it."""
        problem = diagram_text(self.first) + diagram_text(self.second) + "".join(map(quandle_text, self.quandles))
        return problem + verdict_text(self.verdict, self.version)

    def check(self) -> bool:
        """Has `knot check` rule on it: True where the evidence holds. Raises Rejected with the first cause where it doesn't, and so never
        answers False."""
        return check(self.text)

    def holds(self) -> bool:
        """Has `knot check` rule on it: whether the evidence holds. `check` gives the cause where it doesn't."""
        try:
            return self.check()
        except Rejected:
            return False

    def __bool__(self) -> bool:
        """True, whether it says that the two are the same or that they differ: evidence was found. `is_equal` says which."""
        return True

    def _repr_svg_(self) -> str:
        """Its picture, as a notebook shows it."""
        from .drawing import draw
        return draw(self)

    def turned(self) -> "Certificate":
        """Of `different` the same of the second diagram and the first. Raises Fault where the verdict is `equal`, whose moves lead one way."""
        verdict = self.verdict
        if isinstance(verdict, Equal):
            raise Fault("the moves of 'equal' lead from the first diagram to the second: seek the other way round")
        sides: Dict[str, Any] = {"first": verdict.second, "second": verdict.first}
        return Certificate(self.second, self.first, verdict._replace(**sides), self.quandles, self.version)

    def grids(self) -> List[Grid]:
        """The grids along the moves, that of the first diagram first. Raises Illegal where a move isn't legal."""
        grids = [grid_of(self.first)]
        for place, move in enumerate(self.moves):
            try:
                grids.append(made(grids[-1], move))
            except Illegal as cause:
                raise Illegal(f"move {place}, '{move_text(move)}', is not legal: {cause}") from None
        return grids

    def colours(self, quandle: Quandle, colours: Sequence[int]) -> List[List[int]]:
        """A colouring of the first diagram carried along the moves: the colours of each of `grids()`."""
        carried_along = [list(colours)]
        for grid, move in zip(self.grids(), self.moves):
            carried_along.append(carried(grid, quandle, carried_along[-1], move))
        return carried_along

    def save(self, path: Union[str, "os.PathLike[str]"]) -> None:
        """Writes it to a file: whole, or not at all. Raises NoFile where it can't be written."""
        put_whole(path, self.text)

    def __eq__(self, other: object) -> bool:
        return isinstance(other, Certificate) and self.text == other.text

    def __hash__(self) -> int:
        return hash(self.text)

    def __repr__(self) -> str:
        if isinstance(self.verdict, Equal):
            return f"<Certificate: equal, {len(self.moves)} moves>"
        by = "linking numbers" if isinstance(self.verdict, DifferentLinking) else self.verdict.quandle.name
        return f"<Certificate: different by {by}>"


def check(certificate: Union[Certificate, str]) -> bool:
    """Has `knot check` rule on a certificate, or on the text of one: True where the evidence holds.

    Raises Rejected with the first cause where it doesn't; Malformed or OverLimit where a line of a text is at fault; NoProgram, Failed.
    """
    text = certificate.text if isinstance(certificate, Certificate) else certificate
    if not isinstance(text, str):
        raise BadText(f"{text!r:.40} is neither a certificate nor the text of one")
    answered("knot", ["check"], text)
    return True


def put_whole(path: Union[str, "os.PathLike[str]"], text: str) -> None:
    """Writes a text to a file: whole, or not at all. Raises NoFile where it can't be written."""
    part = f"{os.fspath(path)}.{os.getpid()}.part"
    try:
        with open(part, "w", encoding="utf-8", newline="\n") as out:
            out.write(text)
        os.replace(part, path)
    except BaseException as error:
        if os.path.exists(part):
            os.unlink(part)
        if isinstance(error, OSError):
            raise NoFile(f"{os.fspath(path)}: {error.strerror}") from error
        raise


# Texts of verdicts

def verdict_text(verdict: Evidence, version: int = 2) -> str:
    """The lines of a verdict."""
    if isinstance(verdict, (DifferentNumbers, DifferentLinking)):
        return third_text(verdict)
    head = "certificate 2\n" if version == 2 else ""
    if isinstance(verdict, Equal):
        return head + f"equal {len(verdict.moves)}\n" + "".join(f"{move_text(move)}\n" for move in verdict.moves)
    lists = "".join(f"list {len(found)}\n" + "".join(" ".join(map(str, colours)) + "\n" for colours in found) for found in (verdict.first, verdict.second))
    return head + "different " + quandle_text(verdict.quandle).removeprefix("quandle ") + lists


def third_text(verdict: Union[DifferentNumbers, DifferentLinking]) -> str:
    """The lines of a verdict of version 3."""
    text = "certificate 3\n"
    if isinstance(verdict, DifferentLinking):
        text += "different linking\n"
        for linked in (verdict.first, verdict.second):
            text += f"components {linked.components}\n" + line_text("numbers", linked.numbers)
        return text
    text += "different numbers " + quandle_text(verdict.quandle)[len("quandle "):] + (verdict.cocycle.text if verdict.cocycle else "")
    return text + "".join(line_text("seeds", counted.seeds) + line_text("numbers", counted.numbers) for counted in (verdict.first, verdict.second))


def line_text(word: str, numbers: Rows) -> str:
    """A word and numbers after it."""
    return " ".join([word, *map(str, numbers)]) + "\n"


def read_verdict(lines: Lines, first: Optional[Grid] = None, second: Optional[Grid] = None) -> Tuple[Verdict, int]:
    """The verdict that is last, and its version. Where the diagrams aren't known, lists of colours have lines of any length, all of the
    same. Raises BadText."""
    version = 1
    if lines.peek() == "certificate":
        line, tokens = lines.take("the line 'certificate'")
        if tokens[1:] not in (["2"], ["3"]):
            raise BadText("the line 'certificate 2' or 'certificate 3' is due", line)
        version = int(tokens[1])
    verdict: Verdict
    if version == 3:
        verdict = read_third(lines)
    elif lines.peek() == "equal":
        verdict = Equal(tuple(read_moves(lines)))
    elif lines.peek() == "different":
        quandle = read_quandle(lines, "different")
        verdict = Different(quandle, *(read_colour_list(lines, len(grid.xs) if grid else None, quandle.order) for grid in (first, second)))
    else:
        verdict = read_unknown(lines)
    lines.done()
    return verdict, version


def read_third(lines: Lines) -> Union[DifferentNumbers, DifferentLinking]:
    """A verdict of version 3, after its first line."""
    line, tokens = lines.take("a verdict 'different'")
    if tokens == ["different", "linking"]:
        return DifferentLinking(*(Linked(numbers_behind(lines, "components", 1)[0], numbers_behind(lines, "numbers")) for _ in range(2)))
    if tokens[:2] != ["different", "numbers"]:
        raise BadText("a verdict 'different numbers' or 'different linking' is due", line)
    quandle = quandle_named(lines, line, tokens[2:], MAX_LARGE_ORDER)
    weight = perhaps_cocycle(lines, quandle)
    count = weight.modulus if weight else 1
    return DifferentNumbers(quandle, weight, *(Counted(numbers_behind(lines, "seeds"), numbers_behind(lines, "numbers", count)) for _ in range(2)))


def perhaps_cocycle(lines: Lines, quandle: Quandle) -> Optional[Union[Cocycle, ShadowCocycle]]:
    """A cocycle of either kind, if one follows."""
    if lines.peek() == "shadow":
        return read_shadow(lines, quandle)
    return Cocycle(*cocycle_parts(lines, quandle)) if lines.peek() == "weight" else None


def cocycle_parts(lines: Lines, quandle: Quandle) -> Tuple[int, Tuple[Rows, ...]]:
    """The modulus and the values of a cocycle."""
    modulus, values = read_cocycle(lines, quandle)
    return modulus, tuple(map(tuple, values))


def numbers_behind(lines: Lines, word: str, count: Optional[int] = None) -> Rows:
    """The numbers after a word, negative ones too: so many, or any."""
    line, tokens = lines.take(f"the line '{word}'")
    if tokens[0] != word or count not in (None, len(tokens) - 1):
        raise BadText(f"the line '{word}' is due" + (f", with {count} numbers" if count and tokens[0] == word else ""), line)
    return tuple(number_of(token, line, signed=True) for token in tokens[1:])


def read_unknown(lines: Lines) -> Unknown:
    """The verdict `unknown`."""
    line, tokens = lines.take("a verdict")
    if tokens[:2] == ["unknown", "budget"] and len(tokens) == 3:
        return Unknown(False, number_of(tokens[2], line), None)
    if tokens[:2] == ["unknown", "exhausted"] and len(tokens) == 4:
        return Unknown(True, number_of(tokens[3], line), number_of(tokens[2], line))
    raise BadText("a verdict 'equal', 'different' or 'unknown' is due", line)


def read_colour_line(lines: Lines, size: int, order: int) -> Rows:
    """A line of so many colours below an order."""
    line, tokens = lines.take("a line of colours")
    colours = tuple(number_of(token, line) for token in tokens)
    if len(colours) != size or any(colour >= order for colour in colours):
        raise BadText(f"the line has not {size} colours below {order}", line)
    return colours


def read_colour_list(lines: Lines, size: Optional[int], order: int) -> Tuple[Rows, ...]:
    """The item `list`: so many lines of colours, where no size is given each as long as the first."""
    line, tokens = lines.take("the line 'list'")
    if tokens[0] != "list" or len(tokens) != 2:
        raise BadText("a line 'list' with a number is due", line)
    if size is None:
        size = len(lines.lines[lines.place][1]) if lines.peek() is not None else 0
    return tuple(read_colour_line(lines, size, order) for _ in range(number_of(tokens[1], line)))
