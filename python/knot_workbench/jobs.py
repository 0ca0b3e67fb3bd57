"""The jobs of knot, and seek, as calls that answer plain values.

Each call raises NoProgram where there is no built program; Malformed, OverLimit or Rejected where the program answers so; NoJob where it
refuses the words; Failed where it gives no answer; and BadAnswer where its answer has another form than docs/FORMATS.md says.
"""
import os
from typing import Any, Iterable, List, NamedTuple, Optional, Sequence, Tuple, Union

from .answers import Answer, Compared, Least, Simplified, TooWide, reading
from .certificates import Certificate, Unknown, numbers_behind, read_colour_list, read_verdict
from .cocycles import MAX_MODULUS, Cocycle, ShadowCocycle, cocycle_fault, read_shadow
from .codes import Code, read_code
from .codes.brackets import plain_lists
from .codes.planar import planar_text
from .codes.reading import check_rows, read, read_signed, read_text
from .diagrams import Braid, Diagram, Grid, Move, Rows, diagram_text, grid_of, wholes
from .faults import BadCode, BadText, Fault, NoJob, Wide
from .given import diagram as diagram_given
from .given import grid_by
from .programs import answered, default_cocycles, path_of
from .quandles import MAX_LARGE_ORDER, Quandle, quandle_fault, quandle_of
from .ready import ready, ready_file, ready_names
from .texts import Lines, move_of, move_text, read_grid, read_quandle

# A quandle, its name as in a line `quandle`, or the rows of its table.
QuandleLike = Union[Quandle, str, Sequence[Sequence[int]]]
Quandles = Union[QuandleLike, Iterable[QuandleLike]]

# A diagram; its text; or a link of Regina, SnapPy or Sage. given.py has the texts.
DiagramLike = Any


def quandle(of: QuandleLike) -> Quandle:
    """A quandle by its name, as "dihedral 3", "alexander 5 2" or "tetrahedral", by that of a table of quandles/weights/, as "T5", or by the
    rows of its table. A quandle has at most 32 colours, by its table 128 for `numbers` and for weights of `seek`. Raises BadText."""
    if isinstance(of, Quandle):
        return of
    if isinstance(of, str) and ready_file(of):
        return ready(of)[0]
    if isinstance(of, str):
        lines = Lines(of if of.lstrip().startswith("quandle") else f"quandle {of}")
        found = read_quandle(lines, largest=MAX_LARGE_ORDER)
        lines.done()
        return found
    try:
        rows = [[int(entry.__index__()) for entry in row] for row in of]
    except (TypeError, AttributeError):
        raise BadText(f"{of!r:.40} is no quandle: its name is due, as 'dihedral 3', or the rows of its table") from None
    fault = quandle_fault(rows)
    if fault:
        raise BadText(fault)
    return quandle_of(f"table {len(rows)}", rows)


def quandles_of(given: Quandles) -> List[Quandle]:
    """The quandles of a list, or of one alone by its name."""
    if isinstance(given, (Quandle, str)):
        return [quandle(given)]
    try:
        return [quandle(one) for one in given]  # type: ignore[arg-type]
    except TypeError:
        raise BadText(f"{given!r:.40} are no quandles: a list of names or tables is due") from None


def cocycle(of: QuandleLike, modulus: Optional[int] = None, values: Optional[Sequence[Sequence[int]]] = None) -> Union[Cocycle, ShadowCocycle]:
    """A 2-cocycle mod `modulus`, 2 to 255, of a quandle; `values[x][y]` is φ(x, y). Or a ready one by its name, as `cocycle("T5")`, whose
    quandle is `quandle("T5")`; or Mochizuki's shadow cocycle of a dihedral quandle of prime order, as `cocycle("mochizuki 7")`. Raises BadText
    where it is none."""
    if modulus is None or values is None:
        if not isinstance(of, str) or modulus is not None or values is not None:
            raise BadText("a cocycle has a quandle, a modulus and values, or is a ready one by its name, as 'T5' or 'mochizuki 7'")
        return ready_cocycle(of)
    order = quandle(of).order
    try:
        rows = tuple(tuple(int(value.__index__()) for value in row) for row in values)
        modulus = int(modulus.__index__())
    except (TypeError, AttributeError):
        raise BadText("the modulus and the values of a cocycle are whole numbers") from None
    if not 2 <= modulus <= MAX_MODULUS:
        raise BadText(f"a modulus is 2 to {MAX_MODULUS}")
    if len(rows) != order or any(len(row) != order or any(not 0 <= value < modulus for value in row) for row in rows):
        raise BadText(f"a cocycle of this quandle has {order} lines of {order} numbers below {modulus}")
    fault = cocycle_fault(quandle(of).over, rows, modulus)
    if fault:
        raise BadText(f"no cocycle: {fault}")
    return Cocycle(modulus, rows)


def ready_cocycle(name: str) -> Union[Cocycle, ShadowCocycle]:
    """A ready cocycle by its name. Raises BadText."""
    words = name.split()
    if len(words) == 2 and words[0] == "mochizuki":
        text = f"quandle dihedral {words[1]}\nshadow mochizuki\n"
        lines = Lines(text)
        return read_shadow(lines, read_quandle(lines))
    if not ready_file(name):
        raise BadText(f"'{name[:40]}' is no ready cocycle; there are {', '.join(ready_names())}, and 'mochizuki p' for a prime p")
    found = ready(name)[1]
    if found is None:
        raise BadText(f"the quandle {name} has no ready cocycle")
    return found


def options_of(**numbers: Optional[int]) -> List[str]:
    """The words of the options that are given. Raises NoJob where one isn't a whole number."""
    for name, value in numbers.items():
        if value is not None and not hasattr(value, "__index__"):
            raise NoJob(f"{name} takes a whole number, and {value!r:.30} is none")
    return [f"--{name}={int(value)}" for name, value in numbers.items() if value is not None]


def value_by(job: str, text: str, words: Sequence[str] = ()) -> Any:
    """The value of what a job of knot writes of a text."""
    return Answer(job, 0, answered("knot", [job, *words], text).text).value()


def job_lines(job: str, text: str, words: Sequence[str] = ()) -> Lines:
    """The lines of what a job of knot writes of a text."""
    return Lines(answered("knot", [job, *words], text).text)


# ---- searches

def weights_words(files: Optional[Sequence[str]]) -> List[str]:
    """The words that name files of quandles with cocycles; for None those that the seek which is called counts by, for () none."""
    if isinstance(files, (str, os.PathLike)):
        files = [os.fspath(files)]
    if files is None:
        listed = default_cocycles(path_of("seek"))
        files = [listed] if listed else []
    elif not isinstance(files, (list, tuple)):
        raise NoJob(f"weights names files, and {files!r:.40} is no list of such")
    elif not files:
        return ["--no-weights"]
    return [f"--weights={file}" for file in files]


def problem_text(first: Diagram, second: Diagram, quandles: Quandles = ()) -> str:
    """Two diagrams and quandles, as `decide` and `seek` read them."""
    return diagram_text(first) + diagram_text(second) + "".join(one.text for one in quandles_of(quandles))


def seek(first: DiagramLike, second: DiagramLike, quandles: Quandles = (), *, weights: Optional[Sequence[str]] = None, seed: Optional[int] = None,
         steps: Optional[int] = None, room: Optional[int] = None, workers: Optional[int] = None, timeout: Optional[float] = None) -> Optional[Certificate]:
    """Seeks evidence by numbers, by quandles, those given first, and by random walks. The certificate, or None where nothing was found, which
    says nothing of the two. `weights` names files of quandles with cocycles; None means the default cocycles of the tree or of the prefix, () none.
    The options are those of the program `seek`; raises TimedOut after `timeout` seconds."""
    first, second = diagram_given(first), diagram_given(second)
    words = [*weights_words(weights), *options_of(seed=seed, steps=steps, room=room, workers=workers)]
    ran = answered("seek", ["--quiet", *words, "-"], problem_text(first, second, quandles), also=(1,), timeout=timeout)
    return None if ran.status == 1 else certificate_of("seek", first, second, quandles, ran.text)


def decide(first: DiagramLike, second: DiagramLike, quandles: Quandles = (), *, budget: Optional[int] = None, spare: Optional[int] = None,
           workers: Optional[int] = None, timeout: Optional[float] = None) -> Union[Certificate, Unknown]:
    """Searches in order, by `knot decide`: a certificate, or an Unknown that says how far the search went. Without quandles the built-in
    list is used. The options are those of the job; raises TimedOut after `timeout` seconds."""
    first, second = diagram_given(first), diagram_given(second)
    words = ["decide", *options_of(budget=budget, spare=spare, workers=workers)]
    ran = answered("knot", words, problem_text(first, second, quandles), also=(1,), timeout=timeout)
    return certificate_of("knot decide", first, second, quandles, ran.text)


def certificate_of(job: str, first: Diagram, second: Diagram, quandles: Quandles, text: str) -> Any:
    """What was found of two diagrams: a Certificate, or an Unknown."""
    with reading(job):
        verdict, version = read_verdict(Lines(text), grid_of(first), grid_of(second))
    if isinstance(verdict, Unknown):
        return verdict
    return Certificate(first, second, verdict, quandles_of(quandles), version)


# ---- one diagram

class Colourings(NamedTuple):
    """All colourings of a diagram by a quandle, by column and in lexicographic order. Where the quandle is too large for the diagram
    `colours` is None, and `bottoms` says how many bottoms the diagram has; else `bottoms` is None."""

    quandle: Quandle
    colours: Optional[Tuple[Rows, ...]]
    bottoms: Optional[int]


def colour(diagram: DiagramLike, *quandles: QuandleLike) -> List[Colourings]:
    """All colourings by each quandle, by `knot colour`; without quandles by each of the built-in list."""
    diagram = diagram_given(diagram)
    lines = job_lines("colour", diagram_text(diagram) + "".join(quandle(one).text for one in quandles))
    found = []
    with reading("knot colour"):
        while lines.peek() == "quandle":
            by = read_quandle(lines)
            if lines.peek() == "wide":
                found.append(Colourings(by, None, numbers_behind(lines, "wide", 1)[0]))
            else:
                found.append(Colourings(by, read_colour_list(lines, len(grid_of(diagram).xs), by.order), None))
        lines.done()
    return found


class Numbers(NamedTuple):
    """How many colourings a diagram has by a quandle: one number in `counts`, or with a cocycle mod k one for each weight from 0 to k − 1.
    Where the quandle is too large `counts` is None, and `seeds` says from how many seeds they would be counted; else `seeds` is None."""

    quandle: Quandle
    counts: Optional[Rows]
    seeds: Optional[int]


def numbers(diagram: DiagramLike, *blocks: Union[QuandleLike, Tuple[QuandleLike, Union[Cocycle, ShadowCocycle]]]) -> List[Numbers]:
    """How many colourings, by `knot numbers`: each block is a quandle, or a quandle and a cocycle of it in a tuple, or the name of a ready
    quandle with its cocycle, as "T5"; without a block the built-in list is used. Raises NoJob where the program is older than the job `numbers`."""
    text = diagram_text(diagram_given(diagram))
    for block in blocks:
        if isinstance(block, str) and ready_file(block):
            by, weight = ready(block)
            block = by if weight is None else (by, weight)
        is_weighed = isinstance(block, tuple) and len(block) == 2 and isinstance(block[1], (Cocycle, ShadowCocycle))
        text += quandle(block[0]).text + block[1].text if is_weighed else quandle(block).text  # type: ignore[arg-type, union-attr]
    lines = job_lines("numbers", text)
    found = []
    with reading("knot numbers"):
        while lines.peek() == "quandle":
            by = read_quandle(lines, largest=MAX_LARGE_ORDER)
            if lines.peek() == "wide":
                found.append(Numbers(by, None, numbers_behind(lines, "wide", 1)[0]))
            else:
                found.append(Numbers(by, numbers_behind(lines, "numbers"), None))
        lines.done()
    return found


def code(diagram: DiagramLike) -> Code:
    """The planar diagram code and the signed Gauss codes, by `knot code`."""
    said = answered("knot", ["code"], diagram_text(diagram_given(diagram))).text
    with reading("knot code"):
        return read_code(said)


def simplify(diagram: DiagramLike, *, budget: Optional[int] = None) -> Simplified:
    """Makes a diagram smaller by moves that never make it larger, by `knot simplify`."""
    return value_by("simplify", diagram_text(diagram_given(diagram)), options_of(budget=budget))


def least(diagram: DiagramLike, *, budget: Optional[int] = None) -> Least:
    """The least diagram that shifts and exchanges reach, by `knot least`: one for all diagrams that they join."""
    return value_by("least", diagram_text(diagram_given(diagram)), options_of(budget=budget))


def braid_word(diagram: DiagramLike) -> Braid:
    """A braid word of a diagram, by `knot braid`; it may exceed the limits that a braid has where a diagram is due."""
    return value_by("braid", diagram_text(diagram_given(diagram)) + "quandle trivial 1\n")


def line_of_move(move: Any) -> str:
    """The line of a move that is given as a tuple of its words and numbers, or as its line. Raises BadText."""
    words = move.split() if isinstance(move, str) else list(move) if isinstance(move, (tuple, list)) else []
    if not words:
        raise BadText(f"{move!r:.40} is no move: a tuple is due, as ('shift', 'columns', 2)")
    return move_text(move_of(None, [str(word) for word in words]))


class Replayed(NamedTuple):
    """The last diagram of a list of moves, and the colours carried to it, or None where none were given."""

    grid: Grid
    colours: Optional[Rows]


def replay(diagram: DiagramLike, moves: Sequence[Move], by: Optional[QuandleLike] = None, colours: Optional[Sequence[int]] = None) -> Replayed:
    """Makes moves, and carries colours along where a quandle and a colouring are given, by `knot replay`. Raises Rejected where a move isn't
    legal, or the colours are no colouring."""
    if not isinstance(moves, (list, tuple)):
        raise BadText(f"{moves!r:.40} is no list of moves")
    lines_of_moves = [line_of_move(move) for move in moves]
    text = diagram_text(diagram_given(diagram)) + f"moves {len(lines_of_moves)}\n" + "".join(f"{line}\n" for line in lines_of_moves)
    if (by is None) != (colours is None):
        raise Fault("a quandle and colours go together")
    if by is not None and colours is not None:
        text += quandle(by).text + f"colours {' '.join(map(str, wholes(colours, 'colours')))}\n"
    lines = job_lines("replay", text)
    with reading("knot replay"):
        grid = read_grid(lines)
        return Replayed(grid, numbers_behind(lines, "colours") if colours is not None else None)


# ---- two diagrams

def linking(first: DiagramLike, second: DiagramLike) -> Compared:
    """The linking numbers over all ordered pairs of different components, ascending, by `knot linking`."""
    return value_by("linking", problem_text(diagram_given(first), diagram_given(second)))


def weights(first: DiagramLike, second: DiagramLike, by: QuandleLike, with_cocycle: Union[Cocycle, ShadowCocycle, None] = None) -> Compared:
    """How many colourings have each weight from 0 to k − 1, by `knot weights`, with a cocycle mod k of the quandle; without
    one by that of a ready quandle, as `weights(one, other, "T5")`. Raises Wide where the quandle is too large for one of the diagrams, and
    Malformed where it has no such cocycle."""
    if with_cocycle is None and isinstance(by, str) and ready_file(by):
        with_cocycle = ready(by)[1]
    if not isinstance(with_cocycle, (Cocycle, ShadowCocycle)):
        raise BadText("a cocycle of the quandle is due, as cocycle(...) makes it, or the name of a ready quandle with one, as 'T5'")
    found = value_by("weights", problem_text(diagram_given(first), diagram_given(second), [quandle(by)]) + with_cocycle.text)
    if isinstance(found, TooWide):
        raise Wide(found.which, found.bottoms)
    return found


# ---- codes of other programs

def from_pd(rows: Union[str, Code, Iterable[Sequence[int]]], loops: int = 0) -> Grid:
    """A grid diagram of a planar diagram code, by `knot grid`: of its rows, or of a text, as "PD[X[4,2,5,1], ..]" or "[[4,2,5,1], ..]". A row
    has the four edges of a crossing counterclockwise, from the one on which the strand below comes, as KnotTheory, Regina and SnapPy have
    them; edges may have any numbers from 0 on, and `loops` counts components without a crossing. Raises BadCode where a text or the lists are
    those of no such code; Rejected where it is the code of no diagram, with `cause` as `edge 5`, `direction 5`, `plane` or `empty`;
    OverLimit where the grid would have too many columns; NoJob where the program is older than the job `grid`."""
    if isinstance(rows, str):
        return grid_by(read_text(rows, "PD").text)
    if isinstance(rows, Code):
        return grid_by(rows.text)
    found = plain_lists(rows)
    if not isinstance(found, list):
        raise BadCode("the rows of a planar diagram code are due, or its text")
    if not hasattr(loops, "__index__") or loops < 0:
        raise BadCode(f"{loops!r:.30} is no number of loops")
    check_rows(found)
    return grid_by(planar_text(found, int(loops)))


def from_dt(code_of_knot: Union[str, Iterable[Any]]) -> Grid:
    """A grid diagram of a DT code: of a text as "DT[4,6,2]", "DT:[(4,6,2)]" or "DT[cacbca]", of a list of even numbers, or for a link of a list for
    each component. The mirror image has the same code, and so have diagrams in which a part of a sum is mirrored: which of these comes,
    the code doesn't say. Raises BadCode where it is none, and as `from_pd`."""
    return grid_by(read(code_of_knot, "DT").text)


def from_gauss(code_of_knot: Union[str, Iterable[Any]], signs: Optional[Sequence[int]] = None) -> Grid:
    """A grid diagram of a Gauss code: of a text as "GaussCode[-1,2,-3,1,-2,3]" or "O1+U2+O3+U1+O2+U3+", of a list of numbers of crossings, negative
    where the strand passes under, or for a link of a list for each component. `signs` has the sign of each crossing, 1 or -1, in the order of
    their numbers. Without signs the mirror image has the same code, as of `from_dt`. Raises BadCode where it is none, and as `from_pd`."""
    return grid_by((read(code_of_knot, "Gauss") if signs is None else read_signed(code_of_knot, signs)).text)


def from_code(code_of_link: Code) -> Grid:
    """A grid diagram of a Code, whose Gauss codes decide all directions, by `knot grid`. Errors as of `from_pd`."""
    if not isinstance(code_of_link, Code):
        raise BadCode(f"{code_of_link!r:.40} is no Code, as `code` and `read_code` answer it")
    return grid_by(code_of_link.text)
