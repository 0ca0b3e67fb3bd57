"""Grid diagrams and braids, and their lines, by the definitions of docs/DEFINITIONS.md.

Nothing here is proved: `check` of the program rules on what is found.
"""
from typing import Any, Iterable, List, NamedTuple, Optional, Sequence, Tuple, Union

from .faults import BadDiagram

MAX_SIZE = 48
MAX_STRANDS = 8

CORNERS = ("lowleft", "lowright", "highleft", "highright")

Rows = Tuple[int, ...]
# As ("shift", "columns", 2), in the words of its line.
Move = Tuple[Any, ...]


class _Grid(NamedTuple):
    xs: Rows
    os: Rows


class Grid(_Grid):
    """A grid diagram: the rows of the Xs and of the Os, by column from the left, counted from 0 at the bottom.

    Raises BadDiagram where a row hasn't one of each, a cell has both, or there are fewer than two columns. It has no upper limit: the
    programs say where a diagram is too large for them.
    """

    __slots__ = ()

    def __new__(cls, xs: Iterable[int], os: Iterable[int]) -> "Grid":
        grid = tuple.__new__(cls, (wholes(xs, "the rows of the Xs"), wholes(os, "the rows of the Os")))
        fault = grid_fault(grid)
        if fault:
            raise BadDiagram(fault)
        return grid

    @property
    def size(self) -> int:
        """How many columns and rows it has."""
        return len(self.xs)

    @property
    def text(self) -> str:
        """The lines `x` and `o`, as the programs read them."""
        return grid_text(self)

    def grid(self) -> "Grid":
        """Itself: every diagram has a grid."""
        return self

    def _repr_svg_(self) -> str:
        """Its picture, as a notebook shows it."""
        from .drawing import draw
        return draw(self)

    def mirror(self) -> "Grid":
        """The mirror image: the picture turned upside down."""
        return mirror_image(self)

    def reverse(self) -> "Grid":
        """The same link, run through backwards."""
        return reverse(self)


def as_grid(xs: Rows, os: Rows) -> Grid:
    """The grid of rows that are known to be those of one: they aren't looked at again."""
    return tuple.__new__(Grid, (xs, os))


class _Braid(NamedTuple):
    strands: int
    letters: Rows


class Braid(_Braid):
    """A braid word, which means its closure: letter k is the positive crossing of strands k and k + 1, and -k undoes it.

    `Braid(2, [1, 1, 1])` has its strands first. Of a list alone, as `Braid([1, 1, 1])`, it has as many as its letters need. A text is that of
    `seek --braid`: "2 1 1 1" has strands and letters, "{1,1,1}" letters alone. Raises BadDiagram where there is no strand, a letter is not on
    the strands, or what is given isn't whole numbers. It has no upper limit, as Grid has none: calls of the programs raise OverLimit.
    """

    __slots__ = ()

    def __new__(cls, strands: Union[int, str, Iterable[int]], letters: Union[str, Iterable[int], None] = None) -> "Braid":
        if letters is None and not hasattr(strands, "__index__"):
            strands, letters = strands_and_letters(strands)
        count = whole(strands, "the number of strands")
        braid = tuple.__new__(cls, (count, wholes(() if letters is None else letters, "the letters of a braid")))
        if count < 1:
            raise BadDiagram("a braid has one strand or more")
        fault = letter_fault(braid)
        if fault:
            raise BadDiagram(fault)
        return braid

    @property
    def text(self) -> str:
        """The line `braid`, as the programs read it."""
        return diagram_text(self)

    def closure(self) -> Grid:
        """The grid of the closed braid, as the program draws it: it has as many columns as letters and twice the strands."""
        return closure(self)[0]

    def grid(self) -> Grid:
        """The grid of the closed braid."""
        return closure(self)[0]

    def _repr_svg_(self) -> str:
        """Its picture, as a notebook shows it."""
        from .drawing import draw
        return draw(self)

    def mirror(self) -> "Braid":
        """The mirror image: every sign changed."""
        return mirror_braid(self)

    def reverse(self) -> "Braid":
        """The same link, run through backwards: the word from its end."""
        return reverse(self)


Diagram = Union[Grid, Braid]


def whole(value: Any, what: str) -> int:
    """A whole number. Raises BadDiagram."""
    if hasattr(value, "__index__"):
        return int(value.__index__())
    raise BadDiagram(f"{what}: a whole number is due, and not {value!r:.30}")


def wholes(values: Any, what: str) -> Rows:
    """Whole numbers, of a list, or of a text with blanks or commas between them. Raises BadDiagram."""
    if isinstance(values, str):
        values = [numeral(word, what) for word in values.strip(" \t\r\n[]{}()").replace(",", " ").split()]
    try:
        found = tuple(values)
    except TypeError:
        raise BadDiagram(f"{what}: a list of whole numbers is due, and not {values!r:.30}") from None
    return found if set(map(type, found)) <= {int} else tuple(whole(value, what) for value in found)


def numeral(word: str, what: str) -> int:
    """The whole number that a word writes. Raises BadDiagram."""
    digits = word[1:] if word[0] in "+-" else word
    if not (digits.isascii() and digits.isdigit() and len(digits) <= 9):
        raise BadDiagram(f"{what}: '{word[:20]}' is no whole number")
    return int(word)


def strands_and_letters(given: Any) -> Tuple[int, Rows]:
    """The strands and letters of a braid that is given as one: of a text in brackets and of a list the letters alone. Raises BadDiagram."""
    letters = wholes(given, "a braid")
    if isinstance(given, str) and given.lstrip()[:1] not in ("[", "{", "("):
        if not letters:
            raise BadDiagram("the text of a braid is empty: its strands and letters are due, as '2 1 1 1'")
        return letters[0], letters[1:]
    return max((abs(letter) for letter in letters), default=0) + 1, letters


def letter_fault(braid: Tuple[int, Sequence[int]]) -> Optional[str]:
    """The first letter of a pair of strands and letters that isn't on the strands, in words, or None."""
    strands, letters = braid
    for letter in letters:
        if not 1 <= abs(letter) < strands:
            return f"{letter} is no letter on {strands} strands"
    return None


def grid_fault(grid: Tuple[Sequence[int], Sequence[int]]) -> Optional[str]:
    """Why a pair of rows by column is no grid diagram, or None."""
    xs, os_ = grid
    size = len(xs)
    if size < 2:
        return "a grid has two columns or more"
    for letter, rows in (("X", xs), ("O", os_)):
        if sorted(rows) != list(range(size)):
            return f"the {letter}s don't have each row of 0 to {size - 1} once"
    for column, (x, o) in enumerate(zip(xs, os_)):
        if x == o:
            return f"column {column} has its X and its O in one cell"
    return None


def grid_text(grid: Grid) -> str:
    """The two lines of a grid."""
    return f"x {' '.join(map(str, grid.xs))}\no {' '.join(map(str, grid.os))}\n"


def closure(braid: Braid) -> Tuple[Grid, List[int]]:
    """The grid of a closed braid, and the columns of its feet by position."""
    strands, letters = braid
    size = len(letters) + 2 * strands
    # Each column by the rows of its X and O; `order` has the columns from the left, `at` the open one of each position.
    marks = {position: [position, -1] for position in range(strands)}
    order = list(range(strands))
    at = list(range(strands))
    for row, letter in enumerate(letters, strands):
        left = abs(letter) - 1
        ending, over = (at[left + 1], at[left]) if letter > 0 else (at[left], at[left + 1])
        marks[ending][1] = row
        new = row
        marks[new] = [row, -1]
        order.insert(order.index(over) + (0 if letter > 0 else 1), new)
        at[left], at[left + 1] = (new, over) if letter > 0 else (over, new)
    for position, column in enumerate(at):
        top = size - 1 - position
        marks[column][1] = top
        marks[top] = [top, position]
    order += [size - strands + place for place in range(strands)]
    grid = Grid(tuple(marks[column][0] for column in order), tuple(marks[column][1] for column in order))
    return grid, [order.index(position) for position in range(strands)]


def grid_of(diagram: Diagram) -> Grid:
    """A grid itself, and of a braid its closure."""
    return closure(diagram)[0] if isinstance(diagram, Braid) else diagram


def diagram_text(diagram: Diagram) -> str:
    """The lines of a grid or of a braid."""
    if isinstance(diagram, Braid):
        return " ".join(map(str, ("braid", diagram.strands, *diagram.letters))) + "\n"
    return grid_text(diagram)


def mirror_braid(braid: Braid) -> Braid:
    """The word of the mirror image: every sign changed."""
    return Braid(braid.strands, tuple(-letter for letter in braid.letters))


def mirror_image(diagram: Any) -> Any:
    """Of a grid the picture turned upside down, in which columns pass over rows as before."""
    if isinstance(diagram, Braid):
        return mirror_braid(diagram)
    size = len(diagram.xs)
    return as_grid(*(tuple(size - 1 - row for row in marks) for marks in diagram))


def reverse(diagram: Any) -> Any:
    """The same link, run through backwards: a word from its end, and of a grid the Xs and the Os in each other's place."""
    return Braid(diagram.strands, diagram.letters[::-1]) if isinstance(diagram, Braid) else as_grid(diagram.os, diagram.xs)


def ends(grid: Grid, row: int) -> Tuple[int, int]:
    """The two columns of a row, the left one first."""
    x, o = grid.xs.index(row), grid.os.index(row)
    return (x, o) if x < o else (o, x)


def is_up(grid: Grid, column: int) -> bool:
    """Whether a column runs up, from its X to its O."""
    return grid.xs[column] < grid.os[column]


def covers(grid: Grid, column: int, row: int) -> bool:
    """Whether a row lies strictly between the marks of a column."""
    low, high = sorted((grid.xs[column], grid.os[column]))
    return low < row < high


def crossings(grid: Grid) -> List[Tuple[int, int, int]]:
    """The crossings as (column, row, sign), by row from the lowest and then by column."""
    found = []
    for row in range(len(grid.xs)):
        left, right = ends(grid, row)
        to_the_right = grid.os[left] == row
        for column in range(left + 1, right):
            if covers(grid, column, row):
                found.append((column, row, 1 if is_up(grid, column) != to_the_right else -1))
    return found


def bottoms(grid: Grid) -> int:
    """How many rows are the lower end of both their columns."""
    return sum(all(min(grid.xs[column], grid.os[column]) == row for column in ends(grid, row)) for row in range(len(grid.xs)))
