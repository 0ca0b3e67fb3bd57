"""The texts of problems, line by line: diagrams, quandles and moves, within the limits of the programs."""
from typing import List, Optional, Sequence, Tuple

from .diagrams import CORNERS, MAX_SIZE, MAX_STRANDS, Braid, Diagram, Grid, Move, letter_fault
from .faults import BadText
from .quandles import MAX_ORDER, Quandle, alexander, dihedral, quandle_fault, quandle_of, tetrahedral, trivial


class Lines:
    """The lines of a text that are not skipped, with their numbers from 1, taken one by one."""

    def __init__(self, text: str) -> None:
        if text.startswith("\ufeff"):
            raise BadText("the text begins with a byte order mark, which the program doesn't take; save it without", 1)
        self.lines: List[Tuple[int, List[str]]] = []
        every = text.split("\n")
        if every[-1] == "":
            every.pop()
        for number, line in enumerate(every, 1):
            tokens = line.replace("\t", " ").removesuffix("\r").split(" ")
            tokens = [token for token in tokens if token]
            if tokens and not tokens[0].startswith("#"):
                self.lines.append((number, tokens))
        # Where something is due and the text ends, as the program counts.
        self.end = len(every) + 1
        self.place = 0

    def peek(self) -> Optional[str]:
        """The first token of the next line, or None."""
        return self.lines[self.place][1][0] if self.place < len(self.lines) else None

    def take(self, what: str) -> Tuple[int, List[str]]:
        """The next line's number and tokens. Raises BadText where `what` is due and the text ends."""
        if self.place == len(self.lines):
            raise BadText(f"{what} is due where the text ends", self.end)
        self.place += 1
        return self.lines[self.place - 1]

    def done(self) -> None:
        """Raises BadText where a line is left."""
        if self.place < len(self.lines):
            raise BadText(f"nothing more is due, but here is '{' '.join(self.lines[self.place][1])}'", self.lines[self.place][0])


def number_of(token: str, line: Optional[int], signed: bool = False) -> int:
    """The whole number of a token, with `signed` perhaps a negative one. Raises BadText."""
    digits = token[1:] if signed and token.startswith("-") else token
    if not (digits.isascii() and digits.isdigit()) or (digits != "0" and digits.startswith("0")):
        raise BadText(f"'{token}' is no number", line)
    if len(digits) > 9:
        raise BadText(f"'{token}' has more than nine digits", line)
    return int(token)


def read_diagram(lines: Lines) -> Diagram:
    """A grid, or a braid."""
    return read_braid(lines) if lines.peek() == "braid" else read_grid(lines)


def read_braid(lines: Lines) -> Braid:
    """A braid within the limits of the programs. Raises BadText."""
    line, tokens = lines.take("a braid")
    numbers = [number_of(token, line, signed=True) for token in tokens[1:]]
    if not numbers or numbers[0] < 1:
        raise BadText("a braid has one strand or more", line)
    fault = braid_fault((numbers[0], numbers[1:]))
    if fault:
        raise BadText(fault, line)
    return Braid(numbers[0], numbers[1:])


def braid_fault(braid: Tuple[int, Sequence[int]]) -> Optional[str]:
    """Why today's limits or the strands refuse a pair of strands and letters, or None."""
    strands, letters = braid
    fault = letter_fault(braid)
    if fault:
        return fault
    if strands > MAX_STRANDS:
        return f"{strands} strands, and at most {MAX_STRANDS} are taken"
    if len(letters) + 2 * strands > MAX_SIZE:
        return f"the closure has {len(letters) + 2 * strands} columns, and at most {MAX_SIZE} are taken"
    return None


def read_grid(lines: Lines) -> Grid:
    """A grid within the limits of the programs. Raises BadText."""
    line, tokens = lines.take("a diagram")
    if tokens[0] != "x":
        is_code = tokens[0].startswith(("PD", "X[", "[", "{", "(", "DT", "Gauss", "crossings"))
        raise BadText("a line 'x' or 'braid' is due" + ("; of a PD, DT or Gauss code tools/code.py --grid draws one" if is_code else ""), line)
    xs = [number_of(token, line) for token in tokens[1:]]
    size = len(xs)
    if not 2 <= size <= MAX_SIZE:
        raise BadText(f"a grid has 2 to {MAX_SIZE} columns", line)
    if sorted(xs) != list(range(size)):
        raise BadText(f"the Xs don't have each row of 0 to {size - 1} once", line)
    line, tokens = lines.take("the line 'o'")
    if tokens[0] != "o":
        raise BadText("the line 'o' is due", line)
    os_ = [number_of(token, line) for token in tokens[1:]]
    if len(os_) != size or sorted(os_) != list(range(size)):
        raise BadText(f"the Os don't have each row of 0 to {size - 1} once", line)
    for column in range(size):
        if xs[column] == os_[column]:
            raise BadText(f"column {column} has its X and its O in one cell", line)
    return Grid(tuple(xs), tuple(os_))


def read_quandle(lines: Lines, word: str = "quandle", largest: int = MAX_ORDER) -> Quandle:
    """The quandle of a line `quandle`, or of another word that is before its name, with the lines of its table, which has at most the largest
    order. Raises BadText."""
    line, tokens = lines.take("a quandle")
    if tokens[0] != word or len(tokens) < 2:
        raise BadText(f"a line '{word}' with a name is due", line)
    return quandle_named(lines, line, tokens[1:], largest)


def quandle_named(lines: Lines, line: int, tokens: Sequence[str], largest: int = MAX_ORDER) -> Quandle:
    """The quandle of a name, the last tokens of a line, with the lines of its table after it, which has at most the largest order. Raises BadText."""
    name, numbers = tokens[0] if tokens else "", [number_of(token, line) for token in tokens[1:]]
    wanted = {"trivial": 1, "dihedral": 1, "tetrahedral": 0, "alexander": 2, "table": 1}.get(name)
    if wanted is None or wanted != len(numbers):
        raise BadText(f"'{' '.join(tokens)}' is no name of a quandle", line)
    most = largest if name == "table" else MAX_ORDER
    if numbers and not 1 <= numbers[0] <= most:
        raise BadText(f"the order is not 1 to {most}", line)
    if name == "tetrahedral":
        return tetrahedral()
    if name == "trivial":
        return trivial(numbers[0])
    if name == "dihedral":
        return dihedral(numbers[0])
    if name == "alexander":
        order, factor = numbers
        if factor >= order or not any(factor * other % order == 1 % order for other in range(order)):
            raise BadText(f"{factor} is not below {order} with an inverse mod {order}", line)
        return alexander(order, factor)
    return read_table(lines, numbers[0])


def read_table(lines: Lines, order: int) -> Quandle:
    """The quandle of so many lines of a table. Raises BadText."""
    table = []
    line = None
    for _ in range(order):
        line, tokens = lines.take("a line of the table")
        table.append([number_of(token, line) for token in tokens])
    fault = quandle_fault(table)
    if fault:
        raise BadText(fault, line)
    return quandle_of(f"table {order}", table)


def read_quandles(lines: Lines) -> List[Quandle]:
    """All quandles that are next."""
    quandles = []
    while lines.peek() == "quandle":
        quandles.append(read_quandle(lines))
    return quandles


def read_moves(lines: Lines) -> List[Move]:
    """The moves after a line `moves` or `equal` with their number. Raises BadText."""
    line, tokens = lines.take("the line 'moves'")
    if tokens[0] not in ("moves", "equal") or len(tokens) != 2:
        raise BadText("a line 'moves' or 'equal' with their number is due", line)
    moves = []
    for _ in range(number_of(tokens[1], line)):
        line, tokens = lines.take("a move")
        moves.append(move_of(line, tokens))
    return moves


def move_of(line: Optional[int], tokens: Sequence[str]) -> Move:
    """The move of a line, as a tuple of its words and numbers. Raises BadText."""
    word = tokens[0]
    if word in ("shift", "exchange", "slide") and len(tokens) == 3 and tokens[1] in ("columns", "rows"):
        return (word, tokens[1], number_of(tokens[2], line))
    if word == "stabilise" and len(tokens) == 4 and tokens[2] in ("x", "o") and tokens[3] in CORNERS:
        return (word, number_of(tokens[1], line), tokens[2], tokens[3])
    if word == "destabilise" and len(tokens) == 3:
        return (word, number_of(tokens[1], line), number_of(tokens[2], line))
    raise BadText(f"'{' '.join(tokens)}' is no move", line)


def move_text(move: Move) -> str:
    """The line of a move. Raises BadText where it isn't a tuple of words and numbers."""
    if not isinstance(move, (tuple, list)):
        raise BadText(f"{move!r:.40} is no move: a tuple is due, as ('shift', 'columns', 2)")
    return " ".join(map(str, move))
