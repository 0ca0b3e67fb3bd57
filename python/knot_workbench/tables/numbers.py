"""Rows of numbers: how many colourings a knot has by each block of a list, and of each weight. They are the key by which a table is looked up.

A block is a quandle, and perhaps a cocycle of it. Its entry in a row has one number, or with a cocycle mod k one for each weight from 0 to
k − 1; or it is None where the quandle is too large for the diagram, which says nothing of the knot. The text of a row has `/` between
entries. There an entry that the unknot has too is empty, a None is `?`, and an entry's zeros at its end are left out.
"""
from typing import List, NamedTuple, Optional, Sequence, Tuple

from ..diagrams import Diagram, Rows, diagram_text
from ..faults import BadAnswer, BadText
from ..programs import answered
from ..texts import Lines, number_of

Entry = Optional[Rows]
Row = Tuple[Entry, ...]

# How many colourings a knot has by each block, of all weights together; None where the quandle is too large.
RowCounts = Tuple[Optional[int], ...]


NOT_CONNECTED = "numbers of colourings of two knots make none of their sum, so a quandle isn't connected"


class Block(NamedTuple):
    """Of a block: how many colours its quandle has, how many weights, 0 without a cocycle, and whether the cocycle is a shadow cocycle."""

    order: int
    weights: int
    is_shadow: bool

    @property
    def pairs(self) -> int:
        """How many colourings the unknot has; with a shadow cocycle pairs of a colouring and an outer colour."""
        return self.order ** 2 if self.is_shadow else self.order

    @property
    def unknot(self) -> Rows:
        """The entry of the unknot, of whose colourings each has the weight 0."""
        return (self.pairs,) + (0,) * (self.weights - 1)


def blocks_of(text: str) -> List[Block]:
    """What the blocks of a list are, by their first lines. The tables after them aren't looked at. Raises BadText."""
    lines, found = Lines(text), []
    while lines.peek():
        line, tokens = lines.take("a quandle")
        if tokens[0] == "quandle" and len(tokens) > 1:
            found.append(Block(4 if tokens[1] == "tetrahedral" else number_of(tokens[2], line), 0, False))
        elif tokens[0] in ("weight", "shadow") and found and len(tokens) == 2:
            modulus = found[-1].order if tokens[1] == "mochizuki" else number_of(tokens[1], line)
            found[-1] = Block(found[-1].order, modulus, tokens[0] == "shadow")
        elif not found:
            raise BadText("a line 'quandle' is due", line)
    return found


def row_of(diagram: Diagram, listed: str) -> Row:
    """The row of a diagram by the text of a list, by the job `numbers` of knot."""
    said = answered("knot", ["numbers"], diagram_text(diagram) + listed).text
    found: List[Entry] = []
    for line in said.splitlines():
        words = line.split()
        if words[0] == "numbers":
            found.append(tuple(map(int, words[1:])))
        elif words[0] == "wide":
            found.append(None)
    if len(found) != len(blocks_of(listed)):
        raise BadAnswer(f"knot numbers wrote {len(found)} lines of numbers, and the list has {len(blocks_of(listed))} blocks")
    return tuple(found)


def text_of_row(row: Row, blocks: Sequence[Block]) -> str:
    """A row in one line."""
    return "/".join(entry_text(entry, block) for entry, block in zip(row, blocks))


def entry_text(entry: Entry, block: Block) -> str:
    """One entry."""
    if entry is None:
        return "?"
    if entry == block.unknot:
        return ""
    last = max(place for place, number in enumerate(entry) if number)
    return " ".join(map(str, entry[:last + 1]))


def row_in(text: str, blocks: Sequence[Block]) -> Row:
    """The row of a line. Raises BadText."""
    parts = text.split("/")
    if len(parts) != len(blocks):
        raise BadText(f"a row has {len(blocks)} entries, and here are {len(parts)}")
    return tuple(map(entry_in, parts, blocks))


def entry_in(text: str, block: Block) -> Entry:
    """The entry of a text. Raises BadText."""
    if text == "?":
        return None
    if not text:
        return block.unknot
    numbers = [number_of(word, None) for word in text.split(" ")]
    if len(numbers) > max(block.weights, 1):
        raise BadText(f"'{text}' has more numbers than there are weights")
    return tuple(numbers) + (0,) * (max(block.weights, 1) - len(numbers))


def opposite(row: Row, blocks: Sequence[Block]) -> Row:
    """The row of the mirror image that is run through backwards. It has equally many colourings, each with the negative weight."""
    return tuple(entry if entry is None or not block.weights else entry[:1] + entry[:0:-1] for entry, block in zip(row, blocks))


def counts_of(row: Row) -> RowCounts:
    """The counts of a row. Mirror images and reverses have the same."""
    return tuple(None if entry is None else sum(entry) for entry in row)


def counts_of_sum(first: RowCounts, second: RowCounts, blocks: Sequence[Block]) -> RowCounts:
    """The counts of the sum of two knots, as `of_sum`. Raises BadAnswer where the counts can't be those of knots by a connected quandle."""
    found: List[Optional[int]] = []
    for one, other, block in zip(first, second, blocks):
        if one is None or other is None:
            found.append(None)
        elif one * other % block.pairs:
            raise BadAnswer(NOT_CONNECTED)
        else:
            found.append(one * other // block.pairs)
    return tuple(found)


def may_be_one(first: Sequence[Optional[object]], second: Sequence[Optional[object]]) -> bool:
    """Whether no entry distinguishes two rows, or two lists of counts."""
    return all(one is None or other is None or one == other for one, other in zip(first, second))


def of_sum(first: Row, second: Row, blocks: Sequence[Block]) -> Row:
    """The row of the sum of two knots, for connected quandles.

    A colouring of the sum is one of each part, with one colour on the arc where they are joined. In a connected quandle each colour of this
    arc, and by a shadow cocycle each colour of the region beside it, has equally many colourings of either part of a given weight: another
    strand drawn over the whole part or under it, or round it, changes these colours and no weight. So numbers are multiplied, weights are
    added, and what is counted is divided by the number of choices, that of the unknot's colourings.
    """
    return tuple(map(entry_of_sum, first, second, blocks))


def entry_of_sum(one: Entry, other: Entry, block: Block) -> Entry:
    """One entry of a sum. Raises BadAnswer where the numbers can't be those of knots by a connected quandle."""
    if one is None or other is None:
        return None
    if other == block.unknot:
        return one
    found = [0] * len(one)
    for place, count in enumerate(one):
        if count:
            for further, times in enumerate(other):
                found[(place + further) % len(one)] += count * times
    if any(number % block.pairs for number in found):
        raise BadAnswer(NOT_CONNECTED)
    return tuple(number // block.pairs for number in found)
