"""Certificates of tables, version 4, as docs/FORMATS.md has them: their classes with numbers that distinguish these, and rows with moves.

A larger table than one certificate may hold is several, each with all classes and a part of the rows.
"""
from typing import Iterable, Iterator, List, NamedTuple, Optional, Sequence, Tuple

from knot_workbench.diagrams import Grid, Move
from knot_workbench.tables.numbers import Entry
from knot_workbench.texts import move_text

# What `knot check` takes.
MOST_BYTES, MOST_BLOCKS = 33_554_432, 64


class Standing(NamedTuple):
    """A class: what a comment says of it, the diagram that represents it, columns that settle this one, and its numbers by each block, or None."""

    said: str
    grid: Grid
    seeds: Sequence[int]
    numbers: Sequence[Entry]


class Head(NamedTuple):
    """What all certificates of a table have: the texts of blocks after the word `quandle`, classes, and pairs of these that are left open."""

    blocks: Sequence[str]
    classes: Sequence[Standing]
    left: Sequence[Tuple[int, int]]


def numbers_text(entry: Entry, seeds: Sequence[int]) -> str:
    """The line of a class for a block."""
    return f"wide {len(seeds)}\n" if entry is None else f"numbers {' '.join(map(str, entry))}\n"


def class_text(one: Standing) -> str:
    """The lines of a class."""
    lines = "".join(numbers_text(entry, one.seeds) for entry in one.numbers)
    return f"# {one.said}\n{one.grid.text}seeds {' '.join(map(str, one.seeds))}\n{lines}"


def head_text(head: Head) -> str:
    """All that is before the rows. ValueError where there are too many blocks."""
    if len(head.blocks) > MOST_BLOCKS:
        raise ValueError(f"a certificate has at most {MOST_BLOCKS} blocks, and not {len(head.blocks)}")
    blocks = "".join(f"quandle {text}" for text in head.blocks)
    classes = "".join(map(class_text, head.classes))
    left = "".join(f"classes {first} {second}\n" for first, second in head.left)
    return f"certificate 4\nblocks {len(head.blocks)}\n{blocks}classes {len(head.classes)}\n{classes}open {len(head.left)}\n{left}"


def row_text(said: str, diagram: str, place: int, moves: Sequence[Move]) -> str:
    """The lines of a row: what a comment says of it, its diagram as a text, the number of its class, from 0, and moves to the diagram of this."""
    return row_of_lines(said, diagram, place, [move_text(move) for move in moves])


def row_of_lines(said: str, diagram: str, place: int, moves: Sequence[str]) -> str:
    """As `row_text`, of the lines of the moves."""
    said = said if said.isprintable() else ascii(said)
    return f"# {said}\n{diagram}class {place}\nmoves {len(moves)}\n" + "".join(f"{move}\n" for move in moves)


def certificates(head: str, rows: Iterable[str], most: int = MOST_BYTES) -> Iterator[Tuple[str, int]]:
    """The texts of certificates with all these rows, each with how many of them it has; without a row there is one. ValueError where a row has
    no room."""
    kept: List[str] = []
    # A number of rows has nine digits at most.
    empty = len(head.encode()) + len("rows 123456789\n")
    size, is_first = empty, True
    for row in rows:
        more = len(row.encode())
        if kept and size + more > most:
            yield head + f"rows {len(kept)}\n" + "".join(kept), len(kept)
            kept, size, is_first = [], empty, False
        if size + more > most:
            raise ValueError(f"a certificate takes {most} bytes, and the classes and one row have more")
        kept.append(row)
        size += more
    if kept or is_first:
        yield head + f"rows {len(kept)}\n" + "".join(kept), len(kept)


def needed(numbers: Sequence[Sequence[Entry]], costs: Sequence[Sequence[Optional[int]]]) -> Tuple[List[List[Entry]], List[int], List[Tuple[int, int]]]:
    """Which numbers of classes have to be given: for each two classes those by the block of least cost that distinguishes them. `costs` has for
    each class what it costs to count by each block, or None where that can't be done. Returns for each class what is said by each block that
    is needed, the places of these blocks, and the pairs that no block distinguishes."""
    told: List[set] = [set() for _ in numbers]
    left = []
    for second, others in enumerate(numbers):
        for first in range(second):
            place = cheapest(numbers[first], others, costs[first], costs[second])
            if place is None:
                left.append((first, second))
            else:
                told[first].add(place)
                told[second].add(place)
    places = sorted(set().union(*told))
    return [[row[place] if place in kept else None for place in places] for row, kept in zip(numbers, told)], places, sorted(left)


def cheapest(first: Sequence[Entry], second: Sequence[Entry], one: Sequence[Optional[int]], other: Sequence[Optional[int]]) -> Optional[int]:
    """The place of the block of least cost by which two rows of numbers differ, or None."""
    found, least = None, None
    for place, (entry, against, cost, more) in enumerate(zip(first, second, one, other)):
        if entry is not None and against is not None and cost is not None and more is not None and entry != against:
            if least is None or cost + more < least:
                found, least = place, cost + more
    return found
