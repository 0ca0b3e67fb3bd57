#!/usr/bin/env python3
"""Tries the reader without the program: against the stored answers of the examples, the small bad inputs of
docs/FORMATS.md, and the laws of docs/DEFINITIONS.md on random grids.

    python3 tests/try_reader.py [SEED]
"""
import os
import random
import sys

import cases
import changes
import reader
from hostile import BAD_INPUTS, EXAMPLES


# The status of an answer by its first word.
STATUSES = {b"malformed": reader.MALFORMED, b"limit": reader.LIMIT, b"rejected": reader.REJECTED}


def stored(path):
    """The status and the text of an example."""
    stem = path[:-4]
    status = int(changes.read(stem + ".status")) if os.path.exists(stem + ".status") else 0
    return status, changes.read(stem + ".out")


def try_examples():
    count = 0
    for name, job, further, text in changes.examples(EXAMPLES, reader.JOBS):
        path = os.path.join(EXAMPLES, name + ".txt")
        if os.path.exists(path[:-4] + ".out"):
            problem = reader.answer([job, *further], text).problem_with(*stored(path))
            assert problem is None, (name, problem)
            count += 1
    return count


def try_table():
    rows = list(cases.table(BAD_INPUTS))
    for row in rows:
        problem = reader.answer(row.words, row.data).problem_with(STATUSES[row.due.split()[0]], row.due)
        assert problem is None, (row.name, problem)
    return len(rows)


def all_moves(size):
    """All moves with numbers up to the size, legal or not."""
    for way in ("columns", "rows"):
        for name in ("shift", "exchange", "slide"):
            yield from ((name, way, number) for number in range(size + 1))
    for column in range(size + 1):
        yield from (("stabilise", column, kind, corner.decode()) for kind in "xo" for corner in reader.CORNERS)
        yield from (("destabilise", column, row) for row in range(size + 1))


def grid_of(lines):
    return reader.read_grid(reader.Lines(b"\n".join(lines)))


def try_laws(seed, grids):
    """The complete list is the plain one; moves lead to grids, carry it to that of the next one, and keep linking numbers;
    the feet of a word are the fixed points of its action."""
    dice, count = random.Random(seed), 0
    for _ in range(grids):
        size = dice.randint(2, 5)
        grid = grid_of(changes.random_grid(dice, size))
        for quandle in reader.BUILT_IN:
            complete = reader.colourings(grid, quandle)
            assert complete == reader.plain_colourings(grid, quandle), (grid, quandle.name)
            strands, letters = reader.word_of(grid)
            feet = sorted(reader.at_feet(grid, quandle, colours) for colours in complete)
            assert feet == reader.fixed_points(strands, letters, quandle), (grid, quandle.name)
            for move in all_moves(size):
                try:
                    following = reader.apply(grid, move)
                except reader.Illegal:
                    continue
                assert grid_of([line.encode() for line in reader.print_grid(following).splitlines()]) == following, (grid, move)
                images = sorted(tuple(reader.carried(grid, move, quandle, colours)) for colours in complete)
                assert images == reader.colourings(following, quandle), (grid, move, quandle.name)
                assert reader.linking_numbers(following) == reader.linking_numbers(grid), (grid, move)
                count += 1
    return count


def main():
    seed = sys.argv[1] if len(sys.argv) > 1 else "1"
    print(f"{try_examples()} examples, {try_table()} rows, {try_laws(seed, 40)} moves with colours: all as they should be")


if __name__ == "__main__":
    main()
