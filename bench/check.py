#!/usr/bin/env python3
"""Times `knot check` on generated inputs, and compares with `wc -l` on the same file in the same run.

    python3 bench/check.py                   seconds, MB/s, peak memory, and the ratio to wc -l
    python3 bench/check.py --instructions    also instructions a move, counted by callgrind
"""
import os
import sys
import tempfile

from grids import loop_of, resizing, torus, trades
from knot_workbench.diagrams import grid_text
from measure import PROGRAM, best, built, instructions, wants_instructions

INPUT_LIMIT = 33_554_432


def cycles(size):
    """Named lists of moves that lead from a grid of this size (or one less, to have room) back to itself."""
    grid = torus(size)
    room = torus(size - 1)
    yield "shifts of rows", grid, ["shift rows 1", f"shift rows {size - 1}"]
    yield "shifts of columns", grid, ["shift columns 1", f"shift columns {size - 1}"]
    yield "shifts and exchanges", grid, loop_of(trades(grid, 200, size))
    yield "stabilised and back", room, resizing(room)
    mixed = loop_of(trades(room, 100, size)) + resizing(room)
    yield "all kinds but slides", room, mixed


def text(grid, lines, count):
    """The input with about so many moves, whole rounds of the list, and at most the limit's bytes."""
    head = grid_text(grid) * 2
    round_bytes = sum(len(line) + 1 for line in lines)
    rounds = max(1, min(count // len(lines), (INPUT_LIMIT - len(head) - 20) // round_bytes))
    body = "".join(line + "\n" for line in lines) * rounds
    return (head + f"equal {rounds * len(lines)}\n" + body).encode(), rounds * len(lines)


def main():
    with_instructions = wants_instructions(__doc__)
    built()
    with tempfile.TemporaryDirectory() as folder:
        path = os.path.join(folder, "input")
        print(f"{'moves':22} {'size':>4} {'count':>8} {'MB':>6} {'seconds':>8} {'MB/s':>6} {'memory':>8} {'of input':>8} {'wc -l':>6}")
        for size in (5, 10, 24):
            for name, grid, lines in cycles(size):
                for count in (1_000, 100_000, 10_000_000):
                    data, moves = text(grid, lines, count)
                    with open(path, "wb") as out:
                        out.write(data)
                    seconds, memory, written = best([PROGRAM, "check"], path)
                    if written != "accepted\n":
                        sys.exit(f"{name} at size {size}: {written!r}")
                    base, _, _ = best(["wc", "-l"], path)
                    mega = len(data) / 1e6
                    print(f"{name:22} {size:4} {moves:8} {mega:6.2f} {seconds:8.4f} {mega / seconds:6.0f} "
                          f"{memory / 1e6:8.1f} {memory / len(data):8.2f} {seconds / base:6.1f}")
        if with_instructions:
            print(f"\n{'moves':22} {'size':>4} {'instructions a move':>20}")
            for size in (5, 10, 24):
                for name, grid, lines in cycles(size):
                    counts = []
                    for count in (len(lines) * 2, max(4_000, len(lines) * 4)):
                        data, moves = text(grid, lines, count)
                        with open(path, "wb") as out:
                            out.write(data)
                        counts.append((instructions("check", path), moves))
                    (few, fewer), (many, more) = counts
                    print(f"{name:22} {size:4} {(many - few) / (more - fewer):20.0f}")


if __name__ == "__main__":
    main()
