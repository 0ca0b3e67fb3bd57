#!/usr/bin/env python3
"""Times `knot check` on evidence by numbers of colourings by quandles of more than 32 colours.

    python3 bench/larger.py

First the examples in examples/check whose table is larger, each with both diagrams. Then one diagram, 8_17 from three seeds, by each table in
quandles/larger, and by one of 120 colours that is not connected: of the colours of PGammaL2_8_84_a and 36 more, which change no colour and
which no colour changes. There the evidence says 0 colourings, so that it is rejected at the first number, and the second diagram isn't counted.
Candidates are the choices of colours for the seeds that are tried: by a connected quandle without a cocycle one colour of the first seed."""
import glob
import os
import tempfile

from measure import PROGRAM, best, built, wants_no_words, write_input

TOP = os.path.join(os.path.dirname(os.path.abspath(__file__)), "..")
SMALL_ORDER = 32
# 8_17, and seeds of its closure.
DIAGRAM = "braid 3 1 1 -2 1 -2 1 -2 -2\n"
SEEDS = "seeds 0 1 2\n"
SEED_COUNT = 3


def lines_without_remarks(path):
    """The lines of a file without remarks."""
    with open(path, encoding="utf-8") as file:
        return [line for line in file.read().splitlines() if not line.startswith("#")]


def order_of(lines):
    """The order of the table in these lines, or 0 where there is none."""
    return next((int(line.split()[-1]) for line in lines if " table " in line), 0)


def examples():
    """The examples with a larger table: a name, the order, and the text."""
    for path in sorted(glob.glob(os.path.join(TOP, "examples", "check", "*.txt"))):
        lines = lines_without_remarks(path)
        if order_of(lines) > SMALL_ORDER:
            yield os.path.basename(path)[:-4], order_of(lines), "\n".join(lines) + "\n"


def with_more(rows, more):
    """The table with so many colours more, which change no colour and which no colour changes."""
    order = len(rows)
    longer = [row + " " + " ".join([str(x)] * more) for x, row in enumerate(rows)]
    return longer + [" ".join([str(x)] * (order + more)) for x in range(order, order + more)]


def larger_tables():
    """A name, whether one colour of the first seed is tried, and the lines of a table, with those of a cocycle."""
    for path in sorted(glob.glob(os.path.join(TOP, "quandles", "larger", "*.txt"))):
        name, lines = os.path.basename(path)[:-4], lines_without_remarks(path)
        yield name, not any(line.startswith("weight") for line in lines), lines[1:]
        if name == "PGammaL2_8_84_a":
            yield "not connected", False, with_more(lines[1:], 36)


def wrong_evidence(lines):
    """Evidence that says 0 colourings of both diagrams, by a table and perhaps a cocycle."""
    weights = [int(line.split()[1]) for line in lines if line.startswith("weight")]
    numbers = "numbers" + " 0" * (weights or [1])[0] + "\n"
    order = len(lines[0].split())
    return 2 * DIAGRAM + f"certificate 3\ndifferent numbers table {order}\n" + "\n".join(lines) + "\n" + 2 * (SEEDS + numbers)


def main():
    wants_no_words(__doc__)
    built()
    with tempfile.TemporaryDirectory() as folder:
        path = os.path.join(folder, "input")

        def row(name, order, candidates, text, wanted):
            write_input(path, text)
            seconds, memory, written = best([PROGRAM, "check"], path)
            if written != wanted:
                raise SystemExit(f"{name}: {written!r}")
            print(f"{name:28} {order:6} {candidates:>10} {seconds:8.4f} {memory / 1e6:6.1f}", flush=True)

        print(f"{'evidence':28} {'order':>6} {'candidates':>10} {'seconds':>8} {'MB':>6}")
        for name, order, text in examples():
            row(name, order, "", text, "accepted\n")
        for name, alike, lines in larger_tables():
            order = len(lines[0].split())
            row(name, order, order ** (SEED_COUNT - alike), wrong_evidence(lines), "rejected number 1 0\n")


if __name__ == "__main__":
    main()
