#!/usr/bin/env python3
"""Joins what `simplify` wrote for two diagrams and what `decide` wrote for the simplified ones into one certificate of the given two.

    ./knot simplify < one.txt > one.simple
    ./knot simplify < two.txt > two.simple
    (head -n 2 one.simple; head -n 2 two.simple) | ./knot decide > verdict.txt
    cat one.txt two.txt > problem.txt
    tools/join.py problem.txt one.simple two.simple verdict.txt > certificate.txt
    ./knot check < certificate.txt

PROBLEM has the two given diagrams. FIRST and SECOND are what `simplify` or `least` wrote for them: a grid, and the moves that lead there.
VERDICT is `equal` with its moves, of either version, perhaps after its problem. The certificate is the problem followed by a verdict of
version 2: the moves of the first simplification, those of the verdict, and those of the second simplification undone, from the last to the
first, with each run of shifts made into one of columns and one of rows at most. With --plain it is of version 1, and no shift is joined.

All moves are made here before anything is written: the file of a list that isn't legal, or ends elsewhere, is named.
"""
import argparse

from lib.calls import calls
from knot_workbench.diagrams import diagram_text, grid_of
from knot_workbench.faults import BadText
from knot_workbench.moves import Illegal, made, tidied, undone
from knot_workbench.quandles import quandle_text
from knot_workbench.texts import Lines, move_text, read_diagram, read_moves, read_quandles


def grids_along(grid, moves, name):
    """All grids along a list of moves, the given one first."""
    grids = [grid]
    for place, move in enumerate(moves):
        try:
            grids.append(made(grids[-1], move))
        except Illegal as fault:
            raise calls.Fault(f"{name}: move {place}, '{move_text(move)}', is not legal: {fault}") from None
    return grids


def read_problem(path):
    """Two diagrams and the quandles after them."""
    with calls.naming(path):
        lines = Lines(calls.input_text(path))
        first, second, quandles = read_diagram(lines), read_diagram(lines), read_quandles(lines)
        lines.done()
    return first, second, quandles


def read_simplified(path):
    """The grid and the moves that `simplify` or `least` wrote."""
    with calls.naming(path):
        lines = Lines(calls.input_text(path))
        grid = grid_of(read_diagram(lines))
        moves = read_moves(lines)
        due = "the line 'irreducible', 'whole' or 'spent'"
        line, tokens = lines.take(due)
        if tokens not in (["irreducible"], ["whole"]) and tokens[0] != "spent":
            raise BadText(f"{due} is due", line)
        lines.done()
    return grid, moves


def read_equal(path):
    """The moves of a verdict `equal`."""
    with calls.naming(path):
        lines = Lines(calls.input_text(path))
        if lines.peek() in ("x", "braid"):
            for _ in range(2):
                read_diagram(lines)
            read_quandles(lines)
        if lines.peek() == "certificate":
            lines.take("the line 'certificate 2'")
        if lines.peek() != "equal":
            line, tokens = lines.take("a verdict 'equal'")
            raise BadText(f"a verdict 'equal' is due, and not '{' '.join(tokens)}': other verdicts have no moves to join", line)
        moves = read_moves(lines)
        lines.done()
    return moves


def joined_moves(first, second, simplified, verdict, names):
    """The moves from the first grid to the second. `simplified` has both grids and lists of `simplify`, `verdict` the moves between them."""
    walks = []
    for (grid, moves), given, name in zip(simplified, (first, second), names):
        walks.append(grids_along(given, moves, name))
        if walks[-1][-1] != grid:
            raise calls.Fault(f"{name}: its moves don't lead from the diagram of the problem to its own")
    if grids_along(simplified[0][0], verdict, names[2])[-1] != simplified[1][0]:
        raise calls.Fault(f"{names[2]}: its moves don't lead from the first simplified diagram to the second")
    back = [undone(grid, move) for grid, move in zip(walks[1], simplified[1][1])]
    return simplified[0][1] + verdict + back[::-1]


def main():
    parser = argparse.ArgumentParser(description=__doc__, formatter_class=argparse.RawDescriptionHelpFormatter)
    for name, said in (("problem", "the two given diagrams"), ("first", "what simplify or least wrote of the first one"),
                       ("second", "what simplify or least wrote of the second one"), ("verdict", "what decide wrote of the simplified ones")):
        parser.add_argument(name, metavar=name.upper(), help=said)
    parser.add_argument("--out", metavar="FILE", help="where the certificate goes; standard output if none is given")
    parser.add_argument("--plain", action="store_true", help="version 1, with all moves as they are")
    words = parser.parse_args()
    first, second, quandles = read_problem(words.problem)
    moves = joined_moves(grid_of(first), grid_of(second), [read_simplified(words.first), read_simplified(words.second)], read_equal(words.verdict),
                   (words.first, words.second, words.verdict))
    if not words.plain:
        moves = tidied(grid_of(first), moves)
    if grids_along(grid_of(first), moves, "the joined list")[-1] != grid_of(second):
        raise calls.Fault("the joined list doesn't lead to the second diagram")
    calls.put(words.out, diagram_text(first) + diagram_text(second) + "".join(map(quandle_text, quandles)) + ("" if words.plain else "certificate 2\n")
              + f"equal {len(moves)}\n" + "".join(f"{move_text(move)}\n" for move in moves))


if __name__ == "__main__":
    calls.run("join.py", main)
