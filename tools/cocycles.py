#!/usr/bin/env python3
"""Finds a 2-cocycle of a quandle mod 2, 3, 4 or 5 by which the weights of the colourings of two diagrams differ.

    tools/cocycles.py find [PROBLEM] [LIST ...]

It writes the input of the job `weights` that shows it. PROBLEM is a file that begins with two diagrams, or standard input if no file begins
with a diagram. A LIST has quandles as in quandles/; a cocycle may follow a quandle, as in the ready tables of quandles/weights/. The cheapest are
tried first: those that leave the fewest colourings to try, and few equations if the cocycles have to be found. Without a LIST these are the ready
tables, and all connected quandles up to order 16, or that of --largest. It says what it tried, and ends with 1 if nothing distinguishes the two.

A cocycle φ mod k has φ(x, x) = 0 and φ(x, y) + φ(x ▷ y, z) = φ(x, z) + φ(x ▷ z, y ▷ z). To list cocycles, or to search a table of knots,
use quandles/make/cocycle_tables.py of the sources.
"""
import argparse
import os
import re
import sys

from lib.calls import calls
from lib.cocycles.differing import add_moduli, cocycles_of, first_difference, weights_line
from lib.cocycles.given import candidates_of, pair_and_lists
from knot_workbench import weighing
from knot_workbench.colourings import fits
from knot_workbench.diagrams import bottoms, diagram_text, grid_of
from knot_workbench.quandles import quandle_text
from knot_workbench.weighing import cocycle_text, is_connected

MOVED = ("classes", "search", "weights")


def default_lists(largest):
    """The ready tables with a 2-cocycle and the connected quandles of quandles/, up to an order."""
    folder = os.path.join(os.path.dirname(os.path.dirname(os.path.realpath(__file__))), "quandles")
    ready = [os.path.join(folder, "weights", name) for name in sorted(os.listdir(os.path.join(folder, "weights"))) if re.fullmatch(r"[MT]\w*\.txt", name)]
    lists = [os.path.join(folder, name) for name in sorted(os.listdir(folder)) if re.fullmatch(r"connected-\d+\.txt", name)]
    return ready + [path for path in lists if int(re.search(r"\d+", os.path.basename(path))[0]) <= largest]


def work_of(candidate, grids):
    """Some measure of the work: the colourings that are tried, and the equations of cocycles that aren't given."""
    order = len(candidate.quandle.over)
    most = max(map(bottoms, grids))
    return order ** (most - is_connected(candidate.quandle.over)) + (0 if candidate.given else order ** 3)


def difference(candidate, grids, moduli):
    """(modulus, cocycle, weights, weights) by which two diagrams differ, or None, and how many cocycles were tried.

    Where the numbers of colourings differ, all cocycles show it, and the one of zeros is taken."""
    order = len(candidate.quandle.over)
    found = [weighing.all_met(grid, candidate.quandle, is_connected(candidate.quandle.over)) for grid in grids]
    one, two = (len(met) * each for met, each in found)
    if one != two:
        return (2, [[0] * order for _ in range(order)], [one, 0], [two, 0]), 0
    tried = 0
    for modulus, squares in candidate.given or cocycles_of(candidate.quandle, moduli):
        tried += len(squares)
        one, two = (weighing.weight_lists(met, squares, modulus) for met in found)
        factors = first_difference(one, two, squares, modulus)
        if factors:
            cocycle = [[sum(factor * part[x][y] for factor, part in zip(factors, squares)) % modulus for y in range(order)] for x in range(order)]
            return (modulus, cocycle, weights_line(one, factors, modulus), weights_line(two, factors, modulus)), tried
    return None, tried


def note_progress(said):
    calls.note(f"cocycles.py: {said}")


def say_find(paths, largest, moduli, out):
    """Writes what distinguishes two diagrams, and says what was tried; ends with 1 where nothing was found."""
    pair, lists = pair_and_lists(paths)
    grids = [grid_of(diagram) for diagram in pair]
    every = candidates_of(lists or default_lists(largest))
    fitting = sorted((one for one in every if all(fits(one.quandle, grid) for grid in grids)), key=lambda one: work_of(one, grids))
    cocycles_tried, found, in_vain = 0, None, []
    for candidate in fitting:
        found, tried = difference(candidate, grids, moduli)
        if found:
            break
        cocycles_tried += tried
        in_vain.append(len(candidate.quandle.over))
    say_tried(in_vain, cocycles_tried, len(every) - len(fitting), grids)
    if not found:
        note_progress("nothing found, which says nothing of the two")
        raise SystemExit(1)
    modulus, cocycle, *rows = found
    lines = [f"weights {' '.join(map(str, row))}\n" for row in rows]
    named = f"{candidate.name}, of order {len(candidate.quandle.over)}"
    if sum(rows[0]) != sum(rows[1]):
        note_progress(f"{named}, has {sum(rows[0])} colourings of the first and {sum(rows[1])} of the second: after the two, decide distinguishes them by it")
    else:
        note_progress(f"{named}, with a cocycle mod {modulus} distinguishes them: {' and '.join(line.strip() for line in lines)}")
    calls.put(out, f"# {candidate.name}, found by tools/cocycles.py find; an input of weights, which says for the two:\n"
              + "".join(f"# {line}" for line in lines) + "".join(map(diagram_text, pair)) + quandle_text(candidate.quandle) + cocycle_text(cocycle, modulus))


def say_tried(orders, cocycles_tried, too_large, grids):
    """Says how many quandles, of these orders, were tried in vain."""
    if orders:
        note_progress(f"tried in vain: {len(orders)} quandles of orders up to {max(orders)}, with {cocycles_tried} cocycles")
    if too_large:
        note_progress(f"too large for one of the diagrams, of {' and '.join(str(bottoms(grid)) for grid in grids)} bottoms: {too_large} quandles")


def find_parser():
    """The words of a call."""
    parser = argparse.ArgumentParser(description=__doc__, formatter_class=argparse.RawDescriptionHelpFormatter)
    jobs = parser.add_subparsers(dest="job", required=True, metavar="JOB")
    job = jobs.add_parser("find", help="the first cocycle that distinguishes two diagrams")
    add_moduli(job)
    job.add_argument("--largest", type=int, default=16, metavar="N", help="the largest order of connected quandles, if no LIST is given, to 32 (16)")
    job.add_argument("--out", metavar="FILE", help="where the input of `weights` goes; standard output if none is given")
    job.add_argument("lists", nargs="*", metavar="FILE", help="the problem, else standard input; and lists of quandles")
    return parser


def main():
    parser = find_parser()
    if sys.argv[1:2] and sys.argv[1] in MOVED:
        parser.error(f"{sys.argv[1]} is a job of quandles/make/cocycle_tables.py of the sources")
    words = parser.parse_args()
    say_find(words.lists, words.largest, words.moduli, words.out)


if __name__ == "__main__":
    calls.run("cocycles.py", main)
