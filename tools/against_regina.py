#!/usr/bin/env python3
"""Compares what `./knot linking` and `./knot braid` write with what Regina says of the same links.

    /usr/bin/python3 tools/against_regina.py [--grids N] [--words N] [--size N] [--seed N]

The diagrams are those of examples/, closures of random words, and random grids. Of each one

- the linking numbers that `linking` writes are those that Regina finds for each pair of components, twice each: the two components
  are taken out of the grid by themselves, `./knot code` writes their code, and Regina's link of it is asked for its linking number;
- the closure of the word that `braid` writes has the HOMFLY polynomial, and the number of components, of the diagram's own code.

Nothing of this is proved: no theorem says that the closure of the word is the diagram's link. Prints each difference, and the counts;
ends with 1 if there is a difference. Run with Regina 7.3 (Debian's package regina-normal). KNOT names another program."""
import argparse
import os
import random
import sys

from lib.calls import calls
from lib.codes import crossing_codes

import knot_workbench as workbench
from knot_workbench.diagrams import grid_of
from knot_workbench.texts import Lines, read_diagram

TOP = os.path.dirname(os.path.dirname(os.path.abspath(__file__)))


# ---- diagrams

def component_columns(grid):
    """The columns of each component, in ascending order, by their least one."""
    xs, os_ = grid
    left, found = set(range(len(xs))), []
    while left:
        here = min(left)
        columns = set()
        while here not in columns:
            columns.add(here)
            here = xs.index(os_[here])
        found.append(sorted(columns))
        left -= columns
    return found


def alone(grid, columns):
    """The grid of these columns, whose rows are numbered anew."""
    rows = {row: place for place, row in enumerate(sorted(grid.xs[column] for column in columns))}
    return workbench.Grid([rows[grid.xs[column]] for column in columns], [rows[grid.os[column]] for column in columns])


# ---- links of Regina

def closure_code(strands, letters):
    """The code of the closure of a word: strands run upward, and in letter k the one that goes to the right lies on top."""
    at = list(range(strands))
    passages = [[] for _ in range(strands)]
    for crossing, letter in enumerate(letters, 1):
        left = abs(letter) - 1
        for place, goes_right in ((left, True), (left + 1, False)):
            passages[at[place]].append((goes_right == (letter > 0), crossing, 1 if letter > 0 else -1))
        at[left], at[left + 1] = at[left + 1], at[left]
    # the strand that began at at[p] ends at position p and goes on as the one that begins there
    goes_on = {begun: place for place, begun in enumerate(at)}
    rows, components, loops, edge, left_over = [[0] * 4 for _ in letters], [], 0, 0, set(range(strands))
    while left_over:
        here, run = min(left_over), []
        while here in left_over:
            left_over.remove(here)
            run += passages[here]
            here = goes_on[here]
        if not run:
            loops += 1
            continue
        for place, (is_over, crossing, sign) in enumerate(run):
            before, after = edge + place + 1, edge + (place + 1) % len(run) + 1
            row = rows[crossing - 1]
            if not is_over:
                row[0], row[2] = before, after
            else:
                row[3 if sign > 0 else 1], row[1 if sign > 0 else 3] = before, after
        edge += len(run)
        components.append(run)
    return crossing_codes.kinked(crossing_codes.Code(rows, loops, components))


def link_of(code):
    import regina

    link = regina.Link.fromPD(code.rows)
    if link is None or [link.crossing(place).sign() for place in range(link.size())] != crossing_codes.signs(code):
        sys.exit(f"Regina does not take {code.rows} as it is")
    return link


def polynomial(code):
    link = link_of(code)
    link.intelligentSimplify()
    return str(link.homfly()), link.countComponents()


# ---- what is compared

def linking_differs(grid):
    ours = list(workbench.linking(grid, grid).first)
    parts = component_columns(grid)
    theirs = []
    for place, one in enumerate(parts):
        for two in parts[:place]:
            theirs += 2 * [link_of(workbench.code(alone(grid, sorted(one + two))).kinked()).linking()]
    return None if ours == sorted(theirs) else f"linking writes {ours}, Regina {sorted(theirs)}"


def word_differs(grid):
    strands, letters = workbench.braid_word(grid)
    word, diagram = polynomial(closure_code(strands, letters)), polynomial(workbench.code(grid).kinked())
    return None if word == diagram else f"braid {strands} {letters} has {word}, the diagram {diagram}"


def example_files():
    for folder in ("code", "linking", "braid", "colour"):
        for name in sorted(os.listdir(f"{TOP}/examples/{folder}")):
            if name.endswith(".txt"):
                with open(f"{TOP}/examples/{folder}/{name}", encoding="utf-8") as file:
                    yield f"{folder}/{name}", read_diagram(Lines(file.read()))


def random_grid(dice, size):
    while True:
        xs, os_ = dice.sample(range(size), size), dice.sample(range(size), size)
        if all(x != o for x, o in zip(xs, os_)):
            return workbench.Grid(xs, os_)


def random_word(dice):
    strands = dice.randint(2, 5)
    letters = [dice.choice((1, -1)) * dice.randint(1, strands - 1) for _ in range(dice.randint(1, 48 - 2 * strands))]
    return workbench.Braid(strands, letters)


def main():
    parser = argparse.ArgumentParser(description=__doc__, formatter_class=argparse.RawDescriptionHelpFormatter)
    parser.add_argument("--grids", type=int, default=200, help="how many random grids")
    parser.add_argument("--words", type=int, default=200, help="how many closures of random words")
    parser.add_argument("--size", type=int, default=10, help="the most columns of a random grid")
    parser.add_argument("--seed", type=int, default=1)
    words = parser.parse_args()
    try:
        import regina
    except ImportError as fault:
        sys.exit(f"against_regina.py: {fault}; run it by the Python that Regina is installed for")
    dice = random.Random(words.seed)
    diagrams = list(example_files())
    diagrams += [(f"word {number}", random_word(dice)) for number in range(words.words)]
    diagrams += [(f"grid {number}", random_grid(dice, dice.randint(2, words.size))) for number in range(words.grids)]
    links = pairs = differences = 0
    for name, diagram in diagrams:
        grid = grid_of(diagram)
        parts = len(component_columns(grid))
        links += parts > 1
        pairs += parts * (parts - 1) // 2
        for differs in (linking_differs, word_differs):
            what = differs(grid)
            if what:
                differences += 1
                print(f"{name}: {diagram.text!r}: {what}")
    print(f"Regina {regina.versionString()}: {len(diagrams)} diagrams, {links} of them of two or more components, with {pairs} pairs of components; {differences} differences")
    sys.exit(1 if differences else 0)


if __name__ == "__main__":
    calls.run("against_regina.py", main)
