#!/usr/bin/env python3
"""Lists 2-cocycles of quandles mod 2, 3, 4 and 5, and knots that the weights of colourings distinguish.

    quandles/make/cocycle_tables.py classes LIST ...          prints, for each quandle of the files, cocycles that give all others by sums,
                                                              multiples and coboundaries, as items `quandle` and `weight`
    quandles/make/cocycle_tables.py search KNOTS LIST ...     lists the pairs of the table, mirror images too, that no quandle of the files
                                                              distinguishes by its number of colourings and that some cocycle does by
                                                              weights (--write FOLDER writes an input of `weights` for each)
    quandles/make/cocycle_tables.py weights [PROBLEM] LIST .. prints the weights of two diagrams by each cocycle that `classes` prints

PROBLEM is a file that begins with two diagrams, or standard input if no file begins with a diagram. A LIST has quandles as in quandles/; for
`weights` a cocycle may follow a quandle. For two diagrams tools/cocycles.py finds the first cocycle that distinguishes them.

KNOTS is a CSV file with columns `name` and `braid`, or those of --name and --braid. A cocycle φ mod k has φ(x, x) = 0 and
φ(x, y) + φ(x ▷ y, z) = φ(x, z) + φ(x ▷ z, y ▷ z); a coboundary is f(x) - f(x ▷ y), by which all weights are 0.
"""
import argparse
import os
from collections import Counter

# quandles knows where lib and the module are.
import quandles
from lib.calls import calls
from lib.cocycles.differing import add_moduli, cocycles_of, first_difference, weights_line
from lib.cocycles.given import candidates_of, pair_and_lists
from knot_workbench import weighing
from knot_workbench.colourings import fixed_points
from knot_workbench.diagrams import diagram_text, grid_of, mirror_braid
from knot_workbench.quandles import quandle_text
from knot_workbench.weighing import cocycle_text, is_connected


# Weights of braids

def pairs_at_feet(braid, quandle, feet):
    """For a colouring of a closed braid by its feet, how often each (x, y) is counted, with signs."""
    over, back = quandle.over, quandle.back
    colours, met = list(feet), Counter()
    for letter in braid.letters:
        place = abs(letter) - 1
        left, right = colours[place], colours[place + 1]
        if letter > 0:
            met[right, left] += 1
            colours[place], colours[place + 1] = over[right][left], left
        else:
            before = back[left][right]
            met[before, right] -= 1
            colours[place], colours[place + 1] = right, before
    return met


def weights_of_braid(braid, quandle, cocycles, modulus):
    """How many colourings have each list of weights, one for each cocycle. The quandle is connected: each colour of the first foot
    sees the same weights, since translations change a cocycle by a coboundary."""
    order = len(quandle.over)
    counted = Counter()
    for feet in fixed_points(braid, quandle, first=0):
        met = pairs_at_feet(braid, quandle, feet)
        counted[tuple(sum(times * cocycle[x][y] for (x, y), times in met.items()) % modulus for cocycle in cocycles)] += order
    return counted


# The jobs

def quandles_listed(paths):
    found = []
    for path in paths:
        found += [quandle for quandle in quandles.read_list(path) if quandle not in found]
    return found


def say_apart(texts):
    """Prints texts with an empty line between any two."""
    for place, text in enumerate(texts):
        print("\n" * (place > 0) + text, end="")


def say_classes(paths, moduli):
    say_apart(quandle_text(quandle) + cocycle_text(cocycle, modulus) for quandle in quandles_listed(paths)
              for modulus, squares in cocycles_of(quandle, moduli) for cocycle in squares)


def searched_pairs(knots):
    """Pairs of names and braids: each knot and its mirror image, and each two knots, the second one also mirrored."""
    for place, (name, braid) in enumerate(knots):
        yield (name, braid), (f"mirror image of {name}", mirror_braid(braid))
        for other, word in knots[place + 1:]:
            yield (name, braid), (other, word)
            yield (name, braid), (f"mirror image of {other}", mirror_braid(word))


class KnownCounts:
    """What is known of the table: numbers of colourings, and weights, each worked out once."""

    def __init__(self, listed, moduli):
        self.listed = [quandle for quandle in listed if is_connected(quandle.over) and len(quandle.over) > 1]
        self.cocycles = [(quandle, modulus, squares) for quandle in self.listed for modulus, squares in cocycles_of(quandle, moduli)]
        self.colourings = {}
        self.weights = {}

    def numbers(self, braid):
        if braid not in self.colourings:
            self.colourings[braid] = [quandles.count_of(quandle, braid) for quandle in self.listed]
        return self.colourings[braid]

    def are_told_by_colourings(self, first, second):
        return any(a != b for a, b in zip(self.numbers(first), self.numbers(second)) if None not in (a, b))

    def weighed(self, place, braid):
        quandle, modulus, squares = self.cocycles[place]
        if (place, braid) not in self.weights:
            fit = quandles.count_of(quandle, braid) is not None
            self.weights[place, braid] = weights_of_braid(braid, quandle, squares, modulus) if fit else None
        return self.weights[place, braid]

    def differences(self, first, second):
        """(quandle, modulus, cocycle, weights, weights) for each quandle and modulus by which the weights differ."""
        for place, (quandle, modulus, squares) in enumerate(self.cocycles):
            one, two = self.weighed(place, first), self.weighed(place, second)
            if None in (one, two) or one == two:
                continue
            factors = first_difference(one, two, squares, modulus)
            order = len(quandle.over)
            cocycle = [[sum(factor * part[x][y] for factor, part in zip(factors, squares)) % modulus for y in range(order)] for x in range(order)]
            yield quandle, modulus, cocycle, weights_line(one, factors, modulus), weights_line(two, factors, modulus)


def say_search(knots, paths, moduli, folder):
    counts = KnownCounts(quandles_listed(paths), moduli)
    print(f"{len(counts.listed)} connected quandles, {len(counts.cocycles)} pairs of a quandle and a modulus with a cocycle that is no coboundary")
    equal = told = 0
    for (name, first), (other, second) in searched_pairs(knots):
        if counts.are_told_by_colourings(first, second):
            continue
        equal += 1
        found = next(counts.differences(first, second), None)
        if found is None:
            print(f"{name} and {other}: equal numbers of colourings, and equal weights")
            continue
        told += 1
        quandle, modulus, cocycle, one, two = found
        print(f"{name} and {other}: order {len(quandle.over)} mod {modulus}, weights {' '.join(map(str, one))} and {' '.join(map(str, two))}")
        if folder:
            path = os.path.join(folder, f"{name}-{other.replace(' image of ', '-')}.txt")
            calls.put(path, f"# {name} and {other}, found by quandles/make/cocycle_tables.py search; an input of weights, which says for the two:\n"
                      + "".join(f"# weights {' '.join(map(str, line))}\n" for line in (one, two))
                      + diagram_text(first) + diagram_text(second) + quandle_text(quandle) + cocycle_text(cocycle, modulus))
    print(f"{equal} pairs have equal numbers of colourings by all quandles that fit both; weights distinguish {told} of them")


def say_weights(paths, moduli):
    pair, paths = pair_and_lists(paths)
    if not paths:
        raise calls.Fault("weights takes a LIST of quandles")
    grids = [grid_of(diagram) for diagram in pair]
    say_apart(filter(None, (weights_text(grids, candidate, moduli) for candidate in candidates_of(paths))))


def weights_text(grids, candidate, moduli):
    """For each cocycle of the quandle its table, and the weights of both diagrams."""
    texts = []
    quandle = candidate.quandle
    found = [weighing.all_met(grid, quandle, is_connected(quandle.over)) for grid in grids]
    for modulus, squares in candidate.given or cocycles_of(quandle, moduli):
        for cocycle in squares:
            rows = [weights_line(weighing.weight_lists(met, [cocycle], modulus), [1], modulus) for met in found]
            texts.append(quandle_text(quandle) + cocycle_text(cocycle, modulus)
                         + "".join(f"weights {' '.join(map(str, row))}\n" for row in rows)
                         + ("alike\n" if rows[0] == rows[1] else "different\n"))
    return "\n".join(texts)


def add_jobs(jobs):
    """The words of each job."""
    common = argparse.ArgumentParser(add_help=False)
    add_moduli(common)
    for name, said in (("classes", "print cocycles"), ("search", "search a table of knots"), ("weights", "the weights of two diagrams")):
        job = jobs.add_parser(name, help=said, parents=[common])
        if name == "search":
            job.add_argument("knots", metavar="KNOTS")
            job.add_argument("--write", metavar="FOLDER", help="write an input of `weights` for each pair found into this folder")
            quandles.add_columns(job)
        job.add_argument("lists", nargs="+", metavar="FILE" if name == "weights" else "LIST",
                         help="the problem, else standard input; and lists of quandles" if name == "weights" else "lists of quandles")


def main():
    parser = argparse.ArgumentParser(description=__doc__, formatter_class=argparse.RawDescriptionHelpFormatter)
    add_jobs(parser.add_subparsers(dest="job", required=True, metavar="JOB"))
    words = parser.parse_args()
    if words.job == "classes":
        say_classes(words.lists, words.moduli)
    elif words.job == "weights":
        say_weights(words.lists, words.moduli)
    else:
        say_search(quandles.read_braids(words.knots, words.name, words.braid), words.lists, words.moduli, words.write)


if __name__ == "__main__":
    calls.run("cocycle_tables.py", main)
