#!/usr/bin/env python3
"""Sorts a table of 500 diagrams by `tools/census.py`, and compares the classes with what the diagrams are.

    python3 bench/census.py                   the table of 500, in a folder that is removed
    python3 bench/census.py --diagrams 100    the first so many of them
    python3 bench/census.py --folder FOLDER   keeps the table and the census there; called again, it goes on
    python3 bench/census.py --seed 2          other disguises
    python3 bench/census.py -- --processes 2    words after -- go to census.py

The table has the 35 prime knots to 8 crossings by braid words and their mirror images, in seven disguises each, and ten of the unknot. A
disguise is a braid word some relations and Markov moves away, or the end of a walk of 3,000 moves in 12 to 20 columns. The files are shuffled
and their names say nothing. Seven of the knots are known to be their own mirror images, 8_17 only after it is run through backwards.
"""
import argparse
import csv
import itertools
import os
import random
import resource
import subprocess
import sys
import tempfile
import time

from measure import PROGRAM, built
# seek knows where the module is.
from seek import RELATIONS, SEEK, knots, varied, walked
from knot_workbench.diagrams import diagram_text, grid_of, grid_text, mirror_braid
from knot_workbench.tables.knots import UNKNOT

TOP = os.path.dirname(os.path.dirname(os.path.abspath(__file__)))
COUNT, DISGUISES, UNKNOTS = 500, 7, 10
DISGUISE_SIZES = range(12, 21)

# The knots that are the same as their mirror images, without being run through backwards.
AMPHICHIRAL = ("4_1", "6_3", "8_3", "8_9", "8_12", "8_18")


def disguised(diagram, place, dice):
    """The text of a disguise: braid words and ends of walks by turns."""
    if place % 2 or diagram is UNKNOT:
        start = grid_of(diagram)
        return grid_text(walked(start, max(dice.choice(DISGUISE_SIZES), len(start.xs)), dice))
    return diagram_text(varied(diagram, dice, RELATIONS))


def shuffled_disguises(seed):
    """Pairs of what a diagram is and its text, in a shuffled order."""
    dice = random.Random(f"census {seed}")
    kinds = [("0_1", UNKNOT)] + [("0_1", UNKNOT)] * (UNKNOTS - 1)
    for name, braid in knots():
        mirror = name if name in AMPHICHIRAL else "mirror image of " + name
        kinds += [(name, braid)] * DISGUISES + [(mirror, mirror_braid(braid))] * DISGUISES
    dice.shuffle(kinds)
    return ((kind, disguised(diagram, place, dice)) for place, (kind, diagram) in enumerate(kinds))


def write_disguises(folder, seed, count):
    """Writes the table, and what is hidden beside it; what is there already stays."""
    hidden = os.path.join(folder, "hidden.csv")
    diagrams = os.path.join(folder, "diagrams")
    os.makedirs(diagrams, exist_ok=True)
    if not os.path.exists(hidden):
        rows = []
        for place, (kind, text) in enumerate(itertools.islice(shuffled_disguises(seed), count), 1):
            name = f"d{place:03}"
            with open(os.path.join(diagrams, name + ".txt"), "w", encoding="utf-8") as out:
                out.write(text)
            rows.append((name, kind))
        with open(hidden, "w", encoding="utf-8", newline="") as out:
            csv.writer(out).writerows([("name", "is"), *rows])
    with open(hidden, encoding="utf-8", newline="") as source:
        return {row["name"]: row["is"] for row in csv.DictReader(source)}


def census_rows(folder, name):
    """The rows of a table of the census."""
    with open(os.path.join(folder, "census", name), encoding="utf-8", newline="") as source:
        return list(csv.DictReader(source))


def judged(folder, hidden):
    """Says what is wrong, and what is left undecided."""
    classes = {}
    for row in census_rows(folder, "classes.csv"):
        classes.setdefault(row["class"], []).append(row["name"])
    wrong = [members for members in classes.values() if len({hidden[name] for name in members}) > 1]
    split = [row for row in census_rows(folder, "apart.csv") if hidden[row["first"]] == hidden[row["second"]]]
    print(f"{len(hidden)} diagrams of {len(set(hidden.values()))} links: {len(classes)} classes, {len(wrong)} of them wrong, "
          f"{len(split)} wrongly distinguished")
    for row in census_rows(folder, "undecided.csv"):
        first, second = (f"{row[key]} ({hidden[row[key]]})" for key in ("first", "second"))
        print(f"undecided: {first} and {second}: {row['tried']}")
    return bool(wrong or split)


def main():
    words = argparse.ArgumentParser(description=__doc__, formatter_class=argparse.RawDescriptionHelpFormatter)
    words.add_argument("--diagrams", type=int, default=COUNT)
    words.add_argument("--folder")
    words.add_argument("--seed", type=int, default=1)
    words.add_argument("words", nargs="*", help="words of census.py")
    asked = words.parse_args()
    built()
    built(SEEK, "./seek --version")
    with tempfile.TemporaryDirectory() as scratch:
        folder = asked.folder or scratch
        hidden = write_disguises(folder, asked.seed, asked.diagrams)
        began = time.perf_counter()
        call = [sys.executable, os.path.join(TOP, "tools", "census.py"), "sort", *asked.words, os.path.join(folder, "diagrams"), os.path.join(folder, "census")]
        status = subprocess.run(call, env={**os.environ, "KNOT": PROGRAM, "SEEK": SEEK}, check=False).returncode
        used = resource.getrusage(resource.RUSAGE_CHILDREN)
        print(f"status {status} after {time.perf_counter() - began:.0f} s; processor seconds: {used.ru_utime + used.ru_stime:.0f}")
        if status not in (0, 1):
            sys.exit(status)
        sys.exit(judged(folder, hidden))


if __name__ == "__main__":
    main()
