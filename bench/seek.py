#!/usr/bin/env python3
"""Joins a table of pairs by `seek`, each of two diagrams of one link, has `knot check` rule on what is written, and times it, with all rounds
and by the walks alone.

    python3 bench/seek.py                    the table, a line a family
    python3 bench/seek.py --each             also a line for each pair
    python3 bench/seek.py --family walks     one family: words, walks, sums, links or unknots
    python3 bench/seek.py --first 3          the first three pairs of each family
    python3 bench/seek.py --no-weights       without the tree's list of quandles with cocycles, which `./seek` takes
    python3 bench/seek.py --no-walks         the rounds alone are timed: half the time or less
    python3 bench/seek.py --seed 5           the seed that `seek` is given; the pairs stay the same
    python3 bench/seek.py --workers 2        the table, and the time of each pair by so many workers beside that of one
    python3 bench/seek.py --instructions     the instructions of a step, by callgrind, and no table

The pairs are made here, from a seed of their own: two words of one knot by braid relations and Markov moves; a diagram, and where a
walk of 3,000 moves from it ends in 12 to 24 columns; sums of two knots in either order; links; and unknots in disguise. Each pair is
one process, and its seconds are those of the processor; what workers gain is shown by the clock. The instructions of a step are those
of a walk of 220,000 steps less those of one of 20,000, between a diagram and its mirror image, which no moves join and no quandle
distinguishes, over the 200,000 steps.

The walks alone are those of the same seed. `seek` has no word for them, so they are timed like this. With 64 times the quandle of one
colour in place of the first quandles, and no cocycles, all before the short walk takes next to nothing. Where the short walk joins a pair, that
run is the walks alone. Otherwise they are a run with all steps less one that ends before the long walk.
"""
import argparse
import csv
import itertools
import os
import random
import re
import resource
import statistics
import subprocess
import sys
import tempfile
import time
from typing import NamedTuple

# grids knows where the module is.
from grids import legal_after, picked
from knot_workbench.diagrams import MAX_SIZE, Braid, diagram_text, grid_of
from knot_workbench.quandles import MAX_QUANDLES
from knot_workbench.tables.knots import UNKNOT
from measure import CRATES, HEAD, PROGRAM, built, counted

TOP = os.path.join(CRATES, "..")

SEEK = os.path.join(CRATES, "seek", "out", "seek")
LIST = os.path.join(TOP, "quandles", "weights", "list.txt")
BOUNDS = os.path.join(CRATES, "seek_core", "src", "bounds.rt")
MOVES = 3_000
# Of twenty moves four are to be shifts, ten exchanges, and up to three stabilisations.
WALK_SHARES = (0.2, 0.7, 0.85)
# By how many relations and Markov moves a word is disguised.
RELATIONS = 40
SIZES = (12, 14, 16, 18, 20, 22, 24)
LINKS = {
    "hopf": Braid(2, (1, 1)),
    "torus 2 4": Braid(2, (1, 1, 1, 1)),
    "torus 2 6": Braid(2, (1,) * 6),
    "torus 3 3": Braid(3, (1, 2) * 3),
    "whitehead": Braid(3, (1, -2, 1, -2, -2)),
    "borromean": Braid(3, (1, -2) * 3),
    "chain of three": Braid(3, (1, 1, 2, 2)),
    "chain of four": Braid(4, (1, 1, 2, 2, 3, 3)),
    "trefoil and a ring": Braid(3, (1, 1, 1)),
}
MIRRORED_KNOTS = {
    "trefoil": Braid(2, (1, 1, 1)),
    "torus 3 4": Braid(3, (1, 2) * 4),
    "three trefoils": Braid(4, (1, 1, 1, 2, 2, 2, 3, 3, 3)),
}
FEW, MANY = 20_000, 220_000


# Braids

def columns(braid):
    return len(braid.letters) + 2 * braid.strands


def relations(letters):
    """The words that a word leads to by one relation that keeps its length: far letters trade, and triples turn."""
    for at in range(len(letters) - 1):
        a, b = letters[at:at + 2]
        if abs(abs(a) - abs(b)) > 1:
            yield letters[:at] + (b, a) + letters[at + 2:]
        if at + 2 < len(letters):
            a, b, c = letters[at:at + 3]
            if a == c and abs(abs(a) - abs(b)) == 1 and (a > 0) == (b > 0):
                yield letters[:at] + (b, a, b) + letters[at + 3:]


def changed(braid, dice):
    """The braid after one relation or Markov move that is picked at random and keeps its closure within the greatest size."""
    strands, letters = braid
    kind = dice.randrange(6)
    if kind == 0 and letters:
        turn = dice.randrange(len(letters))
        return Braid(strands, letters[turn:] + letters[:turn])
    if kind == 1 and strands > 1:
        at, letter = dice.randrange(len(letters) + 1), dice.choice((1, -1)) * dice.randrange(1, strands)
        return Braid(strands, letters[:at] + (letter, -letter) + letters[at:])
    if kind == 2:
        pairs = [at for at in range(len(letters) - 1) if letters[at] == -letters[at + 1]]
        if pairs:
            at = dice.choice(pairs)
            return Braid(strands, letters[:at] + letters[at + 2:])
    if kind == 3 and strands < 8:
        return Braid(strands + 1, letters + (dice.choice((1, -1)) * strands,))
    if kind == 4 and strands > 1 and letters and abs(letters[-1]) == strands - 1:
        if all(abs(letter) < strands - 1 for letter in letters[:-1]):
            return Braid(strands - 1, letters[:-1])
    near = list(relations(letters))
    return Braid(strands, dice.choice(near)) if near else braid


def varied(braid, dice, turns=200):
    """A word of the same link, as far as turns lead, and not the same closure."""
    here = braid
    while here == braid or columns(here) > MAX_SIZE:
        here = braid
        for _ in range(turns):
            further = changed(here, dice)
            if columns(further) <= MAX_SIZE:
                here = further
    return here


def knots():
    """The knots of the table whose braids fit, by name."""
    with open(os.path.join(TOP, "quandles", "knots-to-8.csv"), encoding="utf-8") as table:
        for row in csv.DictReader(table):
            letters = tuple(map(int, re.findall(r"-?\d+", row["braid"])))
            braid = Braid(max(map(abs, letters)) + 1, letters)
            if columns(braid) <= MAX_SIZE:
                yield row["name"], braid


def sum_word(one, two):
    """A word of the sum of two closed braids."""
    strands = one.strands + two.strands - 1
    shift = one.strands - 1
    moved = tuple(letter + shift if letter > 0 else letter - shift for letter in two.letters)
    return Braid(strands, one.letters + moved)


# Walks

def walked(start, size, dice):
    """Where a walk ends that has so many columns at its end and never more."""
    here, turns = start, 0
    while turns < MOVES or len(here.xs) < size:
        move = picked(dice, len(here.xs), size, WALK_SHARES)
        if turns >= MOVES and move[0] == "destabilise":
            continue
        further = legal_after(here, move)
        if further is not None:
            here, turns = further, turns + 1
    return here


# Pairs

def word_pairs(dice):
    for name, braid in knots():
        for turn in (1, 2):
            yield f"{name}, word {turn}", braid, varied(braid, dice)


def walk_pairs(dice):
    table = dict(knots())
    for name in ("3_1", "4_1", "5_1", "5_2", "6_1", "6_2", "7_1"):
        start = grid_of(table[name])
        for size in SIZES:
            yield f"{name} to {size}", start, walked(start, max(size, len(start.xs)), dice)


def sum_pairs(dice):
    table = list(knots())[:7]
    for at, (one, first) in enumerate(table):
        for two, second in table[at:]:
            there, back = sum_word(first, second), sum_word(second, first)
            if columns(there) <= MAX_SIZE and there != back:
                yield f"{one} and {two}", there, back
            elif columns(there) <= MAX_SIZE:
                yield f"{one} and {two}", there, varied(there, dice)


def link_pairs(dice):
    for name, braid in LINKS.items():
        for turn in (1, 2, 3):
            yield f"{name}, word {turn}", braid, varied(braid, dice)
        yield f"{name} to {MAX_SIZE}", grid_of(braid), walked(grid_of(braid), MAX_SIZE, dice)


def unknot_pairs(dice):
    for size in SIZES:
        for turn in (1, 2, 3, 4, 5):
            yield f"{size} columns, {turn}", walked(UNKNOT, size, dice), UNKNOT


FAMILIES = {"words": word_pairs, "walks": walk_pairs, "sums": sum_pairs, "links": link_pairs, "unknots": unknot_pairs}


# Running

class Sought(NamedTuple):
    """The end of a run: its status, the verdict, what was said of it, and its time, by the processors and by the clock."""
    status: int
    verdict: str
    said: str
    processor: float
    clock: float


def children_seconds():
    """What all processes took that were started here and have ended."""
    used = resource.getrusage(resource.RUSAGE_CHILDREN)
    return used.ru_utime + used.ru_stime


def sought_by(problem, seed, *words):
    with tempfile.NamedTemporaryFile("w", suffix=".txt") as file:
        file.write(problem)
        file.flush()
        before, start = children_seconds(), time.perf_counter()
        done = subprocess.run([SEEK, "--seed", str(seed), *words, file.name], capture_output=True)
        clock, processor = time.perf_counter() - start, children_seconds() - before
        return Sought(done.returncode, done.stdout.decode(), done.stderr.decode(), processor, clock)


def short_steps():
    """How many steps the short walk has."""
    with open(BOUNDS, encoding="utf-8") as source:
        return int(re.search(r"pub const SHORT_STEPS: u64 = ([\d_]+);", source.read())[1])


def walks_alone(problem, seed):
    """The processor seconds of the walks alone, or None where they join nothing."""
    bare = problem + "quandle trivial 1\n" * MAX_QUANDLES
    short = sought_by(bare, seed, "--no-weights", "--steps", str(short_steps()))
    if short.status == 0:
        return short.processor
    both = sought_by(bare, seed, "--no-weights")
    return both.processor - short.processor if both.status == 0 else None


def is_accepted(problem, verdict):
    done = subprocess.run([PROGRAM, "check"], input=(problem + verdict).encode(), capture_output=True)
    return done.stdout == b"accepted\n"


class Family(NamedTuple):
    """The processor seconds and the lengths of the lists of a family's pairs, how many pairs had no list, of each pair that had one the
    seconds of all rounds and of the walks alone, and of each pair the seconds by the clock of one worker and of so many."""
    seconds: list
    lengths: list
    missed: int
    walks: list
    clocks: list


def run_family(name, asked):
    seconds, lengths, missed, walks, clocks = [], [], 0, [], []
    dice = random.Random(f"pairs of {name}")
    weights = [] if asked.no_weights else ["--weights", LIST]
    for pair, first, second in itertools.islice(FAMILIES[name](dice), asked.first):
        problem = diagram_text(first) + diagram_text(second)
        one = sought_by(problem, asked.seed, *weights)
        seconds.append(one.processor)
        is_list = one.verdict.startswith(HEAD + "equal ")
        if is_list and not is_accepted(problem, one.verdict):
            sys.exit(f"not accepted: {name}, {pair}\n{problem}{one.verdict}")
        if is_list:
            lengths.append(int(one.verdict.removeprefix(HEAD).split(maxsplit=2)[1]))
        else:
            missed += 1
        alone = walks_alone(problem, asked.seed) if is_list and not asked.no_walks else None
        if alone is not None:
            walks.append((one.processor, alone))
        if asked.workers > 1:
            clocks.append((one.clock, sought_by(problem, asked.seed, *weights, "--workers", str(asked.workers)).clock))
        if asked.each:
            ending = lengths[-1] if is_list else f"status {one.status}: {one.said.strip()}"
            by_walks = "" if alone is None else f"walks alone {alone:8.3f} s  "
            print(f"  {pair:28} {one.processor:8.3f} s  {by_walks}{ending}", flush=True)
    return Family(seconds, lengths, missed, walks, clocks)


def show_family(name, family):
    pairs, lengths = len(family.seconds), family.lengths
    lists = f"{statistics.median(lengths):8.0f} {max(lengths):8}" if lengths else " " * 17
    seconds = f"{sum(family.seconds):9.2f} {statistics.median(family.seconds):8.3f} {max(family.seconds):8.3f}"
    rounds, alone = (sum(column) for column in zip(*family.walks)) if family.walks else (0, 0)
    walks = f"{alone:9.2f} {rounds / alone:6.2f}" if alone else " " * 16
    print(f"{name:8} {pairs:5} {pairs - family.missed:6} {seconds} {walks} {lists}", flush=True)


def show_workers(clocks, workers):
    """Sets the time of so many workers by the clock beside that of one, over the half of the pairs that took one worker the longest."""
    harder = sorted(clocks, reverse=True)[: (len(clocks) + 1) // 2]
    one, many = (sum(column) for column in zip(*harder))
    print(f"the harder half, {len(harder)} pairs: {one:.2f} s by one worker, {many:.2f} s by {workers}, a ratio of {many / one:.2f}")


def show_instructions(seed):
    """The instructions of a step."""
    for name, braid in MIRRORED_KNOTS.items():
        mirror = Braid(braid.strands, tuple(-letter for letter in braid.letters))
        with tempfile.NamedTemporaryFile("w", suffix=".txt") as file:
            file.write(diagram_text(braid) + diagram_text(mirror))
            file.flush()
            few, many = (counted([SEEK, "--quiet", "--seed", str(seed), "--steps", str(steps), file.name]) for steps in (FEW, MANY))
        print(f"{name:16} {(many - few) / (MANY - FEW):8.0f} instructions a step", flush=True)


def main():
    words = argparse.ArgumentParser(description=__doc__, formatter_class=argparse.RawDescriptionHelpFormatter)
    words.add_argument("--each", action="store_true")
    words.add_argument("--family", choices=sorted(FAMILIES))
    words.add_argument("--first", type=int)
    words.add_argument("--no-weights", action="store_true")
    words.add_argument("--no-walks", action="store_true")
    words.add_argument("--seed", type=int, default=1)
    words.add_argument("--workers", type=int, default=1)
    words.add_argument("--instructions", action="store_true")
    asked = words.parse_args()
    built()
    built(SEEK, "./seek --version")
    if asked.instructions:
        return show_instructions(asked.seed)
    print(f"{'pairs':8} {'all':>5} {'joined':>6} {'seconds':>9} {'median':>8} {'longest':>8} {'walks':>9} {'ratio':>6} {'list':>8} {'longest':>8}")
    total = Family([], [], 0, [], [])
    for name in [asked.family] if asked.family else FAMILIES:
        found = run_family(name, asked)
        show_family(name, found)
        total = Family(*(before + more for before, more in zip(total, found)))
    show_family("all", total)
    if asked.workers > 1:
        show_workers(total.clocks, asked.workers)


if __name__ == "__main__":
    main()
