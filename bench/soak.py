#!/usr/bin/env python3
"""Soaks `knot decide` with 2 to 16 workers: some thousand searches, each answer held against the table of answers.

    python3 bench/soak.py                             3,000 searches
    python3 bench/soak.py --searches 20000 --seed 7   so many, of other pairs
    python3 bench/soak.py --wide 60                   60 of them within a cap of up to seven columns

Pairs of grids of two to five columns, the second a random one or the first after random shifts, within a cap of at most six
columns. All diagrams of so few columns fit the default budget, so a search of one worker shows for each pair whether moves
join it within the cap, and if not, how many diagrams they reach; within seven columns the largest budget is enough for that.
Then with any number of workers:

    joined                                    equal; where they may reach more than the budget, or unknown budget
    not joined, at most as many as the budget unknown exhausted, with the cap and their number
    not joined, more                          unknown budget

Each list of moves must be accepted by `check`. It ends with status 1 at the first answer that is not lawful.
"""
import argparse
import random
import subprocess
import sys

from grids import legal_after
from knot_workbench.diagrams import Grid, grid_text
from measure import HEAD, NO_QUANDLE, PROGRAM, built

# All diagrams of two to six columns, one for each class of translates.
ALL = 5_616
# The default budget, which is never spent within six columns, and the largest, which is never spent within seven.
AMPLE, VAST = 20_000, 500_000
# With how many workers each pair is searched, the cap of wide searches, and the greatest spare.
WORKERS, WIDE_CAP, MOST_SPARE = range(2, 17), 7, 3


def grid(luck, size):
    """A random grid."""
    rows = range(size)
    while True:
        xs, os = luck.sample(rows, size), luck.sample(rows, size)
        if all(x != o for x, o in zip(xs, os)):
            return Grid(tuple(xs), tuple(os))


def random_translate(luck, grid):
    """A random translate."""
    for which in ("columns", "rows"):
        grid = legal_after(grid, ("shift", which, luck.randrange(len(grid.xs)))) or grid
    return grid


def pair(luck):
    """Two diagrams, and the spare that keeps their cap within six columns."""
    first = grid(luck, luck.randint(2, 5))
    second = random_translate(luck, first) if luck.random() < 0.2 else grid(luck, luck.randint(2, 5))
    return grid_text(first) + grid_text(second) + NO_QUANDLE, luck.randint(0, 1), max(len(first.xs), len(second.xs))


def answer(job, words, given):
    """What a job writes, and its status; a run that does not end within a minute counts as an answer that is not lawful."""
    done = subprocess.run([PROGRAM, job, *words], input=given, capture_output=True, text=True, timeout=60)
    return done.stdout, done.returncode


def decide_answer(given, spare, budget, workers):
    return answer("decide", ["--spare", str(spare), "--budget", str(budget), "--workers", str(workers)], given)


def is_lawful(whole, cap, budget, written, status, given, enough):
    """Whether an answer is lawful, by that of one worker with an ample budget; `enough` diagrams are never spent before the sides meet."""
    if written.startswith(HEAD + "equal "):
        return whole.startswith(HEAD + "equal ") and status == 0 and answer("check", [], given + written) == ("accepted\n", 0)
    if whole.startswith(HEAD + "equal "):
        return budget < enough and (written, status) == (HEAD + f"unknown budget {budget}\n", 1)
    reached = int(whole.split()[-1])
    wanted = f"unknown exhausted {cap} {reached}\n" if reached <= budget else f"unknown budget {budget}\n"
    return (written, status) == (HEAD + wanted, 1)


def main():
    parser = argparse.ArgumentParser(description=__doc__, formatter_class=argparse.RawDescriptionHelpFormatter)
    parser.add_argument("--searches", type=int, default=3_000)
    parser.add_argument("--wide", type=int, default=0, metavar="N", help="how many of them are within a cap of up to seven columns")
    parser.add_argument("--seed", type=int, default=1)
    wanted = parser.parse_args()
    built()
    luck = random.Random(wanted.seed)
    kinds = {"equal": 0, "unknown budget": 0, "unknown exhausted": 0}
    while sum(kinds.values()) < wanted.searches:
        given, spare, larger = pair(luck)
        is_wide = sum(kinds.values()) < wanted.wide
        spare, ample, budgets = (min(WIDE_CAP - larger, MOST_SPARE), VAST, [5_000, 50_000, VAST]) if is_wide else (spare, AMPLE, [2, 3, 10, 30, 100, 300, 1_000, AMPLE])
        whole, _ = decide_answer(given, spare, ample, 1)
        for workers in WORKERS:
            budget = luck.choice(budgets)
            written, status = decide_answer(given, spare, budget, workers)
            if not is_lawful(whole, larger + spare, budget, written, status, given, ample if is_wide else ALL):
                sys.exit(f"not lawful: --spare {spare} --budget {budget} --workers {workers}, status {status}\n{given}{written}one worker: {whole}")
            kinds[next(kind for kind in kinds if written.startswith(HEAD + kind))] += 1
    print(f"{sum(kinds.values())} searches, each answer lawful: " + ", ".join(f"{count} {kind}" for kind, count in kinds.items()))


if __name__ == "__main__":
    main()
