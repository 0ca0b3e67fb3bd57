#!/usr/bin/env python3
"""Times the search of `knot decide`, by one worker and by more, and counts instructions an entry and memory.

    python3 bench/decide.py                  seconds, and entries a second; and how many times as fast 2, 3 and 4 workers are as one
    python3 bench/decide.py --instructions   also instructions an entry, counted by callgrind (of runs of up to half a second,
                                             since it takes some fifty times as long), and the bytes taken, by massif
"""
import os
import tempfile

from measure import NO_QUANDLE, PROGRAM, best, built, instructions, taken, wants_instructions, write_input

TREFOILS = "x 0 1 2 3 4\no 2 3 4 0 1\nx 4 3 2 1 0\no 2 1 0 4 3\n"
REVERSED_TREFOIL = "x 4 3 2 1 0\no 2 1 0 4 3\nx 4 3 2 1 0\no 1 0 4 3 2\n"
SIX_CROSSINGS = "braid 3 -1 -1 -1 2 -1 2\nx 0 1\no 1 0\n"
FIGURE_EIGHT_AND_MIRROR = "braid 3 1 -2 1 -2\nbraid 3 -1 2 -1 2\n"
SHIFTED = "x 0 1\no 1 0\nx 1 0\no 0 1\n"


def rows():
    """A name, the two diagrams, the spare, the budget, and how often it is run."""
    yield "trefoil and its reversal", REVERSED_TREFOIL, 1, 20_000, 5
    for spare in (1, 2):
        yield "two trefoils", TREFOILS, spare, 20_000, 5
    for budget in (2_500, 5_000, 10_000, 20_000):
        yield "two trefoils", TREFOILS, 3, budget, 5
    for budget in (100_000, 500_000):
        yield "two trefoils", TREFOILS, 3, budget, 2
    yield "six crossings and the unknot", SIX_CROSSINGS, 1, 20_000, 5


def search_words(spare, budget):
    return ["--spare", str(spare), "--budget", str(budget)]


def admitted(verdict):
    """How many diagrams a search has admitted, by the first line of its verdict; `equal` doesn't say."""
    first = verdict.split()
    return int(first[-1]) if first[0] == "unknown" else None


def time_all(path, with_instructions):
    print(f"{'diagrams':30} {'spare':>5} {'budget':>7} {'entries':>7} {'seconds':>8} {'entries/s':>9}"
          + (f" {'instructions':>13} {'an entry':>9}" if with_instructions else "") + "  verdict")
    for name, diagrams, spare, budget, turns in rows():
        write_input(path, diagrams + NO_QUANDLE)
        words = search_words(spare, budget)
        seconds, _, written = best([PROGRAM, "decide", *words], path, turns)
        verdict = written.splitlines()[1]
        entries = admitted(verdict)
        line = f"{name:30} {spare:5} {budget:7} {entries or '':7} {seconds:8.4f} " + (f"{entries / seconds:9.0f}" if entries else " " * 9)
        if with_instructions:
            count = instructions("decide", path, *words) if seconds < 0.5 else None
            line += f" {count or '':13} " + (f"{count / entries:9.0f}" if count and entries else " " * 9)
        print(f"{line}  {verdict}", flush=True)


def workers_all(path):
    """The seconds of more workers as ratios to those of one, in turn in one run, since other work on the machine slows all."""
    print(f"\n{'diagrams':30} {'spare':>5} {'budget':>7} {'workers':>7} {'seconds':>8} {'times one':>9}  verdict")
    for name, diagrams, spare in (("two trefoils", TREFOILS, 3), ("figure eight and its mirror", FIGURE_EIGHT_AND_MIRROR, 1)):
        write_input(path, diagrams + NO_QUANDLE)
        one = None
        for workers in (1, 2, 3, 4):
            words = search_words(spare, 500_000) + ["--workers", str(workers)]
            seconds, _, written = best([PROGRAM, "decide", *words], path, 3)
            one = one or seconds
            print(f"{name:30} {spare:5} {500_000:7} {workers:7} {seconds:8.4f} {one / seconds:9.2f}  {written.splitlines()[1]}", flush=True)


def memory_all(path):
    """All memory of a search is taken for the whole budget when it begins, so one that ends at once takes as much as any."""
    write_input(path, SHIFTED + NO_QUANDLE)
    least = taken("decide", path, *search_words(0, 2))
    print(f"\n{'budget':>7} {'bytes taken':>12} {'an entry':>9}")
    for budget in (20_000, 500_000):
        most = taken("decide", path, *search_words(0, budget))
        print(f"{budget:7} {most:12} {(most - least) / (budget - 2):9.1f}", flush=True)


def main():
    with_instructions = wants_instructions(__doc__)
    built()
    with tempfile.TemporaryDirectory() as folder:
        path = os.path.join(folder, "input")
        time_all(path, with_instructions)
        workers_all(path)
        if with_instructions:
            memory_all(path)


if __name__ == "__main__":
    main()
