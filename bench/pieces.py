#!/usr/bin/env python3
"""What a line costs in `tools/pieces.py`, on a long table of disguises.

    python3 bench/pieces.py                   cuts a million lines into a hundred pieces, answers one of them by `numbers`, and joins and checks it
    python3 bench/pieces.py --lines 20000 --each 1000 --pieces 2 --processes 2
    python3 bench/pieces.py --folder FOLDER   keeps the table and the run there; called again, it goes on
    python3 bench/pieces.py -- --job seek --no-weights    another job, with its words

A disguise is one of bench/census.py: a braid word some relations and Markov moves away, or the end of a walk in 12 to 20 columns. There are
`--disguises` of them, which come again and again under other names: what a line costs does not depend on those before it.
"""
import argparse
import contextlib
import io
import itertools
import os
import resource
import sys
import tempfile
import time

from census import table

TOP = os.path.dirname(os.path.dirname(os.path.abspath(__file__)))
sys.path.insert(0, os.path.join(TOP, "tools"))

from lib.pieces.call import main as pieces, processors  # noqa: E402

SHORT_LIST = os.path.join(TOP, "quandles", "list-short.txt")
DEFAULT = ["--keep", "numbers,wide", "--job", "numbers", "+" + SHORT_LIST]


def write_table(path, lines, disguises):
    """Writes a table of so many lines."""
    kept = [text.strip().replace("\n", " / ") for _, text in itertools.islice(table(1), disguises)]
    with open(path, "w", encoding="utf-8") as out:
        out.writelines(f"d{number:07}\t{kept[number % len(kept)]}\n" for number in range(1, lines + 1))


def used(who):
    """Processor seconds of this process, or of those that it waited for."""
    found = resource.getrusage(who)
    return found.ru_utime + found.ru_stime


def call(*words, status=0):
    """A call of pieces.py in this process: what it wrote, its seconds, and the processor seconds of itself and of its programs."""
    out = io.TextIOWrapper(io.BytesIO(), "utf-8")
    before = time.perf_counter(), used(resource.RUSAGE_SELF), used(resource.RUSAGE_CHILDREN)
    with contextlib.redirect_stdout(out):
        ended = pieces(list(words))
    after = time.perf_counter(), used(resource.RUSAGE_SELF), used(resource.RUSAGE_CHILDREN)
    out.flush()
    if ended != status:
        sys.exit(f"{words[0]} ended with {ended}")
    return out.buffer.getvalue(), *(end - start for start, end in zip(before, after))


def say_seconds(what, seconds, own, programs):
    print(f"{what}: {seconds:.1f} s; processor seconds: {own:.1f} of the script, {programs:.1f} of programs", flush=True)


def bench(folder, asked):
    """Cuts, runs, joins and checks, and says what each took."""
    source, run, last = os.path.join(folder, "table.txt"), os.path.join(folder, "run"), f"1-{asked.pieces}"
    if not os.path.exists(source):
        write_table(source, asked.lines, asked.disguises)
    _, *cost = call("cut", source, run, "--each", str(asked.each), "--most", "1000000", *(asked.words or DEFAULT))
    say_seconds(f"cut {asked.lines} lines, {os.path.getsize(source) / 1e6:.0f} MB", *cost)
    _, *cost = call("run", run, last, "--processes", str(asked.processes))
    answered = min(asked.pieces * asked.each, asked.lines)
    say_seconds(f"run {answered} lines by {asked.processes} processes", *cost)
    print(f"a line: {1000 * cost[1] / answered:.2f} ms of the script, {1000 * cost[2] / answered:.2f} ms of the program")
    _, *cost = call("left", run, status=1 if answered < asked.lines else 0)
    say_seconds("left", *cost)
    text, *cost = call("join", run, last)
    say_seconds(f"join {text.count(bytes([10]))} lines, {len(text) / 1e6:.1f} MB", *cost)
    text, *cost = call("check", run, "--try", "200", "--processes", str(asked.processes))
    say_seconds(f"check: {text.decode().strip()}", *cost)


def main():
    words = argparse.ArgumentParser(description=__doc__, formatter_class=argparse.RawDescriptionHelpFormatter)
    words.add_argument("--lines", type=int, default=1_000_000)
    words.add_argument("--each", type=int, default=10_000)
    words.add_argument("--pieces", type=int, default=1)
    words.add_argument("--disguises", type=int, default=500)
    words.add_argument("--processes", type=int, default=processors())
    words.add_argument("--folder")
    words.add_argument("words", nargs="*", help="words of `cut` from --job on")
    asked = words.parse_args()
    with tempfile.TemporaryDirectory() as scratch:
        bench(asked.folder or scratch, asked)


if __name__ == "__main__":
    main()
