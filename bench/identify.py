#!/usr/bin/env python3
"""Whether `tools/identify.py` names disguised knots rightly, finds planted errors in a published table, and how long it takes.

    python3 bench/identify.py                   500 disguised diagrams, 100 published identifications with ten errors, and seconds
    python3 bench/identify.py --disguised 60    so many; 0 leaves the part out
    python3 bench/identify.py --published 30 --errors 3
    python3 bench/identify.py --timed 20        so many diagrams of 12 crossings one by one, by the script and by the module
    python3 bench/identify.py --rows 50         so many rows of such diagrams in one call
    python3 bench/identify.py --most 10         knots of at most so many crossings
    python3 bench/identify.py --folder FOLDER   keeps tables, answers and certificates there; called again, it goes on
    python3 bench/identify.py --seed 2          other knots and other disguises
    python3 bench/identify.py -- --processes 2  words after -- go to identify.py

A disguised diagram is, by turns, the end of a walk of 3,000 moves in up to eight columns more than the table's grid; a braid word of it some
relations and Markov moves away, where one fits; and its planar diagram code, with other numbers in another order. Each is mirrored or run
through backwards by a throw of dice, and has a name that says nothing. Where a published identification is wrong, the diagram is that of
another knot of as many crossings, or that of the mirror image. The programs are those of KNOT and SEEK, or those that are built. Seconds are
those of the clock, and in brackets those of the processor. The exit status is 1 where a name is wrong, more than 2 % are open, a certificate
isn't accepted or isn't of its row and its answer, other rows than the planted ones come back, half of the diagrams of 12 crossings take over a
second, or 100 rows over a minute.
"""
import argparse
import collections
import csv
import io
import os
import random
import statistics
import subprocess
import sys
import tempfile
import time

# seek knows where the modules of tools/ are.
from measure import PROGRAM, processor_seconds
from seek import RELATIONS, SEEK, TOP, varied, walked

sys.path.insert(0, os.path.join(TOP, "tools"))
from lib.calls.whole_files import write_whole
from lib.codes.smaller import reduced
from knot_workbench import Certificate, braid_word, identify
from knot_workbench.code_grids import Grids
from knot_workbench.codes.brackets import nested
from knot_workbench.diagrams import Braid, grid_of, grid_text
from knot_workbench.tables.entries import Conventions, diagram_of
from knot_workbench.tables.knots import MIRRORED, TURNS, KnotTable, default_table, name_of, records, text_in
from knot_workbench.texts import Lines, braid_fault, read_diagram

COLUMNS_MORE = range(2, 9)
OPEN_SHARE = 0.02
IDENTIFY = (sys.executable, os.path.join(TOP, "tools", "identify.py"))
# How long one diagram of most crossings may take in the median, and a hundred rows of such.
MEDIAN, HUNDRED = 1, 60


# Disguises

def arcs_entry(grid):
    """A grid as a table has it."""
    return "{" + ",".join(f"{{{x + 1},{o + 1}}}" for x, o in zip(grid.xs, grid.os)) + "}"


def word_text(grid, dice):
    """A braid word of a grid, some moves away; None where none is found that fits."""
    braid = reduced(braid_word(grid), dice)
    if braid_fault(braid):
        return None
    further = varied(Braid(*braid), dice, RELATIONS)
    return f"{{{further.strands},{{{','.join(map(str, further.letters))}}}}}"


def turned_code(rows, turn, dice):
    """A code after a turn, with other numbers that ascend along the strand, and its crossings in another order."""
    count = 2 * len(rows)
    if turn.is_mirrored:
        rows = [(i, l, k, j) for i, j, k, l in rows]
    if turn.is_reversed:
        rows = [tuple(count + 1 - edge for edge in (k, l, i, j)) for i, j, k, l in rows]
    by = dice.randrange(count)
    rows = [[(edge + by - 1) % count + 1 for edge in row] for row in rows]
    dice.shuffle(rows)
    return str(rows).replace(" ", "")


def disguised_entry(place, knot, rows, turn, dice):
    """The entry of a table for a knot after a turn."""
    grid = turn.of(knot.grid)
    text = word_text(grid, dice) if place % 3 == 1 else None
    if place % 3 == 2:
        text = turned_code(rows, turn, dice)
    return text or arcs_entry(walked(grid, min(grid.size + dice.choice(COLUMNS_MORE), 46), dice))


# Tables

def knots_of(known, most):
    """The knots of at most so many crossings, each with the rows of its code."""
    codes = {row["name"]: nested(row["pd_notation"].removeprefix("PD")) for _, row in records(known.path, text_in(known.path), ("name", "pd_notation"))}
    return [(knot, codes[knot.name]) for knot in known.knots.values() if knot.crossings <= most]


def write_entries(path, rows):
    """Writes a table of names, hidden names and diagrams, where it isn't there."""
    if not os.path.exists(path):
        text = io.StringIO(newline="")
        csv.writer(text, lineterminator="\n").writerows([("name", "is", "diagram"), *rows])
        write_whole(path, text.getvalue().encode())
    with open(path, encoding="utf-8", newline="") as source:
        return list(csv.DictReader(source))


def disguised_rows(known, count, most, seed):
    """Disguised knots, each with what it is."""
    dice, every = random.Random(f"disguised {seed}"), knots_of(known, most)
    for place in range(count):
        knot, rows = dice.choice(every)
        turn = dice.choice(TURNS)
        yield f"d{place + 1:03}", name_of(((knot.name, turn),)), disguised_entry(place, knot, rows, turn, dice)


def published_rows(known, count, errors, most, seed):
    """Published identifications, the first ones wrong, in a shuffled order; the names of the wrong ones end with a mark that nobody reads."""
    dice = random.Random(f"published {seed}")
    every, found = knots_of(known, most), []
    for place in range(count):
        knot, rows = dice.choice(every)
        turn = TURNS[0]
        said = knot.name
        if place < errors:
            if place % 3 == 2 and MIRRORED in knot.different:
                turn = MIRRORED
            else:
                said = dice.choice([other.name for other, _ in every if other.crossings == knot.crossings and other != knot] or ["3_1"])
        found.append((said, disguised_entry(place, knot, rows, turn, dice), place < errors))
    dice.shuffle(found)
    return [(f"p{place:03}", said, entry, is_error) for place, (said, entry, is_error) in enumerate(found, 1)]


def timed_grids(known, count, most, seed):
    """Grids of knots of the most crossings that there are, each second one the end of a walk."""
    dice = random.Random(f"timed {seed}")
    highest = max(knot.crossings for knot, _ in knots_of(known, most))
    every = [knot for knot, _ in knots_of(known, most) if knot.crossings == highest]
    for place in range(count):
        grid = dice.choice(every).grid
        yield walked(grid, min(grid.size + 4, 46), dice) if place % 2 else grid


# Trials

class CallClock:
    """Seconds since it was made: by the clock, and of the processor, with those of the programs that were called and have ended."""

    def __init__(self):
        self.began, self.spent = time.perf_counter(), processor_seconds()

    @property
    def seconds(self):
        return time.perf_counter() - self.began

    def __str__(self):
        return f"{self.seconds:.0f} s ({processor_seconds() - self.spent:.0f})"


def run_identify(known, folder, name, given, words):
    """Runs identify.py on a table of the folder with these rows: the rows of its answers, how many of their certificates hold, and how long the
    run took."""
    out, certificates = (os.path.join(folder, f"{name}{ending}") for ending in ("-answers.csv", "-certificates"))
    call = [*IDENTIFY, os.path.join(folder, f"{name}.csv"), "--diagram", "diagram", "--out", out, "--certificates", certificates, *words]
    clock = CallClock()
    status = subprocess.run(call, check=False).returncode
    took, seconds = str(clock), clock.seconds
    if status not in (0, 1):
        sys.exit(f"identify.py ended with status {status}")
    with open(out, encoding="utf-8", newline="") as source:
        rows = list(csv.DictReader(source))
    accepted = sum(holds(known, Certificate.load(os.path.join(certificates, row["certificate"])), row["answer"], entry["diagram"])
                   for row, entry in zip(rows, given) if row["certificate"])
    return rows, accepted, took, seconds


def holds(known, certificate, answer, entry):
    """Whether a certificate leads from the diagram of an entry to the table's diagram of an answer, and the checker accepts it."""
    first = read_diagram(Lines(diagram_of(entry, None, Conventions("columns", False, False, None, Grids(None))).text))
    return certificate.is_equal and grid_of(certificate.first) == grid_of(first) and certificate.second == known.grid(known.parts_of(answer)) \
        and certificate.check()


def is_right(known, hidden, answer):
    """Whether an answer is what was hidden, as far as it is known which turns of a knot differ."""
    (one, turn), = known.parts_of(hidden)
    parts = known.parts_of(answer)
    if not parts or len(parts) != 1 or parts[0][0] != one:
        return False
    between = turn.then(parts[0][1])
    return between == TURNS[0] or between not in known.knots[one].different


def try_disguised(known, folder, asked):
    """Names disguised diagrams: whether that went as it should."""
    hidden = write_entries(os.path.join(folder, "disguised.csv"), disguised_rows(known, asked.disguised, asked.most, asked.seed))
    rows, accepted, took, _ = run_identify(known, folder, "disguised", hidden, asked.words)
    counts = collections.Counter()
    for row, truth in zip(rows, hidden):
        kind = row["answer"] if row["answer"] in ("open", "refused", "failed") else "right" if is_right(known, truth["is"], row["answer"]) else "wrong"
        counts[kind] += 1
        if kind != "right":
            print(f"{row['name']}, {truth['is']}: {row['answer']} {row['said']}")
    said = ", ".join(f"{count} {kind}" for kind, count in counts.items())
    print(f"{len(rows)} disguised diagrams: {said}; {accepted} certificates accepted; {took}", flush=True)
    return len(rows) == len(hidden) and counts["right"] == accepted == len(rows) - counts["open"] and counts["open"] <= OPEN_SHARE * len(rows)


def try_published(known, folder, asked):
    """Looks for planted errors: whether exactly these were found."""
    made = published_rows(known, asked.published, asked.errors, asked.most, asked.seed)
    given = write_entries(os.path.join(folder, "published.csv"), [row[:3] for row in made])
    rows, accepted, took, _ = run_identify(known, folder, "published", given, ["--expect", "is", *asked.words])
    planted, back = {row[0] for row in made if row[3]}, {row["name"] for row in rows if row["ruling"] != "right"}
    for row in rows:
        if row["ruling"] != "right" or row["name"] in planted:
            print(f"{row['name']}, {'planted' if row['name'] in planted else 'not planted'}: {row['expected']}: {row['ruling']} {row['said']}")
    print(f"{len(rows)} published identifications with {len(planted)} errors: {len(planted & back)} of these came back, and {len(back - planted)} others; "
          f"{accepted} certificates accepted; {took}", flush=True)
    return len(rows) == len(made) and planted == back


def try_rows(known, folder, asked):
    """Times a table of diagrams of the most crossings in one call: whether a hundred of them would take at most a minute."""
    grids = timed_grids(known, asked.rows, asked.most, asked.seed)
    given = write_entries(os.path.join(folder, "rows.csv"), [(f"r{place:03}", "", arcs_entry(grid)) for place, grid in enumerate(grids, 1)])
    rows, accepted, took, seconds = run_identify(known, folder, "rows", given, asked.words)
    named = sum(row["answer"] not in ("open", "refused", "failed") for row in rows)
    print(f"{len(rows)} diagrams of most crossings in one call: {named} named; {accepted} certificates accepted; {took}", flush=True)
    return accepted == named and seconds <= HUNDRED * len(rows) / 100


def try_times(known, folder, asked):
    """Times such diagrams one by one, by a call of the script each, and of the module, which has read the table: whether half of either took at
    most a second."""
    path = os.path.join(folder, "timed.txt")

    def by_script(grid):
        with open(path, "w", encoding="utf-8") as out:
            out.write(grid_text(grid))
        subprocess.run([*IDENTIFY, path, *asked.words], stdout=subprocess.DEVNULL, check=True)

    is_well = True
    for said, call in (("script", by_script), ("module", lambda grid: identify(grid, known))):
        seconds, spent = [], []
        for grid in timed_grids(known, asked.timed, asked.most, asked.seed):
            clock = CallClock()
            call(grid)
            seconds.append(clock.seconds)
            spent.append(processor_seconds() - clock.spent)
        print(f"{len(seconds)} diagrams of most crossings one by one, by the {said}: median {statistics.median(seconds):.2f} s "
              f"({statistics.median(spent):.2f}), longest {max(seconds):.2f} s ({max(spent):.2f})", flush=True)
        is_well = is_well and statistics.median(seconds) <= MEDIAN
    return is_well


def main():
    words = argparse.ArgumentParser(description=__doc__, formatter_class=argparse.RawDescriptionHelpFormatter)
    for name, default in (("disguised", 500), ("published", 100), ("errors", 10), ("rows", 100), ("timed", 40), ("most", 12), ("seed", 1)):
        words.add_argument(f"--{name}", type=int, default=default)
    words.add_argument("--table", default=default_table())
    words.add_argument("--folder")
    words.add_argument("words", nargs="*", help="words of identify.py")
    asked = words.parse_args()
    os.environ.update(KNOT=os.environ.get("KNOT") or PROGRAM, SEEK=os.environ.get("SEEK") or SEEK)
    asked.words = ["--table", asked.table, *asked.words]
    known = KnotTable(asked.table)
    with tempfile.TemporaryDirectory() as scratch:
        folder = asked.folder or scratch
        os.makedirs(folder, exist_ok=True)
        wells = [try_disguised(known, folder, asked)] if asked.disguised else []
        wells += [try_published(known, folder, asked)] if asked.published else []
        wells += [try_rows(known, folder, asked)] if asked.rows else []
        wells += [try_times(known, folder, asked)] if asked.timed else []
    sys.exit(0 if all(wells) else 1)


if __name__ == "__main__":
    main()
