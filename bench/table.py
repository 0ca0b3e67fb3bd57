#!/usr/bin/env python3
"""How many pairs of the table of knots `seek` distinguishes or joins, by which evidence, each certificate checked by `knot check`.

    python3 bench/table.py                      the pairs of the 35 prime knots to 8 crossings, in a folder that is removed
    python3 bench/table.py --folder FOLDER      keeps problems, certificates and the summary there; called again, it goes on
    python3 bench/table.py --only mirrors       one kind of pairs: mirrors, knots or turned
    python3 bench/table.py --first 10           the pairs of the first ten knots
    python3 bench/table.py --each               also a line for each pair: its verdict, the evidence with its numbers, the ruling and the seconds
    python3 bench/table.py -- --processes 1     words after -- go to tools/batch.py

`mirrors` has each knot and its mirror image, `knots` each two knots, and `turned` each knot and the mirror image of each other one. The
knots are the braid words of quandles/knots-to-8.csv. The pairs are run by tools/batch.py with the job `seek`, so `seek` has its own options
and the tree's list of quandles with cocycles. Six of the knots are known to be the same as their mirror images, and no others of the table
are the same. The exit status is 1 where a verdict says otherwise, or a certificate isn't accepted.
"""
import argparse
import collections
import csv
import itertools
import os
import re
import subprocess
import sys
import tempfile

# census knows what is the same, and seek the table.
from census import AMPHICHIRAL
from knot_workbench.diagrams import diagram_text, mirror_braid
from measure import built
from seek import LIST, SEEK, knots

TOP = os.path.dirname(os.path.dirname(os.path.abspath(__file__)))
PAIR_KINDS = {"mirrors": "a knot and its mirror image", "knots": "two knots", "turned": "a knot and another's mirror image"}
MIRROR_OF = "mirror image of "

# A pair: its kind, and the names and the braids of both.
KnotPair = collections.namedtuple("KnotPair", "kind first second one two")


def pairs(table):
    """The pairs of a table of names and braids, by the names of their files."""
    for name, braid in table:
        yield f"{name}-mirror", KnotPair("mirrors", name, MIRROR_OF + name, braid, mirror_braid(braid))
    for (name, braid), (other, word) in itertools.combinations(table, 2):
        yield f"{name}-{other}", KnotPair("knots", name, other, braid, word)
        yield f"{name}-mirror-{other}", KnotPair("turned", name, MIRROR_OF + other, braid, mirror_braid(word))


def write_problems(folder, table, only):
    """Writes a problem for each pair of the kinds, and answers the pairs by their names."""
    found = {name: pair for name, pair in pairs(table) if only in (None, pair.kind)}
    os.makedirs(folder, exist_ok=True)
    for name, pair in found.items():
        with open(os.path.join(folder, name + ".txt"), "w", encoding="utf-8") as out:
            out.write(f"# first: {pair.first}\n{diagram_text(pair.one)}# second: {pair.second}\n{diagram_text(pair.two)}")
    return found


def names_of_tables(text):
    """The names of the quandles of a list that are there as tables with a cocycle, by their orders and moduli."""
    found = re.findall(r"^# (\w+): [^\n]*\nquandle table (\d+)\n(?:[\d ]+\n)+?(?:weight|shadow) (\d+)\n", text, re.MULTILINE)
    names = collections.defaultdict(list)
    for name, order, modulus in found:
        names[int(order), int(modulus)].append(name)
    return {key: " or ".join(some) for key, some in names.items()}


def evidence_in_words(row, tables):
    """What distinguishes the diagrams of a row, in words: the lists of colourings by a quandle, their numbers, or those of each weight."""
    said, _, numbers = row["evidence"].partition(": ")
    words = said.removeprefix("numbers ")
    weighed = words.removesuffix(" by weight")
    if weighed == words:
        return words if words == said else f"{words}, by numbers"
    modulus = len(numbers.partition(" / ")[0].split())
    order = re.fullmatch(r"table (\d+)", weighed)
    name = tables.get((int(order[1]), modulus)) if order else None
    return f"{name or weighed} with a cocycle mod {modulus}"


def wrong(row, pair):
    """What is wrong with a row, or None."""
    if row["verdict"] not in ("equal", "different", "unknown"):
        return f"{row['verdict']} {row['evidence']}"
    if row["verdict"] != "unknown" and row["check"] != "accepted":
        return f"the certificate is not accepted: {row['check']}"
    same = pair.kind == "mirrors" and pair.first in AMPHICHIRAL
    return f"said to be {row['verdict']}" if row["verdict"] == ("different" if same else "equal") else None


def show_each(rows, found, tables):
    """Prints a line for each pair."""
    for row in rows:
        pair, different = found[row["name"]], row["verdict"] == "different"
        numbers = row["evidence"].partition(": ")[2]
        said = f"{evidence_in_words(row, tables)}{': ' if numbers else ''}{numbers}" if different else ""
        print(" | ".join((f"{pair.first} and {pair.second}", row["verdict"], said, row["check"] or "no certificate", f"{row['seconds']} s")))
    print()


def show_pairs(rows, found, tables):
    """Prints how many pairs of each kind came to what, by which evidence, and which are left: whether anything is wrong."""
    print(f"{'pairs':36} {'all':>5} {'different':>11} {'joined':>7} {'left':>5} {'seconds':>8}")
    for kind, said in PAIR_KINDS.items():
        those = [row for row in rows if found[row["name"]].kind == kind]
        counts = collections.Counter(row["verdict"] for row in those)
        if those:
            seconds = sum(float(row["seconds"]) for row in those if row["seconds"])
            print(f"{said:36} {len(those):5} {counts['different']:11} {counts['equal']:7} {counts['unknown']:5} {seconds:8.1f}")
    by = {kind: collections.Counter() for kind in PAIR_KINDS}
    for row in rows:
        if row["verdict"] == "different":
            by[found[row["name"]].kind][evidence_in_words(row, tables)] += 1
    print(f"\n{'different by':36} " + " ".join(f"{kind:>8}" for kind in PAIR_KINDS))
    for evidence, _ in sum(by.values(), collections.Counter()).most_common():
        print(f"{evidence:36} " + " ".join(f"{by[kind][evidence]:8}" for kind in PAIR_KINDS))
    checked = [row for row in rows if row["check"]]
    print(f"\n{sum(row['check'] == 'accepted' for row in checked)} of {len(checked)} certificates accepted")
    for row in rows:
        pair = found[row["name"]]
        if row["verdict"] == "unknown":
            print(f"left: {pair.first} and {pair.second}")
    faults = [(row, wrong(row, found[row["name"]])) for row in rows]
    for row, fault in faults:
        if fault:
            print(f"wrong: {found[row['name']].first} and {found[row['name']].second}: {fault}")
    return any(fault for _, fault in faults)


def main():
    words = argparse.ArgumentParser(description=__doc__, formatter_class=argparse.RawDescriptionHelpFormatter)
    words.add_argument("--folder")
    words.add_argument("--only", choices=sorted(PAIR_KINDS))
    words.add_argument("--first", type=int)
    words.add_argument("--each", action="store_true")
    words.add_argument("words", nargs="*", help="words of batch.py")
    asked = words.parse_args()
    built()
    built(SEEK, "./seek --version")
    with tempfile.TemporaryDirectory() as scratch:
        folder = asked.folder or scratch
        problems, answers = os.path.join(folder, "problems"), os.path.join(folder, "answers")
        found = write_problems(problems, list(knots())[:asked.first], asked.only)
        call = [sys.executable, os.path.join(TOP, "tools", "batch.py"), "--job", "seek", *asked.words, problems, answers]
        status = subprocess.run(call, check=False).returncode
        if status not in (0, 1, 3):
            sys.exit(status)
        with open(os.path.join(answers, "summary.csv"), encoding="utf-8", newline="") as source:
            rows = [row for row in csv.DictReader(source) if row["name"] in found]
        with open(LIST, encoding="utf-8") as text:
            tables = names_of_tables(text.read())
        if asked.each:
            show_each(rows, found, tables)
        sys.exit(show_pairs(rows, found, tables))


if __name__ == "__main__":
    main()
