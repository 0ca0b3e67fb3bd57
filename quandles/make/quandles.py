#!/usr/bin/env python3
"""Makes the tables of connected quandles in quandles/, and ready lists of them for `decide`.

    quandles/make/quandles.py tables [FOLDER]         writes the tables, a file for each order
    quandles/make/quandles.py lists [FOLDER]          writes the ready lists, put in order by the table of knots in the folder
    quandles/make/quandles.py count                   how many were found of each order, and how many there are
    quandles/make/quandles.py pairs KNOTS LIST ...    how many pairs of a table of knots the built-in list and each list distinguish

FOLDER is quandles/ if none is given. KNOTS is a CSV file with columns `name` and `braid`, or those of --name and --braid.
A quandle is connected if its translations lead from each colour to each other one.
"""
import argparse
import csv
import io
import itertools
import os
import re

from places import QUANDLES
from connected import CONNECTED_COUNTS, Collection
from lib.calls import calls
from knot_workbench.colourings import MAX_COLOURINGS, fixed_points
from knot_workbench.diagrams import Braid
from knot_workbench.faults import BadText
from knot_workbench.quandles import MAX_QUANDLES, built_in_list, quandle_of, quandle_text
from knot_workbench.texts import Lines, braid_fault, read_quandles
from knot_workbench.weighing import is_connected

# The largest orders of the ready lists: of the short one, and of the others.
SHORT_ORDER, LISTED = 9, 16


def say_count(collection):
    print("order  found  there are")
    for order, found in collection.found.items():
        print(f"{order:5}  {len(found):5}  {CONNECTED_COUNTS[order]:9}")


# Files

def dual_comment(place, other):
    return "its own dual" if other == place else f"dual of number {other + 1}"


def table_item(found):
    return quandle_text(quandle_of(f"table {len(found.table)}", found.table))


def tables_text(collection, order):
    found = collection.found[order]
    lines = [f"# Connected quandles of order {order}: {len(found)}, and there are {CONNECTED_COUNTS[order]} up to isomorphism.",
             "# Made by quandles/make/quandles.py tables; README.md tells the constructions and how to use them."]
    text = "\n".join(lines) + "\n"
    for place, one in enumerate(found):
        text += f"\n# {order}, number {place + 1}: {one.comment}; {dual_comment(place, collection.dual_of(order, place))}\n"
        text += table_item(one)
    return text


def short_item(found):
    return f"quandle {found.short}\n" if found.short else table_item(found)


def list_text(head, entries):
    """Entries are (order, place, found)."""
    text = "".join(f"# {line}\n" for line in head) + "\nquandle trivial 2\n"
    for order, place, found in entries:
        text += f"# {order}, number {place + 1}: {found.comment}\n{short_item(found)}"
    return text


def write_tables(collection, folder):
    for order, found in collection.found.items():
        if found and order > 1:
            calls.put(os.path.join(folder, f"connected-{order:02}.txt"), tables_text(collection, order))


def write_lists(collection, folder):
    knots = read_braids(os.path.join(folder, "knots-to-8.csv"))
    entries, duals = [], []
    for order, found in collection.found.items():
        if order < 3:
            continue
        ranked = []
        for place, one in enumerate(found):
            quandle = quandle_of("", one.table)
            counts = [count_of(quandle, braid) for _, braid in knots]
            split = sum(a != b for a, b in itertools.combinations(counts, 2) if None not in (a, b))
            ranked.append((-split, place, one, collection.dual_of(order, place) < place))
        for _, place, one, is_later in sorted(ranked, key=lambda rank: rank[:2]):
            (duals if is_later else entries).append((order, place, one))
    made = "Made by quandles/make/quandles.py lists. Append it to a problem: cat problem.txt quandles/{}"
    common = "Each pair of duals is here once: they count alike on a knot that is the same as itself run through backwards."
    short = [entry for entry in entries if entry[0] <= SHORT_ORDER]
    calls.put(os.path.join(folder, "list-short.txt"),
          list_text([f"trivial 2 and {len(short)} connected quandles up to order {SHORT_ORDER}, the small ones first.", common,
                     made.format("list-short.txt")], short))
    calls.put(os.path.join(folder, "list-one-of-each-pair.txt"),
          list_text([f"trivial 2 and {len(entries)} connected quandles up to order {LISTED}, the small ones first.", common,
                     made.format("list-one-of-each-pair.txt")], entries))
    full = sorted(entries + duals[:MAX_QUANDLES - 1 - len(entries)], key=lambda entry: entry[0])
    left_out = [f"{order} number {place + 1}" for order, place in sorted(entry[:2] for entry in entries + duals if entry not in full)]
    calls.put(os.path.join(folder, "list-64.txt"),
          list_text([f"trivial 2 and {len(full)} connected quandles up to order {LISTED}, duals too, the small ones first: the {MAX_QUANDLES} that a problem takes.",
                     f"Left out: {', '.join(left_out) or 'none'}.", made.format("list-64.txt")], full))


# Knots

def add_columns(parser):
    """The words that name the columns of a table of knots."""
    for name, said in (("name", "names"), ("braid", "braid words as {1,-2,1}")):
        parser.add_argument(f"--{name}", default=name, metavar="COLUMN", help=f"the title of the column of {said} ({name})")


def read_braids(path, names="name", braids="braid"):
    """Names and braids of a CSV file, from the columns of these titles."""
    with calls.naming(path):
        reader = csv.DictReader(io.StringIO(calls.input_text(path).removeprefix("\ufeff"), newline=""))
        titles = reader.fieldnames or []
        for title, word in ((names, "--name"), (braids, "--braid")):
            if title not in titles:
                raise BadText(f"no column '{title}', but {', '.join(map(repr, titles)) or 'none at all'}; {word} names another one", 1)
        return [(row[names], braid_of(row[names], row[braids] or "", reader.line_num)) for row in reader]


def braid_of(name, word, line):
    """The braid of an entry of a table."""
    if not re.fullmatch(r"\s*[{\[]\s*-?\d+(\s*,\s*-?\d+)*\s*[}\]]\s*", word):
        raise BadText(f"'{word}' is no braid word as {{1,-2,1}}", line)
    letters = tuple(int(letter) for letter in re.findall(r"-?\d+", word))
    strands = max(map(abs, letters)) + 1
    fault = braid_fault((strands, letters))
    if fault:
        raise BadText(f"{name}: {fault}", line)
    return Braid(strands, letters)


def read_list(path):
    """The quandles of a file, which has nothing else."""
    with calls.naming(path):
        lines = Lines(calls.input_text(path))
        quandles = read_quandles(lines)
        lines.done()
    return quandles


def count_of(quandle, braid):
    """The number of colourings, or None where the quandle doesn't fit."""
    order = len(quandle.over)
    if order ** braid.strands > MAX_COLOURINGS:
        return None
    if is_connected(quandle.over):
        return order * len(fixed_points(braid, quandle, first=0))
    return len(fixed_points(braid, quandle))


def told_apart(counts, pairs):
    """The pairs of places by which some row of counts has two different numbers, none of them None."""
    return [(a, b) for a, b in pairs if any(None not in (row[a], row[b]) and row[a] != row[b] for row in counts)]


def say_pairs(knots, list_paths):
    lists = [("built-in list", built_in_list())]
    lists += [(list_path, read_list(list_path)) for list_path in list_paths]
    neighbours = [(place, place + 1) for place in range(len(knots) - 1)]
    every = list(itertools.combinations(range(len(knots)), 2))
    known = {}
    for name, quandles in lists:
        rows = []
        for quandle in quandles:
            if quandle.over not in known:
                known[quandle.over] = [count_of(quandle, braid) for _, braid in knots]
            rows.append(known[quandle.over])
        near, all_told = told_apart(rows, neighbours), told_apart(rows, every)
        print(f"{name}: {len(quandles)} quandles, {len(near)} of {len(neighbours)} neighbours and {len(all_told)} of {len(every)} pairs distinguished")
        for what, pairs, told in (("neighbours", neighbours, near), ("pairs", every, all_told)):
            left = [f"{knots[a][0]} and {knots[b][0]}" for a, b in pairs if (a, b) not in told]
            if len(left) <= 20:
                print(f"  {what} left: {', '.join(left) or 'none'}")


def main():
    parser = argparse.ArgumentParser(description=__doc__, formatter_class=argparse.RawDescriptionHelpFormatter)
    jobs = parser.add_subparsers(dest="job", required=True, metavar="JOB")
    for name, said in (("tables", "write the tables"), ("lists", "write the ready lists")):
        jobs.add_parser(name, help=said).add_argument("folder", nargs="?", default=QUANDLES)
    jobs.add_parser("count", help="how many were found")
    pairs = jobs.add_parser("pairs", help="how many pairs each list distinguishes")
    pairs.add_argument("knots", metavar="KNOTS")
    pairs.add_argument("lists", nargs="*", metavar="LIST")
    add_columns(pairs)
    words = parser.parse_args()
    if words.job == "pairs":
        say_pairs(read_braids(words.knots, words.name, words.braid), words.lists)
    elif words.job == "count":
        say_count(Collection())
    elif not os.path.isdir(words.folder):
        parser.error(f"there is no folder {words.folder}")
    elif words.job == "tables":
        write_tables(Collection(), words.folder)
    else:
        write_lists(Collection(LISTED), words.folder)


if __name__ == "__main__":
    calls.run("quandles.py", main)
