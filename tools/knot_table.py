#!/usr/bin/env python3
"""Makes what belongs to a table of knots anew, and compares it with what is there.

    tools/knot_table.py grids TABLE..        draws the grid of each code by `knot grid` and makes it smaller by `knot simplify`
    tools/knot_table.py numbers TABLE..      counts the rows of numbers by `knot numbers`
    tools/knot_table.py names TABLE..        joins the braid word of each knot to its grid by `seek`, and has `knot check` rule on it
    tools/knot_table.py symmetry TABLE..     joins each knot to its mirror image, its reverse and the reverse of its mirror image, or distinguishes them

Each line that differs is named on standard error, and the exit status is 1. --write replaces what is there: the grids in the table NAME.csv,
the numbers in NAME.numbers.txt, the symmetries in NAME.symmetry.csv. The numbers of a grid that has its line are kept, and so are symmetries
that are known; --all makes these anew too. --list FILE names another list of quandles than tables/list.txt. --certificates FOLDER keeps those
of `names` and `symmetry`; without it symmetries that rows of numbers rule out are taken as ruled out by them.

`symmetry` uses the table's rows, then rows by each --further FILE, then walks, all short ones before longer ones. A list of --mirrors FILE is
counted only for knots that may be their own mirror images. With --write it writes what it knows every fifty knots. --book FILE keeps what
was counted and walked, also in vain, so that a call that was stopped goes on where it was.

NAME.numbers.txt has the lines `list` with the SHA-256 of the list of quandles, `knots` with their number, one for each knot, and `end` with
the SHA-256 of all bytes before it. A knot's line is, with commas between: its name; the SHA-256 of the two lines `x` and `o` of its grid; the
row of numbers of the grid; and that of its mirror image. A row has an entry for each block of the list, with `/` between two: what `knot
numbers` writes after `numbers`, without noughts at its end, nothing if that is the unknot's, and `?` for `wide`. The row of the reversed
mirror image is this one with negative weights.
"""
import argparse
import sys

from lib.calls import calls
from lib.calls.pools import threads
from lib.knot_table.grids import redraw_grids
from lib.knot_table.names import join_names
from lib.knot_table.numbers import recount_rows
from lib.knot_table.symmetries import SYMMETRY_COLUMNS, find_symmetries
from lib.knot_table.work import Work
from lib.tables.programs import add_program_words, use_programs
from knot_workbench.identifying import ROUNDS
from knot_workbench.programs import end_calls
from knot_workbench.tables.knots import default_list

# What is made anew, by the word for it.
MAKERS = {"grids": redraw_grids, "numbers": recount_rows, "names": join_names, "symmetry": find_symmetries}


def parser():
    """The words of the script."""
    words = calls.WordsParser(description=__doc__, formatter_class=argparse.RawDescriptionHelpFormatter)
    words.add_argument("what", choices=tuple(MAKERS), help="what is made anew")
    words.add_argument("tables", nargs="+", metavar="TABLE", help="a table as docs/FORMATS.md has it")
    words.add_argument("--write", action="store_true", help="replace what is there by what was made")
    words.add_argument("--all", action="store_true", help="also make anew the numbers and symmetries that are there")
    words.add_argument("--certificates", metavar="FOLDER", help="keep the certificates of names and symmetries here")
    words.add_argument("--further", action="append", default=[], metavar="FILE", help="a further list of quandles that may rule symmetries out")
    words.add_argument("--mirrors", action="append", default=[], metavar="FILE", help="a further list that may rule mirror images out")
    words.add_argument("--rounds", type=int, default=len(ROUNDS), metavar="N",
                       help="how many rounds of walks for symmetries, after the fourth each as long and with another seed (default: %(default)s)")
    words.add_argument("--walk", action="append", choices=SYMMETRY_COLUMNS, help="walks for this symmetry alone; it may be given several times")
    words.add_argument("--book", metavar="FILE", help="keep what was counted and walked for symmetries here")
    words.add_argument("--list", metavar="FILE", help="the list of quandles by which is counted")
    add_program_words(words)
    return words


def main():
    asked = parser().parse_args()
    asked.list = asked.list or default_list()
    use_programs(asked.knot, asked.seek)
    differing = 0
    with threads(asked.processes, end_calls) as pool:
        for path in asked.tables:
            work = Work(pool)
            MAKERS[asked.what](path, asked, work)
            differing += work.differing
            calls.say(f"{path}: {asked.what}: " + (f"{work.differing} lines differ" if work.differing else "as in the file"))
    sys.exit(1 if differing and not asked.write else 0)


if __name__ == "__main__":
    calls.run("knot_table.py", main)
