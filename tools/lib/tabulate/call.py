"""The call of tabulate.py: its words, and the parts of the work in their order."""
import argparse
import hashlib
import os
import re

from knot_workbench.faults import Fault, NoProgram
from knot_workbench.programs import path_of
from knot_workbench.tables.knots import TURNS, data_folder, default_list, default_table, larger_quandles, text_in
from knot_workbench.tables.rows import KINDS_BY_WORD, TableError
from lib.batch.stages import BatchError
from lib.calls.calls import WordsParser, note, reason_of, say
from lib.calls.pools import processes
from lib.calls.signals import Stopped, on_signals
from lib.calls.store import LineForm, StoreError
from lib.calls.whole_files import sweep_parts, write_whole
from lib.classes.standing import classes_of
from lib.classes.telling import Telling
from lib.classes.written import table_text
from lib.sorting.apart import blocks_in
from lib.sorting.joins import Joins
from lib.sorting.searches import DECIDE, LINEAR, SHORTEST, SEEK_WALKS, Seek
from lib.sorting.sorting import Sorting
from lib.sorting.worker import Worker
from lib.tables.programs import add_program_words, use_programs
from lib.tabulate.given import MOST_CROSSINGS, GivenRows
from lib.tabulate.page import table_page

ABOUT = "Makes a table of knots: sorts diagrams into classes of one knot each, up to mirror image and reversal, with one certificate of the whole."

EPILOG = """\
WHAT is a number N, for all prime reduced knot diagrams with 3 to N crossings; a folder of diagrams, one a file NAME.txt; a table NAME.csv
with a column of codes or braid words, as identify.py reads it; or a file NAME.txt of lines as pieces.py reads and writes them. FOLDER gets

  table.csv          a line for each class: its name by the table of knots, crossings and code of its first row with fewest crossings, a braid
                     if one was found, a grid, how many rows it has, its symmetry type, what its mirror image is, and the numbers of its
                     classes in the certificate (certified)
  rows.csv           a line for each row: its class, how the class is turned to be this knot, its grid, and its certificate and number there
  certificate-1.txt  a certificate of version 4 with all of this, which knot check checks; more of them if one would be too large
  page.html          the classes with pictures, to be sorted and searched
  work/              what is known so far: called again, it goes on

exit status:
  0  all rows are sorted, and all classes and symmetries are decided
  1  some pair of classes, or a symmetry, is left open
  2  the command line is invalid, or a table, the folder or a program can't be used
  3  rows are missing: each is named, with the reason; or a file or standard output can't be written
  128 + N  stopped by signal N; called again, it goes on
"""

# The parts of the work, as they are reported.
WORK_PARTS = 10

# The searches, one after the other: short walks join most keys, and so they come before what is tried between all that is left.
EFFORTS = (*SHORTEST, LINEAR, DECIDE, *SEEK_WALKS[1:])

# Files of the folder quandles/weights by which pairs are counted that are still open, beside those of the larger quandles.
FURTHER = ("F8.txt", "F27.txt", "F27b.txt", "H27.txt", "A28.txt")


def parser():
    """The words of the script."""
    words = WordsParser(prog="tabulate.py", description=ABOUT, epilog=EPILOG, allow_abbrev=False, formatter_class=argparse.RawDescriptionHelpFormatter)
    words.add_argument("what", metavar="WHAT", help="a number of crossings, a folder or a table")
    words.add_argument("folder", metavar="FOLDER", help="where the table is written, and what is known is kept")
    words.add_argument("--table", metavar="FILE", help="the table of knots that has the names (default: tables/prime-knots-to-12.csv)")
    words.add_argument("--name", metavar="COLUMN", help="the column of names of a table (default: name; with --no-header the first)")
    words.add_argument("--diagram", metavar="COLUMN", help="the column of diagrams (default: the only one that has them by its title)")
    words.add_argument("--strands", metavar="COLUMN", help="the column of the numbers of strands")
    words.add_argument("--as", dest="as_kind", choices=tuple(KINDS_BY_WORD), help="what each entry of the column, or each file, is")
    words.add_argument("--arcs", choices=("columns", "rows"), default="columns", help="what a pair of an arc presentation is (default: columns)")
    words.add_argument("--delimiter", metavar="MARK", help="what separates the fields of a table")
    words.add_argument("--no-header", action="store_true", help="the first line is a row like any other; columns have their numbers")
    words.add_argument("--skip-rows", type=int, default=0, metavar="N", help="leave out N rows after the header")
    words.add_argument("--part", type=read_part, metavar="K/N", help="draw every Nth row from row K on, and no more: a task of a queue")
    add_program_words(words)
    return words


def read_part(text):
    """The number of a part and how many there are, of a word K/N."""
    found = re.fullmatch(r"([0-9]{1,6})/([0-9]{1,6})", text)
    if not found or not 1 <= int(found[1]) <= int(found[2]):
        raise argparse.ArgumentTypeError(f"'{text}' is no part: K/N has K from 1 to N")
    return int(found[1]), int(found[2])


def further_numbers():
    """The search that counts by larger quandles and further cocycles alone."""
    folder = os.path.join(data_folder("quandles") or "", "weights")
    return Seek((*(f"--weights={path}" for path in [*(os.path.join(folder, name) for name in FURTHER), *larger_quandles()]), "--steps=0"))


def drawn_part(sorting, given, rows, number, count):
    """Draws a part of the rows, and finds their short forms: the exit status."""
    own = sorting.rows(rows[number - 1::count], f"-{number}-of-{count}")
    say(f"part {number} of {count}: {len(sorting.drawn(own, given.places))} of {len(own)} diagrams are drawn")
    return 3 if sorting.faults else 0


def joined(sorting):
    """The classes of keys, and what is known of their symmetries."""
    numbers = sorting.no_numbers({key for key, _, _ in sorting.keys.values()})
    sorting.learn(numbers, list(numbers.rows), 0)
    sorting.begin("pairs of keys")
    joins = Joins(numbers, sorting.store("tries.tsv"))
    joins.try_all(sorting.search_answers, (*EFFORTS, further_numbers()))
    return joins


def sorted_table(sorting, given, rows, folder):
    """Does all parts of the work: the exit status."""
    known = sorting.with_keys(sorting.rows(rows), given.places)
    joins = joined(sorting)
    classes = sorted(classes_of(known, joins, sorting.keys), key=lambda one: (one.crossings, len(one.key), one.key))
    telling = Telling(folder, sorting, known, classes, joins)
    telling.named()
    telling.coded()
    telling.braided()
    found = telling.certified(telling.head())
    accepted = sum(telling.rulings.values())
    open_turns, left = telling.standings.decide_symmetries()
    texts = (("rows.csv", telling.rows_text(found)), ("table.csv", table_text(telling.standings)))
    said = (f"{len(known)} of {len(rows) + len(given.faults)} diagrams in {len(classes)} classes; {accepted} of {len(found)} "
            f"certificate{'s' * (len(found) > 1)} accepted; {len(left)} pairs of classes and {open_turns} symmetries open")
    for name, text in (*texts, ("page.html", table_page(telling.standings, said))):
        write_whole(os.path.join(folder, name), text.encode())
    say(said)
    for first, second in left:
        note(f"tabulate.py: left open: classes {first} and {second}")
    for number, one in enumerate(classes, 1):
        some = [word.replace("_", " ") for word, said in one.symmetry.items() if said == "open"]
        if some:
            note(f"tabulate.py: left open: whether class {number}, {one.name or one.first}, is its own {', '.join(some)}")
    if sorting.faults:
        return 3
    return 1 if left or open_turns else 0


def make_table(options):
    """Makes the table of a call: the exit status."""
    given = GivenRows(options)
    if given.most is not None and not 3 <= given.most <= MOST_CROSSINGS:
        parser().error(f"the number of crossings is 3 to {MOST_CROSSINGS}")
    use_programs(options.knot, options.seek)
    rows, listed, table = given.read(), text_in(default_list()), options.table or default_table()
    os.makedirs(os.path.join(options.folder, "work"), exist_ok=True)
    for folder in (options.folder, os.path.join(options.folder, "work")):
        sweep_parts(folder)
    digest = hashlib.sha256(f"{given.digest(rows)} {listed} {text_in(table)}".encode()).hexdigest()
    form = LineForm(f"tabulate 4 {digest}", "the folder is of another table or list, or of another version")
    lists = ("".join(f"quandle {block}" for block in blocks_in(listed)),)
    with processes(options.processes, Worker, (path_of("knot"), path_of("seek"), lists, table, given.conventions, TURNS)) as pool:
        sorting = Sorting("tabulate.py", os.path.join(options.folder, "work"), form, pool, lists, TURNS, 1 if options.part else WORK_PARTS)
        for said in given.faults:
            sorting.fault(said)
        try:
            return drawn_part(sorting, given, rows, *options.part) if options.part else sorted_table(sorting, given, rows, options.folder)
        finally:
            sorting.close()


def main(words):
    """Does what the words ask for: the exit status."""
    options = parser().parse_args(words)
    options.delimiter = "\t" if options.delimiter == "\\t" else options.delimiter
    options.as_kind = KINDS_BY_WORD.get(options.as_kind)
    options.second = options.expect = None
    if options.processes < 1 or options.skip_rows < 0:
        parser().error("--processes takes 1 or more, --skip-rows 0 or more")
    on_signals()
    try:
        return make_table(options)
    except (TableError, NoProgram, StoreError, BatchError) as error:
        note(f"tabulate.py: {error}")
        return 2
    except (OSError, Fault) as error:
        note(f"tabulate.py: {reason_of(error) if isinstance(error, OSError) else error}")
        return 3
    except Stopped as stopped:
        note(f"tabulate.py: stopped by signal {stopped.number}; called again, it goes on")
        return 128 + stopped.number
