"""The call of the script that makes inputs from a table: its words, and what is done in which order."""
import argparse
import os

from knot_workbench.code_grids import Grids, NoProgram
from knot_workbench.tables.rows import KINDS_BY_WORD, Table, TableError, decoded
from lib.calls.calls import WordsParser, note, reason_of, say
from lib.tables.files import read_bytes, write_all
from lib.tables.items import Faults, absent_names, items_of, lost_inputs, outputs_of, tell_odd

ABOUT = "Makes inputs for knot and seek from a table of knots: one diagram a row, or one problem for each pair that is asked for."

EPILOG = """\
The table has a row for each knot: a name, and a braid word as {1,1,-2,1,-2} or [1, 1, -2, 1, -2], with its strands in front
as {3,{1,1,-2,1,-2}}, in a column of their own, or as few as the letters need; or an arc presentation as {{5,2},{1,3},...} or
[[5,2],[1,3],...]; or a PD code as PD[X[1,5,2,4],...], [[1,5,2,4],...] or X1524 X_{3,10,4,11} ..., with or without commas between
crossings and brackets around them; or a DT code as {4,6,2}, {{4},{2}} or DT[cacbca]; or a Gauss code as {1,-2,3,-1,2,-3},
O1+U2+O3+U1+O2+U3+ or [[[1,-2,3,-1,2,-3]],[1,1,1]]. The title of the column, the first word of an entry or its brackets show which of
these it is.

`knot grid` draws a PD code; its rows are counterclockwise, from the edge on which the lower strand enters. A DT or Gauss code is made
into a PD code, and drawn; the mirror image has the same DT code, and the same Gauss code if that has no signs of crossings. Each file
says how its diagram was made. Lists that are hardly words are refused if nothing says what they are: each number once with either sign,
or 2, 4 and so on, each once. A word that leaves letters out has a split closure, and gets a warning.

Letter k of a braid is the positive crossing of strands k and k + 1, and -k the negative one, as in Sage. Pair k of an arc
presentation is column k from the left, with the two rows of its ends counted from below, from 1; columns pass over rows, and
each runs from its first number to its second. With --arcs rows, pair k is row k from below, and has the columns of its ends from
the left; this is the same knot. A table with the other crossings, or with rows counted from above, has the mirror images: --mirror.

A column is named by its title, in which blanks, marks and capitals don't matter, or by its number from 1.

examples:
  tools/from_table.py examples/table/knots.csv diagrams --diagram braid_notation
  tools/from_table.py examples/table/knots.csv problems --diagram braid_notation --second arc_notation
  tools/from_table.py examples/table/knots.csv problems --diagram braid_notation --neighbours
  tools/from_table.py examples/table/knots.csv diagrams --diagram braid_notation --only "3_1 mirrored" --only "4_1 5_1"
  tools/from_table.py examples/table/codes.csv diagrams --diagram pd_notation

exit status:
  0  all that was asked for is written
  1  some entries can't be used, or some files already exist with another content; each is named on standard error
  2  the command line is invalid, or the table or its column can't be read, or `knot grid` can't be run; nothing is written
  3  a file or standard output can't be written; the files before it were written
"""


def parser():
    """The words of the script."""
    words = WordsParser(prog="from_table.py", description=ABOUT, epilog=EPILOG, allow_abbrev=False,
                        formatter_class=argparse.RawDescriptionHelpFormatter)
    words.add_argument("table", metavar="TABLE", help="a CSV or TSV file in UTF-8, or - for standard input")
    words.add_argument("folder", metavar="FOLDER", help="where a file NAME.txt is written for each; made if it is missing")
    words.add_argument("--name", metavar="COLUMN", help="the column of names (default: name; with --no-header the first)")
    words.add_argument("--diagram", required=True, metavar="COLUMN", help="the column of diagrams: braid words, arc presentations, PD, DT or Gauss codes")
    words.add_argument("--strands", metavar="COLUMN", help="the column of the numbers of strands; an empty field there: as few as do")
    asked = words.add_mutually_exclusive_group()
    asked.add_argument("--second", metavar="COLUMN", help="a problem for each row: this column against the first")
    asked.add_argument("--all-pairs", action="store_true", help="a problem for each two rows")
    asked.add_argument("--neighbours", action="store_true", help="a problem for each row and the next one")
    words.add_argument("--only", action="append", metavar="NAMES",
                       help="only the rows of these names: one whole name, blanks and all, or names separated by blanks, or @FILE with one name "
                            "a line; it may be given again")
    words.add_argument("--quandles", metavar="FILE", help="append this file's lines to each input")
    words.add_argument("--as", dest="as_kind", choices=tuple(KINDS_BY_WORD),
                       help="take each list of numbers for a braid word, also where it looks like a code; or each entry for a DT, Gauss or PD code")
    words.add_argument("--knot", metavar="PROGRAM", help="the program whose job `grid` draws codes (default: KNOT, or knot of this tree)")
    words.add_argument("--arcs", choices=("columns", "rows"), default="columns", help="what a pair of an arc presentation is (default: columns)")
    words.add_argument("--mirror", nargs="?", const="both", choices=("diagram", "second", "both"),
                       help="take the mirror images, of the entries of one column or of both")
    words.add_argument("--reverse", nargs="?", const="both", choices=("diagram", "second", "both"), help="run through the diagrams backwards")
    words.add_argument("--delimiter", metavar="MARK", help="what separates the fields (default: tab, |, ; or comma, by the file's name and first line)")
    words.add_argument("--no-header", action="store_true", help="the first line is a row like any other; columns have their numbers")
    words.add_argument("--skip-rows", type=int, default=0, metavar="N", help="leave out N rows after the header, as some tables have two")
    words.add_argument("--replace", action="store_true", help="write over files that are there with another content")
    return words


def wanted_names(only, names):
    """The names that the options `--only` ask for, or None where there are none; `names` are those of the table."""
    if only is None:
        return None
    wanted = []
    for text in only:
        if text.strip() in names:
            wanted.append(text.strip())
        elif text.startswith("@"):
            wanted += [line.strip() for line in decoded(text[1:], read_bytes(text[1:])).splitlines() if line.strip()]
        else:
            wanted += text.split()
    return list(dict.fromkeys(wanted))


def quandle_lines(path):
    """The text of a file of quandles, with its last line feed; nothing where there is no file."""
    if path is None:
        return ""
    text = decoded(path, read_bytes(path))
    return text if text.endswith("\n") else text + "\n"


def count_line(rows, made, left, lost, absent, options):
    """How many inputs were asked for, and what became of them: as many were made, weren't written or can't be had."""
    kind = "problems" if options.second or options.all_pairs or options.neighbours else "diagrams"
    parts = [f"{made} {kind} in {options.folder}", *([f"{left} not written"] if left else []), f"{lost} couldn't be made",
             *([f"{absent} names that no row has"] if absent else [])]
    return f"{rows} rows: {', '.join(parts)}"


def main(words):
    """Does what the words ask for: the exit status."""
    options = parser().parse_args(words)
    options.delimiter = "\t" if options.delimiter == "\\t" else options.delimiter
    options.as_kind = KINDS_BY_WORD.get(options.as_kind)
    options.grids = Grids(options.knot)
    if options.delimiter is not None and len(options.delimiter) != 1:
        parser().error("--delimiter takes one character")
    if options.skip_rows < 0:
        parser().error("--skip-rows takes 0 or more")
    faults = Faults()
    try:
        path = options.table
        table = Table(path if path != "-" else "(standard input)", read_bytes(path), options)
        wanted = wanted_names(options.only, {table.name_of(fields) for _, fields in table.rows})
        quandles = quandle_lines(options.quandles)
        items = items_of(table, wanted, options, faults)
    except (TableError, NoProgram) as error:
        note(f"from_table.py: {error}")
        return 2
    absent = absent_names(table, wanted, faults)
    tell_odd(table)
    try:
        os.makedirs(options.folder, exist_ok=True)
        made, left = write_all(outputs_of(items, options, quandles), table, options.folder, options.replace, faults)
    except OSError as error:
        note(f"from_table.py: {reason_of(error)}")
        return 3
    lost = lost_inputs(items, options)
    say(count_line(len(items), made, left, lost, absent, options))
    return 1 if faults.count or lost else 0
