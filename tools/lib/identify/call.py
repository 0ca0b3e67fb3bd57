"""The call of identify.py: its words, and what is done in which order."""
import argparse
import collections
import os
import re
from contextlib import nullcontext

from knot_workbench.code_grids import Grids
from knot_workbench.faults import BadAnswer, Failed, Fault, NoProgram, Rejected
from knot_workbench.identifying import ROUNDS, identify
from knot_workbench.programs import end_calls
from knot_workbench.tables.entries import Conventions
from knot_workbench.tables.knots import KnotTable, text_digest, name_of
from knot_workbench.tables.rows import KINDS_BY_WORD, TableError
from lib.calls.calls import WordsParser, note, reason_of, say
from lib.calls.pools import threads
from lib.calls.signals import Stopped, on_signals
from lib.calls.store import Store, StoreError
from lib.calls.whole_files import write_whole
from lib.identify.answers import AnswerRow, AnswerTable, answers_text, known_answers
from lib.identify.inputs import given_by
from lib.identify.rulings import is_well, kind_of_answer, ruling_on, without_mirrors
from lib.tables.files import file_name
from lib.tables.given import had, text_of_given
from lib.tables.programs import add_program_words, use_programs

ABOUT = "Says which knot a diagram is: its name in a table of the prime knots to 12 crossings, with a certificate."

EPILOG = """\
An INPUT is a file with one diagram, a folder with files NAME.txt of one diagram each, or a table that ends in .csv, .tsv or .tab; - is
standard input. A diagram is a grid or a braid as knot reads it, or a code: PD[X[4,2,5,1],...] or [[4,2,5,1],...], DT: [4,6,2],
GaussCode[1,-2,3,-1,2,-3], or a braid word as {1,1,1}. A table has a column of names, and one of braid words, arc presentations, or PD, DT
or Gauss codes, as from_table.py takes them.

An answer is
  10_132              the knot of this name, as the table draws it
  10_132 mirrored     its mirror image; also `reversed`, run through backwards, if that isn't known to be the same knot
  3_1 # 4_1           a sum, of at most twelve crossings in all
  unknot
  none of the table   its numbers of colourings differ from those of the unknot, of each knot of the table, and of each such sum
  open                no walk joined it to a candidate; those that its numbers leave are in the column `said`
  link of 2 components    links aren't looked up
  refused             there is no diagram; `said` has the reason
  failed              a program gave no answer
Each name has a certificate, moves that lead to the table's diagram, which `knot check` accepted; --certificates keeps them.
With --expect a column has the names that the rows should have, and each row gets a ruling: `right`; `mirrored`, `reversed` or both, if it
is that knot after a turn; `wrong: it is 10_133`; `wrong: it may be` and the candidates, if the expected name is none of them; `no name`,
if none was expected; otherwise the answer. A DT code, and a Gauss code without signs, is also that of the mirror image.

One diagram alone is answered in a line. For more a table is written: name, answer, expected and ruling, certificate (its file), said, and
sha256, of all that decides the answer. With --out it goes to a file, to which each row is added as it is known; called again, those that
are there remain, and the others are done.

examples:
  tools/identify.py --braid "4 -1 2 -1 -3 2 2 2 -3"
  tools/identify.py --pd examples/seek/10-132.txt
  tools/identify.py examples/table/codes.csv --diagram pd_notation
  tools/identify.py published.csv --diagram braid_notation --expect name --out rulings.csv --certificates certificates

exit status:
  0  each diagram has a name, or is none of the table; with --expect each row is right
  1  some row is open, failed, a link, refused or not right; each is in the table
  2  an argument is wrong, or the table of knots, an input or a program can't be used
  3  a file or standard output can't be written
  128 + N  stopped by signal N; called again with the same --out, it goes on
"""

def parser():
    """The words of the script."""
    words = WordsParser(prog="identify.py", description=ABOUT, epilog=EPILOG, allow_abbrev=False, formatter_class=argparse.RawDescriptionHelpFormatter)
    words.add_argument("inputs", nargs="*", metavar="INPUT", help="a file, a folder or a table")
    words.add_argument("--braid", action="append", default=[], metavar="WORD", help='a braid: its strands and its letters, as "2 1 1 1"')
    words.add_argument("--pd", action="append", default=[], metavar="FILE", help="a file with a planar diagram code, looked up like an INPUT")
    words.add_argument("--dt", action="append", default=[], metavar="CODE", help='a DT code, as "4 6 2"')
    words.add_argument("--gauss", action="append", default=[], metavar="CODE", help='a Gauss code, as "1 -2 3 -1 2 -3"')
    words.add_argument("--table", metavar="FILE", help="the table of knots (default: tables/prime-knots-to-12.csv)")
    words.add_argument("--list", metavar="FILE", help="the list of quandles by which its rows were counted (default: tables/list.txt)")
    words.add_argument("--name", metavar="COLUMN", help="the column of names of a table (default: name; with --no-header the first)")
    words.add_argument("--diagram", metavar="COLUMN", help="the column of diagrams (default: the only one that has them by its title)")
    words.add_argument("--expect", metavar="COLUMN", help="the column of the names that the rows should have")
    words.add_argument("--strands", metavar="COLUMN", help="the column of the numbers of strands")
    words.add_argument("--as", dest="as_kind", choices=tuple(KINDS_BY_WORD), help="what each entry of the column, or each file, is")
    words.add_argument("--arcs", choices=("columns", "rows"), default="columns", help="what a pair of an arc presentation is (default: columns)")
    words.add_argument("--mirror", action="store_true",
                       help="mirror each diagram that is a code or comes from a table; grids, and braids as knot reads them, stay as they are")
    words.add_argument("--reverse", action="store_true", help="run through each of these backwards")
    words.add_argument("--delimiter", metavar="MARK", help="what separates the fields of a table")
    words.add_argument("--no-header", action="store_true", help="the first line is a row like any other; columns have their numbers")
    words.add_argument("--skip-rows", type=int, default=0, metavar="N", help="leave out N rows after the header")
    words.add_argument("--out", metavar="FILE", help="write the rows to this file, and go on where it ends")
    words.add_argument("--certificates", metavar="FOLDER", help="write a certificate NAME.txt for each diagram that has a name")
    words.add_argument("--again", action="store_true", help="redo the rows of --out that are open or refused (failed ones are always redone)")
    words.add_argument("--steps", type=int, default=ROUNDS[-1][1], metavar="N", help="how many steps the longest walk may make (default: %(default)s)")
    add_program_words(words)
    return words


class IdentifyCall:
    """One call: the table of knots, how entries are read, and the rows that are known."""

    def __init__(self, options, known):
        self.options, self.known = options, known
        self.conventions = Conventions(options.arcs, options.mirror, options.reverse, options.as_kind, Grids(None))
        self.rounds = [(seed, min(steps, options.steps)) for seed, steps in ROUNDS if seed == 1 or ROUNDS[seed - 2][1] < options.steps]
        self.form = AnswerTable([column for column in AnswerRow._fields if options.expect or column not in ("expected", "ruling")])

    def digest_of(self, given):
        """The SHA-256 of all that decides an answer but for the steps."""
        return text_digest(self.known.digest + text_of_given(given, self.conventions))

    def row_of(self, given, file):
        """The row of what was given; a certificate is written to its file."""
        row = AnswerRow(given.name, "refused", given.expected or "", "refused", "", "", self.digest_of(given))
        first = self.known.parts_of(given.expected) if given.expected else None
        try:
            diagram, unsigned = had(given, self.conventions)
            found = identify(diagram, self.known, first=first, rounds=self.rounds)
        except (BadAnswer, Failed, Rejected) as fault:
            return row._replace(answer="failed", ruling="failed", said=str(fault))
        except NoProgram:
            raise
        except Fault as fault:
            return row._replace(said=str(fault))
        parts = without_mirrors(found.parts) if unsigned and found.parts else found.parts
        answer = found.answer if parts is None else name_of(parts)
        ruling, remarks = ruling_on(self.known, given, first, found, parts, unsigned)
        said = [f"candidates: {', '.join(name_of(one) for one in found.candidates)}"] if found.candidates else []
        said += [f"a {unsigned} code doesn't distinguish it from its mirror image"] * bool(unsigned and parts) + remarks
        if found.certificate is not None and self.options.certificates:
            write_whole(os.path.join(self.options.certificates, file), found.certificate.text.encode())
        return row._replace(answer=answer, ruling=ruling, said="; ".join(said),
                            certificate=file if found.certificate is not None and self.options.certificates else "")

def files_of(givens):
    """A file's name for each certificate, no two the same."""
    taken, found = set(), []
    for given in givens:
        base, number = file_name(given.name)[:-4][:150], 1
        file = base + ".txt"
        while file.lower() in taken:
            number += 1
            file = f"{base}~{number}.txt"
        taken.add(file.lower())
        found.append(file)
    return found


def done_rows(run, givens, files, known):
    """All rows in their order. Each new one is added to --out at once."""
    rows, out = dict(known), run.options.out
    if out:
        # A line that was cut goes, before others are added.
        write_whole(out, answers_text(run, known.values()).encode())
    waiting = [place for place in range(len(givens)) if place not in rows]
    # A row of which many walks are left may take minutes.
    with Store(out, run.form) if out else nullcontext() as store, threads(run.options.processes, end_calls) as pool:
        for number, (place, row) in enumerate(pool.each(lambda place: (place, run.row_of(givens[place], files[place])), waiting), 1):
            rows[place] = row
            if store:
                store.put(place, *row)
                if number % 20 == 0:
                    note(f"identify.py: {number} of {len(waiting)}")
    return [rows[place] for place in range(len(givens))]


def written(run, rows, is_one):
    """Writes what was found where it is due."""
    table = answers_text(run, rows)
    if run.options.out:
        write_whole(run.options.out, table.encode())
        counts = collections.Counter(kind_of_answer(row) for row in rows)
        say(f"{len(rows)} diagrams: " + ", ".join(f"{counts[kind]} {kind}" for kind in sorted(counts)))
    elif is_one:
        say(rows[0].answer)
        if rows[0].said:
            note(f"identify.py: {rows[0].said}")
    else:
        say(table.rstrip("\n"))


def main(words):
    """Does what the words ask for: the exit status."""
    # A Gauss code that begins with a minus sign, as -1,2,-3,1,-2,3, isn't taken for an option.
    options = parser().parse_args([f" {word}" if re.match("-[0-9]", word) else word for word in words])
    options.delimiter = "\t" if options.delimiter == "\\t" else options.delimiter
    options.as_kind = KINDS_BY_WORD.get(options.as_kind)
    options.second = None
    # The rows are put there by a rename, which would replace a link.
    options.out = options.out and os.path.realpath(options.out)
    options.inputs += options.pd
    if options.processes < 1 or options.steps < 0 or options.skip_rows < 0:
        parser().error("--processes takes 1 or more, --steps and --skip-rows 0 or more")
    if not (options.inputs or options.braid or options.dt or options.gauss):
        parser().error("an INPUT is missing, or --braid, --pd, --dt or --gauss")
    on_signals()
    try:
        use_programs(options.knot, options.seek)
        run = IdentifyCall(options, KnotTable(options.table, options.list))
        givens, is_one = given_by(options)
        files = files_of(givens)
        if options.certificates:
            os.makedirs(options.certificates, exist_ok=True)
        rows = done_rows(run, givens, files, known_answers(run, givens, files))
        written(run, rows, is_one)
        return 0 if all(is_well(row, options) for row in rows) else 1
    except (TableError, NoProgram, StoreError) as error:
        note(f"identify.py: {error}")
        return 2
    except OSError as error:
        note(f"identify.py: {reason_of(error)}")
        return 3
    except Stopped as stopped:
        note(f"identify.py: stopped by signal {stopped.number}" + ("; called again, it goes on" if options.out else ""))
        return 128 + stopped.number
