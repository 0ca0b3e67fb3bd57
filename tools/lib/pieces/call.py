"""The call of pieces.py: its words, and what is done of them."""
import argparse
import sys

from lib.batch.stages import BatchError
from lib.calls.calls import StreamError, WordsParser, drop_output, reason_of, say
from lib.calls.pools import processors
from lib.calls.signals import Stopped, on_signals
from lib.pieces.answers import Asked, run_pieces
from lib.pieces.cut import added_bytes, cut, found_again, found_programs
from lib.pieces.join import JOBS_WITH_VERDICT, again, check_sample, join, write_alike
from lib.pieces.run import PieceError, left_of, read_run, span_numbers, spans_text, tell_by_name

ABOUT = "Cuts a long table of short problems into pieces that any queue of jobs can answer, and joins the answers."

EPILOG = """\
A line of a table is a name, a tab, and the lines of a problem with ' / ' between:
  3_1\tx 4 3 2 1 0 / o 2 1 0 4 3
A line of the answers is the name, a tab, the exit status of the program, a tab, and its lines. docs/BATCH.md has more.

In RUN are
  job                what is asked, and the SHA-256 of the program, of each file and of each piece
  files/             copies of the files that the arguments name
  pieces/00017.txt   lines of the table
  answers/00017.txt  their answers; the first lines have the checksums of what was asked, and the line #end at the end has the number of
                     lines, and bytes and SHA-256 of all before

examples:
  tools/pieces.py cut knots.txt run --each 400000 --job numbers +quandles/list-short.txt
  sbatch --array=$(tools/pieces.py left run) examples/pieces/array-job.sh run
  tools/pieces.py run run 3,17-19
  tools/pieces.py left run && tools/pieces.py join run > numbers.txt
  tools/pieces.py check run --try 1000
  tools/pieces.py again pairs > certificates.txt

exit status:
  0  all was done; by `left`: no piece is left
  1  by `left`: some pieces are left
  2  an argument is wrong, a table or a run is at fault, or a program or a file is not the one that `cut` recorded
  3  by `run`: a piece has no answer; by `join`, `again` and `alike`: an answer is missing or at fault; by `check`: an answer made anew is
     different, or a certificate is not accepted; by all: a file or standard output can't be read or written. Each is named on standard error
  128 + N  stopped by signal N; called again, it goes on
"""


def parser():
    """The words of the script."""
    top = WordsParser(prog="pieces.py", description=ABOUT, epilog=EPILOG, allow_abbrev=False, formatter_class=argparse.RawDescriptionHelpFormatter)
    acts = top.add_subparsers(dest="act", required=True, metavar="ACT", parser_class=WordsParser)

    def act(name, said):
        words = acts.add_parser(name, help=said, description=said[0].upper() + said[1:] + ".", allow_abbrev=False)
        if name == "cut":
            words.add_argument("table", metavar="TABLE", help="a file of lines: a name, a tab, a problem")
        words.add_argument("run", metavar="RUN", help="the folder of the pieces and of their answers")
        return words

    words = act("cut", "make a run of a table: its pieces, and what is asked of each line")
    words.add_argument("--each", type=count_from_1, required=True, metavar="N", help="how many lines a piece has")
    words.add_argument("--most", type=count_from_1, default=1000, metavar="N", help="how many pieces there may be (default: 1000, a usual limit of queues)")
    words.add_argument("--keep", metavar="WORD,..", help="of answers with status 0 keep only the lines that begin with one of these words")
    words.add_argument("--job", nargs=argparse.REMAINDER, required=True, metavar="JOB",
                       help="comes last: seek, with the default cocycles of its own tree or installation, or a job of knot, and its words; +FILE appends "
                            "the text of a file to each problem")
    words = act("run", "answer some pieces, each whole or not at all")
    words.add_argument("numbers", metavar="NUMBER", help="which: 17, or 3,17-19")
    processes_word(words)
    words = act("left", "print the pieces without a whole answer, as 3,17-19")
    words.add_argument("--sums", action="store_true", help="read all answers and pieces through, and compare their checksums")
    words.add_argument("--lines", action="store_true", help="print a number a line, as GNU parallel, HTCondor and xargs read them")
    for name, said in (("join", "write all answers in the order of the table"),
                       ("again", "write each problem with its verdict, as a table for the job check"),
                       ("alike", "write pairs of problems with the same answer, as a table for seek")):
        words = act(name, said)
        words.add_argument("numbers", nargs="?", metavar="NUMBER", help="of some pieces only: 17, or 3,17-19")
    words = act("check", "answer lines anew and compare, and rule on their certificates")
    words.add_argument("--try", dest="tries", type=count_from_1, metavar="N", help="draw so many lines (default: all of them)")
    words.add_argument("--seed", type=int, default=1, metavar="S", help="the seed by which they are drawn (default: 1)")
    processes_word(words)
    return top


def processes_word(words):
    """Adds the option --processes."""
    words.add_argument("--processes", type=count_from_1, default=processors(), metavar="N", help="how many at once (default: as many as there are processors)")


def count_from_1(word):
    """A whole number from 1 on."""
    number = int(word)
    if number < 1:
        raise ValueError
    return number


def asked_of(run):
    """What is asked in a run, by a program and files that are those of `cut`."""
    return Asked(run, found_again(run), added_bytes(run))


def cut_it(options):
    """Makes a run."""
    if not options.job or options.job[0].startswith(("-", "+")):
        raise PieceError("--job takes the name of a job, followed by its words")
    say(f"{cut(options)} pieces")
    return 0


def run_it(options, run):
    """Answers pieces."""
    numbers = span_numbers(options.numbers, len(run.pieces))
    return 0 if run_pieces(run, asked_of(run), numbers, options.processes) else 3


def left_it(options, run):
    """Prints what is left."""
    left = left_of(run, options.sums)
    if left:
        say("\n".join(map(str, left)) if options.lines else spans_text(left))
    return 1 if left else 0


def write_it(options, run):
    """Writes a table of answers or of certificates to standard output."""
    count = len(run.pieces)
    numbers = range(1, count + 1) if options.numbers is None else span_numbers(options.numbers, count)
    try:
        {"join": join, "again": again, "alike": write_alike}[options.act](run, numbers, sys.stdout.buffer)
        sys.stdout.flush()
    except PieceError as error:
        sys.stdout.flush()
        tell_by_name(str(error))
        return 3
    except OSError as error:
        if error.filename is not None or isinstance(error, BrokenPipeError):
            raise
        drop_output()
        raise StreamError(f"standard output: {error.strerror}") from None
    return 0


def check_it(options, run):
    """Rules on answers."""
    checker = found_programs(["check"]).path("check") if run.job in JOBS_WITH_VERDICT and not run.keep else None
    text, is_well = check_sample(run, asked_of(run), checker, options.tries, options.seed, options.processes)
    say(text)
    return 0 if is_well else 3


def done(options):
    """Does what the words ask for: the exit status."""
    if options.act == "cut":
        return cut_it(options)
    run = read_run(options.run)
    return {"run": run_it, "left": left_it, "join": write_it, "again": write_it, "alike": write_it, "check": check_it}[options.act](options, run)


def main(words):
    """Does what the words ask for: the exit status."""
    options = parser().parse_args(words)
    on_signals()
    try:
        return done(options)
    except (PieceError, BatchError) as error:
        tell_by_name(str(error))
        return 2
    except BrokenPipeError:
        drop_output()
        return 141
    except StreamError:
        raise
    except OSError as error:
        drop_output()
        tell_by_name(reason_of(error))
        return 3
    except Stopped as stopped:
        tell_by_name(f"stopped by signal {stopped.number}; called again, it goes on")
        return 128 + stopped.number
