"""The call of a batch: its words, the defaults, and what is done in which order."""
import argparse
import os

from knot_workbench.programs import Caller
from lib import TOP
from lib.batch.problems import part_of, problem_names
from lib.batch.programs import Programs
from lib.batch.runs import Batch, tell
from lib.batch.stages import BatchError, Stage, read_stages
from lib.batch.summary import report
from lib.calls.calls import WordsParser, reason_of
from lib.calls.pools import processors
from lib.calls.signals import Stopped, on_signals
from lib.calls.whole_files import FULL_TEXT, is_full

STAGES = os.path.join(TOP, "tools", "stages.txt")

ABOUT = "Runs a folder of problems through knot and seek, stage by stage, and checks each certificate at the end."

EPILOG = """\
PROBLEMS has the files NAME.txt. In ANSWERS are written
  answers/NAME.txt       how it was tried, in comment lines, and what the program wrote last
  certificates/NAME.txt  the problem followed by its verdict, if there is evidence
  rulings/NAME.txt       what knot check says of this certificate
  summary.csv            a line for each problem
Called again, it goes on where it stopped; a problem that has changed is run anew. docs/BATCH.md has more.

columns of the summary:
  name           the problem's file without .txt; 3_1 comes before 10_1
  first, second  the names of the diagrams, by the comments '# first: NAME' and '# second: NAME', or '# name: NAME' for one alone
  verdict        equal, different or unknown; refused, if the input is malformed or over a limit; none, without an answer; for
                 other jobs different, alike or wide, accepted or rejected, or answered
  evidence       the number of moves, the quandle (with its table, if it has no name), or the numbers of both; for unknown the
                 rest of its line, or 'nothing found' if seek was asked last; otherwise the cause
  stage          the stage that gave this verdict; for unknown the last one that added no quandles of a +FILE
  seconds        the time of all tries together
  check          what the checker said; none, if it gave no answer; empty without a certificate

examples:
  tools/batch.py examples/batch/problems answers
  tools/batch.py --stages my-stages.txt --processes 8 problems answers
  tools/batch.py --job seek problems answers
  tools/batch.py --job check certificates rulings
  tools/batch.py --part 3/16 problems answers

exit status:
  0  every problem has an answer, and every certificate was accepted
  1  as 0, but some problems ended as unknown; with --part the status is 0 then too
  2  an argument is wrong, a folder or a file of stages can't be read, or a program doesn't run; nothing was done
  3  a problem has no answer, can't be read or was refused, a certificate was not accepted, or a file or standard output
     can't be written; each is named on standard error
  70  the script itself failed, with a traceback on standard error
  128 + N  stopped by signal N; called again, it goes on
"""


def parser():
    """The words of the script."""
    words = WordsParser(prog="batch.py", description=ABOUT, epilog=EPILOG, allow_abbrev=False,
                        formatter_class=argparse.RawDescriptionHelpFormatter)
    words.add_argument("problems", metavar="PROBLEMS", help="a folder of files NAME.txt; with --stage, one such file")
    words.add_argument("answers", metavar="ANSWERS", help="the folder of what is made; it is made if it is missing")
    words.add_argument("--job", metavar="JOB",
                       help="decide (default; seek, if --program is called so), seek, or any other job of knot; '' for a program "
                            "that takes no name of a job")
    words.add_argument("--program", metavar="FILE",
                       help="the program of the job (default: what the variable KNOT names, else knot at the top of the tree; for the job "
                            "seek, SEEK and seek)")
    words.add_argument("--seeker", metavar="FILE",
                       help="the seek of the stages that ask it, with the default cocycles of its own tree or installation (default: what SEEK names, "
                            "else that of the tree)")
    words.add_argument("--checker", metavar="FILE", help="the knot that checks the certificates (default: as KNOT or the tree has it)")
    words.add_argument("--stages", metavar="FILE", help="the stages (default: stages.txt beside this script for decide, else one without options)")
    words.add_argument("--no-seek", action="store_true", help="leave out the stages that ask seek, if that isn't built")
    words.add_argument("--processes", type=int, metavar="N",
                       help="how many at once (default: as many as there are processors)")
    words.add_argument("--part", metavar="K/N", help="only part K of N, as on one of several machines; no summary, nothing is checked")
    words.add_argument("--again", action="store_true", help="forget the answers that are there")
    words.add_argument("--stage", metavar="NAME", help="run one problem in this stage, ignoring kept answers")
    # What went is taken, to be refused by a sentence of its own; of --with the values that name what is always done are left.
    words.add_argument("--with", dest="runs", choices=("auto", "parallel", "python"), help=argparse.SUPPRESS)
    words.add_argument("--hosts", help=argparse.SUPPRESS)
    words.add_argument("--trial", action="store_true", help=argparse.SUPPRESS)
    return words


def refuse_what_went(options):
    """Refuses the options by which the script itself called GNU parallel and ssh."""
    given = (("--hosts", options.hosts), ("--with parallel", options.runs == "parallel"), ("--trial", options.trial))
    for name in (name for name, is_given in given if is_given):
        parser().error(f"{name} is no option any more: GNU parallel, ssh or a queue calls the parts of a folder, each by --part K/N; "
                       "docs/BATCH.md has the lines, under 'Several machines'")


def with_defaults(options):
    """The options with the defaults of those that weren't given."""
    if options.job is None:
        is_seek = options.program is not None and os.path.basename(options.program) == "seek"
        options.job = "seek" if is_seek else "decide"
    if options.job == "seek" and options.program and not options.seeker:
        options.seeker, options.program = options.program, None
    knot = os.environ.get("KNOT") or os.path.join(TOP, "knot")
    options.program = options.program or knot
    options.checker = options.checker or knot
    options.seeker = options.seeker or os.environ.get("SEEK") or os.path.join(TOP, "seek")
    options.processes = options.processes or processors()
    options.answers = os.path.abspath(options.answers)
    options.problems = os.path.abspath(options.problems)
    if options.stages is None and options.job == "decide":
        options.stages = STAGES
    options.stages = os.path.abspath(options.stages) if options.stages else None
    return options


def stages_of(options):
    """The stages that the options ask for."""
    stages = read_stages(options.stages, options.job) if options.stages else [Stage("only", options.job, (), ())]
    kept = [stage for stage in stages if not (options.no_seek and stage.job == "seek")]
    if not kept:
        raise BatchError("without seek no stage is left")
    return kept


def stage_of(options, programs):
    """The stage of a call for one problem, by its name, with its programs."""
    stage = next((stage for stage in stages_of(options) if stage.name == options.stage), None)
    if stage is None:
        raise BatchError(f"no stage is called '{options.stage}'")
    programs.prepare(["seek" if stage.job == "seek" else "knot"])
    return programs.completed(stage)


def one_stage(options, programs):
    """Runs one problem in one stage."""
    stage = stage_of(options, programs)
    folder, base = os.path.split(options.problems)
    name, ending = os.path.splitext(base)
    if ending != ".txt":
        raise BatchError(f"{options.problems}: a problem is a file NAME.txt")
    options.problems = folder
    batch = Batch(options, [stage], programs)
    os.makedirs(os.path.join(options.answers, "answers"), exist_ok=True)
    return 0 if batch.guarded(lambda name: batch.try_stage(name, batch.stages[0]), name) else 3


def prepare(options, stages, programs):
    """Has the programs built where that is due, and tries the words of each stage: the stages as they are run."""
    uses = {"seek" if stage.job == "seek" else "knot" for stage in stages}
    if options.job != "check":
        uses.add("check")
    programs.prepare(sorted(uses))
    stages = [programs.completed(stage) for stage in stages]
    for stage in stages:
        programs.probe(programs.call(stage), f"stage {stage.name}")
    if options.job != "check":
        programs.probe([programs.path("check"), "check"], "the checker")
    return stages


def many(options, stages, programs):
    """Runs a folder of problems through the stages, checks what they gave, and writes the summary."""
    names, unreadable = problem_names(options.problems)
    names = part_of(names, options.part)
    if not names:
        tell(f"part {options.part} is empty: there is nothing to do")
        return 0
    batch = Batch(options, prepare(options, stages, programs), programs)
    try:
        batch.make_folders()
    except OSError as error:
        raise BatchError(reason_of(error)) from None
    readable = [name for name in names if name not in unreadable]
    if options.again:
        batch.forget(readable)
    batch.run_stages(readable, options.processes)
    if options.part is None:
        batch.each(readable, batch.check, options.processes)
    return report(batch, names, unreadable, options.part is None)


def main(words):
    """Does what the words ask for: the exit status."""
    options = parser().parse_args(words)
    if options.processes is not None and options.processes < 1:
        parser().error("--processes takes 1 or more")
    refuse_what_went(options)
    on_signals()
    try:
        with_defaults(options)
        programs = Programs(Caller(), options.program, options.seeker, options.checker)
        return one_stage(options, programs) if options.stage else many(options, stages_of(options), programs)
    except BatchError as error:
        tell(str(error))
        return 2
    except OSError as error:
        tell(reason_of(error) + (f": {FULL_TEXT}" if is_full(error) else ""))
        return 3
    except Stopped as stopped:
        tell(f"stopped by signal {stopped.number}; called again, it goes on")
        return 128 + stopped.number
