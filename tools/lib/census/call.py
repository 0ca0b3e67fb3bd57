"""The call of a census: its words, and what is done in which order."""
import argparse
import json
import os

from knot_workbench.code_grids import Grids
from knot_workbench.faults import Fault, NoProgram
from knot_workbench.programs import Caller, path_of
from knot_workbench.tables.entries import Conventions
from knot_workbench.tables.knots import BOTH, MIRRORED, REVERSED, SAME
from lib import TOP
from lib.batch.problems import part_of, problem_names
from lib.batch.programs import Programs
from lib.batch.runs import bytes_if_there, tell, write_named
from lib.batch.stages import BatchError, Stage
from lib.calls.calls import StreamError, WordsParser, reason_of, say
from lib.calls.pools import processes, processors
from lib.calls.signals import Stopped, on_signals
from lib.calls.store import LineForm, StoreError
from lib.calls.whole_files import FULL_TEXT, is_full, sweep_parts
from lib.census.page import census_page
from lib.census.plan import WITH_OPTIONS, read_plan
from lib.census.results import SAID, Results, digest_of
from lib.census.steps import Steps
from lib.sorting.sorting import DiagramRow, Sorting
from lib.sorting.worker import Worker
from lib.sorting.worker_classes import check_text
from lib.tables.given import Given
from lib.tables.programs import use_programs

PLAN = os.path.join(TOP, "tools", "census.txt")

# The form of what is known. The keys say all that decides an answer, so that a census may get other diagrams and another plan.
FORM = LineForm("census 2", "the folder is of another version")

ABOUT = "Sorts a folder of diagrams into classes: which of them are the same link."

EPILOG = """\
DIAGRAMS has the files NAME.txt, each with one diagram: a grid, a braid or a crossing code. In CENSUS are written
  classes.csv        name, class, as, columns, known, certificate, check, row: a line for each diagram
  apart.csv          first, second, as, by, evidence, check: what distinguishes two classes
  undecided.csv      first, second, as, tried: pairs of classes without evidence
  certificate-1.txt  a certificate of version 4 with all of this, which knot check accepts; more of them if one would be too large
  apart/             a certificate for each two classes that only linking numbers distinguish
  classes.html       the classes with pictures of their least diagrams, on one page
  work/              what is known so far
Called again, it goes on where it stopped, and takes in what is new in DIAGRAMS. docs/BATCH.md has more.

examples:
  tools/census.py sort diagrams census
  tools/census.py sort --mirror diagrams census
  tools/census.py apart census 4_1 8_20
  tools/census.py sort --part 3/16 diagrams census

exit status:
  0  each two classes are distinguished, and every certificate was accepted
  1  as 0, but some pairs of classes are undecided
  2  the command line is invalid, or a folder, the plan or a program can't be used; nothing was done
  3  a diagram can't be read, a question has no answer, or a certificate was not accepted; each is named on standard error
  70  the script itself failed, with a traceback on standard error
  128 + N  stopped by signal N; called again, it goes on
"""


class Unfinished(Exception):
    """Something has to be asked, and nothing may be."""


class NoPool:
    """Stands for workers where nothing may be asked."""

    def each(self, function, items, lot=1):
        """No answers to no questions. Raises Unfinished where there are some."""
        if items:
            raise Unfinished()
        return ()


def parser():
    """The words of the script."""
    words = WordsParser(prog="census.py", description=ABOUT, epilog=EPILOG, allow_abbrev=False, formatter_class=argparse.RawDescriptionHelpFormatter)
    acts = words.add_subparsers(dest="act", required=True, metavar="sort | apart")
    sort = acts.add_parser("sort", help="sort a folder of diagrams", allow_abbrev=False)
    sort.add_argument("diagrams", metavar="DIAGRAMS", help="a folder of files NAME.txt, each with one diagram")
    sort.add_argument("census", metavar="CENSUS", help="the folder of what is made; it is made if it is missing")
    sort.add_argument("--mirror", action="store_true", help="a diagram and its mirror image are in one class")
    sort.add_argument("--reverse", action="store_true", help="a diagram and the one that is run through backwards are in one class")
    sort.add_argument("--plan", metavar="FILE", help="the steps (default: census.txt beside this script)")
    sort.add_argument("--part", metavar="K/N", help="draw part K of N of the diagrams, and no more: a task of a queue")
    apart = acts.add_parser("apart", help="write a certificate of two diagrams: that they differ, or that they don't", allow_abbrev=False)
    apart.add_argument("census", metavar="CENSUS", help="a folder that `sort` has made")
    apart.add_argument("names", metavar="NAME", nargs=2, help="two diagrams; the certificate goes to standard output")
    for act in (sort, apart):
        act.add_argument("--processes", type=int, metavar="N", default=processors(), help="how many at once (default: as many as there are processors)")
    return words


def turns_of(is_mirror, is_reverse):
    """The turns by which a census takes diagrams for one."""
    return [SAME] + [MIRRORED] * is_mirror + [REVERSED] * is_reverse + [BOTH] * (is_mirror and is_reverse)


def programs_of(plan):
    """The programs, built where that is due; the options of each step are tried on no input."""
    use_programs()
    programs = Programs(Caller(), path_of("knot"), path_of("seek"), None)
    for step in plan:
        if step.kind in WITH_OPTIONS:
            programs.probe(programs.call(programs.completed(Stage(step.name, step.kind, step.words, ()))), f"step {step.name}")
    return programs


class CensusFolder:
    """A folder of diagrams, and the folder of what is made of it: `settings` are the path of the plan and whether mirror images and reverses are
    one with a diagram."""

    def __init__(self, folder, diagrams, settings):
        self.folder, self.diagrams = folder, diagrams
        self.plan, self.turns = read_plan(settings["plan"]), turns_of(settings["mirror"], settings["reverse"])
        self.steps = None
        counting = [step for step in self.plan if step.kind == "numbers"]
        self.lists = ["".join(block.text for block in step.blocks) for step in counting]
        self.list_of = {step.name: place for place, step in enumerate(counting)}
        self.labels = {block.text.removeprefix("quandle "): block for step in counting for block in step.blocks}

    def pool(self, count):
        """So many workers."""
        conventions = Conventions("columns", False, False, None, Grids(None))
        return processes(count, Worker, (path_of("knot"), path_of("seek"), self.lists, None, conventions, self.turns))

    def sorting(self, pool):
        """The sorting of this census by workers."""
        # Rows, keys, classes distinguished, certificates and twice rulings; linking numbers are asked for at the end too.
        return Sorting("census.py", os.path.join(self.folder, "work"), FORM, pool, self.lists, self.turns, len(self.plan) + 7)

    def texts(self, sorting):
        """The texts of the diagrams by name: first those that were there before, in their order, and then what is new."""
        names, unreadable = problem_names(self.diagrams)
        known = (bytes_if_there(os.path.join(self.folder, "names.txt")) or b"").decode("utf-8", "surrogateescape").splitlines()
        is_known = set(known)
        order = known + [name for name in names if name not in is_known]
        if order != known:
            write_named(os.path.join(self.folder, "names.txt"), "".join(name + "\n" for name in order).encode("utf-8", "surrogateescape"))
        is_there, found = set(names), {}
        for name in order:
            if name in is_there and name not in unreadable:
                try:
                    with open(os.path.join(self.diagrams, name + ".txt"), encoding="utf-8") as file:
                        found[name] = file.read()
                except (OSError, UnicodeDecodeError) as error:
                    unreadable[name] = getattr(error, "strerror", None) or "not UTF-8"
        for name, reason in unreadable.items():
            sorting.fault(f"{self.path(name)}: {reason}")
        return found

    def path(self, name):
        """The file of a diagram."""
        return os.path.join(self.diagrams, name) + ".txt"

    def drawn(self, sorting, part=None):
        """Draws the diagrams, or a part of them: their rows by names."""
        texts = self.texts(sorting)
        texts = {name: texts[name] for name in part_of(list(texts), part)}
        marks = {name: digest_of(text) for name, text in texts.items()}
        given = {marks[name]: Given(name, self.path(name), text, "file") for name, text in texts.items()}
        rows = sorting.rows(list(given.items()), f"-{part.replace('/', '-of-')}" if part else "")
        return {name: DiagramRow(rows[mark].fields) for name, mark in marks.items()}

    def sorted(self, sorting, programs):
        """The classes, as far as the steps of the plan decide."""
        rows = sorting.with_keys(self.drawn(sorting), {name: self.path(name) for name in problem_names(self.diagrams)[0]})
        self.steps = Steps(sorting, programs, self.list_of)
        for step in self.plan:
            self.steps.run(step)
        return Results(self.folder, sorting, self.steps, rows, self.labels)


def settings_path(census):
    """The file that keeps what a census was made with."""
    return os.path.join(census, "census.json")


def sort(options):
    """Sorts a folder of diagrams: the exit status."""
    plan = os.path.abspath(options.plan or PLAN)
    census = CensusFolder(options.census, options.diagrams, {"plan": plan, "mirror": options.mirror, "reverse": options.reverse})
    part_of([], options.part)
    problem_names(options.diagrams)
    programs = programs_of(census.plan)
    try:
        os.makedirs(os.path.join(options.census, "work"), exist_ok=True)
    except OSError as error:
        raise BatchError(reason_of(error)) from None
    for folder in (options.census, os.path.join(options.census, "work")):
        sweep_parts(folder)
    # The paths are kept as seen from the census, so that all may be moved together.
    kept = {"diagrams": os.path.relpath(options.diagrams, options.census), "plan": os.path.relpath(plan, options.census),
            "mirror": options.mirror, "reverse": options.reverse}
    write_named(settings_path(options.census), (json.dumps(kept, indent=1) + "\n").encode())
    with census.pool(options.processes) as pool:
        sorting = census.sorting(pool)
        try:
            return draw_diagrams(census, sorting, options.part) if options.part else sort_whole(census, sorting, programs)
        finally:
            sorting.close()


def draw_diagrams(census, sorting, part):
    """Draws a part of the diagrams: the exit status."""
    rows = census.drawn(sorting, part)
    drawn = sorting.drawn(rows, {name: census.path(name) for name in rows})
    say(f"part {part}: {len(drawn)} of {len(rows)} diagrams are drawn")
    return 3 if sorting.faults else 0


def sort_whole(census, sorting, programs):
    """Sorts all, and writes what came of it: the exit status."""
    results = census.sorted(sorting, programs)
    results.write_certificates()
    results.write()
    write_named(os.path.join(census.folder, "classes.html"), census_page(results).encode("utf-8", "surrogateescape"))
    say(results.count_line())
    return 3 if sorting.faults else 1 if results.undecided else 0


def apart(options):
    """Writes a certificate of two diagrams: the exit status."""
    try:
        with open(settings_path(options.census), encoding="utf-8") as file:
            kept = json.load(file)
        diagrams, plan = (os.path.normpath(os.path.join(options.census, kept[key])) for key in ("diagrams", "plan"))
        census = CensusFolder(options.census, diagrams, {**kept, "plan": plan})
    except OSError as error:
        raise BatchError(f"{options.census}: no census that `sort` has made is there: {error.strerror}") from None
    except (ValueError, KeyError, TypeError):
        raise BatchError(f"{settings_path(options.census)}: the file was changed since `sort` made it") from None
    programs = programs_of(())
    sorting = census.sorting(NoPool())
    try:
        results = census.sorted(sorting, programs)
        for name in options.names:
            if name not in results.given:
                raise BatchError(f"{name}: no diagram of this name is in the census")
        with census.pool(options.processes) as pool:
            sorting.pool = pool
            return write_of_two(options.names, results)
    except Unfinished:
        raise BatchError(f"{options.census}: not all is sorted: call `sort` first") from None
    finally:
        sorting.close()


def write_of_two(names, results):
    """Writes the certificate of two diagrams to standard output: the exit status."""
    texts, pairs = results.of_two(*names)
    rulings = [said for _, said in results.sorting.pool.each(check_text, texts)]
    if not pairs:
        first = results.classes[results.standings.places[results.standings.end(results.given[names[0]].form)[0]].number].first
        tell(f"{' and '.join(names)} are in one class, that of {first}")
    for pair, by in pairs:
        said = f"{results.first(pair.one)} and {results.first(pair.other)}{pair.turn.words and ', ' + SAID[pair.turn]}"
        tell(f"{said}: undecided: {results.vain(pair)}" if by is None else f"{said}: {by}: {'accepted' if set(rulings) == {'accepted'} else 'not accepted'}")
    for text in texts:
        say(text.rstrip("\n"))
    return 3 if set(rulings) != {"accepted"} else 1 if not pairs or any(by is None for _, by in pairs) else 0


def main(words):
    """Does what the words ask for: the exit status."""
    tell.script = "census.py"
    options = parser().parse_args(words)
    options.census = os.path.abspath(options.census)
    if options.processes < 1:
        parser().error("--processes takes 1 or more")
    on_signals()
    try:
        return sort(options) if options.act == "sort" else apart(options)
    except (BatchError, NoProgram, StoreError) as error:
        tell(str(error))
        return 2
    except StreamError:
        raise
    except Fault as fault:
        tell(reason_of(fault) if isinstance(fault, OSError) else str(fault))
        return 3
    except OSError as error:
        tell(reason_of(error) + (f": {FULL_TEXT}" if is_full(error) else ""))
        return 3
    except Stopped as stopped:
        tell(f"stopped by signal {stopped.number}; called again, it goes on")
        return 128 + stopped.number
