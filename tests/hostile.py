#!/usr/bin/env python3
"""Runs the built program as a user on a bad day would meet it, and compares each answer with that of an independent reader.

    tests/hostile.sh                              everything, with 100,000 random changes of the examples
    tests/hostile.sh --cases 5000 --jobs 2        fewer changes, two processes
    tests/hostile.sh --only streams,memory        some sections
    tests/hostile.sh --only changes --first 7041 --cases 1    one case again
    KNOT=/some/where/knot tests/hostile.sh        another program; also --program
    tests/hostile.sh --checker PATH               and another separate checker; also KNOT_CHECK
    tests/hostile.sh --seek PATH                  and another seeker, for the section `seek`; also SEEK

It is no part of the gate. It looks for these things: that no call ends by a signal or hangs, that nothing is written on standard error,
which is no terminal here, that nothing is half written but by a counted write fault, and that status and text are what docs/FORMATS.md
says. The last line has the figures, and the exit status is 1 where anything differs. Each difference is put into a folder (--folder),
with its words, its input and both answers. Cases of the job `check` without options are tried on the separate checker too, where it was
built or is named.
"""
import argparse
import itertools
import os
import resource
import signal
import sys
import tempfile
import time
from collections import Counter
from multiprocessing import Pool

import calls
import cases
import changes
import reader
from reader import DONE, MALFORMED, OUT_OF_MEMORY, READ_FAULT, USAGE, WRITE_FAULT

HERE = os.path.dirname(os.path.abspath(__file__))
TOP = os.path.dirname(HERE)
# The page with the small bad inputs.
BAD_INPUTS = os.path.join(TOP, "docs", "FORMATS.md")
EXAMPLES = os.path.join(TOP, "examples")


# ---------------------------------------------------------------- one case

class Tried:
    """What came of a case: how it ended, how far the answer was compared, and what is wrong."""

    def __init__(self, case, ended, kind, problem):
        self.section, self.name, self.words, self.data = case.section, case.name, case.words, case.data
        self.status, self.text, self.errors = ended.status, ended.text, ended.errors
        self.kind, self.problem = kind, problem
        self.way, self.need = case.way, case.need
        if problem is None:
            # What isn't reported needn't travel.
            self.data = self.text = b""


def crash_of(ended):
    """What is wrong with a call whatever its input was; None: nothing."""
    if ended.status is None:
        return "it hangs"
    if ended.status < 0:
        return f"it ends by signal {signal.Signals(-ended.status).name}"
    if ended.errors:
        return f"it writes on standard error: {ended.errors[:200]!r}"
    return None


def is_front(part, whole):
    return len(part) < len(whole) and whole.startswith(part)


def reads_input(words):
    """Whether these words make the program read."""
    try:
        job, _ = reader.read_words(words)
    except reader.Refused:
        return False
    return reader.JOBS[job][0] is not None


class Trier:
    """Tries cases with one program: knot, or the separate checker, which isn't given the word `check`."""

    def __init__(self, program, room, is_checker=False):
        self.caller = calls.Caller(program, room, 1 if is_checker else 0)
        self.whole = {}
        self.starts = {}

    def plain(self, case):
        ended = self.caller.call(case.words, case.data, case.program_name)
        answer = reader.answer(case.words, case.data, case.program_name)
        problem = crash_of(ended) or answer.problem_with(ended.status, ended.text)
        if case.due is not None and ended.text != case.due:
            problem = f"text {ended.text[:100]!r}, and docs/FORMATS.md says {case.due!r}"
        return ended, answer.kind, problem

    def due(self, case):
        """What the call writes on an ordinary day, which the reader has found right."""
        key = tuple(case.words), hash(case.data)
        if key not in self.whole:
            ended, _, problem = self.plain(cases.Case("", "", case.words, case.data))
            self.whole[key] = ended, problem
        return self.whole[key]

    def special(self, case, ended, allowed=()):
        """Compares with the ordinary day, but for what is allowed here: read fault, write fault, no memory."""
        due, problem = self.due(case)
        problem = problem or crash_of(ended)
        if not problem and (ended.status, ended.text) != (due.status, due.text):
            is_allowed = (ended.status in allowed
                          and (is_front(ended.text, due.text) if ended.status == WRITE_FAULT else ended.text == b""))
            # A search by many workers may write something else the next time, as lawful as the first.
            if not is_allowed and reader.answer(case.words, case.data).problem_with(ended.status, ended.text):
                problem = f"status {ended.status} and {len(ended.text)} bytes, where status {due.status} and {len(due.text)} bytes are due"
        return ended, "ordinary", problem

    def read_fault(self, case, ended):
        """Reading must fail; what is due without an input isn't touched."""
        if not reads_input(case.words):
            return self.special(case, ended)
        problem = crash_of(ended)
        if not problem and (ended.status, ended.text) != (READ_FAULT, b""):
            problem = f"status {ended.status} and {ended.text[:100]!r}, where status 5 and nothing is due"
        return ended, "ordinary", problem

    def write_fault(self, case, ended):
        """Writing must fail at once."""
        problem = crash_of(ended)
        if not problem and (ended.status, ended.text) != (WRITE_FAULT, b""):
            problem = f"status {ended.status} and {ended.text[:100]!r}, where status 6 and nothing is due"
        return ended, "ordinary", problem

    def by_stream(self, case):
        """Standard input or output is odd."""
        way, words, data = case.way, case.words, case.data
        if way == "closed input":
            return self.read_fault(case, self.caller.call_by(words, data, before=lambda: os.close(0)))
        if way in ("directory as input", "input that is only written", "busy input"):
            stdin, others = self.bad_input(way)
            try:
                return self.read_fault(case, self.caller.call_by(words, data, stdin=stdin))
            finally:
                for other in (stdin, *others):
                    os.close(other)
        if way in ("empty device as input", "endless input"):
            return self.by_device(case, "/dev/null" if way.startswith("empty") else "/dev/zero")
        if way in ("full output", "output that is only read"):
            stdout = os.open("/dev/full", os.O_WRONLY) if way == "full output" else os.open("/dev/null", os.O_RDONLY)
            try:
                return self.write_fault(case, self.caller.call_by(words, data, stdout=stdout))
            finally:
                os.close(stdout)
        if way == "output full at once":
            before = calls.limit(resource.RLIMIT_FSIZE, 0)
            return self.write_fault(case, self.caller.call_by(words, data, before=before, ignored=(signal.SIGXFSZ,)))
        closed = {"closed output": (1,), "both closed": (0, 1), "all closed": (0, 1, 2)}[way]

        def close():
            for number in closed:
                os.close(number)

        ended = self.caller.call_by(words, data, before=close)
        if 0 in closed and reads_input(words):
            return self.read_fault(case, ended)
        return self.write_fault(case, ended)

    def bad_input(self, way):
        """An input that can't be read, and what else has to be closed then."""
        if way == "directory as input":
            return os.open("/", os.O_RDONLY), []
        if way == "input that is only written":
            return os.open("/dev/null", os.O_WRONLY), []
        out, into = os.pipe()
        os.set_blocking(out, False)
        return out, [into]

    def by_device(self, case, device):
        with open(device, "rb") as stdin:
            ended = self.caller.call_by(case.words, b"", stdin=stdin)
        answer = reader.answer(case.words, b"" if device == "/dev/null" else bytes(33 * reader.MEBIBYTE))
        return ended, "ordinary", crash_of(ended) or answer.problem_with(ended.status, ended.text)

    def slow_input(self, case):
        return self.special(case, self.caller.call_slowly(case.words, case.data, *case.need))

    def leaving_reader(self, case):
        taken, is_ignored = case.need
        ended = self.caller.call_left(case.words, case.data, taken, (signal.SIGPIPE,) if is_ignored else ())
        due, problem = self.due(case)
        problem = problem or crash_of(ended)
        if not problem and ended.status not in (due.status, WRITE_FAULT):
            problem = f"status {ended.status}, where {due.status} or 6 is due"
        if not problem and ended.text != due.text[:taken]:
            problem = f"{len(ended.text)} bytes came, which aren't the first {taken} of what is due"
        if not problem and taken == 0 and ended.status != WRITE_FAULT:
            problem = f"status {ended.status}, though there is no reader"
        return ended, "ordinary", problem

    def few_files(self, case):
        return self.special(case, self.caller.call_by(case.words, case.data, before=calls.limit(resource.RLIMIT_NOFILE, case.need)))

    def no_threads(self, case):
        return self.special(case, self.caller.call_by(case.words, case.data, before=calls.no_threads))

    def few_bytes_of_memory(self, case):
        before = calls.limit(resource.RLIMIT_AS, case.need)
        if case.need not in self.starts:
            # Whether the system can load the program at all within so little.
            ended = self.caller.call_by([], b"", before=before)
            self.starts[case.need] = ended.status in (USAGE, OUT_OF_MEMORY, MALFORMED) and not ended.errors
        ended = self.caller.call_by(case.words, case.data, before=before)
        if not self.starts[case.need]:
            return calls.Ended(None, b""), "not started", "text on standard output" if ended.text else None
        return self.special(case, ended, (OUT_OF_MEMORY,))

    def small_stack(self, case):
        return self.special(case, self.caller.call_by(case.words, case.data, before=calls.limit(resource.RLIMIT_STACK, case.need)))

    def tiny_stack(self, case):
        """A signal is allowed here, and nothing is to be half written."""
        ended = self.caller.call_by(case.words, case.data, before=calls.limit(resource.RLIMIT_STACK, case.need))
        if ended.status is not None and ended.status < 0 and ended.text == b"":
            return ended, "by signal", None
        return self.special(case, ended, (OUT_OF_MEMORY,))

    def small_files(self, case):
        size, is_ignored = case.need
        ended = self.caller.call_by(case.words, case.data, before=calls.limit(resource.RLIMIT_FSIZE, size),
                                    ignored=(signal.SIGXFSZ,) if is_ignored else ())
        due, _ = self.due(case)
        if not is_ignored and ended.status == -signal.SIGXFSZ and ended.text == due.text[:size] != due.text:
            return ended, "by signal", None
        if len(due.text) > size and ended.status != WRITE_FAULT:
            return ended, "ordinary", f"status {ended.status}, where {len(due.text)} bytes are due and {size} have room"
        return self.special(case, ended, (WRITE_FAULT,))

    def no_words(self, case):
        """The system may refuse such a call; where it doesn't, the words ask for no job."""
        ended = self.caller.call_without_words(case.data)
        if ended.status == 126:
            return ended, "not started", None
        return ended, "whole", crash_of(ended) or reader.answer([], case.data).problem_with(ended.status, ended.text)

    WAYS = {"plain": plain, "slow input": slow_input, "reader that leaves": leaving_reader, "few files": few_files, "no threads": no_threads,
            "memory": few_bytes_of_memory, "stack": small_stack, "tiny stack": tiny_stack, "file size": small_files, "no words": no_words}

    def tried(self, case):
        way = self.WAYS.get(case.way, Trier.by_stream)
        return Tried(case, *way(self, case))


class SeekTrier:
    """Tries `seek` under limits of the system: it must find what it finds on an ordinary day, or end with nothing written if memory runs out."""

    OLD = b"what was there\n"

    def __init__(self, program, room):
        self.caller = calls.Caller(program, room, name=b"seek")
        self.out = os.path.join(self.caller.folder, "out-file")
        self.due, self.starts = {}, {}

    def call(self, case, before=None):
        """How the call ends. What the file has that it may write comes as its text, where there is one."""
        with open(self.out, "wb") as file:
            file.write(self.OLD)
        words = [self.out.encode() if word == b"OUT" else word for word in case.words]
        ended = self.caller.call_by(words, case.data, before=before)
        with open(self.out, "rb") as file:
            written = file.read()
        if written != self.OLD or ended.status == DONE and b"OUT" in case.words:
            ended.text += written
        return ended

    def problem(self, case, ended):
        """What is wrong but for the status."""
        if ended.status is None or ended.status < 0:
            return crash_of(ended)
        if any(not line.startswith(b"seek: ") for line in ended.errors.splitlines()):
            return f"it writes on standard error: {ended.errors[:200]!r}"
        if ended.status != DONE:
            return f"status {ended.status} and {len(ended.text)} bytes are written" if ended.text else None
        ruling = reader.answer([b"check"], case.data + ended.text)
        return ruling.problem_with(DONE, b"accepted\n")

    def ordinary(self, case):
        """The status on an ordinary day, and what is wrong then."""
        key = tuple(case.words), case.data
        if key not in self.due:
            ended = self.call(case)
            problem = self.problem(case, ended)
            self.due[key] = ended.status, problem or (f"status {ended.status}" if ended.status not in (DONE, reader.UNKNOWN) else None)
        return self.due[key]

    def begins(self, size, before):
        """Whether the system can load the program at all within so little."""
        if size not in self.starts:
            ended = self.caller.call_by([b"--version"], b"", before=before)
            self.starts[size] = ended.status in (DONE, OUT_OF_MEMORY)
        return self.starts[size]

    def tried(self, case):
        due, problem = self.ordinary(case)
        before = calls.limit(resource.RLIMIT_AS if case.way == "memory" else resource.RLIMIT_STACK, case.need)
        ended = self.call(case, before)
        if case.way == "memory" and not self.begins(case.need, before):
            return Tried(case, calls.Ended(None, b""), "not started", "text on standard output" if ended.text else None)
        if case.way == "tiny stack" and ended.status is not None and ended.status < 0 and not ended.text:
            return Tried(case, ended, "by signal", problem)
        problem = problem or self.problem(case, ended)
        if not problem and ended.status not in (due, OUT_OF_MEMORY):
            problem = f"status {ended.status}, where {due} or {OUT_OF_MEMORY} is due"
        return Tried(case, ended, "ordinary", problem)


# ---------------------------------------------------------------- many cases

WORKER = {}


def begin_worker(programs, room, seed, patience=calls.PATIENCE, again=reader.Searched.TRIED_AGAIN):
    signal.signal(signal.SIGTERM, signal.SIG_DFL)
    calls.PATIENCE = patience
    reader.Searched.TRIED_AGAIN = again
    # The reader takes seconds for tables of many colours.
    bases = [base for base in changes.examples(EXAMPLES, reader.JOBS) if len(base[3]) <= 5000]
    program, checker, seeker = programs
    WORKER.update(trier=Trier(program, room), checker=Trier(checker, room, is_checker=True) if checker else None,
                  seeker=SeekTrier(seeker, room) if seeker else None)
    WORKER.update(seed=seed, bases=bases, lines=[line for base in bases for line in base[3].split(b"\n")])


def is_checkers(case):
    """Whether a case asks for what the separate checker does. (It rules whatever its own name is.)"""
    return case.words == [b"check"] and case.program_name == b"knot"


def try_one(case):
    """A case, or the number of a random change: what came of it, by each program that does this job."""
    if isinstance(case, int):
        words, data = changes.make(WORKER["seed"], case, WORKER["bases"], WORKER["lines"])
        case = cases.Case("changes", f"{case}", words, data)
    if case.section == "seek":
        return [WORKER["seeker"].tried(case)]
    found = [WORKER["trier"].tried(case)]
    if WORKER["checker"] and is_checkers(case):
        found.append(WORKER["checker"].tried(case))
        found[-1].name += ", by the separate checker"
    return found


class Figures:
    """What is counted, by section and in all."""

    FAULTS = (READ_FAULT, WRITE_FAULT, OUT_OF_MEMORY, reader.NOT_UTF8)

    def __init__(self):
        self.statuses, self.kinds, self.differences = Counter(), Counter(), 0

    def count(self, tried):
        if tried.kind not in ("not started",):
            self.statuses[tried.status] += 1
        self.kinds[tried.kind] += 1
        self.differences += tried.problem is not None

    def add(self, other):
        self.statuses += other.statuses
        self.kinds += other.kinds
        self.differences += other.differences

    def __str__(self):
        number = sum(self.kinds.values())
        faults = sum(self.statuses[status] for status in self.FAULTS)
        line = f"{number} cases, {faults} faults, {self.differences} differences"
        statuses = ", ".join(f"{status}: {count}" for status, count in sorted(self.statuses.items(), key=str))
        kinds = ", ".join(f"{kind}: {count}" for kind, count in sorted(self.kinds.items()))
        return f"{line}\n    by status {statuses}\n    compared {kinds}"


def report(folder, tried):
    """Puts a difference into the folder, and says so."""
    name = "".join(letter if letter.isalnum() else "-" for letter in f"{tried.section} {tried.name}")[:100]
    place = os.path.join(folder, name)
    os.makedirs(place, exist_ok=True)
    for file, content in (("input", tried.data), ("words", b"\n".join(tried.words) + b"\n"), ("found", tried.text), ("errors", tried.errors),
                          ("why", f"{tried.way} {tried.need}\nstatus {tried.status}\n{tried.problem}\n".encode())):
        with open(os.path.join(place, file), "wb") as out:
            out.write(content)
    print(f"differs: {tried.section}: {tried.name}: {tried.problem}", flush=True)


def run_section(pool, name, all_cases, folder, chunk):
    figures, shown, begin = Figures(), 0, time.time()
    for tried in itertools.chain.from_iterable(pool.imap_unordered(try_one, all_cases, chunk)):
        figures.count(tried)
        if tried.problem:
            shown += 1
            if shown <= 200:
                report(folder, tried)
    print(f"{name}: {figures}\n    in {time.time() - begin:.0f} seconds", flush=True)
    return figures


def program_of(given):
    """The program to run: what is given, or that of this folder, built by the launcher if need be."""
    if given:
        return os.path.abspath(given)
    launcher = os.path.join(TOP, "knot")
    if os.system(f"'{launcher}' code < '{EXAMPLES}/code/unknot.txt' > /dev/null") != 0:
        sys.exit("the program could not be built")
    return os.path.join(TOP, "crates", "knot", "out", "knot")


def built_of(name, given):
    """The separate checker or the seeker: what is given, or what was built; None where it wasn't."""
    built = os.path.join(TOP, "crates", name, "out", name)
    if given and not os.access(given, os.X_OK):
        sys.exit(f"{given} is no program")
    return os.path.abspath(given) if given else built if os.access(built, os.X_OK) else None


def options_given():
    parser = argparse.ArgumentParser(description=__doc__, formatter_class=argparse.RawDescriptionHelpFormatter)
    parser.add_argument("--program", default=os.environ.get("KNOT"), help="the program to run; also by the environment, as KNOT")
    parser.add_argument("--checker", default=os.environ.get("KNOT_CHECK"), help="the separate checker; crates/knot_check/out/knot_check where it is there")
    parser.add_argument("--seek", default=os.environ.get("SEEK"), help="the seeker; crates/seek/out/seek where it is there")
    parser.add_argument("--seed", default="1", help="what random changes are made from")
    parser.add_argument("--cases", type=int, default=100_000, help="how many random changes")
    parser.add_argument("--first", type=int, default=0, help="the number of the first one")
    parser.add_argument("--jobs", type=int, default=os.cpu_count(), help="how many processes")
    parser.add_argument("--only", default="", help="sections, with commas between: " + ", ".join([*cases.sections([], "", ""), "changes"]))
    parser.add_argument("--match", default="", help="of the sections but `changes`, only cases with this in their name")
    parser.add_argument("--patience", type=float, default=calls.PATIENCE, help="after how many seconds a call counts as hanging")
    parser.add_argument("--again", type=int, default=reader.Searched.TRIED_AGAIN,
                        help="up to how many diagrams the reader counts what a search has reached; 60 takes seconds a case")
    parser.add_argument("--folder", default="/tmp/knot-hostile-differences", help="where differences are put")
    return parser.parse_args()


def main():
    options = options_given()
    program, checker, seeker = program_of(options.program), built_of("knot_check", options.checker), built_of("seek", options.seek)
    wanted = [name for name in options.only.split(",") if name]
    bases = changes.examples(EXAMPLES, reader.JOBS)
    sections = cases.sections(bases, options.seed, BAD_INPUTS)
    sections["changes"] = lambda: range(options.first, options.first + options.cases)
    total, begin = Figures(), time.time()
    if not seeker:
        del sections["seek"]
        if not wanted or "seek" in wanted:
            print("seek: passed over, since there is no program crates/seek/out/seek, and --seek names none", flush=True)
    # So that a signal, too, ends the workers and removes their folders.
    signal.signal(signal.SIGTERM, lambda *_: sys.exit(128 + signal.SIGTERM))
    with tempfile.TemporaryDirectory(prefix="knot-hostile.") as room:
        begun = (program, checker, seeker), room, options.seed, options.patience, options.again
        with Pool(options.jobs, begin_worker, begun) as pool:
            for name, make in sections.items():
                if not wanted or name in wanted:
                    chunk = 50 if name in ("changes", "cuts", "words") else 1
                    chosen = (case for case in make() if isinstance(case, int) or options.match in case.name)
                    total.add(run_section(pool, name, chosen, options.folder, chunk))
    number = sum(total.kinds.values())
    print(f"all: {total}\n    with seed {options.seed}, in {time.time() - begin:.0f} seconds, by {program}{f' and {checker}' if checker else ''}")
    if total.differences:
        print(f"each difference is in {options.folder}")
    return 0 if number and not total.differences else 1


if __name__ == "__main__":
    sys.exit(main())
