#!/usr/bin/env python3
"""Runs the rows of tests/rows/ on the built programs: calls with an input, and what each must answer.

    tests/rows.py                            all rows
    tests/rows.py codes texts/braids         those of some files of tests/rows/
    tests/rows.py --knot PATH --seek PATH    on these programs; KNOT and SEEK in the environment name them too
    tests/rows.py --check PATH               and the rows of `knot check` on the separate checker too; or KNOT_CHECK

Where none is named, ./knot and ./seek are called once, which builds them, and then what they built is called itself. The separate checker
answers too where it is named, or crates/knot_check/out/knot_check is there. It writes nothing on standard error. Rows that call it by its own
name, knot_check, are passed over where it isn't there.

A file has a subject, and is read by people. A row is a name, a call, and parts. The content of a part is indented by four blanks:

    == names of quandles have a form
    knot colour
    input
        x 0 1
        o 1 0
        ...
    each of
        quandle
        quandle trivial 2 2
    answer 3
        malformed line 3

  input                     standard input; without it there is none
  typed input               standard input is a terminal, at which this text is typed, and then its end
  unreadable input          standard input is a folder, so that each read fails
  input is NAME             standard input is this file, which lies where the call is made
  word WORD                 one word more, with escapes as within lines
  file NAME                 a file that lies where the call is made, or in a folder there
  link NAME to OTHER        a symbolic link that lies there, with this text as its target
  pipe NAME                 a named pipe that lies there; the content of the part is written into it, and if there is none, it is read
  memory N                  the call has N kilobytes of address space; where the program was built with a sanitizer, the row is passed over
  full output               standard output is a full device, so that each write fails
  output to NAME            standard output is this file, which lies where the call is made: the output is appended to it
  each of                   a case for each line, which takes the place of the line `...` above, up to the next `each of`
  answer STATUS             the exit status, and standard output
  front STATUS              the exit status, and what standard output begins with
  error                     standard error; of knot it is what a terminal gets, since knot says nothing where standard error is none
  taken                     the input is read: the status is 0, 1 or 8
  accepted behind it        the status is 0, and `knot check` accepts the input followed by what is written
  accepted in NAME          the same of the content of this file
  simplified to N columns   a grid of N columns, moves and `irreducible` are written, and `knot replay` makes these moves to this grid
  whole                     a grid, moves and `whole` are written, and `knot replay` makes these moves to this grid
  equal within N columns    the verdict is `equal`, and no diagram along its moves has more than N columns
  drawn in N columns        a grid of N columns is written
  lists of NUMBERS          lists of so many lines are written
  written NAME              the call writes this file, which begins so
  piped NAME                the call writes into this pipe what begins so
  linked NAME               a symbolic link of this name is there still
  unwritten NAME            there is no file of this name where the call is made
  nothing beside            there are no other files there than those of the row and those that are written
  mode MODE of NAME         this file has this mode before the call and after it
  again                     the same call has the same status once more, and writes the same
  cut at each byte          of each prefix of the input: it is malformed, or answered likewise if only the last line feed is gone
  altered at each byte      of the input with a byte 1 in each place: its line is malformed

The words of a call are written as in a shell: `--braid "2 1 1 1"`.
Each line of a part ends with a line feed, unless it ends with a backslash. Lines may have \\\\ \\t \\r \\n \\0 and \\xHH for one byte,
\\{MAX_SIZE + 1} for a number, \\{0 to MAX_SIZE} for numbers with blanks between, \\{" 1" x MAX_SIZE - 4} for so many copies of a text, and
\\{alexander MAX_ORDER + 1 by 2} for the lines of the table of such a quandle.
The constants are those of the crates. Lines that begin with # are remarks, and empty lines between parts say nothing.

Each difference is printed, and last a line with the counts. There are some 4,500 calls.

exit status:
  0  each row has what it must
  1  some have not
  2  the arguments or a row are invalid, or a program is missing; nothing was tried
"""
import argparse
import contextlib
import functools
import itertools
import os
import resource
import subprocess
import sys
import tempfile
import threading
from concurrent.futures import ThreadPoolExecutor
from typing import NamedTuple

import terminals
from rows_language import TOP, RowError, all_cases
from rows_parts import CHECKER, EXPECTED, differs

# How many seconds a call may take.
PATIENCE = 600


class Ended(NamedTuple):
    """How a call ended: its status, or minus the signal that ended it, and what it wrote."""
    status: int
    text: bytes
    error: bytes


@functools.lru_cache(maxsize=None)
def is_sanitized(program):
    """Whether a program was built with a sanitizer, which takes far more address space than a row gives it. A script is none."""
    try:
        with open(program, "rb") as file:
            return b"__asan_init" in file.read()
    except OSError:
        return False


class Pipes:
    """Named pipes in a folder while a call is made: one with a text gets it, and of one without what comes is kept in `got`."""

    def __init__(self, texts):
        self.texts, self.got, self.threads = texts, {}, []

    def __enter__(self):
        for path in self.texts:
            os.mkfifo(path)
            self.threads.append(threading.Thread(target=self.served, args=(path,), daemon=True))
            self.threads[-1].start()
        return self

    def served(self, path):
        """Writes a pipe's text, or reads what comes."""
        try:
            if self.texts[path]:
                with open(path, "wb") as pipe:
                    pipe.write(self.texts[path])
            else:
                with open(path, "rb") as pipe:
                    self.got[os.path.basename(path)] = pipe.read()
        except BrokenPipeError:
            # Who reads it has ended before.
            pass

    def __exit__(self, *_):
        for path in self.texts:
            # A call that never opened the pipe would leave its thread waiting.
            for way in (os.O_RDONLY | os.O_NONBLOCK, os.O_WRONLY | os.O_NONBLOCK):
                with contextlib.suppress(OSError):
                    os.close(os.open(path, way))
        for thread in self.threads:
            thread.join(10)


class Trial:
    """A case that is tried on these programs, in a folder that has its files, links and pipes; the calls are counted."""

    def __init__(self, case, programs, counter, folder):
        self.case, self.programs, self.counter, self.folder = case, programs, counter, folder
        for (name,), text in case.parts("file NAME"):
            os.makedirs(os.path.dirname(self.path(name)), exist_ok=True)
            with open(self.path(name), "wb") as file:
                file.write(text)
        for (mode, name), _ in case.parts("mode MODE of NAME"):
            os.chmod(self.path(name), int(mode, 8))
        for (name, target), _ in case.parts("link NAME to OTHER"):
            os.symlink(target, self.path(name))
        with Pipes({self.path(name): text for (name,), text in case.parts("pipe NAME")}) as self.pipes:
            self.ended = self.made()

    def path(self, name):
        """The path of a file of the row, or one that begins with a slash."""
        return os.path.join(self.folder, name)

    @property
    def limit(self):
        """What limits the address space of the call, before it begins; None where it has no limit."""
        for (kilobytes,), _ in self.case.parts("memory N"):
            return functools.partial(limit_memory, int(kilobytes) * 1024)
        return None

    @contextlib.contextmanager
    def streams(self):
        """Standard input of the call, as bytes or what is open, and standard output."""
        with contextlib.ExitStack() as stack:
            yield self.source(stack), self.target(stack)

    def source(self, stack):
        """Standard input: a terminal, a file or folder, or the bytes of the row."""
        if self.case.parts("typed input"):
            return stack.enter_context(terminals.typed(self.case.given))
        for (name,), _ in self.case.parts("input is NAME"):
            opened = os.open(self.path(name), os.O_RDONLY)
            stack.callback(os.close, opened)
            return opened
        return self.case.given

    def target(self, stack):
        """Standard output: a file or device, or a pipe."""
        for (name,), _ in self.case.parts("output to NAME"):
            return stack.enter_context(open(self.path(name), "ab"))
        return subprocess.PIPE

    def call(self, words, given, output=subprocess.PIPE, limit=None):
        """How a call of one of the programs ends."""
        next(self.counter)
        source = {"input": given} if isinstance(given, bytes) else {"stdin": given}
        done = subprocess.run([self.programs[words[0]], *words[1:]], **source, stdout=output, stderr=subprocess.PIPE, cwd=self.folder, preexec_fn=limit,
                              timeout=PATIENCE, check=False)
        return Ended(done.returncode, done.stdout or b"", done.stderr)

    def made(self):
        """How the call of the row ends."""
        with self.streams() as (given, output):
            return self.call(self.case.words, given, output, self.limit)

    def at_a_terminal(self):
        """How it ends where standard error is a terminal."""
        next(self.counter)
        command = [self.programs[self.case.words[0]], *self.case.words[1:]]
        with self.streams() as (given, output):
            return Ended(*terminals.run(command, given, self.folder, PATIENCE, output, self.limit))

    def differences(self):
        """What isn't as the row says."""
        if self.case.words[0] in ("knot", CHECKER):
            yield differs("standard error", self.ended.error, b"")
        for form, words, text in self.case.wanted:
            yield from EXPECTED[form](self, text, *words)


def limit_memory(size):
    """Gives this process so many bytes of address space."""
    resource.setrlimit(resource.RLIMIT_AS, (size, size))
    resource.setrlimit(resource.RLIMIT_CORE, (0, 0))


def problems(case, programs, counter):
    """What differs in a case."""
    if case.parts("memory N") and is_sanitized(programs[case.words[0]]):
        return []
    try:
        with tempfile.TemporaryDirectory(prefix="knot-rows.") as folder:
            return list(filter(None, Trial(case, programs, counter, folder).differences()))
    except subprocess.TimeoutExpired:
        return [f"a call didn't end within {PATIENCE} seconds"]


def program_of(name, path):
    """The program that is called by a name, built where no path is given."""
    path = path or os.environ.get(name.upper())
    if path:
        if not os.access(path, os.X_OK) or not os.path.isfile(path):
            raise RowError(f"{path} is no program")
        return os.path.abspath(path)
    if subprocess.run([os.path.join(TOP, name), "no-such-job-or-file"], stdin=subprocess.DEVNULL, stdout=subprocess.DEVNULL, check=False).returncode == 127:
        raise RowError(f"./{name} has no program")
    return os.path.join(TOP, "crates", name, "out", name)


def built_checker():
    """The separate checker that was built in this tree, or None."""
    built = os.path.join(TOP, "crates", CHECKER, "out", CHECKER)
    return built if os.access(built, os.X_OK) else None


def checker_of(path):
    """The separate checker: what is named, or what was built; None where it wasn't."""
    path = path or os.environ.get("KNOT_CHECK")
    return program_of(CHECKER, path) if path else built_checker()


def checkers_cases(cases):
    """The rows of `knot check` as calls of the separate checker."""
    for subject, case in cases:
        if case.words == ["knot", "check"]:
            wanted = [part._replace(text=b"") if part.form == "error" else part for part in case.wanted]
            yield subject, case._replace(name=f"{case.name}, by the separate checker", words=[CHECKER], wanted=wanted)


def without_checker(cases):
    """All cases but those that call the separate checker by its name; a line says how many these are."""
    kept = [(subject, case) for subject, case in cases if case.words[0] != CHECKER]
    if len(kept) < len(cases):
        print(f"passed over, since the separate checker isn't built: {len(cases) - len(kept)} cases", flush=True)
    return kept


def options_given():
    """What the words of the call ask for."""
    about, _, epilog = __doc__.partition("\n\n")
    parser = argparse.ArgumentParser(description=about, epilog=epilog, formatter_class=argparse.RawDescriptionHelpFormatter)
    parser.add_argument("names", nargs="*", metavar="FILE", help="a file of tests/rows/ without its ending; none: all")
    parser.add_argument("--knot", metavar="PATH", help="the program that is called as knot")
    parser.add_argument("--seek", metavar="PATH", help="the program that is called as seek")
    parser.add_argument("--check", metavar="PATH", help="the separate checker, on which the rows of `knot check` are tried too")
    return parser.parse_args()


def programs_and_cases(asked):
    """The programs by their names, and the cases that are tried on them."""
    cases = all_cases(asked.names)
    used = {case.words[0] for _, case in cases} - {CHECKER} | {"knot"}
    programs, checker = {name: program_of(name, getattr(asked, name)) for name in sorted(used)}, checker_of(asked.check)
    if checker:
        return {**programs, CHECKER: checker}, cases + list(checkers_cases(cases))
    return programs, without_checker(cases)


def main():
    asked = options_given()
    try:
        programs, cases = programs_and_cases(asked)
    except RowError as error:
        print(f"rows.py: {error}", file=sys.stderr)
        return 2
    failed, counter = 0, itertools.count()
    with ThreadPoolExecutor(max_workers=os.cpu_count()) as pool:
        for (subject, case), found in zip(cases, pool.map(lambda it: problems(it[1], programs, counter), cases)):
            if found:
                failed += 1
                print(f"{subject}: {case.name}\n    " + "\n    ".join(found), flush=True)
    print(f"{len(cases)} cases, {next(counter)} calls, {failed} different")
    return 1 if failed or not cases else 0


if __name__ == "__main__":
    sys.exit(main())
