#!/usr/bin/env python3
"""Proves and builds the programs, crates side by side as far as their order allows.

usage: tools/build.py [--jobs N] [--input FILE] [knot] [seek] [knot_check]

Without a name it builds knot and seek. knot_check is the separate checker: the job check of knot alone, on half of its crates. The
launchers ./knot and ./seek call it if a program is missing or older than a source. The old program stays in its place until the
new one is there. One build works in a tree at a time, and a second one waits. What was proved is kept: a build that was stopped goes
on where it stopped. The prover's lines go to crates/knot/out/build/NAME.log, and standard error has one line a crate.

With --input FILE knot_check is also run on that file unproved, by `rt try`, while the proof goes on, and standard error has one line
of what it says, and one of when the proved answer can be expected. There is no such trial on fewer than three processors, or if less
than a minute of proof is left. knot and seek have none: a trial of theirs costs two to five times as much, and what they answer is
more than a line.

Each crate is proved from nothing, by the kit's prover over the statements of the libraries below it, as `rt ci` proves it: a check over
libraries that hold their proofs too, as `rt lib` makes them, loads these, and takes two to three times as long in the higher crates. The
statements are in the crate's folder out/statements, and nothing else reads them. After a small change `rt run` in the program's folder
may be quicker, since it goes on from what `rt check` kept.

The first estimate of the time is that of build_seconds.txt. Each crate that has ended tells how fast this machine is, by its seconds of
the processor, and mends the estimate.
"""
import argparse
import collections
import contextlib
import fcntl
import os
import signal
import sys
import time

from building.costs import costs
from building.kit import Kit
from building.machine import build_processors, free_memory
from building.messages import BuildFailed, in_words, programs_in_words, relative
from building.plan import Plan
from building.tree import Tree
from building.trial import NoTrial, Trial
from building.work import Build, build_folder

ROOT = os.path.dirname(os.path.dirname(os.path.realpath(__file__)))
PROGRAMS = ("knot", "seek", "knot_check")
CHECKER = "knot_check"
# The kits that the tree was proved with.
KITS = ("rattle-kit-13b", "rattle-kit-13f")
# Of a whole build, as measured: bytes on the disk, and of memory for one crate at most; and of those of the checker.
DISK = 3_200_000_000
MEMORY = 4_000_000_000
MEMORY_CHECKER = 2_000_000_000
# So much memory is to be free for each crate that is built beside others.
MEMORY_EACH = 2_000_000_000
# A trial is begun on so many processors, where the proof is expected to take so many seconds.
TRIAL_PROCESSORS, TRIAL_SECONDS = 3, 60

Needs = collections.namedtuple("Needs", "memory disk")


def places(jobs):
    """How many crates are built at a time: as many as there are processors, and memory for."""
    free = free_memory()
    return jobs if free is None else min(jobs, max(free // MEMORY_EACH, 1))


def plan_of(tree, programs, jobs):
    """What is left to be built for programs, as the tree is now."""
    return Plan(tree, tree.needed(programs), costs(tree), jobs, places(jobs))


def needs_of(plan, programs):
    """The memory of one crate, and the disk of all that are left: by their share of the processor seconds of a whole build."""
    whole = plan.processor(plan.tree.needed([name for name in PROGRAMS if name in plan.tree.named]))
    return Needs(MEMORY_CHECKER if programs == [CHECKER] else MEMORY, DISK * plan.processor(plan.left) / whole)


def stamp_of(tree, name):
    """When a program was made, or None where it isn't there."""
    try:
        found = os.stat(tree.program(name))
    except OSError:
        return None
    return found.st_ino, found.st_mtime_ns


def lock_file(root):
    """Opens the file that is locked while a build works in a tree."""
    place = build_folder(root)
    try:
        os.makedirs(place, exist_ok=True)
        return os.open(os.path.join(place, "lock"), os.O_RDWR | os.O_CREAT, 0o666)
    except OSError as error:
        raise BuildFailed(f"{relative(place)} can't be written: {error.strerror}") from error


def locked(root, say, while_waiting):
    """Waits until no other build works in this tree: the lock, which ends with the process and with those that it began."""
    held, is_told = lock_file(root), False
    while True:
        try:
            fcntl.flock(held, fcntl.LOCK_EX | fcntl.LOCK_NB)
            return held
        except BlockingIOError:
            if not is_told:
                say(f"another call is building in {root}; waiting for it")
            is_told = True
            time.sleep(0.1)
            while_waiting()
        except OSError:
            # (some file systems have no locks)
            return held


def trial_of(tree, programs, jobs, input_file):
    """A trial of the checker on an input, where one is asked for and the build is long enough."""
    if input_file and programs == [CHECKER] and jobs >= TRIAL_PROCESSORS and plan_of(tree, programs, jobs).whole > TRIAL_SECONDS:
        with contextlib.suppress(OSError):
            return Trial(tree.folder(CHECKER), input_file)
    return NoTrial()


def build(root, programs, jobs, say, input_file=None):
    """Builds programs, unless another call did while this one waited."""
    kit = Kit()
    tree = Tree(root, PROGRAMS, kit)
    before = {name: stamp_of(tree, name) for name in programs}
    trial = trial_of(tree, programs, jobs, input_file)

    def tell_trial():
        said = trial.ended()
        if said:
            say(said)

    try:
        held = locked(root, say, tell_trial)
        if any(before[name] == stamp_of(tree, name) for name in programs):
            build_all(root, kit, programs, jobs, held, say, trial)
    finally:
        trial.stop()


def build_all(root, kit, programs, jobs, held, say, trial):
    """Builds programs, by one process in a tree at a time."""
    since = time.time()
    plan = plan_of(Tree(root, PROGRAMS, kit), programs, jobs)
    made = Build(plan, programs, held, say, trial, needs_of(plan, programs), since)
    what = programs_in_words(programs, CHECKER)
    try:
        if plan.left:
            made.announce(CHECKER, KITS)
            made.work()
            say(f"{what} is there, after {in_words(time.monotonic() - made.begun)}")
        else:
            say(f"{what} is there: no source has changed since it was proved and built")
        for name in set(programs) - plan.left:
            made.date(plan.tree.program(name))
    except OSError as error:
        raise BuildFailed(f"{error.filename or 'a file'}: {error.strerror}") from error


def options_given():
    parser = argparse.ArgumentParser(description=__doc__, formatter_class=argparse.RawDescriptionHelpFormatter)
    parser.add_argument("--jobs", type=int, default=build_processors(), metavar="N", help="how many processors to use; all, or RT_JOBS, without it")
    parser.add_argument("--input", metavar="FILE", help="an input on which knot_check is run unproved while the proof goes on")
    parser.add_argument("programs", nargs="*", metavar="NAME", help="knot, seek or knot_check")
    options = parser.parse_args()
    for name in options.programs:
        if name not in PROGRAMS:
            parser.error(f"{name} is none of {', '.join(PROGRAMS)}")
    if options.jobs < 1:
        parser.error("--jobs is a number above 0")
    options.programs = [name for name in PROGRAMS if name in (options.programs or PROGRAMS[:2])]
    return options


def stopped(number, _frame):
    raise KeyboardInterrupt


def main():
    options = options_given()
    caller = options.programs[0].replace("knot_check", "knot") if len(options.programs) == 1 else "build"

    def say(sentence):
        print(f"{caller}: {sentence}", file=sys.stderr, flush=True)

    signal.signal(signal.SIGTERM, stopped)
    signal.signal(signal.SIGHUP, stopped)
    try:
        build(ROOT, options.programs, options.jobs, say, options.input)
    except BuildFailed as why:
        say(str(why))
        return 1
    except KeyboardInterrupt:
        say("stopped; the next call goes on from what is proved")
        return 130
    return 0


if __name__ == "__main__":
    sys.exit(main())
