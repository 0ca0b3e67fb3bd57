"""The build of some programs, crate by crate, and what is said of it."""
import os
import shutil
import subprocess
import sys
import time

from building.guard import Guard
from building.machine import free_memory
from building.messages import BuildFailed, count_in_words, in_words, programs_in_words, relative
from building.run import CrateBuild

# How many lines of a log are shown where something failed.
SHOWN = 15


class Build:
    """The build of some programs, by one process in a tree at a time. `needs` has the bytes of memory and of disk that it may take.

    A program counts as made at the time `since`, before the sources were read, so that a later change shows.
    """

    def __init__(self, plan, programs, held, say, trial, needs, since):
        self.tree, self.plan, self.programs, self.held, self.say, self.trial, self.needs = plan.tree, plan, programs, held, say, trial, needs
        self.place = build_folder(self.tree.root)
        self.since, self.begun = since, time.monotonic()
        self.running = {}

    def announce(self, checker, kits):
        """Says what comes, and what may be missing."""
        count, memory, disk = len(self.plan.left), self.needs.memory, self.needs.disk
        self.say(f"{programs_in_words(self.programs, checker)} must be proved and built first: {count_in_words(count, 'one crate', 'crates')}, "
                 f"{in_words(self.plan.whole)} on {count_in_words(self.plan.processors, 'one processor', 'processors')}, "
                 f"up to {memory // 10**9} GB of memory a crate, {disk / 10**9:.1f} GB of disk")
        self.say(f"the prover's lines are in {relative(self.place)}/NAME.log; stopped by Ctrl-C, it goes on from there at the next call")
        if self.tree.kit.name not in kits:
            self.say(f"warning: rt is of {self.tree.kit.name}, and the tree was proved with {' and '.join(kits)}")
        free = shutil.disk_usage(self.place).free
        if free < disk:
            self.say(f"warning: {free / 10**9:.1f} GB of disk are free in {self.tree.root}")
        free = free_memory()
        if free is not None and free < memory:
            self.say(f"warning: {free / 10**9:.1f} GB of memory are free")

    def work(self):
        """Builds all; the last crates are the programs."""
        guard = Guard()
        try:
            while not self.plan.is_done():
                self.begin(guard)
                time.sleep(0.05)
                self.tell_trial()
                for run in [run for run in self.running.values() if run.is_ended()]:
                    self.end(run)
        finally:
            guard.end()
            for run in self.running.values():
                run.process.wait()

    def begin(self, guard):
        """Begins with as many crates as there are places and processors for."""
        while (found := self.plan.next({name: run.jobs for name, run in self.running.items()})) is not None:
            name, jobs = found
            self.running[name] = CrateBuild(self.tree, name, jobs, os.path.join(self.place, f"{name}.log"), self.held, guard)

    def end(self, run):
        """A crate was built, or not."""
        name = run.name
        if not run.is_proved() or (self.tree.is_program(name) and not answers(self.tree.made(name))):
            raise BuildFailed(self.why(run))
        del self.running[name]
        if self.tree.is_program(name):
            self.date(self.tree.made(name))
            os.replace(self.tree.made(name), self.tree.program(name))
            os.remove(f"{self.tree.made(name)}.o")
        self.tree.keep(name)
        self.plan.end(name, run.jobs, run.processor)
        self.tell(run)

    def date(self, program):
        os.utime(program, (self.since, self.since))

    def why(self, run):
        """The last lines of a crate's log, and where it is."""
        with open(run.log, encoding="utf-8", errors="replace") as file:
            lines = file.read().splitlines()[-SHOWN:]
        for line in lines:
            print(f"    {line}", file=sys.stderr)
        return f"the crate {run.name} could not be built; the whole log is {relative(run.log)}"

    def tell(self, run):
        """One line of a crate that was proved."""
        count, total = self.plan.count(), len(self.plan.left)
        what = "built" if self.tree.is_program(run.name) else "proved"
        line = f"{count} of {total} {what}: {run.name}, {time.monotonic() - run.begun:.0f} s"
        if count < total:
            line += f"; {in_words(self.plan.ahead(self.running))} left"
        self.say(line)

    def tell_trial(self):
        """What a trial answered, and when the proved answer can be expected."""
        said = self.trial.ended()
        if said:
            self.say(said)
            self.say(f"the proved answer is expected in {in_words(self.plan.ahead(self.running))}")


def build_folder(root):
    return os.path.join(root, "crates", "knot", "out", "build")


def answers(program):
    """Whether a program runs: asked for its version it has one, or says that it knows no such word."""
    try:
        ran = subprocess.run([program, "--version"], stdin=subprocess.DEVNULL, stdout=subprocess.DEVNULL,
                             stderr=subprocess.DEVNULL, timeout=60, check=False)
    except (OSError, subprocess.TimeoutExpired):
        return False
    return ran.returncode in (0, 2)
