"""A folder of problems, and what is run and kept of each."""
import os

from knot_workbench.answers import ANSWERED, LIMIT, MALFORMED, REJECTED, WITH_ANSWER
from knot_workbench.programs import Caller
from lib.batch.answers import (Kept, Tried, adds_too_much, answer_bytes, as_answer, ended_line, kept_of, next_stage,
                               read_answer, says)
from lib.batch.programs import why_none
from lib.batch.stages import digest, stage_key, stage_text
from lib.calls.calls import note, reason_of
from lib.calls.pools import threads
from lib.calls.whole_files import is_full, sweep_parts, write_whole

# What is kept of a problem, one file in each.
FOLDERS = ("answers", "certificates", "rulings")

# Jobs whose answers begin with a verdict that check takes; the last is a program's that takes no name of a job.
WITH_VERDICT = ("decide", "seek", "")


class Told:
    """Says something on standard error, by the name of the script."""

    script = "batch.py"

    def __call__(self, text: str) -> None:
        note(f"{self.script}: {text}")


tell = Told()


class Batch:
    """A folder of problems, and the folder of what is made of it."""

    def __init__(self, options, stages, programs=None):
        self.problems = options.problems
        self.answers = options.answers
        self.job = options.job
        self.stages = stages
        self.programs = programs
        self.caller = programs.caller if programs else Caller()
        # What is called with the number of problems that a stage has been through, as it grows.
        self.progress = None

    def problem_path(self, name):
        """The file of a problem."""
        return os.path.join(self.problems, name + ".txt")

    def path(self, folder, name):
        """The file of a problem in one of the folders."""
        return os.path.join(self.answers, folder, name + ".txt")

    def make_folders(self):
        """Makes the folders that are missing, and sweeps what calls that are gone have left half written."""
        for folder in FOLDERS:
            full = os.path.join(self.answers, folder)
            os.makedirs(full, exist_ok=True)
            sweep_parts(full)
        sweep_parts(self.answers)

    def forget(self, names):
        """Removes all that is kept of these problems."""
        for name in names:
            for folder in FOLDERS:
                remove(self.path(folder, name))

    def problem(self, name):
        """The bytes of a problem."""
        with open(self.problem_path(name), "rb") as file:
            return file.read()

    def answer(self, name):
        """The problem, and the answer that is kept for it."""
        problem = self.problem(name)
        return problem, self.kept(name, problem)

    def kept(self, name, problem):
        """The answer that is kept for a problem of these bytes, or None."""
        return read_answer(self.path("answers", name), problem, self.job)

    def next_stage(self, name):
        """The stage in which this problem is to be tried next, or None."""
        return next_stage(self.answer(name)[1], self.stages)

    # --- one problem

    def try_stage(self, name, stage):
        """Runs one problem in one stage and keeps what the program wrote. False where it gave no answer; then nothing changes."""
        problem, answer = self.answer(name)
        given = problem
        for added in stage.added:
            given = ended_line(given) + added.data
        ran = self.caller.run(self.programs.call(stage), given)
        if ran.cut:
            return False
        if ran.status not in WITH_ANSWER:
            tell(f"{self.problem_path(name)}: stage {stage.name}: no answer, {why_none(ran)}")
            return False
        if self.problem(name) != problem:
            tell(f"{self.problem_path(name)}: it was changed while it was run")
            return False
        tried = Tried(stage.name, stage_text(stage), stage_key(stage), ran.status, round(ran.seconds, 3), says(ran.body), kept_of(ran.said),
                      adds_too_much(problem, stage, ran.status, ran.body))
        answer = Kept([*(answer.tried if answer else []), tried], ran.body)
        write_named(self.path("answers", name), answer_bytes(problem, self.job, answer))
        return True

    def certificate(self, name):
        """The problem with its verdict after it, or None where there is no evidence."""
        return self.certificate_of(*self.answer(name))

    def certificate_of(self, problem, answer):
        """As `certificate`, by the bytes of the problem and the answer that is kept."""
        if self.job not in WITH_VERDICT or answer is None or not as_answer(self.job, answer).has_evidence:
            return None
        return ended_line(problem) + answer.body

    def check(self, name):
        """Writes the certificate and what the checker says of it; what is said of this very certificate already is kept."""
        certificate = self.certificate(name)
        paths = self.path("certificates", name), self.path("rulings", name)
        if certificate is None:
            for path in paths:
                remove(path)
            return
        if bytes_if_there(paths[0]) != certificate:
            write_named(paths[0], certificate)
        if ruling_of(paths[1], certificate) is not None:
            return
        ran = self.caller.run([self.programs.path("check"), "check"], certificate)
        if ran.cut:
            return
        if ran.status not in (ANSWERED, MALFORMED, LIMIT, REJECTED):
            tell(f"{paths[0]}: the checker gave no ruling, {why_none(ran)}")
            return
        write_named(paths[1], f"# certificate sha256 {digest(certificate)}\n".encode() + ran.body)

    # --- many problems

    def guarded(self, act, name):
        """Calls act for this name. Where a file can't be read or written, the file is named, and the result is False; but where no room is
        left for any file, the error is raised."""
        try:
            return act(name)
        except OSError as error:
            if is_full(error):
                raise
            tell(f"{self.problem_path(name)}: {reason_of(error)}")
            return False

    def each(self, names, act, processes):
        """Calls act for every name, so many at once. When a signal comes, what runs is ended and nothing is begun."""
        with threads(processes, self.caller.stop) as pool:
            for done, _ in enumerate(pool.each(lambda name: self.guarded(act, name), names), 1):
                if self.progress:
                    self.progress(done)

    def run_stages(self, names, processes):
        """Runs the stages in order, each for the problems that are due for it."""
        for stage in self.stages:
            due = {name: self.guarded(self.next_stage, name) for name in names}
            # What can't be read was named, and is left to the summary.
            names = [name for name in names if due[name] is not False]
            waiting = [name for name in names if due[name] is stage]
            if not waiting:
                continue
            tell(f"stage {stage.name}: {len(waiting)} problems")
            self.each(waiting, lambda name: self.try_stage(name, stage), processes)


def write_named(path, data):
    """Writes a file whole or not at all; an error of the system has this path, and not that of the part beside it, or none."""
    try:
        write_whole(path, data)
    except OSError as error:
        raise OSError(error.errno, error.strerror, path) from None


def remove(path):
    """Removes a file where it is there."""
    if os.path.exists(path):
        os.unlink(path)


def bytes_if_there(path):
    """The bytes of a file, or None where there is none."""
    try:
        with open(path, "rb") as file:
            return file.read()
    except FileNotFoundError:
        return None


def ruling_of(path, certificate):
    """What the checker said of this very certificate, or None."""
    data = bytes_if_there(path)
    head = f"# certificate sha256 {digest(certificate)}\n".encode()
    return data[len(head):].decode().strip() if data and data.startswith(head) else None
