"""The programs that a batch calls: where they are, how they are called, and what runs is ended when the batch is stopped."""
import os
import shutil

from knot_workbench.answers import ANSWERED, MALFORMED, NO_JOB, REJECTED
from knot_workbench.programs import BYTES, COCYCLES, default_cocycles
from lib.batch.answers import kept_of, told_in_one_line
from lib.batch.stages import BatchError, call_words, listed_file

WHY_NONE = {2: "it refuses the words", 5: "reading failed", 6: "writing failed", 7: "memory ran out", 10: "it was given no words",
            127: "it could not be built"}

# A problem that each program answers at once, with nothing on standard error: two unknots, and for check a verdict after them.
TWO_UNKNOTS = b"x 0 1\no 1 0\nx 0 1\no 1 0\n"
EQUAL = b"equal 0\n"

# As many bytes may a program write in a call before the first problem: what writes more is none of these programs, and may never end.
MOST_OUTPUT = 1 << 24


def why_none(ran):
    """Why a call gave no answer: how it ended, and what it said."""
    if ran.status < 0:
        why = f"ended by signal {-ran.status}"
    else:
        why = f"status {ran.status}" + (f", {WHY_NONE[ran.status]}" if ran.status in WHY_NONE else "")
    said = kept_of(ran.said)
    return f"{why}: {told_in_one_line(said)}" if said else why


def found_program(program):
    """The path of a program that can be run, by its path or by its name on PATH."""
    found = shutil.which(program)
    if not found:
        raise BatchError(f"{program}: no program of this name")
    return os.path.abspath(found)


def behind_launcher(program):
    """Where a program is one of the tree's launchers, `knot` or `seek`, the path of what it runs; else None."""
    top, name = os.path.split(os.path.realpath(program))
    if name in ("knot", "seek") and os.path.isfile(os.path.join(top, "crates.txt")):
        return os.path.join(top, "crates", name, "out", name)
    return None


class Programs:
    """The programs of a batch, by what they are asked for.

    A launcher is called once, which builds its program where that is due; then the built program is called in its place, since a launcher
    looks at each call whether a source is newer, and takes far longer for it than a small problem does.
    """

    def __init__(self, caller, program, seeker, checker):
        self.caller = caller
        self.paths = {"knot": program, "seek": seeker, "check": checker}

    def path(self, use):
        """The program of this use, one of `knot`, `seek` and `check`."""
        return self.paths[use]

    def call(self, stage):
        """The call of a stage: of `seek`, of a job of knot, or of a program that takes no name of a job."""
        return [self.path_for(stage), *([stage.job] if stage.job not in ("seek", "") else []), *call_words(stage)]

    def path_for(self, stage):
        """The program that a stage asks."""
        return self.paths["seek" if stage.job == "seek" else "knot"]

    def completed(self, stage):
        """The stage as it is run: if seek counts by its default cocycles, a word names them, and so they are part of the stage."""
        path = default_cocycles(self.path_for(stage), stage.words) if stage.job in ("seek", "") else None
        if path is None:
            return stage
        return stage._replace(words=(f"--weights={COCYCLES}", *stage.words), lists=(listed_file(COCYCLES, path, "")._replace(data=None), *stage.lists))

    def prepare(self, uses):
        """Looks for the programs of these uses, and has a launcher build its program where that is due."""
        built = {}
        for use in uses:
            path = found_program(self.paths[use])
            if path not in built:
                built[path] = self.built(path)
            self.paths[use] = built[path]

    def built(self, path):
        """What to call for this program: of a launcher, what it has built."""
        direct = behind_launcher(path)
        if direct is None:
            return path
        words, given = ([], TWO_UNKNOTS) if os.path.basename(direct) == "seek" else (["check"], TWO_UNKNOTS + EQUAL)
        ran = self.ran([path, *words], given, is_shown=True)
        if ran.status != ANSWERED:
            hint = "; --no-seek leaves out the stages that ask it" if not words else ""
            raise BatchError(f"{path} does not run here: on two unknots it ends with {why_none(ran)}{hint}")
        return direct if os.access(direct, os.X_OK) else path

    def ran(self, call, given, is_shown=False):
        """A call before the first problem is run."""
        try:
            ran = self.caller.run(call, given, most=MOST_OUTPUT, is_shown=is_shown)
        except OSError as error:
            raise BatchError(f"{error.filename}: {error.strerror}") from None
        if ran.cut == BYTES:
            raise BatchError(f"{call[0]} does not run here: it writes more than {MOST_OUTPUT} bytes")
        return ran

    def probe(self, call, what):
        """Tries a call on no input, which each job refuses, so that words that a program doesn't take are reported before all else."""
        ran = self.ran(call, b"")
        if ran.status == NO_JOB:
            said = kept_of(ran.said)
            raise BatchError(f"{what}: the program refuses the words '{' '.join(call[1:])}'{said and f': {told_in_one_line(said)}'}")
        # Of the job grid no crossings are a code, which is rejected.
        if ran.status not in (MALFORMED, REJECTED):
            raise BatchError(f"{call[0]} does not run here: on no input it ends with {why_none(ran)}, and not with {MALFORMED}")
