"""Where things are, for the tests of the scripts."""
import os
import signal
import subprocess
import sys
import tempfile

ROOT = os.path.dirname(os.path.dirname(os.path.dirname(os.path.abspath(__file__))))
TOOLS = os.path.join(ROOT, "tools")
LISTS = os.path.join(ROOT, "quandles")
KNOTS = os.path.join(LISTS, "knots-to-8.csv")

# How long a test waits for what takes some seconds, on a machine that has much else to do.
LONG = 900

# The programs, lib with what they share, the module, and the independent reader of the formats.
sys.path[:0] = [TOOLS, os.path.join(ROOT, "python"), os.path.join(ROOT, "tests")]


def run(script, *words, text=""):
    """Runs a script of tools/ and answers its status, standard output and standard error."""
    done = subprocess.run([sys.executable, os.path.join(TOOLS, script), *words], input=text, capture_output=True, text=True, check=False)
    return done.returncode, done.stdout, done.stderr


def call(words, text="", **more):
    """Runs any command with captured streams, but for those that are given."""
    streams = {"input": text, "stdout": subprocess.PIPE, "stderr": subprocess.PIPE, **more}
    if "stdin" in streams:
        del streams["input"]
    return subprocess.run(words, text=True, check=False, **streams)


def default_signals():
    """For a child that signals are sent to: it may be started where they are ignored, as by nohup or after a shell's `&`."""
    for number in (signal.SIGINT, signal.SIGTERM, signal.SIGHUP):
        signal.signal(number, signal.SIG_DFL)


def scratch(case):
    """A folder that is removed when a test ends."""
    kept = tempfile.TemporaryDirectory()
    case.addCleanup(kept.cleanup)
    return kept.name


def read(*parts):
    with open(os.path.join(ROOT, *parts), encoding="utf-8") as source:
        return source.read()


def built_program():
    """The program, where the variable KNOT names it or it was built in this tree, or None."""
    given = os.environ.get("KNOT")
    if given:
        return given
    beside = os.path.join(ROOT, "crates", "knot", "out", "knot")
    return beside if os.access(beside, os.X_OK) else None
