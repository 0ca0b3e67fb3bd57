#!/usr/bin/env python3
"""Runs what tries the built programs and the scripts, side by side: some four minutes on four processors. It proves and builds nothing.

    tests/quick.sh
    KNOT=PATH SEEK=PATH tests/quick.sh     with these programs in place of those of the tree

The parts, each of which may be called alone:
  rows         tests/rows.py, calls of both programs with their answers
  examples     examples/check.sh, every example of every job
  shown        examples/shown.py, the commands that README and guide show
  round trips  tests/round_trips.py, codes of random grids, drawn again
  scripts      tests/tools.sh, the tests of the scripts, of the module and of the launchers
  linters      tests/linters.py, what pyflakes and mypy find in Python, where they are installed

Each part has a line as it ends, and all that it wrote where it failed. The last line says whether all passed.

exit status:
  0        all passed
  1        some did not
  2        the arguments are invalid, or a program is missing; nothing was tried
  128 + N  stopped by signal N
"""
import argparse
import os
import signal
import subprocess
import sys
import tempfile
import time

TOP = os.path.dirname(os.path.dirname(os.path.abspath(__file__)))
# The tests of scripts take longest, so they begin first.
PARTS = {
    "scripts": ["tests/tools.sh"],
    "rows": ["tests/rows.py"],
    "shown": ["examples/shown.py"],
    "examples": ["examples/check.sh"],
    "round trips": ["tests/round_trips.py"],
    "linters": ["tests/linters.py"],
}


def program_of(name):
    """The path of a program: the one that a variable names, or that of the tree."""
    given = os.environ.get(name.upper())
    path = os.path.abspath(given) if given else os.path.join(TOP, "crates", name, "out", name)
    if os.path.isfile(path) and os.access(path, os.X_OK):
        return path
    how = f"which {name.upper()} names" if given else f"which tools/build.py proves and builds; or name another one by {name.upper()}"
    print(f"quick.sh: there is no program {path}, {how}", file=sys.stderr)
    sys.exit(2)


class Part:
    """A part that runs, or has ended."""

    def __init__(self, name, surroundings):
        self.name, self.began = name, time.monotonic()
        # A file and no pipe, which what a part has left behind could keep open.
        self.said = tempfile.TemporaryFile()
        self.process = subprocess.Popen([os.path.join(TOP, PARTS[name][0]), *PARTS[name][1:]], cwd=TOP, env=surroundings, stdin=subprocess.DEVNULL,
                                        stdout=self.said, stderr=subprocess.STDOUT)

    def tell(self):
        """Says how the part ended: whether it passed."""
        self.said.seek(0)
        text = self.said.read().decode("utf-8", "replace").rstrip("\n")
        passed = self.process.returncode == 0
        if not passed:
            print(text)
        last = text.split("\n")[-1] if passed else f"FAILED with status {self.process.returncode}"
        print(f"{self.name}: {last} ({time.monotonic() - self.began:.0f} s)", flush=True)
        return passed


def run_all(surroundings, stopped):
    """Runs all parts: the names of those that failed. `stopped` gets the number of a signal, which ends them all."""
    left, failed = [Part(name, surroundings) for name in PARTS], []
    while left:
        if stopped:
            for part in left:
                part.process.terminate()
            for part in left:
                part.process.wait()
            raise SystemExit(128 + stopped[0])
        for part in [part for part in left if part.process.poll() is not None]:
            left.remove(part)
            if not part.tell():
                failed.append(part.name)
        time.sleep(0.1)
    return failed


def main():
    parser = argparse.ArgumentParser(prog="quick.sh", description=__doc__, formatter_class=argparse.RawDescriptionHelpFormatter)
    parser.parse_args()
    programs = {name.upper(): program_of(name) for name in ("knot", "seek")}
    stopped = []
    for number in (signal.SIGINT, signal.SIGTERM, signal.SIGHUP):
        signal.signal(number, lambda sent, _: stopped.append(sent))
    began = time.monotonic()
    print(f"{len(PARTS)} parts, side by side: {', '.join(PARTS)}", flush=True)
    failed = run_all({**os.environ, **programs}, stopped)
    print(f"all parts: {'FAILED: ' + ', '.join(failed) if failed else 'ok'}, in {time.monotonic() - began:.0f} s")
    return 1 if failed else 0


if __name__ == "__main__":
    sys.exit(main())
