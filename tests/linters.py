#!/usr/bin/env python3
"""Says what pyflakes finds in all Python of the tree, and mypy in the module and in tools/lib/: each where it is installed.

    tests/linters.py

The last line says which of the two found nothing, and which isn't installed.

exit status:
  0  nothing was found
  1  something was
"""
import argparse
import importlib.util
import os
import shutil
import subprocess
import sys

TOP = os.path.dirname(os.path.dirname(os.path.abspath(__file__)))
# What each linter is given, in which folder.
CALLS = {
    "pyflakes": ((".", ("tools", "python", "bench", "quandles/make", "upkeep", "tests")),),
    "mypy": (("python", ("--ignore-missing-imports", "--cache-dir=/dev/null", "knot_workbench")),
             ("tools", ("--ignore-missing-imports", "--cache-dir=/dev/null", "lib"))),
}


def command_of(linter):
    """The words that call a linter: a program on PATH, or a package of this Python; none where there is neither."""
    program = shutil.which(linter + "3") or shutil.which(linter)
    return [program] if program else [sys.executable, "-m", linter] if importlib.util.find_spec(linter) else []


def found_by(linter, top=TOP):
    """What a linter that is installed finds, in its own lines."""
    found = ""
    for folder, words in CALLS[linter]:
        done = subprocess.run([*command_of(linter), *words], cwd=os.path.join(top, folder), env={**os.environ, "MYPYPATH": os.path.join(top, "python")},
                              stdout=subprocess.PIPE, stderr=subprocess.STDOUT, text=True, check=False)
        found += done.stdout if done.returncode else ""
    return found


def main():
    argparse.ArgumentParser(description=__doc__, formatter_class=argparse.RawDescriptionHelpFormatter).parse_args()
    installed = [linter for linter in CALLS if command_of(linter)]
    found = {linter: found_by(linter) for linter in installed}
    print("".join(found.values()), end="")
    said = [f"{linter}: {'something' if found[linter] else 'nothing'} found" if linter in installed else f"{linter} isn't installed" for linter in CALLS]
    print(", ".join(said))
    return 1 if any(found.values()) else 0


if __name__ == "__main__":
    sys.exit(main())
