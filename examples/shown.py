#!/usr/bin/env python3
"""Runs the commands that documents show, lines that begin with `$ `, and compares what is shown below each with what it gives.

    examples/shown.py              README.md and docs/GUIDE.md
    examples/shown.py FILE..       these

A document's commands run one after the other in one shell, in a copy of the tree without the crates, where ./knot and ./seek
are the programs of this tree, or those that KNOT and SEEK name, as the launchers call them; so a file that one command makes is there for
the next. A block begins at the top of the copy. A line `...` means lines that are left out, and where nothing is shown below a command,
what it gives isn't compared. A command that needs Regina or Sage isn't tried where they aren't installed, and is named. Status 0 where all
that was tried is as shown."""

import os
import re
import shutil
import subprocess
import sys
import tempfile

sys.path.insert(0, os.path.join(os.path.dirname(os.path.dirname(os.path.abspath(__file__))), "tests"))

import launched

# How it is seen whether another project's program is here, by a word of the commands that need it.
OTHERS = {"regina": ["/usr/bin/python3", "-c", "import regina"], "sage": ["sage", "--version"]}

TOP = os.path.dirname(os.path.dirname(os.path.abspath(__file__)))


def blocks(path):
    """The blocks of code of a document, each with the number of its first line."""
    found, lines, fenced = [], [], False
    with open(path, encoding="utf-8") as file:
        for number, line in enumerate(file, 1):
            line = line.rstrip("\n")
            if line.startswith("```"):
                fenced = not fenced
                text = None
            elif fenced:
                text = line
            elif line.startswith("    "):
                text = line[4:]
            else:
                text = None
            if text is None:
                if lines:
                    found.append(lines)
                lines = []
            else:
                lines.append((number, text))
    return found + [lines] if lines else found


def commands(block):
    """The commands of a block: number of the line, the command, and the lines shown below it."""
    found = []
    for number, text in block:
        if text.startswith("$ "):
            found.append((number, text[2:], []))
        elif found:
            found[-1][2].append(text)
    return found


def given(shell, command):
    """What a command gives in the shell."""
    shell.stdin.write(f"{command}\nprintf '\\nthe end of a command\\n'\n")
    shell.stdin.flush()
    lines = []
    for line in shell.stdout:
        if line == "the end of a command\n":
            break
        lines.append(line.rstrip("\n"))
    # The line feed before the mark ends a last line that lacks one, and else makes an empty line.
    while lines and lines[-1] == "":
        lines.pop()
    return lines


def is_as_shown(shown, found):
    """Whether the lines are those that are shown, where `...` means any."""
    if "..." not in shown:
        return shown == found
    at = shown.index("...")
    if shown[:at] != found[:at]:
        return False
    rest = shown[at + 1:]
    return any(is_as_shown(rest, found[k:]) for k in range(at, len(found) + 1))


def is_here(call):
    """Whether a call of another project's program succeeds."""
    try:
        return subprocess.run(call, stdout=subprocess.DEVNULL, stderr=subprocess.DEVNULL, check=False).returncode == 0
    except OSError:
        return False


def main():
    absent = [name for name, call in OTHERS.items() if not is_here(call)]
    paths = sys.argv[1:] or [f"{TOP}/README.md", f"{TOP}/docs/GUIDE.md"]
    passed = failed = untried = 0
    for path in paths:
        with tempfile.TemporaryDirectory() as folder:
            for name in os.listdir(TOP):
                if os.path.isdir(f"{TOP}/{name}") and name not in ("crates", ".git"):
                    shutil.copytree(f"{TOP}/{name}", f"{folder}/{name}")
            if os.environ.get("KNOT") or os.environ.get("SEEK"):
                launched.put_launchers(folder)
            else:
                for program in ("knot", "seek"):
                    os.symlink(f"{TOP}/{program}", f"{folder}/{program}")
            named = {**os.environ, "KNOT": f"{folder}/knot", "SEEK": f"{folder}/seek"}
            shell = subprocess.Popen(["sh"], cwd=folder, env=named, stdin=subprocess.PIPE, stdout=subprocess.PIPE,
                                     stderr=subprocess.STDOUT, text=True)
            for block in blocks(path):
                if commands(block):
                    given(shell, f"cd '{folder}'")
                for number, command, shown in commands(block):
                    while shown and shown[-1] == "":
                        shown.pop()
                    missing = [name for name in absent if re.search(rf"(\| *{name} |/{name}|_{name}\b)", command)]
                    if missing:
                        untried += 1
                        print(f"{path}:{number}: not tried without {' and '.join(missing)}: {command}")
                        continue
                    found = given(shell, command)
                    if not shown or is_as_shown(shown, found):
                        passed += 1
                    else:
                        failed += 1
                        print(f"{path}:{number}: {command}\n  shown {shown}\n  given {found}")
            shell.stdin.close()
            shell.wait()
    print(f"{passed} as shown, {failed} different, {untried} not tried")
    sys.exit(0 if passed and not failed else 1)


if __name__ == "__main__":
    main()
