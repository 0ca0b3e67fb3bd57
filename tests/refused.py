#!/usr/bin/env python3
"""Refuses each request for memory of the built programs in turn, one number at a time, and looks at how the call ends.

    tests/refused.py [--most N] [NAME..]    every example, or those with one of these words in their name
    KNOT=/some/where/knot tests/refused.py  another program

Each such run must end with status 7 and nothing written, or with the example's own answer; a sentence on standard error may come with either.
Each number is refused alone, and once more with all requests after it. Of an example with more than N requests (300 if nothing is said, and 40
for `seek`) N numbers are tried, evenly spread. Examples of `check` are tried on the separate checker too, and those of `seek` on the seeker, if
these were built or KNOT_CHECK and SEEK name them. Needs a C compiler, cc. Ends with 0 if no answer differs; else each difference is printed, and
it ends with 1."""
import argparse
import os
import subprocess
import sys
import tempfile

TOP = os.path.dirname(os.path.dirname(os.path.abspath(__file__)))
OUT_OF_MEMORY = 7
MOST = {"knot": 300, "knot_check": 300, "seek": 40}


def program_of(name):
    """The path of a program, or None if there is none."""
    path = os.environ.get(name.upper(), f"{TOP}/crates/{name}/out/{name}")
    return os.path.abspath(path) if os.access(path, os.X_OK) else None


def read(path):
    with open(path, encoding="utf-8") as file:
        return file.read()


def examples():
    """Each example of each program: the program, its name, its words, and its input."""
    folder = f"{TOP}/examples"
    for job in sorted(os.listdir(folder)):
        for name in sorted(os.listdir(f"{folder}/{job}")) if os.path.isdir(f"{folder}/{job}") else ():
            stem = f"{folder}/{job}/{name[:-4]}"
            if name.endswith(".txt") and os.path.exists(f"{stem}.out"):
                words = read(f"{stem}.args").split() if os.path.exists(f"{stem}.args") else []
                with open(f"{stem}.txt", "rb") as file:
                    data = file.read()
                yield "knot", f"{job}/{name[:-4]}", [job, *words], data
                if job == "check":
                    yield "knot_check", f"{job}/{name[:-4]}", words, data
    for name in sorted(os.listdir(f"{folder}/seek")):
        if name.endswith(".words"):
            yield "seek", f"seek/{name[:-6]}", read(f"{folder}/seek/{name}").splitlines(), b""


def run(program, library, words, data, **environment):
    environment = {**os.environ, "LD_PRELOAD": library, **environment}
    done = subprocess.run([program, *words], input=data, cwd=f"{TOP}/examples/seek", capture_output=True, env=environment, timeout=60, check=False)
    return done.returncode, done.stdout, done.stderr


def spread(count, most):
    return range(count) if count <= most else sorted({number * count // most for number in range(most)})


def main():
    parser = argparse.ArgumentParser(description=__doc__, formatter_class=argparse.RawDescriptionHelpFormatter)
    parser.add_argument("--most", type=int)
    parser.add_argument("names", nargs="*", metavar="NAME")
    words = parser.parse_args()
    programs = {name: program_of(name) for name in MOST}
    if not programs["knot"]:
        sys.exit("refused.py: there is no program knot; build it first, or name it by KNOT")
    runs = memory = own = differences = 0
    with tempfile.TemporaryDirectory() as folder:
        library, count = f"{folder}/refused.so", f"{folder}/count"
        subprocess.run(["cc", "-shared", "-fPIC", "-O1", "-o", library, f"{TOP}/tests/refused.c"], check=True)
        tried = 0
        for which, name, call, data in examples():
            program = programs[which]
            if not program or words.names and not any(word in name for word in words.names):
                continue
            tried += 1
            with open(count, "wb") as file:
                file.write(bytes(8))
            due = run(program, library, call, data, REFUSE_COUNT=count)
            with open(count, "rb") as file:
                requests = int.from_bytes(file.read(), sys.byteorder)
            for number in spread(requests, words.most or MOST[which]):
                for further in ({}, {"REFUSE_ON": "1"}):
                    ended = run(program, library, call, data, REFUSE=str(number), **further)
                    runs += 1
                    # If memory runs out for a sentence on the words, clap's own text comes, which begins with `error`.
                    is_told = not ended[2] or ended[2].startswith((b"knot: ", b"seek: ", b"error: ")) or ended[2] == due[2]
                    if is_told and ended[:2] == (OUT_OF_MEMORY, b""):
                        memory += 1
                    elif is_told and ended[:2] == due[:2]:
                        own += 1
                    else:
                        differences += 1
                        place = f"{which}: {name}: request {number} of {requests}{' and all after it' if further else ''}"
                        print(f"{place}: status {ended[0]}, {ended[1][:80]!r} {ended[2][:80]!r}")
    print(f"{tried} examples, {runs} runs: {memory} ended with status {OUT_OF_MEMORY} and nothing written, {own} with the example's own answer, "
          f"{differences} otherwise")
    sys.exit(1 if differences else 0)


if __name__ == "__main__":
    main()
