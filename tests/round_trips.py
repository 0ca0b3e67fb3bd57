#!/usr/bin/env python3
"""Round trips of codes by the built program: the grid that `grid` draws of a code has that code again, under other names.

    tests/round_trips.py [--seed N] [--grids N]      codes of random grids, which `code` writes
    tests/round_trips.py --regina                    codes of some 130 links of Regina, which reads them again

KNOT names the program; else it is the one that the launcher built. Random grids have 2 to 30 columns. Their codes are compared by the
independent reader, and the drawing never has more columns than the grid had. Regina compares knots by their signatures, without reflection
and reversal, and links by crossings, writhe and Jones polynomial. The exit status is 0 where nothing differs, and 2 where Regina or the
program isn't there.
"""
import argparse
import os
import random
import subprocess
import sys

from reader import drawn, items, lines

TOP = os.path.dirname(os.path.dirname(os.path.abspath(__file__)))
PROGRAM = os.environ.get("KNOT") or os.path.join(TOP, "crates", "knot", "out", "knot")


def run(job, text):
    """The status and the output of a job."""
    done = subprocess.run([PROGRAM, job], input=text, stdout=subprocess.PIPE, stderr=subprocess.DEVNULL, check=False)
    return done.returncode, done.stdout


def random_grid(size):
    """The text of a grid with so many columns."""
    while True:
        marks = [random.sample(range(size), size) for _ in range(2)]
        if all(x != o for x, o in zip(*marks)):
            return "".join(f"{mark} {' '.join(map(str, rows))}\n" for mark, rows in zip("xo", marks)).encode()


def columns_of(grid):
    """How many columns the text of a grid has."""
    return len(grid.split(b"\n")[0].split()) - 1


def problem_of(text):
    """What is wrong with the drawing of a grid's code; None where nothing is."""
    _, code = run("code", text)
    status, grid = run("grid", code)
    rows, loops, walks = items.code_text(lines.Lines(code))
    problem = drawn.Drawn(rows, drawn.signs_by(rows, walks), loops).problem_with(status, grid)
    if problem is None and columns_of(grid) > columns_of(text):
        problem = f"{columns_of(grid)} columns in place of {columns_of(text)}"
    return problem


def try_grids(count):
    """How many random grids come back wrong."""
    wrong = 0
    for _ in range(count):
        text = random_grid(random.randint(2, 30))
        problem = problem_of(text)
        if problem:
            wrong += 1
            print(f"{text.decode()}{problem}")
    print(f"{count} grids, {wrong} different")
    return wrong


def links_of(regina):
    """Links with their names: Regina's examples and torus links, and these with crossings changed and kinks."""
    named = ((name, getattr(regina.ExampleLink, name)) for name in dir(regina.ExampleLink) if not name.startswith("_"))
    links = []
    for name, make in named:
        try:
            link = make()
        except TypeError:
            continue
        if isinstance(link, regina.Link) and 0 < link.size() <= 70:
            links.append((name, link))
    links += [(f"T({p},{q})", regina.ExampleLink.torus(p, q)) for p in range(2, 7) for q in range(p, 10)]
    plain = list(links)
    while len(links) < 130:
        name, link = random.choice(plain)
        changed = regina.Link(link)
        for _ in range(random.randint(1, 6)):
            crossing = changed.crossing(random.randrange(changed.size()))
            if random.random() < 0.5:
                changed.change(crossing)
            else:
                changed.r1(regina.StrandRef(crossing, random.randint(0, 1)), random.randint(0, 1), random.choice([1, -1]))
        links.append((f"{name}, changed", changed))
    return links


def are_the_same(one, other):
    """Whether two diagrams of Regina are one diagram, as far as it is compared."""
    if one.countComponents() == 1:
        return one.knotSig(False, False) == other.knotSig(False, False)
    return (one.size(), one.writhe(), one.jones()) == (other.size(), other.writhe(), other.jones())


def try_regina():
    """How many links of Regina come back as others. None where Regina isn't there."""
    try:
        import regina
    except ImportError:
        return None
    links, wrong = links_of(regina), 0
    for name, link in links:
        rows = [tuple(row) for row in link.pdData()]
        status, grid = run("grid", "".join("X[{},{},{},{}]\n".format(*row) for row in rows).encode())
        _, code = run("code", grid)
        back = [tuple(map(int, row[2:-1].split(","))) for row in code.decode().split("\n") if row.startswith("X[")]
        if status != 0 or not are_the_same(regina.Link.fromPD(back), regina.Link.fromPD(rows)):
            wrong += 1
            print(f"{name}: status {status}")
    print(f"{len(links)} links of Regina, {wrong} different")
    return wrong


def main():
    parser = argparse.ArgumentParser(description=__doc__.split("\n", maxsplit=1)[0])
    parser.add_argument("--seed", type=int, default=1, help="the seed of the random grids and changes")
    parser.add_argument("--grids", type=int, default=200, help="how many random grids")
    parser.add_argument("--regina", action="store_true", help="the links of Regina, in place of random grids")
    options = parser.parse_args()
    if not os.access(PROGRAM, os.X_OK):
        print(f"round_trips.py: there is no program {PROGRAM}: tools/build.py builds it, or KNOT names one", file=sys.stderr)
        return 2
    random.seed(options.seed)
    wrong = try_regina() if options.regina else try_grids(options.grids)
    if wrong is None:
        print("Regina isn't installed for this Python", file=sys.stderr)
        return 2
    return 1 if wrong else 0


if __name__ == "__main__":
    sys.exit(main())
