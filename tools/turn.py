#!/usr/bin/env python3
"""Turns a diagram into its mirror image, into the one that is run through backwards, or both.

    tools/turn.py --mirror [INPUT]
    tools/turn.py --reverse [INPUT]
    tools/turn.py --mirror --reverse [INPUT]

INPUT is a file with one diagram, a grid or a braid, as ./knot reads it, or standard input if none is given. Standard output gets a
grid for a grid, and a braid for a braid.

The mirror image of a grid of n rows has the marks of row r in row n − 1 − r: the picture turned upside down, in which columns pass over
rows as before and each crossing has the other sign. The mirror image of a braid has all letters negated. In the reverse of a grid
the Xs and the Os have changed places; the reverse of a braid has its letters in the opposite order. Each crossing keeps its sign.

    (cat diagram.txt; tools/turn.py --mirror diagram.txt) | ./knot decide
"""
import argparse

from lib.calls import calls
from knot_workbench.diagrams import diagram_text, mirror_image, reverse
from knot_workbench.texts import Lines, read_diagram


def main():
    parser = argparse.ArgumentParser(description=__doc__, formatter_class=argparse.RawDescriptionHelpFormatter)
    parser.add_argument("--mirror", action="store_true", help="the mirror image")
    parser.add_argument("--reverse", action="store_true", help="run through backwards")
    parser.add_argument("input", nargs="?", help="a file with one diagram; standard input if none is given")
    words = parser.parse_args()
    if not (words.mirror or words.reverse):
        parser.error("--mirror, --reverse or both are due")
    with calls.naming(words.input):
        lines = Lines(calls.input_text(words.input))
        diagram = read_diagram(lines)
        lines.done()
    if words.mirror:
        diagram = mirror_image(diagram)
    if words.reverse:
        diagram = reverse(diagram)
    calls.put(None, diagram_text(diagram))


if __name__ == "__main__":
    calls.run("turn.py", main)
