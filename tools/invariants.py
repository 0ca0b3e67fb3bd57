#!/usr/bin/env python3
"""Computes well-known invariants of a diagram: how many components it has, the Alexander polynomial, the determinant, the signature, and the
Jones polynomial.

    tools/invariants.py [INPUT]

INPUT is a file with one diagram, a grid or a braid, as ./knot reads it, or standard input if none is given. They are for comparison with
tables: nothing here is proved, and equal invariants show nothing. For a diagram with more than 16 columns side by side the Jones polynomial isn't
computed; ./knot simplify may make it smaller. The Alexander polynomial begins at its constant, up to a power of t and its sign.
"""
import argparse

from lib.calls import calls
from knot_workbench.polynomials import MOST_OPEN, invariants
from knot_workbench.texts import Lines, read_diagram


def main():
    parser = argparse.ArgumentParser(description=__doc__, formatter_class=argparse.RawDescriptionHelpFormatter)
    parser.add_argument("input", nargs="?", help="a file with one diagram; standard input if none is given")
    words = parser.parse_args()
    with calls.naming(words.input):
        lines = Lines(calls.input_text(words.input))
        diagram = read_diagram(lines)
        lines.done()
    found = invariants(diagram)
    jones = found.jones_text or f"not worked out: more than {MOST_OPEN} columns are side by side"
    calls.put(None, f"components {found.components}\nalexander {found.alexander_text}\ndeterminant {found.determinant}\n"
                    f"signature {found.signature}\njones {jones}\n")


if __name__ == "__main__":
    calls.run("invariants.py", main)
