#!/usr/bin/env python3
"""Takes what `./knot code` prints into Sage.

    ./knot code < diagram.txt | sage --python tools/to_sage.py [--kinks]
    ./knot code < diagram.txt | tools/to_sage.py --print        the call alone, for Sage's prompt
    tools/to_sage.py [--print] CODE ...                         files, also those of tools/batch.py --job code

Sage lists the edges of a crossing the other way round: it takes [i, l, k, j] for X[i,j,k,l]. Run with Sage 9.5 (Debian's package sagemath).
Loops alone are always given kinks: Sage 9.5 takes a braid without letters for one component, however many strands it has. The Jones
polynomial is asked for by the sum over states: the other way of Sage 9.5 goes through a braid, and was wrong, or did not end, for a
component that passes over everywhere.
"""
from lib.codes import crossing_codes


def sage_rows(code):
    if not code.rows and code.loops > 1:
        code = crossing_codes.kinked(code)
    return [[i, l, k, j] for i, j, k, l in code.rows]


def expression_for_sage(code):
    return f"Link({sage_rows(code)})"


def show_in_sage(code):
    from sage.all import Link

    link = Link(sage_rows(code))
    print(link)
    print(f"components {link.number_of_components()}")
    if code.rows:
        print(f"writhe {link.writhe()}")
        if list(link.orientation()) != crossing_codes.signs(code):
            print("note: some signs differ: Sage ran through a component that passes over everywhere the other way round")
    print(f"jones {link.jones_polynomial(algorithm='statesum')}")


if __name__ == "__main__":
    crossing_codes.run_to_script("to_sage.py", __doc__, expression_for_sage, show_in_sage)
