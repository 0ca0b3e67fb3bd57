#!/usr/bin/env python3
"""Takes PD, DT and Gauss codes of other programs to knot and seek.

    tools/code.py 'DT[4,6,2]' | ./knot grid
    tools/code.py 'GaussCode[-1,2,-3,1,-2,3]' > code.txt; ./seek --pd code.txt --braid "2 1 1 1"
    tools/code.py --as gauss --signs "1 1 1" '1 -2 3 -1 2 -3'
    tools/code.py --grid 'DT:[(4,6,8,2)]'                        the grid itself, by ./knot grid

CODE is a text as the other program prints it, or the path of a file with one; standard input is read if none is given. It becomes a planar
diagram code as ./knot grid and ./seek --pd read it, with a comment that says how it was made. These are accepted, in brackets of any kind,
with commas or blanks:

PD     PD[X[4,2,5,1], ..] of KnotTheory, [[4,2,5,1], ..] of KnotInfo, SnapPy and Regina, X4251 X_{3,10,4,11} .. of the Knot Atlas; Sage lists
       edges the other way round, see --sage
DT     KnotInfo and KnotTheory: [4,6,2], DT[4,6,2], DTCode[{6,8},{2,4}] with a list for each component
       SnapPy: DT:[(4,6,2)] with a list for each component, and DT[cacbca] in letters: the number of crossings, that of components, the length
       of each, and then 2, 4, .. as a, b, .. and -2, -4, .. as A, B, ..
Gauss  KnotInfo, KnotTheory and Regina: {-1,2,-3,1,-2,3}, where a negative number is a passage under; a list for each component of a link
       Sage: [[[-1,2,-3,1,-2,3]],[1,1,1]], and O1+U2+O3+U1+O2+U3+, where the crossings have signs

If no word says what a list is, its numbers show it, or --as says it. The signs of a DT code mean the same to KnotInfo and SnapPy except
for the mirror image, which neither decides: a DT code, and a Gauss code without signs of crossings, are codes of the mirror image too.
SnapPy's flips after a DT code (.001, or a list of 0 and 1) would decide it, and are not read.
"""
import argparse
import os
import re
import sys

from lib.calls import calls

from knot_workbench.codes.reading import read_signed, read_text
from knot_workbench.faults import BadCode
from knot_workbench.given import grid_by
from knot_workbench.programs import use

TOP = os.path.dirname(os.path.dirname(os.path.realpath(__file__)))
KIND_OF_WORD = {"pd": "PD", "dt": "DT", "gauss": "Gauss"}


def given_text(word):
    """The text of a code: of a file, of standard input, or the word itself."""
    if word is None or word == "-":
        return calls.input_text()
    return calls.input_text(word) if os.path.isfile(word) else word


def code_in_text(text, kind, signs, is_sage):
    """The code of a text. Raises BadCode."""
    if signs is not None:
        return read_signed(text, signs)
    found = read_text(text, kind)
    if is_sage:
        if found.kind != "PD" or found.given is not None:
            raise BadCode("--sage is for the rows of a PD code")
        return found._replace(rows=[[i, j, k, l] for i, l, k, j in found.rows])
    return found


def remark(found):
    """How a code was had, as a comment."""
    if not found.parts:
        return f"# of a {found.kind} code\n"
    which = "the mirror image has it too" if found.parts == 1 else f"each of {found.parts} parts may be mirrored"
    return f"# of a {found.kind} code: {which}\n"


def main():
    parser = argparse.ArgumentParser(prog="code.py", description=__doc__, formatter_class=argparse.RawDescriptionHelpFormatter)
    parser.add_argument("code", nargs="?", metavar="CODE", help="the code, or a file with it; standard input if none is given")
    parser.add_argument("--as", dest="kind", choices=sorted(KIND_OF_WORD), help="what the code is")
    parser.add_argument("--signs", metavar="SIGNS", help='the sign of each crossing of a Gauss code, in the order of their numbers, as "1 -1 1"')
    parser.add_argument("--sage", action="store_true", help="rows of a PD code as Sage lists them, clockwise")
    parser.add_argument("--grid", action="store_true", help="write the grid that ./knot grid draws of it")
    words = parser.parse_args(as_code_words())
    if words.signs is not None and words.kind not in (None, "gauss"):
        parser.error("--signs goes with a Gauss code")
    with calls.naming(words.code if words.code and os.path.isfile(words.code) else None):
        found = code_in_text(given_text(words.code), KIND_OF_WORD.get(words.kind), words.signs, words.sage)
    if not words.grid:
        calls.put(None, remark(found) + found.text)
        return
    if not os.environ.get("KNOT"):
        use(knot=os.path.join(TOP, "knot"))
    calls.put(None, remark(found) + grid_by(found.text).text)


def as_code_words():
    """The words of the call, in which a code that begins with a minus sign, as '-1 2 -3 1 -2 3', isn't taken for an option."""
    words = sys.argv[1:]
    return [f" {word}" if re.match(r"-[0-9]", word) else word for word in words]


if __name__ == "__main__":
    calls.run("code.py", main)
