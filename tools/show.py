#!/usr/bin/env python3
"""Makes a page of a certificate: one HTML file, to be opened in any browser.

    tools/show.py [CERTIFICATE] > page.html

CERTIFICATE is a file, or standard input if none is given. It contains one of these, as ./knot reads them:
  two diagrams, quandles, `equal ..`      the diagrams, and a slider through the moves, with each move's words
  two diagrams, quandles, `different ..`  the diagrams, both lists of colourings, and a slider through each list; for a certificate of
                                          version 3 the numbers of both
  two diagrams, a quandle, a cocycle      the same for `weights`: each colouring with its weight, and how many have each
  a diagram, `moves ..`                   a slider through the moves; a quandle and colours may follow them
Colours are carried along the moves: those that are given, or else a colouring of the first diagram by --quandle, or by the first quandle of
the certificate or of the built-in list that has one with two colours. Arrow keys, Home and End move through the frames, and the space bar
plays them; page.html#frame-4 opens at frame 4. The page has a text for readers who don't see its pictures, and needs no network; without
scripts it shows diagrams and lists.

Each move is made and each listed colouring is tried here, but only ./knot check rules on a certificate. With --check it is asked first.
"""
import argparse

from lib.calls import calls

from knot_workbench.faults import NoJob
from knot_workbench.pages import page


def main():
    parser = argparse.ArgumentParser(description=__doc__, formatter_class=argparse.RawDescriptionHelpFormatter)
    parser.add_argument("certificate", nargs="?", help="a file; standard input if none is given")
    parser.add_argument("--out", metavar="FILE", help="where the page goes; standard output if none is given")
    parser.add_argument("--title", help="the page's title")
    parser.add_argument("--quandle", metavar="NAME", help="which quandle colours the diagrams of moves, as \"dihedral 5\"")
    parser.add_argument("--plain", action="store_true", help="no colours along the moves")
    parser.add_argument("--frames", metavar="PLACES", help="only these frames, counted from 0: as 0,5,9 or 3..7 or 0,10,.. for each tenth and the last")
    parser.add_argument("--no-shifts", action="store_true", help="leave out the frames after shifts, except the last frame")
    parser.add_argument("--check", action="store_true", help="ask knot check first; the page says that it accepted, and there is no page if it rejects")
    words = parser.parse_args()
    with calls.naming(words.certificate):
        try:
            made = page(calls.input_text(words.certificate), words.title, quandle=words.quandle, plain=words.plain, frames=words.frames,
                        no_shifts=words.no_shifts, check=words.check)
        except NoJob as fault:
            parser.error(f"--{fault}")
    calls.put(words.out, made)


if __name__ == "__main__":
    calls.run("show.py", main)
