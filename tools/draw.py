#!/usr/bin/env python3
"""Draws a grid, a list of moves frame by frame, and a colouring as one SVG picture.

    tools/draw.py [INPUT] [--out FILE]

INPUT is a file, or standard input if none is given. It contains one of these, as ./knot reads them:
  a diagram                               one picture
  a diagram and moves                     a frame for the diagram and one after each move
  two diagrams, quandles, `equal N`       the same, for a certificate; the line `certificate 2` may come before `equal`
  two diagrams, quandles, `different ..`  both diagrams, each in one of its colourings, and how many are listed; for a certificate of
                                          version 3 both diagrams and their numbers
  any of the first two, then a quandle and colours: each strand in its colour, carried along the moves
A long list of moves makes a long picture: --frames and --no-shifts leave frames out. The picture goes to standard output if no FILE
is given; it has a title and a text for those who don't see it. Verticals pass over horizontals, and a horizontal has a gap where it
passes under. Arrows lead from X to O along the columns and from O to X along the rows. The colours' numbers are below the columns.
"""
import argparse

from lib.calls import calls

from knot_workbench.drawing import PALETTE, Frame, along, chosen, picture, read_colours, read_frames

__all__ = ("PALETTE", "Frame", "along", "chosen", "picture", "read_colours", "read_frames")


def main():
    parser = argparse.ArgumentParser(description=__doc__, formatter_class=argparse.RawDescriptionHelpFormatter)
    parser.add_argument("input", nargs="?", help="a file; standard input if none is given")
    parser.add_argument("--out", metavar="FILE", help="where the picture goes; standard output if none is given")
    parser.add_argument("--cell", type=int, default=24, help="the side of a cell, 8 to 200 (24)")
    parser.add_argument("--across", type=int, default=4, help="how many frames a line has (4)")
    parser.add_argument("--marks", action="store_true", help="write the marks X and O too")
    parser.add_argument("--frames", metavar="PLACES", help="only these frames, counted from 0: as 0,5,9 or 3..7 or 0,10,.. for each tenth and the last")
    parser.add_argument("--no-shifts", action="store_true", help="leave out the frames after shifts, except the last frame")
    parser.add_argument("--title", help="the picture's title for those who don't see it, in place of one that counts columns and frames")
    words = parser.parse_args()
    if not 8 <= words.cell <= 200 or words.across < 1:
        parser.error("a cell is 8 to 200, and at least one frame is in a line")
    with calls.naming(words.input):
        frames, is_pair = read_frames(calls.input_text(words.input))
    try:
        kept = chosen(frames, words.frames, words.no_shifts)
    except ValueError:
        parser.error(f"--frames {words.frames} names no places")
    if not kept:
        parser.error(f"--frames {words.frames} names none of the {len(frames)} frames")
    calls.put(words.out, picture(kept, is_pair, words.cell, words.across, words.marks, words.title))


if __name__ == "__main__":
    calls.run("draw.py", main)
