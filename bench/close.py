#!/usr/bin/env python3
"""Times `knot close`, and counts instructions a tuple that is tried.

    python3 bench/close.py                  seconds, and bytes written a second
    python3 bench/close.py --instructions   also instructions a tuple, counted by callgrind
"""
import os
import tempfile

from colour import listed_counts
from measure import PROGRAM, best, built, instructions, wants_instructions, write_input

# Eight letters on four strands, and the same undone from the last to the first.
UNDONE_LETTERS = [1, 2, 3, 1, 2, 3, 1, 2, -2, -1, -3, -2, -1, -3, -2, -1]


def word(letters):
    return f"braid 4 {' '.join(map(str, UNDONE_LETTERS[:letters]))}".strip() + "\n"


def rows():
    """A name, the letters, the tuples that are tried, and the input."""
    for quandle, order in (("trivial 16", 16), ("dihedral 16", 16), ("dihedral 3", 3)):
        for letters in (0, 4, 8, 16):
            yield f"4 strands, {letters} letters, {quandle}", letters, order ** 4, word(letters) + f"quandle {quandle}\n"


def main():
    with_instructions = wants_instructions(__doc__)
    built()
    with tempfile.TemporaryDirectory() as folder:
        path = os.path.join(folder, "input")
        print(f"{'braid and quandle':38} {'tuples':>7} {'fixed':>7} {'bytes':>9} {'seconds':>8} {'MB/s':>6} {'MB':>6}"
              + (f" {'instructions a tuple':>20}" if with_instructions else ""))
        for name, letters, tuples, text in rows():
            start = None
            if with_instructions:
                write_input(path, word(letters) + "quandle trivial 1\n")
                start = instructions("close", path)
            write_input(path, text)
            seconds, memory, written = best([PROGRAM, "close"], path)
            size, count = len(written), listed_counts(written)
            line = f"{name:38} {tuples:7} {count:7} {size:9} {seconds:8.4f} {size / 1e6 / seconds:6.0f} {memory / 1e6:6.1f}"
            if with_instructions:
                line += f" {(instructions('close', path) - start) / tuples:20.0f}"
            print(line)


if __name__ == "__main__":
    main()
