#!/usr/bin/env python3
"""Makes quandles of 56, 84 and 120 colours. By numbers of colourings they distinguish what no polynomial does, as a knot and its reverse.

    quandles/make/large_quandles.py tables FOLDER        writes a file for each, NAME.txt
    quandles/make/large_quandles.py numbers BRAID ..     how many colourings the closures of braids have by each; BRAID is as "3 1 -2 1 -2"

`seek --weights` takes the files, and `check` accepts evidence with them; quandles/larger/ has them ready. `numbers` counts in plain Python,
and nothing of it is proved. It tries the order to the power of the strands but one, so a braid of four strands takes a minute or more.

The colours are the elements of a conjugacy class of a group of permutations, in the order of their lists of images, and x ▷ y = y⁻¹ x y. The
groups are PSL(2,7), the maps x ↦ (a x + b) / (c x + d) mod 7 with a d − b c = 1; PΓL(2,8), those over the field of 8 elements followed by
powers of the Frobenius map x ↦ x²; and AΓL(1,16), the maps x ↦ a x + b of the field of 16 elements followed by such powers. A point is a number
whose binary digits are its coefficients, that of 1 the lowest, with t³ = t + 1 and t⁴ = t + 1; 7 and 8 mean infinity. Those whose names
end with a and b are the duals of each other. Each table is tested before it is written: it is a quandle, and connected.
"""
import argparse
import importlib
import itertools
import os

from fields import Field
from groups import conjugacy_class, inverse, projective_group, times

importlib.import_module("places")  # (it knows where lib and the module are)
from lib.calls import calls
from knot_workbench.quandles import quandle_fault, quandle_of, quandle_text
from knot_workbench.texts import Lines, read_braid
from knot_workbench.weighing import is_connected

FIELD_OF_8 = Field(2, (1, 1, 0))
SIXTEEN = Field(2, (1, 1, 0, 0))


# Maps of a field, as permutations of its elements, and of infinity after them

def power(field, exponent):
    """The map x to x^k."""
    def image(x):
        found = 1
        for _ in range(exponent):
            found = field.times[found][x]
        return found
    return tuple(image(x) for x in range(field.size))


def shifts(field):
    """The maps x to x + b for the powers b of t in a field of two to some power, which make all of them."""
    return [tuple(field.plus[x][1 << place] for x in range(field.size)) for place in range(field.size.bit_length() - 1)]


def with_infinity(permutation):
    """The same with infinity after the other points, where it stays."""
    return (*permutation, len(permutation))


def projective_semilinear(field):
    """Generators of PΓL(2, q) on the elements of the field and infinity."""
    size = field.size
    inverted = (size, *(field.minus[field.inverse(x)] for x in range(1, size)), 0)
    return [*map(with_infinity, shifts(field)), inverted, with_infinity(power(field, 2))]


def affine_semilinear(field):
    """Generators of AΓL(1, q) on the elements of the field, which t generates."""
    return [*shifts(field), tuple(field.times[2][x] for x in range(field.size)), power(field, 2)]


# Names, what each is, generators of its group, and an element of its class.
def classes():
    """All of them, as (name, words, generators, element)."""
    seven = projective_group(7, 2)
    eight, sixteen = projective_semilinear(FIELD_OF_8), affine_semilinear(SIXTEEN)
    yield "PSL2_7_56_a", "the class of x ↦ 2 x in PSL(2,7)", seven, seven[2]
    for name, exponent in (("PGammaL2_8_84_a", 2), ("PGammaL2_8_84_b", 4)):
        yield name, f"the class of x ↦ x^{exponent} in PΓL(2,8)", eight, with_infinity(power(FIELD_OF_8, exponent))
    for name, exponent in (("AGammaL1_16_120_a", 2), ("AGammaL1_16_120_b", 8)):
        yield name, f"the class of x ↦ x^{exponent} in AΓL(1,16)", sixteen, power(SIXTEEN, exponent)


# Tables

def class_table(generators, element):
    """The table of the class of an element: x ▷ y = y⁻¹ x y, the colours in order."""
    colours = sorted(conjugacy_class(element, generators, 120))
    index = {colour: place for place, colour in enumerate(colours)}
    return [[index[times(times(inverse(y), x), y)] for y in colours] for x in colours]


def named_tables():
    """Names, words and tables. Raises Fault where a table is no connected quandle."""
    for name, words, generators, element in classes():
        table = class_table(generators, element)
        fault = quandle_fault(table) or (None if is_connected(table) else "it is not connected")
        if fault:
            raise calls.Fault(f"{name}: {fault}")
        yield name, words, table


def file_text(name, words, table):
    """The whole file."""
    head = f"# {name}: {words}.\n# Made by quandles/make/large_quandles.py. seek takes it by --weights.\n"
    return head + quandle_text(quandle_of(f"table {len(table)}", table))


# Numbers of colourings

def connected_count(quandle, braid):
    """How many colourings the closure of a braid has by a connected quandle: as many with each colour at the first foot."""
    over, back = quandle.over, quandle.back
    order, found = len(over), 0
    for rest in itertools.product(range(order), repeat=braid.strands - 1):
        colours = [0, *rest]
        for letter in braid.letters:
            place = abs(letter) - 1
            left, right = colours[place], colours[place + 1]
            if letter > 0:
                colours[place], colours[place + 1] = over[right][left], left
            else:
                colours[place], colours[place + 1] = right, back[left][right]
        found += colours[0] == 0 and tuple(colours[1:]) == rest
    return order * found


def braid_of_word(word):
    """The braid of a word on the command line. Raises Fault where it is none."""
    with calls.naming(f"'{word}'"):
        lines = Lines(f"braid {word}\n")
        braid = read_braid(lines)
        lines.done()
    return braid


def say_numbers(words):
    """Prints a line for each quandle: its name, and the number of colourings of each braid."""
    braids = [braid_of_word(word) for word in words]
    for name, _, table in named_tables():
        quandle = quandle_of(name, table)
        print(f"{name:17} " + " ".join(f"{connected_count(quandle, braid):7}" for braid in braids), flush=True)


def main():
    parser = argparse.ArgumentParser(description=__doc__, formatter_class=argparse.RawDescriptionHelpFormatter)
    jobs = parser.add_subparsers(dest="job", required=True, metavar="JOB")
    jobs.add_parser("tables", help="write the tables").add_argument("folder", metavar="FOLDER")
    jobs.add_parser("numbers", help="count colourings").add_argument("braids", nargs="+", metavar="BRAID")
    words = parser.parse_args()
    if words.job == "numbers":
        say_numbers(words.braids)
        return
    if not os.path.isdir(words.folder):
        parser.error(f"there is no folder {words.folder}")
    for name, said, table in named_tables():
        calls.put(os.path.join(words.folder, f"{name}.txt"), file_text(name, said, table))


if __name__ == "__main__":
    calls.run("large_quandles.py", main)
