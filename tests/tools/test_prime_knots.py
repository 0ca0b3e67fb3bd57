"""Tests of the tables of prime knots in tables/: how many there are, that each diagram is the knot of its name, and what is known of symmetries."""
import collections
import csv
import os
import re
import unittest

import common
import knot_invariants
from knot_workbench import KnotTable, Turn
from knot_workbench.codes.brackets import nested
from knot_workbench.tables.knots import read_knots
from three_knots import TO_10, TO_12


@unittest.skipUnless(os.path.isfile(TO_12), "the table isn't there")
class Tables(unittest.TestCase):
    def test_there_are_as_many_prime_knots_as_are_known(self):
        counts = collections.Counter(knot.crossings for knot in read_knots(TO_12).values())
        self.assertEqual([counts[crossings] for crossings in range(3, 13)], [1, 1, 2, 3, 7, 21, 49, 165, 552, 2176])
        self.assertEqual(list(read_knots(TO_10).values()), [knot for knot in read_knots(TO_12).values() if knot.crossings <= 10])

    def test_codes_and_grids_are_knots_of_so_many_crossings(self):
        with open(TO_12, encoding="utf-8", newline="") as source:
            for row in csv.DictReader(source):
                rows = nested(row["pd_notation"].removeprefix("PD"))
                self.assertEqual(len(rows), int(row["crossings"]), row["name"])
                self.assertEqual(sorted(edge for one in rows for edge in one), sorted([*range(1, 2 * len(rows) + 1)] * 2), row["name"])

    def test_names_are_those_of_the_words_to_eight_crossings(self):
        # By the Jones polynomial, which all of these differ by, up to mirror images.
        with open(TO_10, encoding="utf-8", newline="") as source:
            codes = {row["name"]: nested(row["pd_notation"].removeprefix("PD")) for row in csv.DictReader(source)}
        with open(os.path.join(common.LISTS, "knots-to-8.csv"), encoding="utf-8", newline="") as source:
            for row in csv.DictReader(source):
                letters = tuple(map(int, re.findall(r"-?\d+", row["braid"])))
                due = knot_invariants.jones_polynomial(max(map(abs, letters)) + 1, letters)
                self.assertIn(jones_of_code(codes[row["name"]]), (due, {-power: count for power, count in due.items()}), row["name"])

    def test_the_words_of_the_table_to_ten_mean_the_mirror_images_that_are_drawn(self):
        with open(TO_10, encoding="utf-8", newline="") as source:
            for row in csv.DictReader(source):
                if row["braid_notation"] and int(row["crossings"]) < 9:
                    strands, letters = nested(row["braid_notation"])
                    code = nested(row["pd_notation"].removeprefix("PD"))
                    self.assertEqual(jones_of_code(code), knot_invariants.jones_polynomial(strands, letters), row["name"])

    def test_files_belong_together(self):
        for path in (TO_10, TO_12):
            self.assertEqual(len(KnotTable(path).rows), len(read_knots(path)))

    def test_names_in_their_spellings(self):
        known = KnotTable(TO_12)
        for said, name in (("10_132", "10_132"), ("11n34", "11n34"), ("K11n34", "11n34"), ("11n_34", "11n34"), ("k10n31", "10_161")):
            self.assertEqual(known.parts_of(said), ((name, Turn()),))
        self.assertEqual(known.parts_of("3_1 mirrored # 7_5"), ((("3_1", Turn(True))), ("7_5", Turn())))
        self.assertEqual((known.parts_of("unknot"), known.parts_of("10_166"), known.parts_of("3_2")), ((), None, None))


@unittest.skipUnless(os.path.isfile(TO_12[:-4] + ".symmetry.csv"), "the symmetries aren't there")
class Symmetries(unittest.TestCase):
    def setUp(self):
        self.knots = read_knots(TO_12).values()

    def at_most(self, known, is_such):
        """No more knots are such than are known, and of the others as many may be."""
        every = collections.Counter(knot.crossings for knot in self.knots)
        shown = collections.Counter(knot.crossings for knot in self.knots if is_such(knot) is True)
        ruled_out = collections.Counter(knot.crossings for knot in self.knots if is_such(knot) is False)
        for crossings, count in zip(range(3, 13), known):
            self.assertLessEqual(shown[crossings], count)
            self.assertLessEqual(ruled_out[crossings], every[crossings] - count)

    def test_as_many_are_their_own_mirror_images_as_are_known(self):
        both = {Turn(True), Turn(True, True)}
        self.at_most((0, 1, 0, 1, 0, 5, 0, 13, 0, 58), lambda knot: bool(both & set(knot.same)) or (False if both <= set(knot.different) else None))

    def test_as_many_are_their_own_reverses_as_are_known(self):
        turn = Turn(False, True)
        self.at_most((1, 1, 2, 3, 7, 20, 47, 132, 365, 1032), lambda knot: turn in knot.same or (False if turn in knot.different else None))

    def test_two_symmetries_make_the_third(self):
        for knot in self.knots:
            self.assertNotEqual(len(knot.same), 2, knot.name)
            self.assertFalse(len(knot.same) == len(knot.different) == 1, knot.name)

    def test_the_table_to_ten_has_the_same(self):
        self.assertEqual([(knot.same, knot.different) for knot in read_knots(TO_10).values()],
                         [(knot.same, knot.different) for knot in self.knots if knot.crossings <= 10])


def jones_of_code(rows):
    """The Jones polynomial of a code of one component whose edges ascend along it. A crossing is positive where the strand over leaves on the
    second edge."""
    count = 2 * len(rows)
    return knot_invariants.jones_of_rows(rows, [1 if (j - l) % count == 1 else -1 for _, j, _, l in rows])


if __name__ == "__main__":
    unittest.main()
