"""The quandles of 56, 84 and 120 colours: laws, files, and what their numbers distinguish."""
import math
import os
import unittest

import making
import common
import groups
import knot_invariants
import large_quandles
import quandles
from connected import dual
from knot_workbench import colourings, diagrams, quandles as knot_quandles
from knot_workbench.weighing import is_connected

# By the orders of the groups and of the centralizers of an element.
SIZES = {"PSL2_7_56_a": 168 // 3, "PGammaL2_8_84_a": 1512 // 18, "PGammaL2_8_84_b": 1512 // 18, "AGammaL1_16_120_a": 960 // 8,
         "AGammaL1_16_120_b": 960 // 8}
# The words of 8_17 and 9_32; and two knots of one Alexander polynomial, 1, and one Jones polynomial.
EIGHT_17 = diagrams.Braid(3, (1, 1, -2, 1, -2, 1, -2, -2))
NINE_32 = diagrams.Braid(4, (1, 1, -2, 1, -2, 1, 3, -2, 3))
ALIKE = (diagrams.Braid(4, (1, 1, 2, -3, 2, 1, -3, -2, -2, -3, -3)), diagrams.Braid(4, (-1, -1, -1, -3, -3, -2, 3, 1, 1, -2, 1, 3, 2)))


class Tables(unittest.TestCase):
    @classmethod
    def setUpClass(cls):
        cls.tables = {name: table for name, _, table in large_quandles.named_tables()}

    def test_groups_have_their_orders(self):
        self.assertEqual({name: len(groups.group_of(generators)) for name, _, generators, _ in large_quandles.classes()},
                         {"PSL2_7_56_a": 168, "PGammaL2_8_84_a": 1512, "PGammaL2_8_84_b": 1512, "AGammaL1_16_120_a": 960, "AGammaL1_16_120_b": 960})

    def test_each_is_a_connected_quandle_of_its_order(self):
        self.assertEqual({name: len(table) for name, table in self.tables.items()}, SIZES)
        for name, table in self.tables.items():
            self.assertIsNone(knot_quandles.quandle_fault(table), name)
            self.assertTrue(is_connected(table), name)
            self.assertGreater(len(table), knot_quandles.MAX_ORDER)

    def test_translations_have_the_orders_of_the_elements(self):
        for name, order in zip(SIZES, (3, 3, 3, 4, 4)):
            self.assertEqual(math.lcm(*groups.cycle_lengths([row[0] for row in self.tables[name]])), order, name)

    def test_files_have_the_tables(self):
        folder = common.scratch(self)
        self.assertEqual(making.run("large_quandles.py", "tables", folder), (0, "", ""))
        self.assertEqual(sorted(os.listdir(folder)), sorted(f"{name}.txt" for name in SIZES))
        for name, table in self.tables.items():
            with open(os.path.join(folder, f"{name}.txt"), encoding="utf-8") as file:
                text = file.read()
            self.assertEqual(text, common.read("quandles", "larger", f"{name}.txt"), name)
            self.assertEqual([line for line in text.splitlines() if not line.startswith("#")],
                             [f"quandle table {len(table)}", *(" ".join(map(str, row)) for row in table)])

    def number(self, name, braid):
        return large_quandles.connected_count(knot_quandles.quandle_of(name, self.tables[name]), braid)

    def test_numbers_are_those_of_fixed_points(self):
        trefoil = diagrams.Braid(2, (1, 1, 1))
        for name, table in self.tables.items():
            self.assertEqual(self.number(name, trefoil), len(colourings.fixed_points(trefoil, knot_quandles.quandle_of(name, table))), name)
        small = quandles.read_list(os.path.join(common.LISTS, "connected-05.txt"))[0]
        for braid in (EIGHT_17, diagrams.mirror_braid(ALIKE[0])):
            self.assertEqual(large_quandles.connected_count(small, braid), len(colourings.fixed_points(braid, small)))

    def test_8_17_is_told_from_its_reverse(self):
        self.assertEqual(dict(quandles.read_braids(common.KNOTS))["8_17"], EIGHT_17)
        for name, wanted in (("PGammaL2_8_84_a", [3108, 84, 84]), ("PGammaL2_8_84_b", [84, 3108, 3108]), ("PSL2_7_56_a", [56, 56, 56])):
            self.assertEqual([self.number(name, braid) for braid in (EIGHT_17, diagrams.reverse(EIGHT_17), diagrams.mirror_braid(EIGHT_17))], wanted)

    def test_9_32_is_told_from_its_reverse(self):
        self.assertEqual([self.number("AGammaL1_16_120_a", braid) for braid in (NINE_32, diagrams.reverse(NINE_32))], [1080, 3960])

    def test_knots_that_no_polynomial_tells_apart(self):
        self.assertEqual([knot_invariants.alexander_polynomial(*braid) for braid in ALIKE], [[1], [1]])
        self.assertEqual(*(knot_invariants.jones_polynomial(*braid) for braid in ALIKE))
        self.assertEqual([self.number("PSL2_7_56_a", braid) for braid in ALIKE], [728, 392])

    def test_the_dual_counts_as_the_reverse(self):
        table = self.tables["PGammaL2_8_84_a"]
        self.assertEqual(large_quandles.connected_count(knot_quandles.quandle_of("", dual(table)), EIGHT_17), self.number("PGammaL2_8_84_b", EIGHT_17))


class Words(unittest.TestCase):
    def test_numbers_of_braids(self):
        status, out, fault = making.run("large_quandles.py", "numbers", "2 1 1 1", "1")
        self.assertEqual((status, fault), (0, ""))
        self.assertEqual([line.split() for line in out.splitlines()],
                         [["PSL2_7_56_a", "392", "56"], ["PGammaL2_8_84_a", "840", "84"], ["PGammaL2_8_84_b", "840", "84"],
                          ["AGammaL1_16_120_a", "1080", "120"], ["AGammaL1_16_120_b", "1080", "120"]])

    def test_bad_words(self):
        self.assertEqual(making.run("large_quandles.py")[0], 2)
        self.assertEqual(making.run("large_quandles.py", "tables", "no such folder")[0], 2)
        status, _, fault = making.run("large_quandles.py", "numbers", "3 1 3")
        self.assertEqual((status, fault), (1, "large_quandles.py: '3 1 3': line 1: 3 is no letter on 3 strands\n"))


if __name__ == "__main__":
    unittest.main()
