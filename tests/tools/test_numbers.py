"""Tests of rows of numbers of colourings: how they are written, and those of sums and mirror images."""
import re
import unittest

import common
import knot_invariants
from knot_workbench import Braid
from knot_workbench.diagrams import grid_of
from knot_workbench.sums import sum_of_grids
from knot_workbench.tables.numbers import blocks_of, may_be_one, of_sum, opposite, row_in, row_of, text_of_row
from three_knots import BUILT, EIGHT, LEFT


class Rows(unittest.TestCase):
    def setUp(self):
        self.text = common.read("tables", "list.txt")
        self.blocks = blocks_of(self.text)

    def test_blocks_are_those_of_the_list(self):
        self.assertEqual(len(self.blocks), len(re.findall("^quandle", self.text, re.M)))
        self.assertEqual([(block.order, block.weights, block.is_shadow) for block in self.blocks if block.order in (4, 12, 31)],
                         [(4, 0, False), (12, 5, False), (31, 31, True)])

    def test_a_line_of_a_row_is_read_as_it_was_written(self):
        blocks = blocks_of("quandle dihedral 3\nquandle tetrahedral\nquandle dihedral 3\nshadow mochizuki\nquandle dihedral 5\n")
        for row in (((9,), (16,), (9, 0, 18), (5,)), ((3,), None, (9, 0, 0), (25,)), ((3,), (4,), (9, 18, 0), None)):
            self.assertEqual(row_in(text_of_row(row, blocks), blocks), row)
        self.assertEqual(text_of_row(((9,), None, (9, 18, 0), (5,)), blocks), "9/?/9 18/")

    @unittest.skipUnless(BUILT, "knot isn't built")
    def test_a_sum_has_the_numbers_that_are_made_of_its_parts(self):
        trefoil, eight, torus = Braid(2, (1, 1, 1)), Braid(3, (1, -2, 1, -2)), Braid(3, (1, 2) * 4)
        sums = ((trefoil, trefoil, Braid(3, (1, 1, 1, 2, 2, 2))), (trefoil, trefoil.mirror(), Braid(3, (1, 1, 1, -2, -2, -2))),
                (trefoil, eight, Braid(4, (1, 1, 1, 2, -3, 2, -3))), (torus, eight, None))
        for first, second, word in sums:
            made = of_sum(row_of(first, self.text), row_of(second, self.text), self.blocks)
            drawn = sum_of_grids(grid_of(first), grid_of(second))
            self.assertTrue(may_be_one(made, row_of(drawn, self.text)))
            if word:
                self.assertTrue(may_be_one(made, row_of(word, self.text)))

    @unittest.skipUnless(BUILT, "knot isn't built")
    def test_the_reversed_mirror_image_has_the_negative_weights(self):
        # 8_17 isn't its own reverse.
        for braid in (Braid(2, (1, 1, 1)), Braid(3, (1, 1, -2, 1, -2, 1, -2, -2))):
            self.assertTrue(may_be_one(opposite(row_of(braid, self.text), self.blocks), row_of(braid.mirror().reverse(), self.text)))


class Sums(unittest.TestCase):
    def test_the_jones_polynomial_of_a_sum_is_the_product(self):
        from test_turn import jones
        for first in (LEFT, LEFT.mirror(), EIGHT):
            for second in (LEFT, EIGHT.reverse()):
                whole = sum_of_grids(first, second)
                self.assertEqual(whole.size, first.size + second.size - 1)
                self.assertEqual(jones(whole), knot_invariants.poly_times(jones(first), jones(second)))


if __name__ == "__main__":
    unittest.main()
