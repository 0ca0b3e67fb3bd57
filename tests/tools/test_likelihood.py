"""Tests of which candidates are tried first for a diagram, and of the Alexander polynomial at one place."""
import contextlib
import random
import unittest

from three_knots import EIGHT, IdentifyTest, LEFT
from knot_workbench import Braid, KnotTable
from knot_workbench.alexander import PLACE, PRIME, alexander_square
from knot_workbench.diagrams import CORNERS, grid_of
from knot_workbench.faults import Illegal
from knot_workbench.identifying import by_likelihood, rounds_of
from knot_workbench.moves import made
from knot_workbench.sums import shifted_to, sum_of_grids


class Likelihood(IdentifyTest):
    def parts(self, *said):
        known = KnotTable(self.table, self.list)
        return known, [known.parts_of(one) for one in said]

    def test_other_alexander_polynomials_come_last_and_have_no_walk(self):
        known, (trefoil, eight, mirrored) = self.parts("3_1", "4_1", "4_1 mirrored")
        self.assertEqual(by_likelihood(EIGHT, known, [trefoil, eight, mirrored], trefoil), ([eight, mirrored], [trefoil]))
        self.assertEqual(by_likelihood(EIGHT, known, [trefoil, eight, mirrored], mirrored), ([mirrored, eight], [trefoil]))

    def test_an_expected_knot_comes_by_all_rounds_before_others(self):
        likely, rounds = ["a", "b", "c"], ((1, 5), (2, 50), (3, 500))
        found = []
        for effort, few in rounds_of(likely, "b", rounds):
            found.append((effort[0], few))
            if effort == (1, 5) and "a" in few:
                likely.remove("a")
        self.assertEqual(found, [(1, ["b"]), (2, ["b"]), (3, ["b"]), (1, ["a", "c"]), (2, ["c"]), (3, ["c"])])
        self.assertEqual([few for _, few in rounds_of(["a", "b"], None, rounds) if few], [["a", "b"]] * 3)

    def test_turns_of_one_knot_are_all_likely(self):
        known, (eight, mirrored) = self.parts("4_1", "4_1 mirrored")
        self.assertEqual(by_likelihood(LEFT, known, [eight, mirrored], None), ([eight, mirrored], []))

    def test_sums_of_one_polynomial_stay_in_their_order(self):
        # Both sums have nine columns and one polynomial, so the table's order stays.
        known, (left, both) = self.parts("3_1 # 3_1", "3_1 # 3_1 mirrored")
        grid = sum_of_grids(LEFT, LEFT.mirror())
        self.assertEqual(by_likelihood(grid, known, [left, both], None), ([left, both], []))


class Alexander(unittest.TestCase):
    def test_the_polynomial_at_one_place_is_that_of_the_word(self):
        for braid, polynomial in ((Braid(2, (1, 1, 1)), (1, -1, 1)), (Braid(3, (1, -2, 1, -2)), (-1, 3, -1)), (Braid(2, (1,) * 5), (1, -1, 1, -1, 1)),
                                  (Braid(3, (-1, -1, -1, -2, 1, -2)), (2, -3, 2)), (Braid(1, ()), (1,))):
            middle = len(polynomial) // 2
            value = sum(count * pow(PLACE, power - middle, PRIME) for power, count in enumerate(polynomial))
            self.assertEqual(alexander_square(grid_of(braid)), value * value % PRIME, braid)

    def test_moves_and_turns_keep_it_and_sums_multiply_it(self):
        dice = random.Random(1)
        for grid in (LEFT, EIGHT):
            due = alexander_square(grid)
            for turned in (grid.mirror(), grid.reverse(), shifted_to(grid, 2, 3, "o")):
                self.assertEqual(alexander_square(turned), due)
            here = grid
            for _ in range(60):
                move = ("stabilise", dice.randrange(here.size), dice.choice("xo"), dice.choice(CORNERS)) if here.size < 9 else (
                    "exchange", dice.choice(("columns", "rows")), dice.randrange(here.size - 1))
                with contextlib.suppress(Illegal):
                    here = made(here, move)
            self.assertEqual((here.size, alexander_square(here)), (9, due))
            self.assertEqual(alexander_square(sum_of_grids(here, EIGHT)), due * alexander_square(EIGHT) % PRIME)


if __name__ == "__main__":
    unittest.main()
