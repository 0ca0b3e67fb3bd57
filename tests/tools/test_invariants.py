"""The polynomials of the module and tools/invariants.py, beside known ones and those of other ways."""
import random
import unittest
from fractions import Fraction

import common
import knot_invariants
from knot_workbench import BadDiagram, Braid, invariants
from knot_workbench.diagrams import CORNERS, grid_of, mirror_image, reverse
from knot_workbench.moves import made

# Names, braids, the coefficients of the Alexander polynomial, and the Jones polynomial by its powers: as published.
KNOWN = (
    ("unknot", Braid(1, []), (1,), {0: 1}),
    ("3_1", Braid(2, [1, 1, 1]), (1, -1, 1), {1: 1, 3: 1, 4: -1}),
    ("4_1", Braid(3, [1, -2, 1, -2]), (-1, 3, -1), {-2: 1, -1: -1, 0: 1, 1: -1, 2: 1}),
    ("5_2", Braid(3, [1, 1, 1, 2, -1, 2]), (2, -3, 2), {1: 1, 2: -1, 3: 2, 4: -1, 5: 1, 6: -1}),
    ("8_19", Braid(3, [1, 1, 1, 2, 1, 1, 1, 2]), (1, -1, 0, 1, 0, -1, 1), {3: 1, 5: 1, 8: -1}),
    ("Hopf", Braid(2, [1, 1]), (-1, 1), {Fraction(1, 2): -1, Fraction(5, 2): -1}),
    ("two unknots", Braid(2, []), (), {Fraction(-1, 2): -1, Fraction(1, 2): -1}),
)


def powers(jones):
    return {Fraction(twice, 2): coefficient for twice, coefficient in jones if coefficient}


class Invariants(unittest.TestCase):
    def test_known_ones(self):
        for name, braid, alexander, jones in KNOWN:
            found = invariants(braid)
            self.assertIn(found.alexander, (alexander, tuple(-entry for entry in alexander)), name)
            self.assertEqual(powers(found.jones), jones, name)
        self.assertEqual([invariants(braid).determinant for _, braid, _, _ in KNOWN], [1, 3, 5, 7, 3, 2, 0])
        self.assertEqual([invariants(braid).signature for _, braid, _, _ in KNOWN], [0, -2, 0, -2, -6, -1, 0])
        self.assertEqual([invariants(braid).components for _, braid, _, _ in KNOWN], [1, 1, 1, 1, 1, 2, 2])

    def test_random_braids_have_those_of_the_burau_matrix_and_of_all_states(self):
        dice = random.Random(5)
        for _ in range(25):
            strands = dice.randint(2, 4)
            letters = [dice.choice((-1, 1)) * dice.randint(1, strands - 1) for _ in range(dice.randint(1, 8))]
            found = invariants(Braid(strands, letters))
            self.assertEqual(powers(found.jones), knot_invariants.jones_polynomial(strands, letters), letters)
            if found.components == 1:
                wanted = tuple(knot_invariants.alexander_polynomial(strands, letters))
                self.assertIn(wanted, (found.alexander, tuple(-entry for entry in found.alexander)), letters)

    def test_moves_and_reversals_keep_them_and_mirror_images_turn_jones_round(self):
        dice = random.Random(6)
        for _, braid, _, _ in KNOWN:
            grid, wanted = grid_of(braid), invariants(braid)
            for _ in range(12):
                size = len(grid.xs)
                move = dice.choice((("shift", "columns", dice.randint(1, size - 1)), ("shift", "rows", dice.randint(1, size - 1)),
                                    ("stabilise", dice.randrange(size), dice.choice("xo"), dice.choice(CORNERS))))
                if move[0] == "shift" or size < 16:
                    grid = made(grid, move)
                    self.assertEqual(invariants(grid), wanted, move)
            self.assertEqual(invariants(reverse(grid)), wanted)
            self.assertEqual(powers(invariants(mirror_image(grid)).jones), {-power: entry for power, entry in powers(wanted.jones).items()})
            self.assertEqual(invariants(mirror_image(grid)).signature, -wanted.signature)

    def test_signatures_of_torus_knots_and_of_sums(self):
        # As published: of the torus knots 2 n, 3 4, 3 5 and 3 7. A sum has the sum.
        for strands, turns, wanted in ((2, 5, -4), (2, 7, -6), (3, 4, -6), (3, 5, -8), (3, 7, -8)):
            self.assertEqual(invariants(Braid(strands, list(range(1, strands)) * turns)).signature, wanted)
        self.assertEqual([invariants(Braid(3, word)).signature for word in ([1, 1, 1, 2, 2, 2], [1, 1, 1, -2, -2, -2])], [-4, 0])

    def test_of_a_knot_the_signature_is_a_multiple_of_4_where_the_determinant_is_1_more_than_one(self):
        dice = random.Random(7)
        for _ in range(40):
            strands = dice.randint(2, 4)
            found = invariants(Braid(strands, [dice.choice((-1, 1)) * dice.randint(1, strands - 1) for _ in range(dice.randint(1, 9))]))
            if found.components == 1:
                self.assertEqual(found.signature % 4 == 0, found.determinant % 4 == 1)

    def test_a_wide_diagram_has_no_jones_polynomial(self):
        found = invariants(Braid(8, [1, 2, 3, 4, 5, 6, 7, 1, 2, 3, 4, 5, 6, 7, 1, 2]))
        self.assertIsNone(found.jones)
        self.assertIsNone(found.jones_text)
        with self.assertRaises(BadDiagram):
            invariants("")


class Tool(unittest.TestCase):
    def test_it_tells_them_in_five_lines(self):
        self.assertEqual(common.run("invariants.py", text="x 4 3 2 1 0\no 1 0 4 3 2\n"),
                         (0, "components 1\nalexander 1 - t + t^2\ndeterminant 3\nsignature -2\njones t + t^3 - t^4\n", ""))
        self.assertEqual(common.run("invariants.py", text="braid 2\n"), (0, "components 2\nalexander 0\ndeterminant 0\nsignature 0\njones -t^(-1/2) - t^(1/2)\n", ""))
        self.assertEqual(common.run("invariants.py", "no such file"), (1, "", "invariants.py: no such file: No such file or directory\n"))
        self.assertEqual(common.run("invariants.py", text="x 0 1\no 1 0\nx 0 1\no 1 0\n")[0], 1)


if __name__ == "__main__":
    unittest.main()
