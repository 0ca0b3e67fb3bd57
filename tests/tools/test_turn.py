"""Mirror images and reverses: signs of crossings, polynomials, weights and colourings of known knots, and bad input."""
import os
import random
import unittest

import common
import knot_invariants
from lib.codes import crossing_codes
from knot_workbench.diagrams import Braid, Grid, closure, crossings, diagram_text, grid_of, mirror_image, reverse
from knot_workbench.quandles import dihedral, quandle_of
from knot_workbench.texts import Lines, read_quandle
from knot_workbench.weighing import colourings

RIGHT_TREFOIL = Grid((4, 3, 2, 1, 0), (2, 1, 0, 4, 3))
LEFT_TREFOIL = Grid((0, 1, 2, 3, 4), (2, 3, 4, 0, 1))
WORDS = (Braid(2, (1, 1, 1)), Braid(3, (1, -2, 1, -2)), Braid(3, (1, 1, 1, 1, 2, -1, 2)), Braid(2, (1, 1)), Braid(3, (1, 1, -2, 1, -2)), Braid(4, (1, 2, -3, 2)))


def signs(grid):
    return sorted(sign for _, _, sign in crossings(grid))


def jones(grid):
    code = crossing_codes.kinked(crossing_codes.read_code(knot_invariants.code_of_grid(*map(list, grid))))
    return knot_invariants.jones_of_rows(code.rows, crossing_codes.signs(code))


def random_grid(dice, size):
    while True:
        xs, os_ = dice.sample(range(size), size), dice.sample(range(size), size)
        if all(x != o for x, o in zip(xs, os_)):
            return Grid(tuple(xs), tuple(os_))


def turned(text, *words):
    status, out, said = common.run("turn.py", *words, text=text)
    assert (status, said) == (0, ""), said
    return out


class Grids(unittest.TestCase):
    def setUp(self):
        dice = random.Random(1)
        self.grids = [random_grid(dice, size) for size in range(2, 9) for _ in range(5)] + [grid_of(word) for word in WORDS]

    def test_the_mirror_image_of_the_right_trefoil_is_the_left_one_of_the_guide(self):
        self.assertEqual(turned(diagram_text(RIGHT_TREFOIL), "--mirror"), diagram_text(LEFT_TREFOIL))
        self.assertEqual((signs(RIGHT_TREFOIL), signs(LEFT_TREFOIL)), ([1, 1, 1], [-1, -1, -1]))

    def test_a_mirror_image_has_the_same_crossings_of_the_other_sign(self):
        for grid in self.grids:
            self.assertEqual({(column, len(grid.xs) - 1 - row, -sign) for column, row, sign in crossings(grid)}, set(crossings(mirror_image(grid))), grid)

    def test_a_reverse_has_the_same_crossings_of_the_same_sign(self):
        for grid in self.grids:
            self.assertEqual(crossings(reverse(grid)), crossings(grid))
            self.assertNotEqual(reverse(grid), grid)

    def test_twice_is_nothing_and_the_order_is_all_one(self):
        for diagram in self.grids + list(WORDS):
            self.assertEqual(mirror_image(mirror_image(diagram)), diagram)
            self.assertEqual(reverse(reverse(diagram)), diagram)
            self.assertEqual(reverse(mirror_image(diagram)), mirror_image(reverse(diagram)))
        for diagram in (RIGHT_TREFOIL, WORDS[2]):
            self.assertEqual(turned(diagram_text(diagram), "--mirror", "--reverse"), diagram_text(reverse(mirror_image(diagram))))

    def test_colourings_of_a_reverse_are_those_by_the_dual(self):
        quandle = read_quandle(Lines(common.read("quandles", "connected-05.txt")))
        dual = quandle_of("", quandle.back)
        self.assertNotEqual(quandle.over, dual.over)
        for grid in (RIGHT_TREFOIL, grid_of(Braid(3, (1, -2, 1, -2))), grid_of(Braid(2, (1, 1)))):
            self.assertCountEqual(colourings(reverse(grid), dual), colourings(grid, quandle))


class Words(unittest.TestCase):
    def test_a_word_is_turned_as_its_closure_is(self):
        for word in WORDS:
            for turn in (mirror_image, reverse):
                self.assertEqual(jones(closure(turn(word))[0]), jones(turn(closure(word)[0])), word)

    def test_letters_and_their_order(self):
        self.assertEqual(turned("braid 3 1 1 -2 1 -2 -2\n", "--mirror"), "braid 3 -1 -1 2 -1 2 2\n")
        self.assertEqual(turned("braid 3 1 1 -2 1 -2 -2\n", "--reverse"), "braid 3 -2 -2 1 -2 1 1\n")
        self.assertEqual(turned("# no letters\nbraid 2\n", "--mirror"), "braid 2\n")


class KnownFacts(unittest.TestCase):
    def test_mirror_images_have_the_jones_polynomial_in_the_inverse(self):
        self.assertNotEqual(jones(RIGHT_TREFOIL), jones(LEFT_TREFOIL))
        eight = grid_of(Braid(3, (1, -2, 1, -2)))
        self.assertEqual(jones(eight), jones(mirror_image(eight)))
        self.assertEqual(jones(RIGHT_TREFOIL), jones(reverse(RIGHT_TREFOIL)))

    def test_a_reverse_of_one_component_turns_round_no_linking_number(self):
        hopf = grid_of(Braid(2, (1, 1)))
        self.assertEqual((signs(hopf), signs(reverse(hopf)), signs(mirror_image(hopf))), ([1, 1], [1, 1], [-1, -1]))

    def test_mirror_images_keep_numbers_of_colourings(self):
        for grid in (RIGHT_TREFOIL, grid_of(Braid(3, (1, -2, 1, -2)))):
            self.assertEqual(len(list(colourings(grid, dihedral(5)))), len(list(colourings(mirror_image(grid), dihedral(5)))))


class BadInput(unittest.TestCase):
    def test_words(self):
        self.assertEqual(common.run("turn.py", text="x 0 1\no 1 0\n")[0], 2)
        self.assertEqual(common.run("turn.py", "--mirror", "a", "b")[0], 2)

    def test_texts_and_files(self):
        for text, said in (("", "turn.py: line 1: a diagram is due"), ("x 0 1\no 0 1\n", "turn.py: line 2: column 0"), ("x 0 1\no 1 0\nx 0 1\n", "turn.py: line 3: nothing more is due")):
            status, out, fault = common.run("turn.py", "--mirror", text=text)
            self.assertEqual((status, out), (1, ""))
            self.assertTrue(fault.startswith(said), fault)
        path = os.path.join(common.scratch(self), "bad.txt")
        with open(path, "w", encoding="utf-8") as out:
            out.write("x 0 1\no 0 1\n")
        self.assertTrue(common.run("turn.py", "--mirror", path)[2].startswith(f"turn.py: {path}: line 2: "))
        self.assertEqual(common.run("turn.py", "--mirror", "no such file")[1:], ("", "turn.py: no such file: No such file or directory\n"))


if __name__ == "__main__":
    unittest.main()
