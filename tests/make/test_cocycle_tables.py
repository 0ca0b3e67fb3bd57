"""Weights of colourings, by braids and by grids, and what cocycle_tables.py lists."""
import itertools
import os
import tempfile
import unittest
from collections import Counter

import making
import cocycle_tables
import common
import connected
import knot_invariants
import quandles
import weight_tables
from lib.cocycles import cohomology
from lib.cocycles.differing import cocycles_of, square_of
from lib.codes import crossing_codes
from knot_workbench import colourings, diagrams, quandles as knot_quandles, texts, weighing
from knot_workbench.moves import carried, made

TETRAHEDRAL = knot_quandles.tetrahedral()
# The cocycle mod 2 of Carter, Jelsovsky, Kamada, Langford and Saito (2003) for the tetrahedral quandle, up to a coboundary.
COCYCLE = [[0, 1, 1, 0], [1, 0, 1, 0], [1, 1, 0, 0], [0, 0, 0, 0]]
FOUR_CYCLES = connected.Collection(6).found[6][1].table


def all_colourings(grid, quandle):
    """All colourings of a grid, in lexicographic order."""
    return sorted(weighing.colourings(grid, quandle))


def weight_on_grid(grid, quandle, cocycle, colours):
    """The weight of a colouring, not reduced: each crossing's sign times φ(x, y), y the column's colour and x the walk's colour on the
    right of an up column or the left of a down one, that is on the right of the strand over."""
    return sum(times * cocycle[x][y] for (x, y), times in weighing.pairs_met(grid, quandle, colours).items())


class Weights(unittest.TestCase):
    def test_the_trefoil_and_two_unknots_by_the_published_cocycle(self):
        trefoil = diagrams.Grid((4, 3, 2, 1, 0), (2, 1, 0, 4, 3))
        left = diagrams.Grid((0, 1, 2, 3, 4), (2, 3, 4, 0, 1))
        two = diagrams.closure(diagrams.Braid(2, ()))[0]
        for grid, wanted in ((trefoil, {0: 4, 1: 12}), (left, {0: 4, 1: 12}), (two, {0: 16})):
            found = all_colourings(grid, TETRAHEDRAL)
            weights = Counter(weight_on_grid(grid, TETRAHEDRAL, COCYCLE, colours) % 2 for colours in found)
            self.assertEqual(dict(weights), wanted)

    def test_a_braid_and_its_closure_have_the_same_weights(self):
        quandle = knot_quandles.quandle_of("", FOUR_CYCLES)
        ((modulus, squares),) = cocycles_of(quandle, (4,))
        for strands, letters in ((2, (1, 1, 1)), (2, (-1, -1, -1)), (3, (1, -2, 1, -2)), (3, (1, 1, 1, 2, -1, 2))):
            braid = diagrams.Braid(strands, letters)
            grid, _ = diagrams.closure(braid)
            found = Counter((weight_on_grid(grid, quandle, squares[0], colours) % modulus,) for colours in all_colourings(grid, quandle))
            self.assertEqual(cocycle_tables.weights_of_braid(braid, quandle, squares, modulus), found)

    def test_moves_keep_the_weight_of_the_carried_colouring(self):
        quandle = knot_quandles.quandle_of("", FOUR_CYCLES)
        ((modulus, squares),) = cocycles_of(quandle, (4,))
        grid = diagrams.Grid((4, 3, 2, 1, 0), (2, 1, 0, 4, 3))
        moves = [("shift", which, by) for which in ("rows", "columns") for by in range(1, 5)]
        moves += [("stabilise", column, kind, corner) for column in range(5) for kind in "xo" for corner in diagrams.CORNERS]
        for colours in all_colourings(grid, quandle):
            weight = weight_on_grid(grid, quandle, squares[0], colours) % modulus
            for move in moves:
                after, image = made(grid, move), carried(grid, quandle, colours, move)
                self.assertTrue(colourings.is_colouring(after, quandle, image))
                self.assertEqual(weight_on_grid(after, quandle, squares[0], image) % modulus, weight, move)

    def test_the_trefoils_are_told_apart_and_the_figure_eights_are_not(self):
        with tempfile.TemporaryDirectory() as folder:
            knots = os.path.join(folder, "knots.csv")
            with open(knots, "w", encoding="utf-8") as out:
                out.write('name,braid\n3_1,"{1,1,1}"\n4_1,"{1,-2,1,-2}"\n')
            status, said, _ = making.run("cocycle_tables.py", "search", knots, os.path.join(common.LISTS, "connected-06.txt"), "--moduli", "4", "--write", folder)
            self.assertEqual(status, 0)
            self.assertIn("3_1 and mirror image of 3_1: order 6 mod 4, weights 6 24 0 0 and 6 0 0 24", said)
            self.assertIn("4_1 and mirror image of 4_1: equal numbers of colourings, and equal weights", said)
            self.assertEqual(sorted(os.listdir(folder)), ["3_1-mirror-3_1.txt", "knots.csv"])

    def test_the_stored_problems_say_what_their_heads_say(self):
        blocks = {"list.txt", *(f"{name}.txt" for name in (*weight_tables.READY, *weight_tables.SHADOWS, *weight_tables.CLASSES))}
        names = sorted(set(os.listdir(os.path.join(common.LISTS, "weights"))) - blocks)
        self.assertTrue(names)
        for name in names:
            text = common.read("quandles", "weights", name)
            head = [line for line in text.splitlines() if line.startswith("# weights ")]
            lines = texts.Lines(text)
            pair = [texts.read_diagram(lines) for _ in range(2)]
            ((quandle, (modulus, cocycle)),) = weighing.read_weighed_quandles(lines)
            found = []
            for diagram in pair:
                if isinstance(diagram, diagrams.Braid):
                    counted = cocycle_tables.weights_of_braid(diagram, quandle, [cocycle], modulus)
                else:
                    counted = weighing.weight_lists(weighing.all_met(diagram, quandle, True), [cocycle], modulus)
                found.append("# weights " + " ".join(str(counted[weight,]) for weight in range(modulus)))
            self.assertEqual(head, found, name)
            self.assertNotEqual(*found)


    def test_the_grids_among_them_are_the_knots_of_the_table_and_their_mirror_images(self):
        knots = dict(quandles.read_braids(common.KNOTS))
        for name in ("7_2", "7_6", "8_1", "8_4", "8_13"):
            lines = texts.Lines(common.read("quandles", "weights", f"{name}-mirror-{name}.txt"))
            grid, mirrored = (texts.read_diagram(lines) for _ in range(2))
            self.assertEqual(mirrored, diagrams.mirror_image(grid))
            self.assertLessEqual(diagrams.bottoms(grid), 2)
            code = crossing_codes.read_code(knot_invariants.code_of_grid(*map(list, grid)))
            self.assertEqual(knot_invariants.jones_of_rows(code.rows, crossing_codes.signs(code)), knot_invariants.jones_polynomial(*knots[name]), name)

    def test_coboundaries_are_cocycles_and_weigh_nothing(self):
        braid = diagrams.Braid(2, (1, 1, 1))
        for vector in cohomology.coboundaries(FOUR_CYCLES, 4):
            square = square_of(6, vector)
            self.assertIsNone(weighing.cocycle_fault(FOUR_CYCLES, square, 4))
            counted = cocycle_tables.weights_of_braid(braid, knot_quandles.quandle_of("", FOUR_CYCLES), [square], 4)
            self.assertEqual(set(counted), {(0,)})

    def test_colourings_by_rows_are_what_trying_all_finds(self):
        for quandle in (TETRAHEDRAL, knot_quandles.dihedral(3), knot_quandles.trivial(2)):
            for grid in (diagrams.Grid((4, 3, 2, 1, 0), (2, 1, 0, 4, 3)), diagrams.Grid((0, 1, 2, 3, 4), (2, 4, 3, 1, 0)), diagrams.closure(diagrams.Braid(2, (1, 1)))[0]):
                every = itertools.product(range(len(quandle.over)), repeat=len(grid.xs))
                self.assertEqual(all_colourings(grid, quandle), [list(colours) for colours in every if colourings.is_colouring(grid, quandle, colours)])

    def test_a_pair_may_be_a_file(self):
        path, table = os.path.join(common.scratch(self), "problem.txt"), os.path.join(common.LISTS, "weights", "T5.txt")
        with open(path, "w", encoding="utf-8") as out:
            out.write("x 4 3 2 1 0\no 2 1 0 4 3\nbraid 2 -1 -1 -1\n")
        status, out, _ = making.run("cocycle_tables.py", "weights", path, table)
        self.assertEqual(status, 0)
        self.assertIn("12 60 0 0 0", out)
        self.assertEqual(making.run("cocycle_tables.py", "weights", path), (1, "", "cocycle_tables.py: weights takes a LIST of quandles\n"))


class Words(unittest.TestCase):
    def test_a_table_of_knots_may_have_other_titles(self):
        small = os.path.join(common.LISTS, "connected-04.txt")
        path = os.path.join(common.scratch(self), "knots.csv")
        with open(path, "w", encoding="utf-8") as out:
            out.write('Knot,Braid Notation\n3_1,"{1,1,1}"\n')
        status, out, said = making.run("cocycle_tables.py", "search", path, small, "--moduli", "2", "--name", "Knot", "--braid", "Braid Notation")
        self.assertEqual((status, said), (0, ""))
        self.assertIn("3_1 and mirror image of 3_1: equal numbers of colourings, and equal weights", out)
        status, _, said = making.run("cocycle_tables.py", "search", path, small)
        self.assertEqual(status, 1)
        self.assertTrue(said.startswith(f"cocycle_tables.py: {path}: line 1: no column 'name', but 'Knot', 'Braid Notation'"), said)

    def test_help_and_bad_input(self):
        self.assertEqual(making.run("cocycle_tables.py", "--help")[0], 0)
        small = os.path.join(common.LISTS, "connected-04.txt")
        self.assertEqual(making.run("cocycle_tables.py", "classes", small, "--moduli", "6")[0], 2)
        self.assertEqual(making.run("cocycle_tables.py", "classes", "no such file"), (1, "", "cocycle_tables.py: no such file: No such file or directory\n"))
        self.assertEqual(making.run("cocycle_tables.py", "weights", small, text="x 0 1\no 1 0\n")[0], 1)
        status, out, _ = making.run("cocycle_tables.py", "classes", small, "--moduli", "2")
        self.assertEqual(status, 0)
        self.assertIn("weight 2\n", out)


if __name__ == "__main__":
    unittest.main()
