"""The ready tables of quandles with cocycles: laws, files, and what they say of knots, their mirror images and their reverses."""
import os
import tempfile
import unittest

import making
import common
import groups
import quandles
import weight_tables
from cocycle_tables import weights_of_braid
from fields import Field
from lib.cocycles.differing import weights_line
from knot_workbench import diagrams, quandles as knot_quandles, texts, weighing
from knot_workbench.ready import ready
from knot_workbench.tables.knots import read_knots
from knot_workbench.weighing import is_connected
from reader.items import Quandle as ReadQuandle
from reader.weights import counts_by_weight

# The numbers of colours and the moduli: the conjugates of a matrix are as many as the matrices of determinant 1, q³ − q, by its torus.
SIZES = {"T5": (12, 5), "T7": (24, 7), "M20a": (20, 3), "M20b": (20, 6), "M30": (30, 4), "M42a": (42, 8), "M42b": (42, 8), "M42c": (42, 8), "M56b": (56, 6),
         "M56c": (56, 9), "M56d": (56, 9), "M72": (72, 7), "T11": (60, 11), "T13": (84, 13), "M110": (110, 12)}
# Of classes of permutations the orders of their groups, of what commutes with an element, and of that the homomorphism's image; 1 without a cocycle.
CLASSES = {"H27": (216, 8, 1), "A28": (168, 6, 2), "G84": (1512, 18, 2), "P112": (1344, 12, 4), "Z112": (1344, 12, 4), "A117": (1053, 9, 3),
           "S120": (720, 6, 3)}
# Knots of the table that are their own mirror images, perhaps run through backwards.
AMPHICHIRAL = ("4_1", "6_3", "8_9", "8_17", "8_18")


def read_table(text):
    """The quandle, the modulus and the cocycle."""
    lines = texts.Lines(text)
    table = [[int(entry) for entry in lines.take("a line")[1]] for _ in range(int(lines.take("quandle table")[1][2]))]
    modulus = int(lines.take("weight")[1][1])
    cocycle = [[int(entry) for entry in lines.take("a line")[1]] for _ in table]
    lines.done()
    return knot_quandles.quandle_of(f"table {len(table)}", table), modulus, cocycle


def weights(braid, quandle, modulus, cocycle):
    return weights_line(weights_of_braid(braid, quandle, [cocycle], modulus), [1], modulus)


def counts_by_shadow(grid, quandle, cocycle):
    """How many pairs of a colouring, with one colour on its lowest row, and an outer colour have each weight, by the independent reader."""
    read = ReadQuandle("", quandle.over, True)
    values = [[list(row) for row in square] for square in cocycle.values]
    return counts_by_weight((grid.xs, grid.os), read, cocycle.modulus, values, list(weighing.colourings(grid, quandle, 0)))


class Fields(unittest.TestCase):
    def test_a_field_is_one(self):
        for field, prime in ((Field(5), 5), (Field(2, (1, 1)), 2), (Field(3, (1, 0)), 3), (Field(2, (1, 1, 0)), 2)):
            elements = range(field.size)
            for a in elements:
                self.assertEqual(field.plus[a][field.minus[a]], 0)
                self.assertEqual((field.times[a][1], field.plus[a][0]), (a, a))
                self.assertEqual(sorted(field.times[a]), sorted(elements) if a else [0] * field.size)
                for b in elements:
                    self.assertEqual(field.times[a][b], field.times[b][a])
                    for c in elements:
                        self.assertEqual(field.times[a][field.times[b][c]], field.times[field.times[a][b]][c])
                        self.assertEqual(field.times[a][field.plus[b][c]], field.plus[field.times[a][b]][field.times[a][c]])
            with self.assertRaises(ValueError):
                field.inverse(0)


class Tables(unittest.TestCase):
    def test_the_files_are_what_the_script_writes(self):
        with tempfile.TemporaryDirectory() as folder:
            self.assertEqual(making.run("weight_tables.py", folder), (0, "", ""))
            names = (*weight_tables.READY, *weight_tables.SHADOWS, *weight_tables.CLASSES, weight_tables.LIST_NAME)
            self.assertEqual(sorted(os.listdir(folder)), sorted(f"{name}.txt" for name in names))
            for name in names:
                with open(os.path.join(folder, f"{name}.txt"), encoding="utf-8") as written:
                    self.assertEqual(written.read(), common.read("quandles", "weights", f"{name}.txt"), name)

    def test_the_larger_files_are_what_the_script_writes(self):
        with tempfile.TemporaryDirectory() as folder:
            self.assertEqual(making.run("weight_tables.py", "--larger", folder), (0, "", ""))
            names = (*weight_tables.LARGER, *weight_tables.LARGER_CLASSES)
            self.assertEqual(sorted(os.listdir(folder)), sorted(f"{name}.txt" for name in names))
            for name in names:
                with open(os.path.join(folder, f"{name}.txt"), encoding="utf-8") as written:
                    self.assertEqual(written.read(), common.read("quandles", "larger", f"{name}.txt"), name)

    def test_the_list_of_rows_is_what_the_script_writes(self):
        with tempfile.TemporaryDirectory() as folder:
            self.assertEqual(making.run("weight_tables.py", "--rows", folder), (0, "", ""))
            with open(os.path.join(folder, "list.txt"), encoding="utf-8") as written:
                self.assertEqual(written.read(), common.read("tables", "list.txt"))

    def test_the_list_has_the_larger_quandles_of_the_tree(self):
        listed = common.read("quandles", "weights", "list.txt")
        for name in weight_tables.LAST:
            text = common.read("quandles", "larger", f"{name}.txt")
            self.assertIn(text[text.index("quandle table"):], listed, name)

    def test_each_is_a_connected_quandle_with_a_cocycle(self):
        self.assertEqual(sorted(SIZES), sorted([*weight_tables.READY, *weight_tables.LARGER]))
        for name, (order, wanted) in SIZES.items():
            quandle, modulus, cocycle = read_table(weight_tables.text_of_file(name))
            self.assertEqual((len(quandle.over), modulus), (order, wanted), name)
            self.assertIsNone(knot_quandles.quandle_fault(quandle.over), name)
            self.assertTrue(is_connected(quandle.over), name)
            self.assertIsNone(weighing.cocycle_fault(quandle.over, cocycle, modulus), name)
            self.assertTrue(all(0 <= value < modulus for row in cocycle for value in row), name)
            self.assertEqual(order <= knot_quandles.MAX_ORDER, name in weight_tables.READY)

    def test_classes_of_permutations_are_connected_quandles_with_a_cocycle(self):
        self.assertEqual(sorted(CLASSES), sorted([*weight_tables.CLASSES, *weight_tables.LARGER_CLASSES]))
        for name, (group, centralizer, modulus) in CLASSES.items():
            quandle, cocycle = ready(name)
            self.assertEqual((len(quandle.over), cocycle.modulus if cocycle else 1), (group // centralizer, modulus), name)
            self.assertIsNone(knot_quandles.quandle_fault(quandle.over), name)
            self.assertTrue(is_connected(quandle.over), name)
            self.assertEqual(len(quandle.over) <= knot_quandles.MAX_ORDER, name in weight_tables.CLASSES)
            if cocycle:
                self.assertIsNone(weighing.cocycle_fault(quandle.over, cocycle.values, modulus), name)
                self.assertEqual({value for row in cocycle.values for value in row}, set(range(modulus)), name)

    def test_groups_of_permutations_have_their_orders(self):
        for name, generators in (("H27", weight_tables.triples_of_3()), ("P112", weight_tables.pairs_of_8(2)), ("Z112", weight_tables.pairs_of_8(1)),
                                 ("A117", weight_tables.affine_27())):
            self.assertEqual(len(groups.group_of(generators)), CLASSES[name][0], name)

    def test_transvections_add_multiples_of_vectors(self):
        for prime in (5, 7):
            vectors = [(a, b) for a in range(prime) for b in range(prime) if 0 < (a or b) <= prime // 2]
            table = read_table(weight_tables.text_of_file(f"T{prime}"))[0].over
            for x, (a, b) in enumerate(vectors):
                for y, (c, d) in enumerate(vectors):
                    det = a * d - b * c
                    image = (a + det * c) % prime, (b + det * d) % prime
                    self.assertIn(vectors[table[x][y]], (image, (-image[0] % prime, -image[1] % prime)))

    def test_a_torus_that_is_not_cyclic_is_refused(self):
        with self.assertRaises(ValueError):
            weight_tables.conjugates(Field(5), ((2, 0), (0, 2)))


class Weights(unittest.TestCase):
    def test_the_two_trefoils_as_the_guide_has_them(self):
        quandle, modulus, cocycle = read_table(common.read("quandles", "weights", "T5.txt"))
        for letter, wanted in ((1, [12, 0, 0, 0, 60]), (-1, [12, 60, 0, 0, 0])):
            self.assertEqual(weights(diagrams.Braid(2, (letter,) * 3), quandle, modulus, cocycle), wanted)
        self.assertEqual(common.read("examples", "weights", "two-trefoils-twelve-colours.out"), "weights 12 0 0 0 60\nweights 12 60 0 0 0\ndifferent\n")
        self.assertTrue(common.read("examples", "weights", "two-trefoils-twelve-colours.txt").endswith(
            common.read("quandles", "weights", "T5.txt").split("./knot weights\n")[1]))

    def test_mirror_images_as_the_guide_has_them(self):
        tables = {name: read_table(common.read("quandles", "weights", f"{name}.txt")) for name in weight_tables.READY}
        told = {}
        for name, braid in quandles.read_braids(common.KNOTS):
            if braid.strands <= 3:
                told[name] = {table for table, found in tables.items() if weights(braid, *found) != weights(diagrams.mirror_braid(braid), *found)}
        for name in AMPHICHIRAL:
            self.assertEqual(told[name], set(), name)
        for name, wanted in (("5_1", {"M20a", "M20b", "M30"}), ("6_2", {"T7", "M20b"}), ("8_16", {"T7", "M20b"}), ("7_3", {"M20b"}), ("8_2", {"T7"}),
                             ("7_1", set()), ("7_5", set())):
            self.assertEqual(told[name], wanted, name)

    def test_reverses_by_the_shadow_cocycles_of_fields(self):
        # Reading them tests their laws.
        knots = read_knots(os.path.join(common.ROOT, "tables", "prime-knots-to-10.csv"))
        for name, knot, differs in (("F8", "10_80", True), ("F8", "8_20", False), ("F27", "9_33", True), ("F27b", "10_81", True), ("F27b", "9_33", False)):
            quandle, cocycle = ready(name)
            self.assertTrue(is_connected(quandle.over), name)
            counts = [counts_by_shadow(grid, quandle, cocycle) for grid in (knots[knot].grid, knots[knot].grid.reverse())]
            self.assertEqual(counts[0] != counts[1], differs, (name, knot, counts))

    def test_reverses_by_classes(self):
        knots = read_knots(os.path.join(common.ROOT, "tables", "prime-knots-to-10.csv"))
        for name, knot, differs in (("H27", "10_85", True), ("A28", "10_110", True), ("A28", "8_20", False)):
            quandle, cocycle = ready(name)
            values, modulus = ([cocycle.values], cocycle.modulus) if cocycle else ([], 1)
            counts = [weighing.weight_lists(weighing.all_met(grid, quandle, True), values, modulus) for grid in (knots[knot].grid, knots[knot].grid.reverse())]
            self.assertEqual(counts[0] != counts[1], differs, (name, knot, counts))

    def test_mirror_images_by_the_larger_tables(self):
        tables = {name: read_table(common.read("quandles", "larger", f"{name}.txt"))
                  for name in ("M42a", "M42b", "M42c", "M56b", "M56c", "M72", "T11")}
        knots = dict(quandles.read_braids(common.KNOTS))
        for knot, wanted in (("7_1", {"M42a", "M42b", "M42c", "M56b", "M56c"}), ("7_5", {"M42a"}), ("8_14", {"M42c"})):
            braid = knots[knot]
            self.assertEqual({name for name, found in tables.items() if weights(braid, *found) != weights(diagrams.mirror_braid(braid), *found)}, wanted, knot)


class Words(unittest.TestCase):
    def test_bad_words(self):
        self.assertEqual(making.run("weight_tables.py", "--larger")[0], 2)
        self.assertEqual(making.run("weight_tables.py", "no such folder")[0], 2)


if __name__ == "__main__":
    unittest.main()
