"""Linear algebra mod k, cocycles of quandles, and what cocycles.py finds by them."""
import itertools
import os
import tempfile
import unittest

import common
import reader
from lib.cocycles import cohomology, linear
from lib.cocycles.differing import cocycles_of
from knot_workbench import quandles, texts, weighing

TETRAHEDRAL = quandles.tetrahedral()
# The cocycle mod 2 of Carter, Jelsovsky, Kamada, Langford and Saito (2003) for the tetrahedral quandle, up to a coboundary.
COCYCLE = [[0, 1, 1, 0], [1, 0, 1, 0], [1, 1, 0, 0], [0, 0, 0, 0]]


def vector_of(square):
    order = len(square)
    return {x * order + y: square[x][y] for x in range(order) for y in range(order) if square[x][y]}


class Linear(unittest.TestCase):
    def test_a_kernel_is_what_trying_all_vectors_finds(self):
        for modulus in (2, 3, 4, 5, 8, 9):
            for equations in ([[(1, 0), (1, 1)], [(2, 1), (1, 2)]], [[(2, 0)], [(2, 1), (2, 2)]], [[(3, 0), (1, 2)], [(1, 0), (1, 1), (1, 2)]]):
                wanted = {v for v in itertools.product(range(modulus), repeat=3)
                          if all(sum(factor * v[place] for factor, place in equation) % modulus == 0 for equation in equations)}
                found = linear.kernel(range(3), equations, modulus)
                spanned = {tuple(sum(f * v.get(place, 0) for f, v in zip(factors, found)) % modulus for place in range(3))
                           for factors in itertools.product(range(modulus), repeat=len(found))}
                self.assertEqual(spanned, wanted)

    def test_a_span_has_exactly_the_sums(self):
        for modulus in (2, 3, 4, 8, 9):
            for put in ([(2, 1, 0)], [(1, 2, 3), (2, 0, 2)], [(2, 2, 0), (0, 2, 2), (3, 0, 3)], [(0, 0, 2), (2, 1, 1)]):
                put = [tuple(entry % modulus for entry in vector) for vector in put]
                span = linear.Span(modulus)
                for vector in put:
                    span.put({place: entry for place, entry in enumerate(vector) if entry})
                sums = {tuple(sum(f * v[place] for f, v in zip(factors, put)) % modulus for place in range(3))
                        for factors in itertools.product(range(modulus), repeat=len(put))}
                for vector in itertools.product(range(modulus), repeat=3):
                    self.assertEqual(span.has({place: entry for place, entry in enumerate(vector) if entry}), vector in sums, (modulus, put, vector))

    def test_a_modulus_is_a_power_of_a_prime(self):
        for modulus in (0, 1, 6, 12):
            with self.assertRaises(ValueError):
                linear.prime_of(modulus)


class Cocycles(unittest.TestCase):
    def test_those_of_the_tetrahedral_quandle_are_what_trying_all_tables_finds(self):
        places = [(x, y) for x in range(4) for y in range(4) if x != y]
        wanted = 0
        for entries in itertools.product(range(2), repeat=12):
            table = [[0] * 4 for _ in range(4)]
            for (x, y), entry in zip(places, entries):
                table[x][y] = entry
            wanted += weighing.cocycle_fault(TETRAHEDRAL.over, table, 2) is None
        span = linear.Span(2)
        for vector in cohomology.cocycles(TETRAHEDRAL.over, 2):
            span.put(vector)
        self.assertEqual(2 ** len(span.rows), wanted)

    def test_the_published_cocycle_is_one_and_no_coboundary(self):
        self.assertIsNone(weighing.cocycle_fault(TETRAHEDRAL.over, COCYCLE, 2))
        span = linear.Span(2)
        for vector in cohomology.coboundaries(TETRAHEDRAL.over, 2):
            span.put(vector)
        self.assertFalse(span.has(vector_of(COCYCLE)))
        span.put(cohomology.classes_of_cocycles(TETRAHEDRAL.over, 2)[0])
        self.assertTrue(span.has(vector_of(COCYCLE)))

    def test_what_is_found_are_cocycles(self):
        for order in (4, 6, 9, 12):
            listed = texts.Lines(common.read("quandles", f"connected-{order:02}.txt"))
            for quandle, _ in weighing.read_weighed_quandles(listed):
                for modulus, squares in cocycles_of(quandle, (2, 3, 4, 5)):
                    for square in squares:
                        self.assertIsNone(weighing.cocycle_fault(quandle.over, square, modulus))


    def test_dihedral_quandles_of_prime_order_have_none(self):
        for order in (3, 5, 7):
            for modulus in (2, 3, 4, 5):
                self.assertEqual(cohomology.classes_of_cocycles(quandles.dihedral(order).over, modulus), [])


class Find(unittest.TestCase):
    RIGHT_AND_LEFT = "x 4 3 2 1 0\no 2 1 0 4 3\nbraid 2 -1 -1 -1\n"

    def ruled(self, text, wanted):
        """What the job weights says of an input, by the independent reader."""
        answer = reader.answer([b"weights"], text.encode())
        self.assertEqual((answer.status, answer.text.decode()), (0, wanted))

    def test_the_trefoils_by_the_lists_of_the_tree(self):
        status, out, said = common.run("cocycles.py", "find", text=self.RIGHT_AND_LEFT)
        self.assertEqual((status, said), (0, "cocycles.py: T5, of order 12, with a cocycle mod 5 distinguishes them: weights 12 0 0 0 60 and weights 12 60 0 0 0\n"))
        self.assertTrue(out.startswith("# T5, found by"))
        self.assertIn("x 4 3 2 1 0\no 2 1 0 4 3\nbraid 2 -1 -1 -1\nquandle table 12\n", out)
        self.ruled(out, "weights 12 0 0 0 60\nweights 12 60 0 0 0\ndifferent\n")

    def test_cocycles_of_lists_are_found_and_what_was_tried_is_said(self):
        lists = [os.path.join(common.LISTS, f"connected-0{order}.txt") for order in (7, 6, 4)]
        with tempfile.TemporaryDirectory() as folder:
            path = os.path.join(folder, "out.txt")
            status, out, said = common.run("cocycles.py", "find", *lists, "--moduli", "4,2", "--out", path, text=self.RIGHT_AND_LEFT)
            with open(path, encoding="utf-8") as written:
                text = written.read()
        self.assertEqual((status, out), (0, ""))
        # The cheapest first: one quandle of order 4, with a cocycle mod 4 and one mod 2, and the other one of order 6 come before.
        self.assertRegex(said, r"tried in vain: 2 quandles of orders up to 6, with \d+ cocycles\n.*connected-06 number 2, of order 6, with a cocycle mod 4")
        self.ruled(text, "weights 6 24 0 0\nweights 6 0 0 24\ndifferent\n")

    def test_where_nothing_tells_apart_it_is_said(self):
        lists = [os.path.join(common.LISTS, name) for name in ("connected-06.txt", os.path.join("weights", "T5.txt"), os.path.join("weights", "T7.txt"))]
        status, out, said = common.run("cocycles.py", "find", *lists, text="braid 3 1 -2 1 -2\nbraid 3 -1 2 -1 2\n")
        self.assertEqual((status, out), (1, ""))
        self.assertIn("tried in vain: 4 quandles of orders up to 24", said)
        self.assertTrue(said.endswith("cocycles.py: nothing found, which says nothing of the two\n"))

    def test_the_problem_may_be_a_file(self):
        path, table = os.path.join(common.scratch(self), "problem.txt"), os.path.join(common.LISTS, "weights", "T5.txt")
        with open(path, "w", encoding="utf-8") as out:
            out.write(self.RIGHT_AND_LEFT)
        for words in (["find", path, table], ["find", table, path]):
            status, out, _ = common.run("cocycles.py", *words)
            self.assertEqual(status, 0, words)
            self.assertIn("12 60 0 0 0", out)
        for words, said in ((["find", path, path + "x"], f"{path}x: No such file or directory"),
                            (["find", path, path], f"{path}: {path} begins with a diagram too: both diagrams are in one file"),
                            (["find", table], "standard input: line 1: a diagram is due where the text ends")):
            self.assertEqual(common.run("cocycles.py", *words), (1, "", f"cocycles.py: {said}\n"))

    def test_quandles_that_do_not_fit_are_counted(self):
        table = os.path.join(common.LISTS, "weights", "T7.txt")
        status, out, said = common.run("cocycles.py", "find", table, text="braid 4 1 2 3\nbraid 4 1 2 3 3 3\n")
        self.assertEqual((status, out), (1, ""))
        self.assertIn("too large for one of the diagrams, of 4 and 4 bottoms: 1 quandles", said)

    def test_unequal_numbers_of_colourings_are_enough(self):
        status, out, said = common.run("cocycles.py", "find", os.path.join(common.LISTS, "connected-03.txt"), text="braid 2 1 1 1\nx 0 1\no 1 0\n")
        self.assertEqual(status, 0)
        self.assertIn("9 colourings of the first and 3 of the second", said)
        self.ruled(out, "weights 9 0\nweights 3 0\ndifferent\n")


    def test_a_ready_table_that_is_no_cocycle_is_refused(self):
        with tempfile.NamedTemporaryFile("w", suffix=".txt") as bad:
            bad.write("quandle dihedral 3\nweight 3\n0 1 0\n0 0 0\n0 0 0\n")
            bad.flush()
            status, _, said = common.run("cocycles.py", "find", bad.name, text=self.RIGHT_AND_LEFT)
        self.assertEqual(status, 1)
        self.assertTrue(said.startswith(f"cocycles.py: {bad.name}: line 5: no cocycle"), said)


class Words(unittest.TestCase):
    def test_help_and_bad_input(self):
        self.assertEqual(common.run("cocycles.py", "--help")[0], 0)
        small = os.path.join(common.LISTS, "connected-04.txt")
        self.assertEqual(common.run("cocycles.py", "find", small, "--moduli", "6")[0], 2)
        self.assertEqual(common.run("cocycles.py", "find", "no such file"), (1, "", "cocycles.py: no such file: No such file or directory\n"))
        self.assertEqual(common.run("cocycles.py", "find", small, text="x 0 1\no 1 0\n")[0], 1)

    def test_what_went_is_refused_with_its_place(self):
        for job in ("classes", "search", "weights"):
            status, out, said = common.run("cocycles.py", job, "a", "b")
            self.assertEqual((status, out), (2, ""))
            self.assertTrue(said.endswith(f"cocycles.py: error: {job} is a job of quandles/make/cocycle_tables.py of the sources\n"), said)


if __name__ == "__main__":
    unittest.main()
