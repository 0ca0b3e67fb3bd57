"""Crossing codes for other programs: what is read, what is refused, and that kinks keep the link."""
import glob
import importlib.util
import os
import unittest

import common
import knot_invariants
from lib.codes import crossing_codes
from knot_workbench import diagrams, texts

SCRIPTS = ("to_regina.py", "to_sage.py", "to_snappy.py")
TREFOIL = "crossings 3\nX[5,3,6,2]\nX[1,5,2,4]\nX[3,1,4,6]\nloops 0\ngauss U2+ O1+ U3+ O2+ U1+ O3+\n"


def code_of(*letters, strands=2):
    grid = diagrams.closure(diagrams.Braid(strands, letters))[0]
    return crossing_codes.read_code(knot_invariants.code_of_grid(*map(list, grid)))


class Codes(unittest.TestCase):
    def test_the_code_written_for_these_tests_is_that_of_the_program(self):
        found = sorted(glob.glob(os.path.join(common.ROOT, "examples", "code", "*.txt")))
        self.assertTrue(found)
        for path in found:
            grid = diagrams.grid_of(texts.read_diagram(texts.Lines(common.read(path))))
            self.assertEqual(knot_invariants.code_of_grid(*map(list, grid)), common.read(path[:-4] + ".out"), path)
            crossing_codes.read_code(common.read(path[:-4] + ".out"))

    def test_rows_have_the_jones_polynomial_of_the_braid(self):
        for strands, letters in ((2, (1, 1, 1)), (2, (-1, -1, -1)), (3, (1, -2, 1, -2)), (3, (1, 1, 1, -2, -1, -1, -1, -2))):
            code = code_of(*letters, strands=strands)
            self.assertEqual(knot_invariants.jones_of_rows(code.rows, crossing_codes.signs(code)), knot_invariants.jones_polynomial(strands, letters))

    def test_kinks_put_in_loops_and_directions(self):
        # The first: one component over the other one twice. The second has a loop too, the third nothing but loops.
        for strands, letters, kinks in ((2, (1, -1), 1), (3, (1, -1), 2), (3, (), 3), (3, (1, 1), 1), (2, (1, 1, 1), 0), (2, (-1, 1), 1)):
            code = code_of(*letters, strands=strands)
            more = crossing_codes.kinked(code)
            self.assertEqual(len(more.rows), len(code.rows) + kinks)
            self.assertEqual((more.loops, crossing_codes.all_over(more)), (0, []))
            text = f"crossings {len(more.rows)}\n" + "".join(f"X[{i},{j},{k},{l}]\n" for i, j, k, l in more.rows) + "loops 0\n"
            for passages in more.components:
                text += "gauss " + " ".join(f"{'O' if is_over else 'U'}{crossing}{'+' if sign > 0 else '-'}" for is_over, crossing, sign in passages) + "\n"
            self.assertEqual(crossing_codes.read_code(text), more)
            self.assertEqual(knot_invariants.jones_of_rows(more.rows, crossing_codes.signs(more)), knot_invariants.jones_polynomial(strands, letters))
            self.check_edges(more)

    def check_edges(self, code):
        """Each passage leads from its edge to the next one of its component."""
        edge = 1
        for passages in code.components:
            for place, (is_over, crossing, sign) in enumerate(passages):
                i, j, k, l = code.rows[crossing - 1]
                enter, leave = ((l, j) if sign > 0 else (j, l)) if is_over else (i, k)
                self.assertEqual((enter, leave), (edge + place, edge + (place + 1) % len(passages)))
            edge += len(passages)

    def test_sage_has_the_edges_the_other_way_round(self):
        self.assertEqual(common.run("to_sage.py", "--print", text=TREFOIL)[:2], (0, "Link([[5, 2, 6, 3], [1, 4, 2, 5], [3, 6, 4, 1]])\n"))

    def test_regina_and_snappy_take_the_rows(self):
        self.assertEqual(common.run("to_regina.py", "--print", text=TREFOIL)[:2], (0, "Link.fromPD([[5, 3, 6, 2], [1, 5, 2, 4], [3, 1, 4, 6]])\n"))
        self.assertEqual(common.run("to_snappy.py", "--print", text=TREFOIL)[:2], (0, "Link([(5, 3, 6, 2), (1, 5, 2, 4), (3, 1, 4, 6)])\n"))

    def test_what_is_lost_is_said(self):
        grid = diagrams.closure(diagrams.Braid(3, (1, -1)))[0]
        text = knot_invariants.code_of_grid(*map(list, grid))
        for script in SCRIPTS:
            _, _, said = common.run(script, "--print", text=text)
            self.assertIn("1 of the components have no crossing", said)
            self.assertIn("passes over everywhere", said)
            self.assertEqual(common.run(script, "--print", "--kinks", text=text)[2], "")

    def test_bad_codes_are_refused(self):
        for text in ("", "x 0 1\no 1 0\n", "malformed line 1\n", "crossings 3\nX[5,3,6,2]\nloops 0\n", TREFOIL.replace("X[5", "X[7"),
                     TREFOIL.replace("crossings 3", "crossings 4"), TREFOIL.replace("U2+ ", ""), TREFOIL + "gauss\n", "crossings 0\n"):
            with self.assertRaises(crossing_codes.BadCode):
                crossing_codes.read_code(text)
            for script in SCRIPTS:
                status, out, said = common.run(script, "--print", text=text)
                self.assertEqual((status, out), (1, ""))
                self.assertTrue(said.startswith(script))

    def test_what_the_batch_wrote_is_read(self):
        text = '# problem sha256 7f0c by code\n# tried {"stage": "only"}\n# text sha256 51d3\n' + TREFOIL
        self.assertEqual(crossing_codes.read_code(text), crossing_codes.read_code(TREFOIL))
        with self.assertRaises(crossing_codes.BadCode) as caught:
            crossing_codes.read_code("# problem sha256 7f0c by code\nmalformed line 1\n")
        self.assertIn("line 2: 'crossings N' is due", str(caught.exception))

    def test_several_files_are_told_apart(self):
        folder = common.scratch(self)
        paths = [os.path.join(folder, name) for name in ("one.txt", "two.txt", "three.txt")]
        for path, text in zip(paths, ("# a comment\n" + TREFOIL, "crossings 0\nloops 2\n", "crossings 1\n")):
            with open(path, "w", encoding="utf-8") as out:
                out.write(text)
        status, out, said = common.run("to_regina.py", "--print", *paths[:2])
        self.assertEqual((status, out), (0, f"# {paths[0]}\nLink.fromPD([[5, 3, 6, 2], [1, 5, 2, 4], [3, 1, 4, 6]])\n# {paths[1]}\nLink(2)\n"))
        self.assertEqual(said, f"{paths[1]}: note: 2 of the components have no crossing, and the rows do not hold them (--kinks puts them in)\n")
        # Nothing is written of a file at fault, and what is before it is.
        status, out, said = common.run("to_regina.py", "--print", paths[0], paths[2])
        self.assertEqual((status, said), (1, f"to_regina.py: {paths[2]}: the line 'loops' is missing\n"))
        self.assertIn("Link.fromPD", out)

    def test_help_and_missing_files(self):
        for script in SCRIPTS:
            self.assertEqual(common.run(script, "--help")[0], 0)
            self.assertEqual(common.run(script, "--print", "no such file")[0], 1)

    def test_each_module_reads_the_trefoil_where_it_is_installed(self):
        for script, module in zip(SCRIPTS, ("regina", "sage", "snappy")):
            with self.subTest(module):
                status, out, _ = common.run(script, text=TREFOIL)
                if importlib.util.find_spec(module) is None:
                    self.assertEqual(status, 3)
                else:
                    self.assertEqual(status, 0)
                    self.assertIn("writhe 3", out)


if __name__ == "__main__":
    unittest.main()
