"""Tests of codes in tables: they are drawn by `knot grid`, and no code is read as a braid word, nor a braid word as a code."""
import csv
import os
import subprocess
import unittest

import common
import knot_invariants
from lib.codes import crossing_codes
from lib.tables import given as identify_inputs
from knot_workbench import diagrams, texts
from knot_workbench.code_grids import Grids
from knot_workbench.codes.brackets import nested
from knot_workbench.codes.reading import read_text
from knot_workbench.diagrams import grid_text
from knot_workbench.tables import entries as table_entries
from knot_workbench.tables.rows import column_of_diagrams
from test_from_table import TREE, TableTest
from test_pd_codes import signs_of

STAND_IN = os.path.join(TREE, "tests", "tools", "stand_in_grid.py")
TREFOIL = "x 4 3 2 1 0\no 2 1 0 4 3\n"

# Codes as tables print them: of the trefoil, the figure eight and 5_2.
GAUSS_LISTS = ("{-1,2,-3,1,-2,3}", "[-1, 2, -3, 1, -4, 3, -2, 4]")
DT_LISTS = ("{4,6,2}", "[4, 6, 8, 2]", "{4,8,10,2,6}", "[4, 8, -12, 2, -14, -6, -10]")
PD = ("[[1,5,2,4],[3,1,4,6],[5,3,6,2]]", "{{1,5,2,4};{3,1,4,6};{5,3,6,2}}", "PD[X[1,5,2,4],X[3,1,4,6],X[5,3,6,2]]", "X[1,5,2,4], X[3,1,4,6], X[5,3,6,2]",
      "PD[Xp[1,5,2,4], Xp[3,1,4,6], Xp[5,3,6,2]]", "[(1, 5, 2, 4), (3, 1, 4, 6), (5, 3, 6, 2)]", "X[1,5,2,4] X[3,1,4,6] X[5,3,6,2]",
      "PD[X[1,5,2,4] X[3,1,4,6] X[5,3,6,2]]", "(1,5,2,4),(3,1,4,6),(5,3,6,2)", "[1,5,2,4] [3,1,4,6] [5,3,6,2]", "X1524 X3146 X5362", "X1524,X3146,X5362",
      "PD[X_{1524}, X_{3146}, X_{5362}]", "X1,5,2,4 X3146, X[5,3,6,2]")
PD_TEXT = "crossings 3\nX[1,5,2,4]\nX[3,1,4,6]\nX[5,3,6,2]\nloops 0\n"


class DrawnTest(TableTest):
    """With a stand-in for the program."""

    def setUp(self):
        super().setUp()
        self.calls = os.path.join(self.folder, "calls")
        os.environ["CALLS"], os.environ["KNOT"] = self.calls, STAND_IN
        self.addCleanup(self.restore)

    def restore(self):
        os.environ.pop("CALLS", None)
        os.environ.pop("KNOT", None)
        if KNOT_BEFORE is not None:
            os.environ["KNOT"] = KNOT_BEFORE

    def noted(self):
        with open(self.calls, encoding="utf-8") as file:
            return file.read()

    def of(self, title, entry, *words):
        """The whole file that one entry gives under a title."""
        path = self.table(f'name;{title}\nk;"{entry}"\n')
        status, _, errors = self.call(path, self.out, "--diagram", "2", "--replace", *words)
        self.assertEqual((status, errors), (0, ""))
        return self.made("k")

    def test_pd_codes_are_drawn(self):
        for entry in PD:
            with self.subTest(entry):
                self.assertEqual(self.of("entry", entry), f"# name: k\n# by `knot grid`, of a PD code\n{TREFOIL}")
        self.assertEqual(self.noted(), PD_TEXT * len(PD))

    def test_edges_of_two_digits_are_between_commas(self):
        for entry in ("X8291 X_{10,3,11,4} X_{12,5,1,6}", "X8,2,9,1 X10,3,11,4 X12,5,1,6"):
            with self.subTest(entry):
                self.assertIn("the edge 2 doesn't occur exactly twice", self.reason(entry))
        self.assertEqual(self.noted(), "crossings 3\nX[8,2,9,1]\nX[10,3,11,4]\nX[12,5,1,6]\nloops 0\n" * 2)

    def test_files_have_the_same_codes(self):
        def had(text):
            given = identify_inputs.Given("k", "k.txt", text, "file")
            return grid_text(identify_inputs.had(given, table_entries.Conventions("columns", False, False, None, Grids())).diagram)

        for text in (*(entry for entry in PD if "Xp" not in entry), "# a name\nX[1,5,2,4] X[3,1,4,6]\nX[5,3,6,2]\n", "X1524 X3146\nX_{5,3,6,2}\n"):
            self.assertEqual(had(text), TREFOIL, text)
        # What `knot grid` reads goes on as it stands.
        text = "X 1 5 2 4\nX 3 1 4 6\nX 5 3 6 2\n"
        had(text)
        self.assertTrue(self.noted().endswith(text))

    def test_one_crossing_is_a_pd_code_too(self):
        for entry in ("X[1,1,2,2]", "PD[X[1,1,2,2]]", "[[1,1,2,2]]", "X1122"):
            with self.subTest(entry):
                self.assertIn("x 0 1 2\n", self.of("entry", entry))

    def test_dt_codes_are_drawn_by_way_of_a_pd_code(self):
        for title, entry, *words in (("dt_notation", "{4,6,2}"), ("entry", "DT: [(4,6,2)]"), ("entry", "DTCode[4,6,2]"), ("entry", "{{4,6,2}}"),
                                     ("entry", "{4,6,2}", "--as", "dt"), ("entry", "DT[cacbca]"), ("dt", "4 6 2")):
            with self.subTest(title=title, entry=entry):
                self.assertEqual(self.of(title, entry, *words), "# name: k\n# by `knot grid`, of a PD code made of a DT code, which the mirror image has too\n"
                                                                + TREFOIL)
        self.assertEqual(self.noted().count("crossings 3\nX[4,1,5,2]\nX[6,3,1,4]\nX[2,5,3,6]\nloops 0\n"), 7)
        self.assertIn("x 0 1 2 3\n", self.of("dt_notation", "{{4},{2}}"))
        self.assertIn("in which each of 2 parts may be mirrored", self.of("dt_notation", "{4,6,2,10,12,14,8}"))

    def test_gauss_codes_are_drawn_by_way_of_a_pd_code(self):
        of_both = "a Gauss code, which the mirror image has too"
        for title, entry, made, *words in (("gauss_notation", "{1,-2,3,-1,2,-3}", of_both), ("Gauss Code", "1 -2 3 -1 2 -3", of_both),
                                           ("entry", "GaussCode[1,-2,3,-1,2,-3]", of_both), ("entry", "{{1,-2,3,-1,2,-3}}", of_both),
                                           ("entry", "{1,-2,3,-1,2,-3}", of_both, "--as", "gauss"), ("PD", "GaussCode[1,-2,3,-1,2,-3]", of_both),
                                           ("entry", "O1-U2-O3-U1-O2-U3-", "a Gauss code"), ("gauss", "[[[1,-2,3,-1,2,-3]],[-1,-1,-1]]", "a Gauss code")):
            with self.subTest(title=title, entry=entry):
                self.assertEqual(self.of(title, entry, *words), f"# name: k\n# by `knot grid`, of a PD code made of {made}\n{TREFOIL}")
        self.assertEqual(self.noted(), "crossings 3\nX[4,1,5,2]\nX[2,5,3,6]\nX[6,3,1,4]\nloops 0\n" * 8)
        self.assertIn("in which each of 2 parts may be mirrored", self.of("gauss", "{1,-2,3,-1,2,-3,-4,5,-6,4,-7,6,-5,7}"))

    def test_a_column_of_codes_of_several_kinds(self):
        path = self.table("name|codes\na|DT: [(4,6,2)]\nb|GaussCode[1,-2,3,-1,2,-3]\nc|X1524 X3146 X5362\nd|{{1,-2,3,-1,2,-3}}\n")
        self.assertEqual(self.call(path, self.out, "--diagram", "codes"),
                         (0, f"4 rows: 4 diagrams in {self.out}, 0 couldn't be made\n",
                          f"{path}: the column 'codes' has 2 Gauss codes and 1 DT code and 1 PD code, as c\n"))

    def test_a_column_of_gauss_codes_counts_where_there_is_no_other(self):
        for header, found in ((["name", "gauss_notation"], "gauss_notation"), (["name", "pd_notation", "gauss_notation"], "pd_notation")):
            self.assertEqual(column_of_diagrams("knots.csv", header), found)

    def test_mirror_images_and_reverses_of_codes(self):
        grids = {words: self.of("pd", PD[0], *words).split("PD code\n")[1] for words in ((), ("--mirror",), ("--reverse",), ("--mirror", "--reverse"))}
        self.assertEqual(grids["--mirror",], "x 0 1 2 3 4\no 2 3 4 0 1\n")
        self.assertEqual(grids["--reverse",], "x 2 1 0 4 3\no 4 3 2 1 0\n")
        self.assertEqual(grids["--mirror", "--reverse"], "x 2 3 4 0 1\no 0 1 2 3 4\n")

    def test_titles_say_what_the_entries_are(self):
        for title in ("dt_notation", "DT Notation", "DTCode", "dtcode", "Dowker-Thistlethwaite", "dowker_code"):
            with self.subTest(title):
                self.assertIn("made of a DT code", self.of(title, "{4,6,2}"))
        for title in ("pd_notation", "PD Notation", "PDCode", "pd", "Planar Diagram"):
            with self.subTest(title):
                self.assertIn("of a PD code\n", self.of(title, PD[0]))

    def test_codes_that_cannot_be_drawn(self):
        for entry, reason in (("[[1,5,2,4],[3,1,4,6]]", "the edge 2 doesn't occur exactly twice"),
                              ("[[1,1,2,2],[3,3,4,4],[5,5,6,6],[7,7,8,8],[9,9,10,10],[11,11,12,12]]", "its drawing takes 50 columns, and a grid has at most 48"),
                              ("[[1,1,2,2],[3,3,4,4],[5,5,6,6],[7,7,8,8],[9,9,10,10]]", "no diagram in the plane has this code"),
                              ("PD[X[1,2,3]]", "row 1 of a PD code has four numbers, and not [1, 2, 3]"), ("X[-1,5,2,4]", "row 1 has the edge -1"),
                              ("(1,5,2,4),(3,1,4)", "row 2 of a PD code has four numbers, and not [3, 1, 4]"),
                              ("(1,5,2),(3,1,4,6)", "',' comes after the last bracket; only the crossings of a PD code need no brackets around them"),
                              ("X1524 3146", "row 2 of a PD code has four numbers, and not 3146"),
                              ("X[1,5,2,4] 3", "row 2 of a PD code has four numbers, and not 3"),
                              *((f"{entry} X3146", f"'{entry}' is no crossing: after X come four edges, as X[4,2,5,1], X4251 or X3,10,4,11")
                                for entry in ("X152", "X15246", "X1,5,2", "X1,5,2,4,6", "X1524,6", "X_{1,5,2}", "X_1,5,2,4")),
                              ("PD[]", "a PD code without rows doesn't say how many unknots it has"), ("DT[cacbc]", "the letters 'cacbc' are no DT code"),
                              ("DT[4,6]", "has each even number from 2 to 4 once"), ("DT[4,6,8,10,2]", "no diagram in the plane has this code"),
                              ("DT: [(4,6,2),()]", "component 2 of a DT code has no crossing"),
                              ("GaussCode[1,-2,3,-1,2]", "the crossing 3 is passed once, and not twice"),
                              ("[[[1,-2,3,-1,2,-3]],[1,1]]", "nor a PD, DT or Gauss code")):
            with self.subTest(entry):
                self.assertIn(reason, self.reason(entry))

    def test_a_bad_code_is_one_bad_row(self):
        path = self.table("name|pd_notation\na|{{1,5,2,4},{3,1,4,6},{5,3,6,2}}\nb|{{1,2,3,4}}\nc|{1,1,1}\n")
        status, out, errors = self.call(path, self.out, "--diagram", "pd_notation")
        self.assertEqual((status, out, self.files()), (1, f"3 rows: 1 diagrams in {self.out}, 2 couldn't be made\n", ["a.txt"]))
        self.assertEqual(errors.splitlines(), [f"{path}:3: b: the edge 1 doesn't occur exactly twice",
                                               f"{path}:4: c: row 1 of a PD code has four numbers, and not [1, 1, 1]"])

    def test_a_program_that_cannot_be_run_ends_it(self):
        path = self.table(f'name,pd\nk,"{PD[0]}"\n')
        for program, reason in (("/no/such/knot", "/no/such/knot: No such file or directory"), ("/bin/false", "/bin/false grid ended with status 1")):
            status, out, errors = self.call(path, self.out, "--diagram", "pd", "--knot", program)
            self.assertEqual((status, out, self.files()), (2, "", []))
            self.assertEqual(errors, f"from_table.py: {reason}\n")

    def test_a_program_that_gives_no_answer_costs_one_row(self):
        path = self.table(f'name,pd\nk,"{PD[0]}"\n')
        failing = os.path.join(self.folder, "failing")
        for ending, reason in (("exit 7", "ended with status 7, memory ran out"), ("kill -9 $$", "ended by signal 9")):
            with open(failing, "w", encoding="utf-8") as out:
                out.write(f"#!/bin/sh\n{ending}\n")
            os.chmod(failing, 0o755)
            status, out, errors = self.call(path, self.out, "--diagram", "pd", "--knot", failing)
            self.assertEqual((status, out), (1, f"1 rows: 0 diagrams in {self.out}, 1 couldn't be made\n"))
            self.assertEqual(errors, f"{path}:2: k: knot grid: {reason}\n")


KNOT_BEFORE = os.environ.get("KNOT")


def has_grid(program):
    """Whether a program has the job `grid`."""
    if program is None:
        return False
    return subprocess.run([program, "grid"], input=b"loops 1\n", capture_output=True, check=False).returncode == 0


@unittest.skipUnless(has_grid(common.built_program()), "no built program with the job grid")
class ProgramTest(TableTest):
    def test_codes_come_back_as_the_knots_that_they_are_of(self):
        for entry, words, braid in (("[[1,5,2,4],[3,1,4,6],[5,3,6,2]]", (), (2, (1, 1, 1))), ("DT[4,6,8,2]", (), (3, (1, -2, 1, -2))),
                                    ("GaussCode[-1,2,-3,1,-4,3,-2,4]", (), (3, (1, -2, 1, -2))), ("O1-U2-O3-U1-O2-U3-", (), (2, (-1, -1, -1))),
                                    ("[[[1,-2,3,-1,2,-3]],[1,1,1]]", (), (2, (1, 1, 1))), ("[[[1,-2],[-1,2]],[-1,-1]]", (), (2, (-1, -1))),
                                    ("[[1,5,2,4],[3,1,4,6],[5,3,6,2]]", ("--mirror",), (2, (-1, -1, -1)))):
            with self.subTest(entry):
                grid = diagrams.grid_of(texts.read_diagram(texts.Lines(self.one(entry, "--knot", common.built_program(), *words))))
                code = crossing_codes.read_code(knot_invariants.code_of_grid(*map(list, grid)))
                self.assertEqual(knot_invariants.jones_of_rows(code.rows, crossing_codes.signs(code)), knot_invariants.jones_polynomial(*braid))


class RefusedTest(TableTest):
    def test_lists_of_a_code_are_refused_where_nothing_says_what_they_are(self):
        for entries, reason in ((DT_LISTS, "a DT code, and not a braid word; --as dt takes it for one; --as braid takes it for a word"),
                                (GAUSS_LISTS, "a Gauss code, and not a braid word; --as gauss takes it for one; --as braid takes it for a word")):
            for entry in entries:
                with self.subTest(entry):
                    self.assertIn(reason, self.reason(entry))

    def test_titles_that_tell_of_no_code(self):
        for title in ("word", "braid_notation", "Arc Notation", "Braid (from the PD code)", "updated", "width", "padded", "dtx"):
            with self.subTest(title):
                path = self.table(f"name|{title}\na|{{1,1,1}}\n")
                self.assertEqual(self.call(path, self.out, "--diagram", title)[::2], (0, ""))

    def test_words_all_the_same_where_the_option_says_so(self):
        path = self.table('name,entry\nk,"{4,6,2}"\n')
        self.assertEqual(self.call(path, self.out, "--diagram", "entry", "--as", "braid")[0], 0)
        self.assertTrue(self.made("k").endswith("\nbraid 7 4 6 2\n"))
        self.assertEqual(self.one("{-1,2,-3,1,-2,3}", "--as", "braid"), "braid 4 -1 2 -3 1 -2 3\n")
        path = self.table('name,gauss\na,"{-1,2,-3,1,-2,3}"\n')
        self.assertEqual(self.call(path, os.path.join(self.folder, "other"), "--diagram", "gauss", "--as", "braid")[::2], (0, ""))


class NoFalseAlarmTest(TableTest):
    def test_words_that_are_somewhat_like_codes(self):
        for entry, letters in (("{1,-1}", "2 1 -1"), ("{1,2,-1,-2}", "3 1 2 -1 -2"), ("{1,2,3,1,2,3}", "4 1 2 3 1 2 3"),
                               ("{1,-2,3,-1,2,3}", "4 1 -2 3 -1 2 3"), ("{1,2,3}", "4 1 2 3"), ("{3,{-1,2,-2,1}}", "3 -1 2 -2 1")):
            with self.subTest(entry):
                self.assertEqual(self.one(entry), f"braid {letters}\n")

    def test_all_even_is_not_enough(self):
        for entry, letters in (("{2,2,2}", "3 2 2 2"), ("{2,-4,2,-4}", "5 2 -4 2 -4"), ("{2}", "3 2"), ("{4,2}", "5 4 2")):
            with self.subTest(entry):
                path = self.table(f"name|word\nk|{entry}\n")
                self.assertEqual(self.call(path, self.out, "--diagram", "word", "--replace")[0], 0)
                self.assertEqual(self.made("k").splitlines()[-1], f"braid {letters}")

    def test_the_words_and_the_arcs_of_the_tree(self):
        for table, columns in (("quandles/knots-to-8.csv", ("braid",)), ("examples/table/knots.csv", ("braid_notation", "arc_notation"))):
            path = os.path.join(TREE, table)
            with open(path, encoding="utf-8", newline="") as file:
                rows = list(csv.DictReader(file))
            for column in columns:
                with self.subTest(table=table, column=column):
                    _, out, errors = self.call(path, os.path.join(self.folder, column), "--diagram", column)
                    self.assertNotIn(" code", errors)
                    self.assertNotIn("warning", errors)
                    can_not = 1 if len(rows) == 9 else 0
                    self.assertTrue(out.startswith(f"{len(rows)} rows: {len(rows) - can_not} diagrams"), out)


class ExampleTest(unittest.TestCase):
    def test_the_codes_of_the_example_are_those_of_its_words(self):
        with open(os.path.join(TREE, "examples", "table", "codes.csv"), encoding="utf-8", newline="") as file:
            rows = list(csv.DictReader(file))
        self.assertEqual(len(rows), 3)
        for row in rows:
            with self.subTest(row["name"]):
                letters = nested(row["braid_notation"])
                wanted = knot_invariants.jones_polynomial(max(map(abs, letters)) + 1, letters)
                pd = nested(row["pd_notation"])
                self.assertEqual(knot_invariants.jones_of_rows(pd, signs_of(pd)), wanted)
                for made in (read_text(row["dt_notation"], "DT").rows, read_text(row["gauss_notation"], "Gauss").rows):
                    self.assertIn(knot_invariants.jones_of_rows(made, signs_of(made)), (wanted, {-power: count for power, count in wanted.items()}))


class MissingLettersTest(TableTest):
    def test_letters_that_are_missing_get_a_warning(self):
        path = self.table("name|word|strands\na|{1,-4}|\nb|{1,1}|3\nc|{2,2,2}|\nd|{1,2}|\ne|{}|4\n")
        status, out, errors = self.call(path, self.out, "--diagram", "word", "--strands", "strands")
        self.assertEqual((status, out), (0, f"5 rows: 5 diagrams in {self.out}, 0 couldn't be made\n"))
        self.assertEqual(errors.splitlines(), [
            f"{path}:2: a: warning: letters 2, 3 are missing, so the closure is split",
            f"{path}:3: b: warning: letter 2 is missing, so the closure is split",
            f"{path}:4: c: warning: letter 1 is missing, so the closure is split"])
        self.assertEqual(self.made("a"), "# name: a\n# letters 2, 3 are missing, so the closure is split\nbraid 5 1 -4\n")

    def test_the_column_is_named_where_there_are_two(self):
        path = self.table("name|word|other\na|{1}|{2}\n")
        errors = self.call(path, self.out, "--diagram", "word", "--second", "other")[2]
        self.assertEqual(errors, f"{path}:2: a: warning: column 3: letter 1 is missing, so the closure is split\n")


if __name__ == "__main__":
    unittest.main()
