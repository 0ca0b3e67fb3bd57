"""Tests of tools/from_table.py: its diagrams against grids and invariants that are computed here, and its complaints."""
import os
import re
import subprocess
import sys
import tempfile
import unittest

import grid_facts

TREE = os.path.dirname(os.path.dirname(os.path.dirname(os.path.abspath(__file__))))
SCRIPT = os.path.join(TREE, "tools", "from_table.py")
EXAMPLE = os.path.join(TREE, "examples", "table", "knots.csv")

RIGHT_TREFOIL = "x 4 3 2 1 0\no 2 1 0 4 3\n"
LEFT_TREFOIL = "x 0 1 2 3 4\no 2 3 4 0 1\n"

# Neither its mirror image, nor its reverse, nor its reversed mirror image: nothing that turns it round or over goes unseen.
NO_SYMMETRY = "{1,1,-2,1,-2,1,3,-2,3}"
NO_SYMMETRY_ARCS = "{{3,5},{9,4},{8,1},{10,3},{2,6},{5,9},{7,11},{1,10},{6,8},{4,7},{11,2}}"


class TableTest(unittest.TestCase):
    def setUp(self):
        kept = tempfile.TemporaryDirectory()
        self.addCleanup(kept.cleanup)
        self.folder = kept.name
        self.out = os.path.join(self.folder, "out")

    def table(self, text, name="knots.csv"):
        path = os.path.join(self.folder, name)
        with open(path, "wb") as file:
            file.write(text if isinstance(text, bytes) else text.encode())
        return path

    def call(self, *words, given=None):
        done = subprocess.run([sys.executable, "-B", SCRIPT, *words], input=given, capture_output=True, text=True, check=False)
        return done.returncode, done.stdout, done.stderr

    def made(self, name):
        with open(os.path.join(self.out, name + ".txt"), encoding="utf-8") as file:
            return file.read()

    def files(self):
        return sorted(os.listdir(self.out)) if os.path.isdir(self.out) else []

    def one(self, entry, *words):
        """The diagram that one entry gives, without comments."""
        path = self.table(f'name,entry\nk,"{entry}"\n')
        status, _, errors = self.call(path, self.out, "--diagram", "entry", "--replace", *words)
        self.assertEqual((status, errors), (0, ""))
        return "".join(line + "\n" for line in self.made("k").splitlines() if not line.startswith("#"))

    def grid(self, entry, *words):
        return grid_facts.grid_of(self.one(entry, *words))

    def reason(self, entry, *words):
        """What is said of one entry that can't be had."""
        path = self.table(f'name,entry\nk,"{entry}"\n')
        status, _, errors = self.call(path, self.out, "--diagram", "entry", *words)
        self.assertEqual((status, self.files()), (1, []))
        head = f"{path}:2: k: "
        self.assertTrue(errors.startswith(head), errors)
        return errors[len(head):].strip()


class FactsTest(unittest.TestCase):
    """The tests' own means, on what docs/GUIDE.md and docs/FORMATS.md draw."""

    def test_the_closure_of_the_trefoil_is_the_grid_of_the_guide(self):
        self.assertEqual(grid_facts.closure(2, [1, 1, 1]), ([4, 3, 2, 0, 1, 5, 6], [6, 5, 4, 3, 2, 1, 0]))

    def test_signs_and_polynomials_tell_the_trefoils_apart(self):
        right, left = grid_facts.grid_of(RIGHT_TREFOIL), grid_facts.grid_of(LEFT_TREFOIL)
        self.assertEqual((grid_facts.writhe(*right), grid_facts.writhe(*left)), (3, -3))
        # t + t^3 - t^4 for the right one, with A = t^(-1/4).
        self.assertEqual(grid_facts.jones(*right), {-16: -1, -12: 1, -4: 1})
        self.assertEqual(grid_facts.jones(*left), {16: -1, 12: 1, 4: 1})


class BraidTest(TableTest):
    def test_brackets_of_each_kind(self):
        for entry in ("{1,1,-2,1,-2}", "[1, 1, -2, 1, -2]", "(1, 1, -2, 1, -2)", " { 1 ,1, -2,1,-2 } ", "{3,{1,1,-2,1,-2}}"):
            with self.subTest(entry):
                self.assertEqual(self.one(entry), "braid 3 1 1 -2 1 -2\n")

    def test_strands_are_as_few_as_the_letters_need(self):
        self.assertEqual(self.one("{1,-2,3}"), "braid 4 1 -2 3\n")
        self.assertEqual(self.one("{}"), "braid 1\n")

    def test_strands_of_a_column(self):
        path = self.table('name,word,strands\na,"{1,2}",3\nb,"{1,1}",\nc,"{1,1}",two\nd,"{2,{1}}",3\n')
        status, _, errors = self.call(path, self.out, "--diagram", "word", "--strands", "strands")
        self.assertEqual(status, 1)
        self.assertEqual((self.made("a"), self.made("b")), ("# name: a\nbraid 3 1 2\n", "# name: b\nbraid 2 1 1\n"))
        self.assertIn(f"{path}:4: c: the number of strands is 'two'", errors)
        self.assertIn(f"{path}:5: d: the entry has 2 strands, and the column of strands 3", errors)
        self.assertEqual(self.files(), ["a.txt", "b.txt"])

    def test_mirror_and_reverse(self):
        self.assertEqual(self.one("{1,2,-1}", "--mirror"), "braid 3 -1 -2 1\n")
        self.assertEqual(self.one("{1,2,-1}", "--reverse"), "braid 3 -1 2 1\n")

    def test_limits_are_those_of_today(self):
        self.assertEqual(self.one("{" + ",".join(["1"] * 44) + "}"), "braid 2" + " 1" * 44 + "\n")
        self.assertEqual(self.one("{1,2,3,4,5,6,7}"), "braid 8 1 2 3 4 5 6 7\n")

    def test_words_that_cannot_be_had(self):
        for entry, reason in (
                ("{" + ",".join(["1"] * 45) + "}", "45 letters on 2 strands make 49 columns, and a grid has at most 48"),
                ("{8}", "9 strands, and a braid has at most 8"),
                ("{1,0}", "letter 2 is 0, and 2 strands have the letters 1 to 1 and their negatives"),
                ("{2,{1,-2}}", "letter 2 is -2, and 2 strands have the letters 1 to 1 and their negatives"),
                ("{1,{1}}", "letter 1 is 1, and one strand has no letters"),
                ("{0,{}}", "a braid has one strand or more"),
                ("", "the entry is empty"),
                ("1,1,1", "the entry does not begin with a bracket"),
                ("{1,1", "the bracket '}' is missing at the end"),
                ("{1,1]", "the bracket ']' closes none"),
                ("{1 1}", "a comma is due, and not '1'"),
                ("{1,,1}", "a number or a bracket is due, and not ','"),
                ("{1,}", "there is a comma before a closing bracket"),
                ("{1,1}}", "the bracket '}' closes none"),
                ("{1,1},{1}", "',' comes after the last bracket; only the crossings of a PD code need no brackets around them"),
                ("{1,{1} 1}", "a comma is due, and not '1'"),
                ("{1,a}", "'a}' is neither a number, a comma nor a bracket"),
                ("{1.5}", "'.5}' is neither a number, a comma nor a bracket"),
                ("{1234567890}", "the number 123456789... has too many digits"),
                ("{" * 5000, "there are too many brackets within brackets"),
                ("{1,{2,{3}}}", "the entry is neither a braid word, a list of pairs, nor a PD, DT or Gauss code")):
            with self.subTest(entry[:40]):
                self.assertEqual(self.reason(entry), reason)


class ArcsTest(TableTest):
    def test_the_right_trefoil(self):
        for entry in ("{{5,3},{4,2},{3,1},{2,5},{1,4}}", "[[5, 3], [4, 2], [3, 1], [2, 5], [1, 4]]", "{{4,2},{3,1},{2,0},{1,4},{0,3}}"):
            with self.subTest(entry):
                self.assertEqual(self.one(entry), RIGHT_TREFOIL)

    def test_the_left_trefoil(self):
        self.assertEqual(self.one("{{1,3},{2,4},{3,5},{4,1},{5,2}}"), LEFT_TREFOIL)
        # Another that is often written: the same but for one column, which is on the other side.
        self.assertEqual(self.one("{{5,2},{1,3},{2,4},{3,5},{4,1}}"), "x 4 0 1 2 3\no 1 2 3 4 0\n")
        self.assertEqual(grid_facts.writhe(*self.grid("{{5,2},{1,3},{2,4},{3,5},{4,1}}")), -3)

    def test_pairs_as_rows_are_the_same_knot(self):
        for entry in ("{{5,3},{4,2},{3,1},{2,5},{1,4}}", "{{5,2},{1,3},{2,4},{3,5},{4,1}}", NO_SYMMETRY_ARCS):
            with self.subTest(entry):
                columns, rows = self.grid(entry), self.grid(entry, "--arcs", "rows")
                self.assertEqual(grid_facts.jones(*columns), grid_facts.jones(*rows))
                # The picture seen from behind, half a turn about its diagonal: over and under change places, signs and direction stay.
                self.assertEqual(grid_facts.gauss(*rows, swap=True), grid_facts.gauss(*columns))

    def test_mirror_images(self):
        right = "{{5,3},{4,2},{3,1},{2,5},{1,4}}"
        for arcs in ("columns", "rows"):
            self.assertEqual(grid_facts.writhe(*self.grid(right, "--arcs", arcs)), 3)
            self.assertEqual(grid_facts.writhe(*self.grid(right, "--arcs", arcs, "--mirror")), -3)

    def test_braid_and_arcs_of_a_knot_without_symmetry(self):
        braid = self.one(NO_SYMMETRY)
        letters = [int(letter) for letter in braid.split()[2:]]
        closed = grid_facts.closure(4, letters)
        plain = grid_facts.jones(*closed)
        self.assertEqual(grid_facts.jones(*self.grid(NO_SYMMETRY_ARCS)), plain)
        mirrored = grid_facts.jones(*self.grid(NO_SYMMETRY_ARCS, "--mirror"))
        self.assertEqual(mirrored, {-power: factor for power, factor in reversed(plain.items())})
        self.assertNotEqual(mirrored, plain)

    def test_direction_of_a_knot_without_symmetry(self):
        closed = grid_facts.closure(4, [1, 1, -2, 1, -2, 1, 3, -2, 3])
        arcs = "{" + ",".join("{%d,%d}" % (x + 1, o + 1) for x, o in zip(*closed)) + "}"
        self.assertEqual(self.grid(arcs), closed)
        self.assertEqual(self.grid(arcs, "--reverse"), closed[::-1])
        code = grid_facts.gauss(*closed)
        self.assertNotEqual(code, grid_facts.gauss(*closed, backwards=True))
        self.assertNotEqual(code, grid_facts.gauss(*closed, swap=True))
        self.assertEqual(grid_facts.gauss(*self.grid(arcs, "--reverse")), grid_facts.gauss(*closed, backwards=True))
        self.assertEqual(grid_facts.gauss(*self.grid(arcs, "--arcs", "rows"), swap=True), code)
        # The word backwards is the braid turned upside down and seen from behind: the reverse, with over and under in each other's place.
        back = self.one(NO_SYMMETRY, "--reverse").split()[2:]
        turned = grid_facts.gauss(*grid_facts.closure(4, [int(letter) for letter in back]))
        self.assertEqual(turned, grid_facts.gauss(*closed, backwards=True, swap=True))

    def test_links_keep_the_direction_of_each_component(self):
        # The Hopf link; with one component the other way round its sign changes.
        one = self.grid("{{1,3},{2,4},{3,1},{4,2}}")
        other = self.grid("{{1,3},{4,2},{3,1},{2,4}}")
        self.assertEqual({grid_facts.writhe(*one), grid_facts.writhe(*other)}, {2, -2})

    def test_pairs_that_run_against_the_strand_are_turned_and_named(self):
        path = self.table('name,entry\nk,"{{5,3},{2,4},{3,1},{5,2},{1,4}}"\n')
        status, _, errors = self.call(path, self.out, "--diagram", "entry")
        self.assertEqual((status, errors), (0, ""))
        self.assertEqual(self.made("k"), "# name: k\n# turned, so that each row has one X and one O: pair 2, 4\n" + RIGHT_TREFOIL)

    def test_arcs_that_cannot_be_had(self):
        wide = "{" + ",".join("{%d,%d}" % (k, k % 49 + 1) for k in range(1, 50)) + "}"
        for entry, reason in (
                (wide, "49 pairs, and a grid has at most 48 columns"),
                ("{{1,2}}", "one pair alone, and a grid has two columns or more"),
                ("{{1,2},{2,2}}", "pair 2 has the number 2 twice"),
                ("{{1,2},{1,3},{1,2}}", "the number 1 comes 3 times, and not twice"),
                ("{{1,2},{2,4},{4,1}}", "the number 4 is in a pair, and 3 pairs have the numbers 1 to 3"),
                ("{{1,2},{2,-1}}", "the number -1 is in a pair, and 2 pairs have the numbers 1 to 2"),
                ("{{1,2},{1,2,3}}", "the entry is neither a braid word, a list of pairs, nor a PD, DT or Gauss code")):
            with self.subTest(entry[:40]):
                self.assertEqual(self.reason(entry), reason)


class TableShapesTest(TableTest):
    def test_tabs_bars_and_semicolons(self):
        for text, name in (("name\tword\na\t{1,1,1}\n", "knots.tsv"), ("name\tword\na\t{1,1,1}\n", "knots.txt"),
                           ("name|word\na|{1,1,1}\n", "knots.csv"), ("name;word\r\na;{1,1,1}\r\n", "knots.csv"),
                           ('\ufeffname,word\na,"{1,1,1}"\n', "knots.csv")):
            with self.subTest(text):
                status, _, errors = self.call(self.table(text, name), self.out, "--diagram", "word")
                self.assertEqual((status, errors, self.made("a")), (0, "", "# name: a\nbraid 2 1 1 1\n"))

    def test_standard_input_and_columns_by_number(self):
        status, _, _ = self.call("-", self.out, "--no-header", "--name", "2", "--diagram", "1", "--delimiter", ";", given="{1};a\n")
        self.assertEqual((status, self.made("a")), (0, "# name: a\nbraid 2 1\n"))

    def test_without_a_header_the_names_are_in_the_first_column(self):
        path = self.table("a|{1}\nb|{1,1}\n")
        self.assertEqual(self.call(path, self.out, "--no-header", "--diagram", "2")[::2], (0, ""))
        self.assertEqual((self.made("a"), self.made("b")), ("# name: a\nbraid 2 1\n", "# name: b\nbraid 2 1 1\n"))

    def test_a_second_header(self):
        path = self.table("name|word\nName|Braid Word\na|{1}\n")
        self.assertEqual(self.call(path, self.out, "--diagram", "word", "--skip-rows", "1")[0], 0)
        self.assertEqual(self.files(), ["a.txt"])

    def test_commas_outside_quotes_are_told(self):
        path = self.table("name,word\na,{1,1,1}\nb,{1}\n")
        status, out, errors = self.call(path, self.out, "--diagram", "word")
        self.assertEqual(status, 1)
        self.assertEqual(errors, f"{path}:2: a: the row has 4 fields, and the header 2; a field with commas needs quotes\n")
        self.assertEqual(out, f"2 rows: 1 diagrams in {self.out}, 1 couldn't be made\n")

    def test_names(self):
        path = self.table('name,word\na,{1}\na,{2}\n,{1}\n"T(2,3)",{1}\n"b\nc",{1}\n../d,{1}\nA,{1}\n')
        status, _, errors = self.call(path, self.out, "--diagram", "word")
        self.assertEqual(status, 1)
        self.assertEqual(self.files(), ["A-2.txt", "T_2,3_.txt", "_._d.txt", "a.txt"])
        self.assertEqual(errors.splitlines(), [
            f"{path}:3: a: line 2 has the same name",
            f"{path}:4: (no name): the row has no name",
            f"{path}:6: 'b\\nc': the name has a line break or another character that can't be printed"])

    def test_names_in_any_script(self):
        path = self.table("name|word\nузел/11a_1|{1}\nкруг|{1}\n5₂ (Fünfkreuz)|{1,1,1}\nузел 11a_1|{1}\n")
        self.assertEqual(self.call(path, self.out, "--diagram", "word")[0], 0)
        self.assertEqual(self.files(), ["5₂__Fünfkreuz_.txt", "круг.txt", "узел_11a_1-2.txt", "узел_11a_1.txt"])
        self.assertEqual(self.made("узел_11a_1-2"), "# name: узел 11a_1\nbraid 2 1\n")
        path = self.table("name|word\n" + "я" * 100 + "|{1}\n")
        self.assertIn("would have 204 bytes, and 180 are the most", self.call(path, self.out, "--diagram", "word")[2])

    def test_other_kinds_and_links_among_knots_are_told(self):
        path = self.table("name|word\na|{1}\nb|{1,1}\nc|{{5,3},{4,2},{3,1},{2,5},{1,4}}\nd|{1,1,1}\n")
        status, _, errors = self.call(path, self.out, "--diagram", "word")
        self.assertEqual((status, errors), (0, f"{path}: the column 'word' has 3 braid words and 1 arc presentation, as c\n"
                                               f"{path}: the column 'word' has 1 link among knots: b of 2 components\n"))
        path = self.table("name|word\na|{1,1}\nb|{1,1}\n")
        self.assertEqual(self.call(path, os.path.join(self.out, "more"), "--diagram", "word")[2], "")

    def test_another_encoding_is_told_with_a_way_on(self):
        for encoding, said in (("utf-16", "iconv -f UTF-16 -t UTF-8"), ("latin-1", "t.csv:2: the text is not UTF-8: iconv -f LATIN1")):
            path = os.path.join(os.path.dirname(self.out), "t.csv")
            with open(path, "w", encoding=encoding) as file:
                file.write("name|word\nFünf|{1}\n")
            status, _, errors = self.call(path, self.out, "--diagram", "word")
            self.assertEqual(status, 2)
            self.assertIn(said, errors)

    def test_files_that_are_there(self):
        path = self.table("name,word\na,{1}\nb,{1}\n")
        self.assertEqual(self.call(path, self.out, "--diagram", "word")[0], 0)
        status, out, _ = self.call(path, self.out, "--diagram", "word")
        self.assertEqual((status, out), (0, f"2 rows: 2 diagrams in {self.out}, 0 couldn't be made\n"))
        self.table("name,word\na,{-1}\nb,{1}\nc,{0}\n")
        status, out, errors = self.call(path, self.out, "--diagram", "word")
        self.assertEqual((status, out), (1, f"3 rows: 1 diagrams in {self.out}, 1 not written, 1 couldn't be made\n"))
        self.assertIn("is there already, with another content", errors)
        self.assertEqual(self.made("a"), "# name: a\nbraid 2 1\n")
        self.assertEqual(self.call(path, self.out, "--diagram", "word", "--replace")[0], 1)
        self.assertEqual(self.made("a"), "# name: a\nbraid 2 -1\n")

    def test_a_name_too_long_for_a_file_is_one_bad_row(self):
        path = self.table(f"name,word\na,{{1}}\n{'b' * 600},{{1}}\n{'c' * 150},{{1}}\n{'d' * 150},{{1}}\n")
        status, out, errors = self.call(path, self.out, "--diagram", "word")
        self.assertEqual((status, out), (1, f"4 rows: 3 diagrams in {self.out}, 1 couldn't be made\n"))
        self.assertEqual(errors, f"{path}:3: {'b' * 40}... (600 letters): the file's name would have 604 bytes, and 180 are the most\n")
        status, out, errors = self.call(path, os.path.join(self.folder, "pairs"), "--diagram", "word", "--all-pairs")
        self.assertEqual((status, out), (1, f"4 rows: 2 problems in {self.folder}/pairs, 1 not written, 3 couldn't be made\n"))
        self.assertIn(f"{path}:4: {'c' * 40}... (302 letters): the file's name would have 306 bytes, and 180 are the most", errors)

    def test_columns_by_their_titles_but_for_blanks_marks_and_capitals(self):
        path = self.table("Name|Braid Notation|braid_notation\na|{1}|{-1}\n")
        self.assertEqual(self.call(path, self.out, "--diagram", "braid_notation")[0], 0)
        self.assertEqual(self.made("a"), "# name: a\nbraid 2 -1\n")
        self.assertEqual(self.call(path, self.out, "--diagram", "BRAID NOTATION", "--replace")[0], 2)
        path = self.table("Knot Name|Braid Notation\na|{1}\n")
        self.assertEqual(self.call(path, self.out, "--name", "knot_name", "--diagram", "braid_notation", "--replace")[0], 0)
        self.assertEqual(self.made("a"), "# name: a\nbraid 2 1\n")

    def test_tables_that_cannot_be_read(self):
        good = self.table("name,word\na,{1}\n", "good.csv")
        for path, words, why in (
                (os.path.join(self.folder, "none.csv"), (), "none.csv: No such file or directory"),
                (self.table("", "empty.csv"), (), "empty.csv: the table is empty"),
                (self.table(b"name,word\n\xff,{1}\n", "latin.csv"), (), "latin.csv:2: the text is not UTF-8"),
                (self.table("name,word,word\n", "twice.csv"), (), "twice.csv: 2 columns are called 'word'; give the number of one"),
                (self.table('name,word\na,"{1}\n', "quote.csv"), (), "quote.csv:2: unexpected end of data"),
                (good, ("--name", "knot"), "good.csv: no column is called 'knot'; there are 'name', 'word'"),
                (good, ("--quandles", "none.txt"), "none.txt: No such file or directory"),
                (good, ("--only", "@none.txt"), "none.txt: No such file or directory")):
            with self.subTest(why):
                status, out, errors = self.call(path, self.out, "--diagram", "word", *words)
                self.assertEqual((status, out, self.files()), (2, "", []))
                self.assertIn(why, errors)

    def test_a_folder_that_cannot_be_written(self):
        path = self.table("name,word\na,{1}\n")
        status, _, errors = self.call(path, path, "--diagram", "word")
        self.assertEqual((status, errors), (3, f"from_table.py: {path}: File exists\n"))

    def test_help_and_bad_words(self):
        status, out, _ = self.call("--help")
        self.assertEqual(status, 0)
        self.assertIn("examples:\n  tools/from_table.py", out)
        self.assertEqual(self.call()[0], 2)
        self.assertEqual(self.call("a", "b")[0], 2)
        self.assertEqual(self.call("a", "b", "--diagram", "c", "--all-pairs", "--neighbours")[0], 2)


class ProblemsTest(TableTest):
    def setUp(self):
        super().setUp()
        self.knots = self.table('name|word|arcs\na|{1,1,1}|{{5,3},{4,2},{3,1},{2,5},{1,4}}\nb|{1,-2,1,-2}|{{1,2}}\nc|{1}|\nd|{1,2}|{{1,2},{2,1}}\n')

    def test_two_columns_of_a_row(self):
        status, out, errors = self.call(self.knots, self.out, "--diagram", "word", "--second", "arcs")
        self.assertEqual((status, self.files()), (1, ["a.txt", "d.txt"]))
        self.assertEqual(self.made("a"), "# first: a\n# column: word\nbraid 2 1 1 1\n# second: a\n# column: arcs\n" + RIGHT_TREFOIL)
        self.assertEqual(errors.splitlines(), [
            f"{self.knots}:3: b: column 3: one pair alone, and a grid has two columns or more",
            f"{self.knots}:4: c: column 3: the entry is empty"])
        self.assertEqual(out, f"4 rows: 2 problems in {self.out}, 2 couldn't be made\n")

    def test_the_mirror_image_of_one_column(self):
        self.call(self.knots, self.out, "--diagram", "word", "--second", "arcs", "--mirror", "second")
        lines = self.made("a").splitlines()
        self.assertEqual(lines[2], "braid 2 1 1 1")
        self.assertEqual(grid_facts.writhe(*grid_facts.grid_of("\n".join(lines[5:]))), -3)

    def test_neighbours(self):
        status, _, errors = self.call(self.knots, self.out, "--diagram", "word", "--neighbours")
        self.assertEqual((status, errors), (0, ""))
        self.assertEqual(self.files(), ["a__b.txt", "b__c.txt", "c__d.txt"])
        self.assertEqual(self.made("a__b"), "# first: a\nbraid 2 1 1 1\n# second: b\nbraid 3 1 -2 1 -2\n")

    def test_neighbours_of_a_row_that_cannot_be_had(self):
        status, out, _ = self.call(self.knots, self.out, "--diagram", "arcs", "--neighbours")
        self.assertEqual((status, self.files()), (1, []))
        self.assertIn("4 rows: 0 problems", out)
        self.assertIn("3 couldn't be made", out)

    def test_all_pairs(self):
        status, out, _ = self.call(self.knots, self.out, "--diagram", "word", "--all-pairs")
        self.assertEqual((status, len(self.files())), (0, 6))
        self.assertIn("4 rows: 6 problems", out)

    def test_all_pairs_of_a_list(self):
        names = os.path.join(self.folder, "names")
        with open(names, "w", encoding="utf-8") as file:
            file.write("a\n\nd\n")
        self.assertEqual(self.call(self.knots, self.out, "--diagram", "word", "--all-pairs", "--only", "@" + names)[0], 0)
        self.assertEqual(self.files(), ["a__d.txt"])

    def test_a_name_that_no_row_has(self):
        status, out, errors = self.call(self.knots, self.out, "--diagram", "word", "--only", "a z")
        self.assertEqual((status, self.files()), (1, ["a.txt"]))
        self.assertIn("z: no row has this name", errors)
        self.assertEqual(out, f"1 rows: 1 diagrams in {self.out}, 0 couldn't be made, 1 names that no row has\n")

    def test_names_with_blanks(self):
        path = self.table("name|word\n3_1 mirrored|{-1,-1,-1}\n3_1|{1,1,1}\nmirrored|{1}\n4_1|{1,-2,1,-2}\n")
        self.assertEqual(self.call(path, self.out, "--diagram", "word", "--only", "3_1 mirrored", "--only", "4_1")[0], 0)
        self.assertEqual(self.files(), ["3_1_mirrored.txt", "4_1.txt"])
        self.assertEqual(self.made("3_1_mirrored"), "# name: 3_1 mirrored\nbraid 2 -1 -1 -1\n")

    def test_names_of_pairs_that_make_the_same_file_name(self):
        path = self.table("name|word\nT(2,3)|{1,1,1}\nT[2,3]|{-1,-1,-1}\n4_1|{1,-2,1,-2}\n")
        status, out, errors = self.call(path, self.out, "--diagram", "word", "--all-pairs")
        self.assertEqual((status, self.files()), (0, ["T_2,3___4_1-2.txt", "T_2,3___4_1.txt", "T_2,3___T_2,3_.txt"]))
        self.assertEqual(self.made("T_2,3___4_1"), "# first: T(2,3)\nbraid 2 1 1 1\n# second: 4_1\nbraid 3 1 -2 1 -2\n")
        self.assertEqual(self.made("T_2,3___4_1-2"), "# first: T[2,3]\nbraid 2 -1 -1 -1\n# second: 4_1\nbraid 3 1 -2 1 -2\n")
        self.assertEqual((errors, out), ("", f"3 rows: 3 problems in {self.out}, 0 couldn't be made\n"))

    def test_quandles_behind_each(self):
        quandles = self.table("quandle dihedral 11", "quandles.txt")
        self.call(self.knots, self.out, "--diagram", "word", "--neighbours", "--quandles", quandles)
        self.assertTrue(self.made("a__b").endswith("1 -2 1 -2\nquandle dihedral 11\n"))


class ExampleTest(TableTest):
    def test_braids_and_arcs_of_the_example_are_the_same_knots_but_for_one(self):
        status, _, errors = self.call(EXAMPLE, self.out, "--diagram", "braid_notation", "--second", "arc_notation")
        self.assertEqual(status, 1)
        self.assertRegex(errors, r"^\S+knots\.csv:10: T\(2,45\): column 2: 45 letters [^\n]*\n$")
        self.assertEqual(len(self.files()), 8)
        for name in self.files():
            lines = self.made(name[:-len(".txt")]).splitlines()
            braid = [int(word) for word in re.sub("braid ", "", lines[2]).split()]
            arcs = grid_facts.grid_of("\n".join(lines[5:]))
            same = grid_facts.jones(*grid_facts.closure(braid[0], braid[1:])) == grid_facts.jones(*arcs)
            self.assertEqual(same, name != "3_1_mirrored.txt", name)


if __name__ == "__main__":
    unittest.main()
