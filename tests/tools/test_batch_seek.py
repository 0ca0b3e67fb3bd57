"""Tests of tools/batch.py with stages that ask seek, of its names and its programs, with stand-ins for both."""
import os
import re
import stat
import subprocess
import sys
import unittest

from test_batch import SCRIPT, STAND_IN, TREE, BatchTest

SEEKS = "# a small search, then seek, then a larger search\nfirst --budget 100\nseek seek --steps 5\nlarge --budget 200\n"


class SeekTest(BatchTest):
    def test_a_stage_that_asks_seek(self):
        self.put("stages.txt", SEEKS)
        self.problem("a", "# at 100: 0 equal 0\n")
        self.problem("b", "# seek: 0 certificate 2 / equal 3\n")
        self.problem("c", "# at 200: 1 unknown exhausted 7 20\n")
        status, out, errors = self.batch()
        self.assertEqual((status, out), (1, "3 problems: 2 equal, 1 unknown; 2 of 2 certificates accepted\n"), errors)
        rows = self.rows()
        self.assertEqual([(rows[name]["verdict"], rows[name]["evidence"], rows[name]["stage"]) for name in "abc"],
                         [("equal", "0", "first"), ("equal", "3", "seek"), ("unknown", "exhausted 7 20", "large")])
        self.assertEqual(self.calls_made(), ["check"] * 2 + ["decide --budget 100"] * 3 + ["decide --budget 200"] + ["seek --steps 5"] * 2)
        self.assertTrue(self.read("certificates", "b.txt").endswith("\ncertificate 2\nequal 3\n"))
        # What it said is kept with the answer, and isn't said on standard error.
        self.assertIn("seek: nothing found: none of the 294 quandles distinguishes them", self.read("answers", "c.txt"))
        self.assertNotIn("nothing found", errors)
        self.assertEqual(self.batch()[0], 1)
        self.assertEqual(self.calls_made(), [])

    def test_evidence_by_numbers_is_told_in_short(self):
        self.put("stages.txt", "only\n")
        self.problem("a", "# seek: 0 certificate 3 / different numbers table 2 / 0 0 / 1 1 / weight 3 / 0 2 / 1 0 / seeds 0 / numbers 2 0 0 / seeds 0 1 / numbers 1 1 0\n")
        self.problem("b", "# seek: 0 certificate 3 / different linking / components 2 / numbers -1 -1 / components 2 / numbers 1 1\n")
        self.problem("c", "# seek: 0 certificate 3 / different numbers alexander 5 2 / seeds 0 1 / numbers 25 / seeds 0 / numbers 5\n")
        self.problem("d", "# seek: 0 certificate 3 / different numbers dihedral 3 / shadow mochizuki / seeds 0 1 / numbers 9 0 18 / seeds 0 / numbers 9 0 0\n")
        status, out, errors = self.batch("--job", "seek")
        self.assertEqual((status, out), (0, "4 problems: 4 different; 4 of 4 certificates accepted\n"), errors)
        self.assertEqual([(row["verdict"], row["evidence"]) for row in self.rows().values()],
                         [("different", "numbers table 2 by weight: 2 0 0 / 1 1 0"), ("different", "linking: -1 -1 / 1 1"), ("different", "numbers alexander 5 2: 25 / 5"),
                          ("different", "numbers dihedral 3 by weight: 9 0 18 / 9 0 0")])
        self.assertTrue(self.read("certificates", "b.txt").endswith("certificate 3\ndifferent linking\ncomponents 2\nnumbers -1 -1\ncomponents 2\nnumbers 1 1\n"))

    def test_where_seek_finds_nothing_the_problem_is_unknown(self):
        self.problem("a", "")
        self.put("stages.txt", "only\n")
        for number, words in enumerate((("--job", "seek"), ("--program", self.seek), ("--program", self.seek, "--job", ""))):
            with self.subTest(words):
                self.answers = os.path.join(self.folder, f"answers-{number}")
                status, out, _ = self.batch(*words)
                self.assertEqual((status, out), (1, "1 problems: 1 unknown\n"))
                row = self.rows()["a"]
                self.assertEqual((row["verdict"], row["evidence"]), ("unknown", "nothing found"))
                self.assertEqual(self.calls_made(), ["seek"])

    def test_what_seek_refuses_is_named_with_its_reason(self):
        self.problem("a", "# seek: 3\n# says: standard input, line 3: 7 is not a row\n")
        self.problem("b", "# seek: 7\n# says: memory ran out\n")
        self.put("stages.txt", "only\n")
        status, _, errors = self.batch("--job", "seek")
        self.assertEqual(status, 3)
        self.assertIn("a.txt: refused at stage only: standard input, line 3: 7 is not a row\n", errors)
        self.assertIn("b.txt: stage only: no answer, status 7, memory ran out: memory ran out\n", errors)

    def test_no_trial_looks_like_an_error(self):
        self.put("stages.txt", SEEKS)
        self.problem("a", "# at 100: 0 equal 0\n")
        self.assertEqual(self.batch()[2], "batch.py: stage first: 1 problems\n")

    def test_words_that_seek_refuses(self):
        self.problem("a", "")
        self.put("stages.txt", "first --budget 100\nseek seek --bad\n")
        status, _, errors = self.batch()
        self.assertEqual((status, self.calls_made()), (2, []))
        self.assertIn("stage seek: the program refuses the words '--bad': error: these words aren't known\n", errors)

    def test_without_seek(self):
        self.put("stages.txt", SEEKS)
        self.problem("a", "")
        nowhere = os.path.join(self.folder, "nowhere")
        self.assertEqual(self.batch("--seeker", nowhere)[0], 2)
        self.assertEqual(self.batch("--seeker", nowhere, "--no-seek")[0], 1)
        self.assertEqual(self.calls_made(), ["decide --budget 100", "decide --budget 200"])
        self.put("stages.txt", "first seek\n")
        self.assertIn("without seek no stage is left", self.batch("--no-seek")[2])
        self.assertIn("'seek' has no place in a batch of the job colour", self.batch("--job", "colour")[2])

    def test_the_default_stages_ask_seek_before_the_large_searches(self):
        self.problem("a", "")
        words = [word for word in self.words(self.problems, self.answers) if word not in ("--stages", self.stages)]
        done = subprocess.run(words, env=self.environment(), capture_output=True, text=True, check=False)
        self.assertEqual(done.returncode, 1, done.stderr)
        stages = re.findall("stage (.*): 1 problems", done.stderr)
        self.assertEqual(stages, ["quick", "quandles", "seek", "large", "wide", "wider"])
        tried = self.read("answers", "a.txt")
        self.assertIn("+../quandles/list-short.txt", tried)
        self.assertEqual(self.calls_made(), sorted([
            "seek", "decide --spare 1 --budget 20000", "decide --spare 0 --budget 2", "decide --spare 1 --budget 500000",
            "decide --spare 2 --budget 500000", "decide --spare 3 --budget 500000"]))

    def test_quandles_that_do_not_fit_behind_a_problem_pass_the_stage_over(self):
        self.put("more.txt", "quandle dihedral 11\n")
        self.put("stages.txt", "more --budget 100 +more.txt\nlast --budget 200\n")
        self.problem("a", "# at +100: 4 limit line 4\n# at 200: 0 equal 0\n")
        self.problem("b", "# at +100: 4 limit line 2\n# at 200: 0 equal 0\n")
        self.problem("c", "# at +100: 4 limit bytes\n# at 200: 4 limit bytes\n")
        status, _, errors = self.batch()
        self.assertEqual(status, 3)
        self.assertIn("c.txt: refused at stage last: limit bytes", errors)
        self.assertEqual((self.rows()["a"]["verdict"], self.rows()["a"]["stage"]), ("equal", "last"))
        self.assertIn("b.txt: refused at stage more: limit line 2", errors)


class NamesTest(BatchTest):
    def test_names_as_the_table_has_them(self):
        self.problem("a__b", "# first: T(2,3) mirrored\n# second: 4_1\n# at 100: 0 equal 0\n")
        self.problem("c", "# name: K[1]\n# at 100: 0 equal 0\n")
        self.problem("d", "# at 100: 0 equal 0\n")
        self.assertEqual(self.batch()[0], 0)
        self.assertEqual([(name, row["first"], row["second"]) for name, row in self.rows().items()],
                         [("a__b", "T(2,3) mirrored", "4_1"), ("c", "K[1]", ""), ("d", "", "")])

    def test_from_a_table_to_its_names(self):
        table = self.put("knots.csv", 'name,braid,arcs\n"T(2,3)","{1,1,1}","{{5,3},{4,2},{3,1},{2,5},{1,4}}"\n"4_1 é","{1,-2,1,-2}",\n')
        script = os.path.join(TREE, "tools", "from_table.py")
        for number, (words, names) in enumerate(((("--all-pairs",), ("T(2,3)", "4_1 é")), (("--second", "arcs"), ("T(2,3)", "T(2,3)")),
                                                 ((), ("T(2,3)", "")))):
            with self.subTest(words):
                self.problems, self.answers = (os.path.join(self.folder, f"{kind}-{number}") for kind in ("problems", "answers"))
                subprocess.run([sys.executable, "-B", script, table, self.problems, "--diagram", "braid", *words], capture_output=True, check=False)
                self.batch()
                row = next(row for name, row in self.rows().items() if name.startswith("T_"))
                self.assertEqual((row["first"], row["second"]), names)


class ProgramsTest(BatchTest):
    """Launchers in a tree of their own, which note each call and what they built."""

    def tree(self, *programs, launcher="exec \"$program\" \"$@\""):
        os.makedirs(os.path.join(self.folder, "tree"))
        self.put("tree/crates.txt", "")
        for name in ("knot", "seek"):
            built = os.path.join(self.folder, "tree", "crates", name, "out", name)
            os.makedirs(os.path.dirname(built))
            if name in programs:
                os.symlink(STAND_IN, built)
            text = f'#!/bin/sh\necho "$0" >>{self.folder}/launched\nprogram={built}\n{launcher}\n'
            os.chmod(self.put(f"tree/{name}", text), stat.S_IRWXU)
        return os.path.join(self.folder, "tree", "knot"), os.path.join(self.folder, "tree", "seek")

    def launched(self):
        with open(os.path.join(self.folder, "launched"), encoding="utf-8") as file:
            return sorted(os.path.basename(line) for line in file.read().splitlines())

    def run_tree(self, knot, seek, *words):
        environment = {**os.environ, "KNOT": knot, "SEEK": seek}
        done = subprocess.run(self.words(*words, self.problems, self.answers), env=environment, capture_output=True, text=True, check=False)
        return done.returncode, done.stdout, done.stderr

    def test_a_launcher_is_called_once_and_then_what_it_runs(self):
        self.put("stages.txt", SEEKS)
        for name in "abc":
            self.problem(name, "# seek: 0 equal 3\n")
        status, _, errors = self.run_tree(*self.tree("knot", "seek"))
        self.assertEqual((status, self.launched()), (0, ["knot", "seek"]), errors)

    def test_a_launcher_by_a_symbolic_link(self):
        self.problem("a", "# at 100: 0 equal 0\n")
        knot, _ = self.tree("knot")
        link = os.path.join(self.folder, "link")
        os.symlink(knot, link)
        self.assertEqual(self.run_tree(link, "nowhere")[0], 0)
        self.assertEqual(self.launched(), ["link"])

    def test_a_launcher_that_builds_and_what_it_says_of_it(self):
        self.problem("a", "# at 100: 0 equal 0\n")
        builds = f'[ -x "$program" ] || {{ echo "knot: building" >&2; ln -s {STAND_IN} "$program"; }}\nexec "$program" "$@"'
        status, _, errors = self.run_tree(*self.tree(launcher=builds))
        self.assertEqual((status, errors), (0, "knot: building\nbatch.py: stage first: 1 problems\n"))
        self.assertEqual(self.launched(), ["knot"])

    def test_a_launcher_that_can_not_build(self):
        self.put("stages.txt", SEEKS)
        self.problem("a", "# at 100: 0 equal 0\n")
        knot, seek = self.tree("knot", launcher='[ -x "$program" ] || { echo "no rt" >&2; exit 127; }\nexec "$program" "$@"')
        status, out, errors = self.run_tree(knot, seek)
        self.assertEqual((status, out), (2, ""))
        self.assertEqual(errors, f"no rt\nbatch.py: {seek} does not run here: on two unknots it ends with status 127, it could not be built; "
                                 "--no-seek leaves out the stages that ask it\n")
        self.assertEqual(self.run_tree(knot, seek, "--no-seek")[0], 0)

    def test_the_script_by_a_symbolic_link(self):
        self.problem("a", "# at 100: 0 equal 0\n")
        link = os.path.join(self.folder, "batch")
        os.symlink(SCRIPT, link)
        words = [sys.executable, "-B", link, self.problems, self.answers, "--no-seek"]
        done = subprocess.run(words, env=self.environment(), capture_output=True, text=True, check=False, cwd=self.folder)
        # The stages are those of the tree to which the link leads.
        self.assertEqual(done.returncode, 1, done.stderr)
        self.assertIn("stage wider: 1 problems", done.stderr)


if __name__ == "__main__":
    unittest.main()
