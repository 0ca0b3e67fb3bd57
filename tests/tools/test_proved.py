"""That the clauses of docs/PROVED.md have edits that the gate tries, and that each of these edits names the clauses that it breaks."""
import os
import re
import unittest

from common import ROOT, call, read

import clauses

HEADING = "## What breaks each clause\n"


def chapters_of_clauses():
    """The page up to the chapter about edits, which states the clauses."""
    return read("docs", "PROVED.md").split(HEADING)[0]


def named_clauses():
    """The clauses that edits name."""
    return [clause for clause in clauses.edits_by_clause() if clause]


class Proved(unittest.TestCase):
    def test_each_edit_of_the_gate_names_a_clause(self):
        self.assertGreater(len(clauses.gate_edits()), 30)
        self.assertEqual(clauses.edits_by_clause().get(None, []), [])

    def test_the_page_says_how_many_clauses_have_edits(self):
        chapter = read("docs", "PROVED.md").split(HEADING)[1].split("\n## ")[0]
        self.assertEqual(re.findall(r"For each of (\d+) clauses", chapter), [str(len(named_clauses()))])

    def test_each_job_of_which_the_page_states_a_clause_has_one_with_an_edit(self):
        jobs = {job for line in re.findall(r"(?m)^ *- ([^:\n]*?)(?: with 0 | wrote |:)", chapters_of_clauses()) for job in re.findall(r"`(\w+)`", line)}
        self.assertLessEqual({"check", "decide", "simplify", "least", "linking", "weights", "grid", "braidcheck"}, jobs)
        self.assertEqual([job for job in sorted(jobs) if not any(f"`{job}`" in clause for clause in named_clauses())], [])

    def test_each_exit_status_that_the_page_names_is_in_a_clause_with_an_edit(self):
        statuses = {number for line in re.findall(r"(?m)^- \*\*([\d, ]+)\*\*:", chapters_of_clauses()) for number in line.split(", ")} | {"10"}
        self.assertEqual(statuses, set("12345678") | {"0", "10"})
        numbers = {number for clause in named_clauses() for number in re.findall(r"\d+", clause)}
        self.assertEqual(statuses - numbers, set())

    def test_each_program_and_the_clauses_of_its_call_have_edits(self):
        for name in ("seek", "knot_check", "`exit`", "`done`", "`run_alone`"):
            self.assertTrue(any(name in clause for clause in named_clauses()), name)
            self.assertIn(name.strip("`"), chapters_of_clauses())


class Listed(unittest.TestCase):
    def test_a_word_picks_the_clauses_that_have_it(self):
        done = call([os.path.join(ROOT, "tests", "clauses.py"), "braidcheck"])
        self.assertEqual((done.returncode, done.stderr), (0, ""))
        heads = [line for line in done.stdout.splitlines() if not line.startswith("    ")]
        self.assertEqual(heads, [clause for clause in named_clauses() if "braidcheck" in clause])

    def test_the_list_has_each_edit_of_the_gate(self):
        done = call([os.path.join(ROOT, "tests", "clauses.py")])
        self.assertEqual((done.returncode, done.stderr), (0, ""))
        self.assertEqual(sorted(set(re.findall(r"(?m)^    (.*)$", done.stdout))), clauses.gate_edits())


if __name__ == "__main__":
    unittest.main()
