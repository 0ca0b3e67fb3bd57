"""Tests of tools/batch.py on the examples: with a stand-in for knot, and with knot itself where it is built."""
import os
import re
import subprocess
import sys
import unittest

import grid_facts
from test_batch import SCRIPT, TREE, BatchTest

BUILT = os.environ.get("KNOT") or os.path.join(TREE, "crates", "knot", "out", "knot")
EXAMPLES = os.path.join(TREE, "examples", "batch", "problems")


class ExamplesTest(BatchTest):
    def test_the_folder_of_the_examples_runs_as_it_stands(self):
        status, out, errors = self.run_it(EXAMPLES, self.answers)
        self.assertEqual((status, out), (1, "5 problems: 5 unknown\n"), errors)
        names = [(row["first"], row["second"]) for row in self.rows().values()]
        self.assertEqual(names, [("3_1", "4_1"), ("3_1", "3_1 as a grid that somebody has published"), ("3_1", "3_1 mirrored"),
                                 ("6_1", "6_1 as a grid"), ("6_2", "6_3")])

    def test_the_pairs_are_what_they_are_called(self):
        same = {}
        for name in os.listdir(EXAMPLES):
            with open(os.path.join(EXAMPLES, name), encoding="utf-8") as file:
                lines = [line.split() for line in file.read().splitlines() if not line.startswith("#")]
            jones = []
            while lines:
                if lines[0][0] == "braid":
                    grid = grid_facts.closure(int(lines[0][1]), [int(letter) for letter in lines[0][2:]])
                else:
                    grid = [int(row) for row in lines[0][1:]], [int(row) for row in lines.pop(1)[1:]]
                lines.pop(0)
                jones.append(grid_facts.jones(*grid))
            self.assertEqual(len(jones), 2)
            same[name] = jones[0] == jones[1]
        self.assertEqual(same, {"3_1-4_1.txt": False, "3_1-grid.txt": True, "3_1-mirror-image.txt": False, "6_1-grid.txt": True,
                                "6_2-6_3.txt": False})


@unittest.skipUnless(os.access(BUILT, os.X_OK), "knot is not built here; KNOT may name a built one")
class BuiltTest(BatchTest):
    """With knot itself: the example's table, from braids and arcs to certificates."""

    def environment(self, program=BUILT):
        return super().environment(program)

    def from_table(self, *words):
        script = os.path.join(TREE, "tools", "from_table.py")
        table = os.path.join(TREE, "examples", "table", "knots.csv")
        return subprocess.run([sys.executable, "-B", script, table, self.problems, *words], capture_output=True, text=True, check=False)

    def test_braids_against_arcs(self):
        self.from_table("--diagram", "braid_notation", "--second", "arc_notation")
        stages = os.path.join(TREE, "examples", "table", "stages.txt")
        done = subprocess.run([sys.executable, "-B", SCRIPT, "--no-seek", "--stages", stages, self.problems, self.answers],
                              env=self.environment(), capture_output=True, text=True, check=False)
        rows = self.rows()
        self.assertEqual(rows["3_1_mirrored"]["verdict"], "unknown")
        self.assertEqual((rows["3_1"]["verdict"], rows["3_1"]["check"]), ("equal", "accepted"))
        self.assertEqual({row["verdict"] for row in rows.values()} - {"equal", "unknown"}, set())
        self.assertEqual(done.returncode, 1, done.stderr)
        again = subprocess.run([sys.executable, "-B", SCRIPT, "--job", "check", os.path.join(self.answers, "certificates"),
                                os.path.join(self.folder, "again")], env=self.environment(), capture_output=True, text=True, check=False)
        self.assertEqual(again.returncode, 0, again.stderr)

    def test_the_five_problems_of_the_examples(self):
        done = subprocess.run([sys.executable, "-B", SCRIPT, "--no-seek", EXAMPLES, self.answers], env=self.environment(),
                              capture_output=True, text=True, check=False)
        self.assertEqual(done.returncode, 1, done.stderr)
        verdicts = {name: row["verdict"] for name, row in self.rows().items()}
        # Without seek the word and the grid of 6_1 may stay unknown.
        self.assertIn(verdicts.pop("6_1-grid"), ("equal", "unknown"))
        self.assertEqual(verdicts, {"3_1-4_1": "different", "3_1-grid": "equal", "3_1-mirror-image": "unknown", "6_2-6_3": "different"})

    def test_signs_of_the_trefoils_by_code(self):
        for words, sign in (((), "+"), (("--mirror",), "-"), (("--arcs", "rows"), "+")):
            self.from_table("--diagram", "arc_notation", "--only", "3_1", "--replace", *words)
            with open(os.path.join(self.problems, "3_1.txt"), "rb") as file:
                code = subprocess.run([BUILT, "code"], stdin=file, capture_output=True, text=True, check=True).stdout
            self.assertEqual(set(re.findall("[OU][0-9]+([+-])", code)), {sign})


if __name__ == "__main__":
    unittest.main()
