"""Tests of tools/batch.py where things fail: a full disk, parts with nothing in them, and the script itself."""
import os
import shutil
import subprocess
import sys
import unittest

import common
from test_batch import BatchTest

# A folder on a disk of so many bytes, in a name space of its own, which needs no rights where the system allows it.
SMALL_DISK = ["unshare", "--map-root-user", "--mount", "sh", "-c", 'mount -t tmpfs -o size=120k none "$0" && exec "$@"']


class FullTest(BatchTest):
    def test_a_full_disk_stops_the_call_at_once(self):
        os.mkdir(self.answers)
        if subprocess.run([*SMALL_DISK, self.answers, "true"], capture_output=True, check=False).returncode:
            self.skipTest("no small disk can be mounted here")
        for number in range(200):
            self.problem(f"p{number}", "# at 100: 0 equal 300 / " + " / ".join(["shift rows 1"] * 300) + "\n")
        call = [*SMALL_DISK, self.answers, *self.words(self.problems, self.answers)]
        done = subprocess.run(call, env=self.environment(), capture_output=True, text=True, check=False, timeout=common.LONG)
        self.assertEqual((done.returncode, done.stdout), (3, ""))
        said = "No space left on device: no room is left, and so all is stopped; called again, it goes on\n"
        self.assertTrue(done.stderr.endswith(said), done.stderr)
        self.assertEqual(done.stderr.count("No space"), 1)
        self.assertLess(len(self.calls_made()), 200)


class StatusTest(BatchTest):
    def test_a_part_without_problems_has_nothing_to_do(self):
        self.problem("a", "# at 100: 0 equal 0\n")
        self.assertEqual(self.batch("--part", "2/2"), (0, "", "batch.py: part 2/2 is empty: there is nothing to do\n"))

    def test_a_part_that_leaves_unknowns_is_done(self):
        self.problem("a", "")
        self.assertEqual(self.batch("--part", "1/1")[:2], (0, "1 problems: 1 unknown\n"))
        self.assertEqual(self.batch()[0], 1)

    def broken_tree(self, file, old, new):
        """A copy of the scripts of which a line is wrong."""
        tree = os.path.join(self.folder, "tree")
        shutil.copytree(os.path.join(common.ROOT, "tools"), os.path.join(tree, "tools"))
        for name in ("python", "examples", "quandles"):
            os.symlink(os.path.join(common.ROOT, name), os.path.join(tree, name))
        path = os.path.join(tree, "tools", "lib", file)
        with open(path, encoding="utf-8") as source:
            text = source.read()
        self.assertEqual(text.count(old), 1)
        with open(path, "w", encoding="utf-8") as out:
            out.write(text.replace(old, new))
        return tree

    def test_a_traceback_is_a_status_of_its_own_and_fails_the_array_job(self):
        self.problem("a", "# at 100: 0 equal 0\n")
        slurm = {"SLURM_ARRAY_TASK_ID": "1", "SLURM_ARRAY_TASK_COUNT": "1"}
        folders = [self.problems, self.answers]
        for script, file, line in (("batch", "batch/stages.py", "The stages of a file, in order. A stage that names no program asks for this job."),
                                   ("census", "census/plan.py", "The steps of a file, in order. A step of more quandles than an input takes becomes several.")):
            words = [sys.executable, "-B", f"tools/{script}.py", *(["sort"] if script == "census" else [])]
            for new, said in (("next(iter(()))", "StopIteration"), ("this is no Python", "SyntaxError")):
                tree = self.broken_tree(file, f'"""{line}"""', new)
                for call in ([*words, *folders], ["sh", f"examples/{script}/array-job.sh", *folders]):
                    with self.subTest(call=call, said=said):
                        done = subprocess.run(call, env={**self.environment(), **slurm}, capture_output=True, text=True, check=False, cwd=tree, timeout=common.LONG)
                        self.assertEqual(done.returncode, 70, done.stderr)
                        self.assertIn(said, done.stderr)
                shutil.rmtree(tree)


if __name__ == "__main__":
    unittest.main()
