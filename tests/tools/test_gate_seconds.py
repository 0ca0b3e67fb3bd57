"""tests/gate_seconds.py with a stand-in for the prover."""
import os
import re
import subprocess
import sys
import unittest

from common import ROOT, call, read, scratch

SCRIPT = os.path.join(ROOT, "tests", "gate_seconds.py")
# Takes so many seconds of the processor as its last word says.
PROVER = """#!{python}
import sys, time
while time.process_time() < float(sys.argv[-1]):
    pass
"""
# What rt of either kit begins: a library's proof, tests, what the edits of a crate begin with and an edit; and a program's proof, with what is
# built of it and what lays out files, which count for nothing.
RUN = """#!/bin/sh
'{prover}' fmt --check 1
'{prover}' build --crate-name one 1.5
'{prover}' check --crate-name two -o /tmp/rt-proved-1/checked 1.5
'{prover}' build --crate-name two --crate-checked /tmp/rt-proved-1/checked 1
'{prover}' build --test --crate-name one 2.5
'{prover}' check --crate-name one 1
mkdir rt-edit-1
cd rt-edit-1
'{prover}' check --crate-name one 3
exit 3
"""
SUMS = r"seconds of the processor: proofs (\d+), tests (\d+), edits (\d+), the rest (\d+); by the clock \d+\n"


class GateSeconds(unittest.TestCase):
    def setUp(self):
        self.place = scratch(self)
        self.run_of_rt = self.write("run", RUN.format(prover=self.write("bin/rattle", PROVER.format(python=sys.executable))))

    def write(self, name, text):
        path = os.path.join(self.place, name)
        os.makedirs(os.path.dirname(path), exist_ok=True)
        with open(path, "w", encoding="utf-8") as file:
            file.write(text)
        os.chmod(path, 0o755)
        return path

    def assertSums(self, text):
        sums = re.search(SUMS, text)
        self.assertTrue(sums, text)
        # Each process may lack what it took after the last look; what it lacks is in the rest.
        for found, due, count in zip(map(int, sums.groups()), (3, 2.5, 4), (2, 1, 2)):
            self.assertTrue(due - 0.6 * count - 0.5 <= found <= due + 0.5 * count, text)
        self.assertGreaterEqual(int(sums[4]), 1)

    def test_each_kind_has_its_sum_and_the_status_is_that_of_the_run(self):
        done = call([sys.executable, "-B", SCRIPT, self.run_of_rt], cwd=self.place)
        self.assertEqual((done.returncode, done.stderr), (3, ""))
        self.assertTrue(re.fullmatch(SUMS, done.stdout), done.stdout)
        self.assertSums(done.stdout)

    def gate(self, rt):
        """The gate in a tree of its own, with a stand-in for rt and for what comes after it."""
        for name in ("run", "gate_seconds.py"):
            folder = ".ci" if name == "run" else "tests"
            self.write(f"tree/{folder}/{name}", read(folder, name))
        self.write("tree/tests/rows.py", "print('rows')\n")
        self.write("tree/tests/tools.sh", "#!/bin/sh\necho tools\n")
        self.write("commands/rt", rt)
        surroundings = {"PATH": os.pathsep.join([os.path.join(self.place, "commands"), os.path.dirname(sys.executable), os.defpath])}
        return call([os.path.join(self.place, "tree", ".ci", "run")], cwd=self.place, env=surroundings)

    def test_the_gate_says_its_sums_behind_rt(self):
        done = self.gate(f"#!/bin/sh\n[ \"$*\" = ci ] || exit 2\n'{self.run_of_rt}'\necho 1 passed, 0 failed\n")
        self.assertEqual((done.returncode, done.stderr), (0, ""))
        self.assertEqual(re.sub("(?m)^seconds of .*$", "seconds", done.stdout), "1 passed, 0 failed\nseconds\nrows\ntools\n")
        self.assertSums(done.stdout)

    def test_the_gate_ends_with_the_status_of_rt(self):
        for ending in ("exit 1", "kill -9 $$"):
            done = self.gate(f"#!/bin/sh\nsleep 1\necho 0 passed, 1 failed\n{ending}\n")
            self.assertEqual(done.returncode, 1 if ending == "exit 1" else 137)
            self.assertRegex(done.stdout, "^0 passed, 1 failed\nseconds of the processor: proofs 0, tests 0, edits 0, the rest 0; by the clock [0-9]+\n$")

    def test_it_ends_with_the_process_that_it_looks_at(self):
        begun = subprocess.Popen(["sleep", "1"])
        other = subprocess.Popen([sys.executable, "-B", SCRIPT, "--beside", str(begun.pid)], stdout=subprocess.PIPE, text=True)
        begun.wait()
        self.assertEqual(other.communicate(timeout=30)[0], "")
        self.assertEqual(other.returncode, 0)

    def test_words_that_name_no_command_are_refused(self):
        for words in ([], ["--help"], ["--beside"], ["--beside", "me"]):
            done = call([sys.executable, "-B", SCRIPT, *words])
            self.assertEqual((done.returncode, done.stdout), (1, ""))
            self.assertIn("tests/gate_seconds.py rt ci", done.stderr)


if __name__ == "__main__":
    unittest.main()
