"""tests/quick.sh and the small tree of its launchers, with stand-ins for parts and programs."""
import os
import shutil
import signal
import subprocess
import sys
import time
import unittest

from common import LONG, ROOT, call, default_signals, scratch


class Quick(unittest.TestCase):
    """A tree with the script alone, where each part is a script of a line or two."""

    PARTS = ("tests/tools.sh", "tests/rows.py", "examples/shown.py", "examples/check.sh", "tests/round_trips.py", "tests/linters.py")

    def setUp(self):
        self.top = scratch(self)
        for folder in ("tests", "examples", "crates/knot/out", "crates/seek/out"):
            os.makedirs(os.path.join(self.top, folder))
        for name in ("quick.sh", "quick.py"):
            shutil.copy2(os.path.join(ROOT, "tests", name), os.path.join(self.top, "tests", name))
        for name in self.PARTS:
            self.script(name, "echo some lines\necho $KNOT $SEEK\n")
        for name in ("knot", "seek"):
            self.script(f"crates/{name}/out/{name}", "")
        self.surroundings = {name: value for name, value in os.environ.items() if name not in ("KNOT", "SEEK")}
        self.words = [os.path.join(self.top, "tests", "quick.sh")]

    def script(self, name, text):
        path = os.path.join(self.top, name)
        with open(path, "w", encoding="utf-8") as out:
            out.write("#!/bin/sh\n" + text)
        os.chmod(path, 0o755)

    def run_it(self, **more):
        return call(self.words, env={**self.surroundings, **more})

    def test_each_part_has_a_line_and_the_last_says_all(self):
        done = self.run_it()
        first, *lines, last = done.stdout.splitlines()
        self.assertEqual((done.returncode, done.stderr), (0, ""))
        self.assertEqual(first, "6 parts, side by side: scripts, rows, shown, examples, round trips, linters")
        programs = " ".join(os.path.join(self.top, "crates", name, "out", name) for name in ("knot", "seek"))
        self.assertEqual(sorted(line.split(": ")[0] for line in lines), ["examples", "linters", "round trips", "rows", "scripts", "shown"])
        for line in lines:
            self.assertRegex(line, rf": {programs} \(\d+ s\)$")
        self.assertRegex(last, r"^all parts: ok, in \d+ s$")

    def test_a_part_that_fails_is_shown_whole(self):
        self.script("examples/shown.py", "echo one\necho two >&2\nexit 3\n")
        done = self.run_it()
        self.assertEqual((done.returncode, done.stderr), (1, ""))
        self.assertRegex(done.stdout, r"(?m)^one\ntwo\nshown: FAILED with status 3 \(\d+ s\)$")
        self.assertRegex(done.stdout, r"\nall parts: FAILED: shown, in \d+ s\n$")

    def test_a_missing_program_is_named_and_nothing_is_built(self):
        os.unlink(os.path.join(self.top, "crates", "seek", "out", "seek"))
        done = self.run_it()
        self.assertEqual((done.returncode, done.stdout), (2, ""))
        self.assertIn(f"quick.sh: there is no program {self.top}/crates/seek/out/seek, which tools/build.py proves and builds", done.stderr)
        done = self.run_it(SEEK="/no/such/seek")
        self.assertEqual((done.returncode, done.stdout, done.stderr), (2, "", "quick.sh: there is no program /no/such/seek, which SEEK names\n"))
        self.assertEqual(self.run_it(SEEK=os.path.join(self.top, "crates", "knot", "out", "knot")).returncode, 0)

    def test_words_are_refused(self):
        self.words.append("rows")
        done = self.run_it()
        self.assertEqual((done.returncode, done.stdout), (2, ""))

    def test_a_signal_ends_the_parts(self):
        mark = os.path.join(self.top, "began")
        self.script("tests/tools.sh", f"echo $$ > {mark}.new\nmv {mark}.new {mark}\nexec sleep {LONG}\n")
        with subprocess.Popen(self.words, env=self.surroundings, stdout=subprocess.PIPE, preexec_fn=default_signals) as run:
            for _ in range(10 * LONG):
                if os.path.exists(mark):
                    break
                time.sleep(0.1)
            run.send_signal(signal.SIGTERM)
            run.stdout.read()
        self.assertEqual(run.returncode, 128 + signal.SIGTERM)
        with open(mark, encoding="utf-8") as said, self.assertRaises(ProcessLookupError):
            os.kill(int(said.read()), 0)


class Launched(unittest.TestCase):
    def test_the_launchers_call_what_is_named_and_build_nothing(self):
        folder = scratch(self)
        program = os.path.join(folder, "stands-in")
        with open(program, "w", encoding="utf-8") as out:
            out.write('#!/bin/sh\necho "$@"\n')
        os.chmod(program, 0o755)
        tree = os.path.join(folder, "a tree")
        named = {**os.environ, "KNOT": program, "SEEK": program}
        done = call([sys.executable, "-B", os.path.join(ROOT, "tests", "launched.py"), tree], env=named)
        self.assertEqual((done.returncode, done.stdout, done.stderr), (0, "", ""))
        for words, wanted in ((["knot", "check"], "check\n"), (["seek", "-"], f"--weights {tree}/quandles/weights/list.txt -\n"),
                              (["seek", "--weights", "x", "-"], "--weights x -\n"), (["knot", "--version"], "knot 1.0\n")):
            done = call([os.path.join(tree, words[0]), *words[1:]], env={"PATH": "/usr/bin:/bin"})
            self.assertEqual((done.returncode, done.stdout, done.stderr), (0, wanted, ""))
        with open(os.path.join(tree, "quandles", "weights", "list.txt"), encoding="utf-8") as there:
            self.assertIn("quandle", there.read())


if __name__ == "__main__":
    unittest.main()
