"""Tests that from_table.py and batch.py end with one line and a status where a stream is closed or full, or Python is too old."""
import ast
import os
import subprocess
import sys
import unittest

from test_batch import SCRIPT as BATCH
from test_batch import BatchTest
from test_from_table import SCRIPT as FROM_TABLE
from test_from_table import TableTest


class StreamsTest(TableTest):
    def shell(self, words, streams, given=""):
        """A call whose streams the shell closes or sends elsewhere: status, standard output, standard error."""
        call = ["sh", "-c", f'"$@" {streams}', "sh", sys.executable, "-B", *words]
        done = subprocess.run(call, input=given, env=self.environment(), capture_output=True, text=True, check=False)
        self.assertNotIn("Traceback", done.stderr)
        self.assertNotIn("Exception", done.stderr)
        return done.returncode, done.stdout, done.stderr

    def environment(self):
        return None


class TableStreamsTest(StreamsTest):
    def test_closed_input(self):
        found = self.shell([FROM_TABLE, "-", self.out, "--diagram", "word"], "<&-")
        self.assertEqual(found, (2, "", "from_table.py: standard input is closed\n"))

    def test_closed_and_full_output(self):
        path = self.table("name,word\na,{1}\n")
        for streams, why in ((">&-", " is closed"), (">/dev/full", ": No space left on device")):
            with self.subTest(streams):
                found = self.shell([FROM_TABLE, path, self.out, "--diagram", "word"], streams)
                self.assertEqual(found, (3, "", f"from_table.py: standard output{why}\n"))
                self.assertEqual(self.made("a"), "# name: a\nbraid 2 1\n")

    def test_help_to_a_full_output(self):
        self.assertEqual(self.shell([FROM_TABLE, "--help"], ">/dev/full")[::2], (3, "from_table.py: standard output: No space left on device\n"))

    def test_closed_and_full_errors(self):
        path = self.table("name,word\na,{1}\nb,{0}\n")
        for streams in ("2>&-", "2>/dev/full"):
            with self.subTest(streams):
                status, out, _ = self.shell([FROM_TABLE, path, self.out, "--diagram", "word"], streams)
                self.assertEqual((status, out), (1, f"2 rows: 1 diagrams in {self.out}, 1 couldn't be made\n"))

    def test_all_closed(self):
        path = self.table("name,word\na,{1}\n")
        self.assertEqual(self.shell([FROM_TABLE, path, self.out, "--diagram", "word"], "<&- >&- 2>&-"), (3, "", ""))
        # No file got the number of a stream, so nothing but the diagram is in it.
        self.assertEqual((self.files(), self.made("a")), (["a.txt"], "# name: a\nbraid 2 1\n"))

    def test_a_file_that_can_not_be_written_is_named(self):
        path = self.table("name,word\na,{1}\n")
        # No file may have a byte.
        limited = ["sh", "-c", 'ulimit -f 0; exec "$@"', "sh", sys.executable, "-B", FROM_TABLE, path, self.out, "--diagram", "word"]
        done = subprocess.run(limited, capture_output=True, text=True, check=False)
        self.assertEqual((done.returncode, done.stdout, done.stderr), (3, "", f"from_table.py: {self.out}/a.txt: File too large\n"))
        self.assertEqual(self.files(), [])


class BatchStreamsTest(StreamsTest, BatchTest):
    def setUp(self):
        BatchTest.setUp(self)
        self.problem("a", "# at 100: 0 equal 0\n")

    def environment(self):
        return BatchTest.environment(self)

    def call(self, streams):
        return self.shell(self.words(self.problems, self.answers)[2:], streams)

    def test_closed_and_full_output(self):
        for streams, why in ((">&-", " is closed"), (">/dev/full", ": No space left on device")):
            with self.subTest(streams):
                status, _, errors = self.call(streams)
                self.assertEqual((status, errors.splitlines()[-1]), (3, f"batch.py: standard output{why}"))
                self.assertEqual(self.rows()["a"]["check"], "accepted")

    def test_closed_input_and_errors(self):
        counted = "1 problems: 1 equal; 1 of 1 certificates accepted\n"
        for streams in ("<&-", "2>&-", "2>/dev/full", "<&- 2>&-"):
            with self.subTest(streams):
                self.assertEqual(self.call(streams)[:2], (0, counted))

    def test_all_closed(self):
        self.assertEqual(self.call("<&- >&- 2>&-"), (3, "", ""))
        self.assertEqual(self.read("certificates", "a.txt"), f"# calls: {self.calls}\n# at 100: 0 equal 0\nequal 0\n")


class OldPythonTest(unittest.TestCase):
    def test_an_old_python_gets_one_line_that_names_the_version(self):
        for script in (FROM_TABLE, BATCH):
            with self.subTest(script):
                text = f"import runpy, sys; sys.version_info = (3, 8, 10, 'final', 0); runpy.run_path({script!r}, run_name='__main__')"
                done = subprocess.run([sys.executable, "-B", "-c", text], capture_output=True, text=True, check=False,
                                      env={**os.environ, "PYTHONPATH": os.path.dirname(script)})
                name = os.path.basename(script)
                self.assertEqual((done.returncode, done.stdout, done.stderr),
                                 (2, "", f"{name}: Python 3.9 or newer is needed, and this is Python 3.8\n"))

    def test_an_old_python_can_read_the_script(self):
        for script in (FROM_TABLE, BATCH, os.path.join(os.path.dirname(BATCH), "lib", "__init__.py")):
            with self.subTest(script), open(script, encoding="utf-8") as file:
                tree = ast.parse(file.read(), feature_version=(3, 4))
                self.assertEqual([node for node in ast.walk(tree) if isinstance(node, (ast.JoinedStr, ast.NamedExpr, ast.AnnAssign))], [])


if __name__ == "__main__":
    unittest.main()
