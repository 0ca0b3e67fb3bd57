"""The programs of tools/ and quandles/make as a whole: which files are programs, and what all of them answer."""
import errno
import os
import stat
import sys
import unittest

import common

TREFOIL = "x 4 3 2 1 0\no 2 1 0 4 3\n"
CODE = "crossings 0\nloops 1\n"
SMALL = os.path.join(common.LISTS, "connected-04.txt")
FULL = os.strerror(errno.ENOSPC)

# Calls that read standard input, and what they read.
READERS = (("draw.py", [], TREFOIL), ("show.py", [], TREFOIL + TREFOIL + "equal 0\n"), ("turn.py", ["--mirror"], TREFOIL), ("to_regina.py", ["--print"], CODE),
           ("to_sage.py", ["--print"], CODE), ("invariants.py", [], TREFOIL),
           ("to_snappy.py", ["--print"], CODE), ("cocycle_tables.py", ["weights", SMALL, "--moduli", "2"], TREFOIL + TREFOIL),
           ("cocycles.py", ["find", os.path.join(common.LISTS, "weights", "T5.txt")], TREFOIL + "braid 2 -1 -1 -1\n"))
# Calls that write to standard output, and what they read.
WRITERS = READERS + (("cocycle_tables.py", ["classes", SMALL, "--moduli", "2"], ""), ("quandles.py", ["pairs", common.KNOTS], ""), ("against_regina.py", ["--help"], ""),
                     ("draw.py", ["--help"], ""), ("man.py", ["--print", "knot.1"], ""), ("completions.py", ["--print", "_knot"], ""))

MAKE = os.path.join(common.LISTS, "make")
MAKERS = ("cocycle_tables.py", "large_quandles.py", "quandles.py", "weight_tables.py")
PROGRAMS = (*sorted(name for name in os.listdir(common.TOOLS) if name.endswith(".py")), *MAKERS)


def path_of(name):
    """The path of a program."""
    return os.path.join(MAKE if name in MAKERS else common.TOOLS, name)


def modules_below(folder):
    """The files of Python below a folder that aren't programs, by their paths."""
    return [os.path.join(place, name) for place, _, names in os.walk(folder) for name in names if name.endswith(".py") and name not in MAKERS]


class Programs(unittest.TestCase):
    def test_each_file_beside_the_libraries_is_a_program_with_help(self):
        self.assertIn("draw.py", PROGRAMS)
        for name in PROGRAMS:
            with self.subTest(name):
                path = path_of(name)
                self.assertTrue(os.stat(path).st_mode & stat.S_IXUSR)
                self.assertTrue(common.read(path).startswith("#!/usr/bin/env python3\n"))
                status, out, said = common.run(path, "--help")
                self.assertEqual((status, said), (0, ""))
                self.assertTrue(out.startswith(f"usage: {name}"))

    def test_the_libraries_have_no_program(self):
        modules = [*modules_below(os.path.join(common.TOOLS, "lib")), *modules_below(MAKE)]
        self.assertIn(os.path.join(common.TOOLS, "lib", "cocycles", "linear.py"), modules)
        self.assertIn(os.path.join(MAKE, "connected.py"), modules)
        for path in modules:
            self.assertFalse(os.stat(path).st_mode & stat.S_IXUSR, path)
            self.assertNotIn("__main__", common.read(path))

    def test_programs_run_from_any_folder_and_by_a_link(self):
        for name in ("draw.py", "to_sage.py", "cocycles.py"):
            link = os.path.join(common.scratch(self), "linked")
            os.symlink(os.path.join(common.TOOLS, name), link)
            self.assertEqual(common.call([link, "--help"], cwd="/").returncode, 0)


@unittest.skipUnless(os.path.exists("/dev/full"), "there is no /dev/full")
class Streams(unittest.TestCase):
    def called(self, name, words, redirected, text=""):
        """The status and standard error of a call by the shell, with a stream redirected. What argparse can't write at once it lets go."""
        line = f'exec "$@" {redirected}'
        buffered = {name: value for name, value in os.environ.items() if name != "PYTHONUNBUFFERED"}
        done = common.call(["sh", "-c", line, "sh", sys.executable, path_of(name), *words], text=text, env=buffered)
        return done.returncode, done.stderr

    def test_a_closed_input_is_told(self):
        for name, words, _ in READERS:
            with self.subTest(name):
                self.assertEqual(self.called(name, words, "<&-"), (1, f"{name}: standard input is closed\n"))

    def test_a_closed_output_is_told(self):
        for name, words, text in WRITERS:
            with self.subTest(name):
                status, said = self.called(name, words, ">&-", text)
                self.assertEqual((status, said.splitlines()[-1]), (1, f"{name}: standard output is closed"))
                self.assertNotIn("Traceback", said)

    def test_a_full_output_is_told(self):
        for name, words, text in WRITERS:
            with self.subTest(name):
                status, said = self.called(name, words, "> /dev/full", text)
                self.assertEqual((status, said.splitlines()[-1]), (1, f"{name}: standard output: {FULL}"))
                self.assertNotIn("Traceback", said)
                self.assertNotIn("Exception", said)

    def test_a_full_file_is_told_by_its_name(self):
        self.assertEqual(self.called("draw.py", ["--out", "/dev/full"], "", TREFOIL), (1, f"draw.py: /dev/full: {FULL}\n"))

    def test_a_closed_standard_error_puts_no_word_into_the_output(self):
        name, words, text = READERS[-1]
        done = common.call(["sh", "-c", 'exec "$@" 2>&-', "sh", sys.executable, path_of(name), *words], text=text)
        self.assertEqual(done.returncode, 0)
        self.assertTrue(done.stdout.startswith("# T5, found by"))

    def test_an_output_that_nobody_reads_ends_the_program_without_a_word(self):
        reading, writing = os.pipe()
        os.close(reading)
        done = common.call([sys.executable, os.path.join(common.TOOLS, "draw.py")], text=TREFOIL, stdout=writing)
        os.close(writing)
        self.assertEqual((done.returncode, done.stderr), (141, ""))

    def test_bytes_that_are_not_utf_8_are_told(self):
        path = os.path.join(common.scratch(self), "bytes")
        with open(path, "wb") as out:
            out.write(b"x 0 1\n\xff\n")
        self.assertEqual(common.run("turn.py", "--mirror", path), (1, "", f"turn.py: {path}: not UTF-8 at byte 6\n"))
        with open(path, "w", encoding="utf-16") as out:
            out.write(TREFOIL)
        said = "the text is UTF-16, and not UTF-8: iconv -f UTF-16 -t UTF-8 turns it\n"
        self.assertEqual(common.run("turn.py", "--mirror", path), (1, "", f"turn.py: {path}: {said}"))
        with open(path, "rb") as given:
            done = common.call([sys.executable, os.path.join(common.TOOLS, "turn.py"), "--mirror"], stdin=given)
        self.assertEqual((done.returncode, done.stderr), (1, f"turn.py: standard input: {said}"))


class OldPython(unittest.TestCase):
    def test_an_older_python_is_named(self):
        script = "import runpy, sys; sys.version_info = (3, 8, 18); sys.argv = sys.argv[1:]; runpy.run_path(sys.argv[0], run_name='__main__')"
        for name in ("draw.py", "turn.py", "join.py", "cocycles.py", *MAKERS, "to_regina.py",
                     "to_sage.py", "to_snappy.py", "against_regina.py", "show.py", "invariants.py", "man.py", "completions.py"):
            path = path_of(name)
            done = common.call([sys.executable, "-c", script, path, "--help"], env={**os.environ, "PYTHONPATH": os.path.dirname(path)})
            self.assertEqual((done.returncode, done.stdout, done.stderr), (1, "", f"{name}: Python 3.9 or newer is needed, and this is Python 3.8\n"))


if __name__ == "__main__":
    unittest.main()
