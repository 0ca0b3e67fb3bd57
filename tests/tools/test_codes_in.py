"""Tests of tools/from_regina.py, from_sage.py and from_snappy.py, with stand-ins for the modules and for seek."""
import os
import sys
import unittest

import common

TREFOIL = "crossings 3\nX[1,5,2,4]\nX[3,1,4,6]\nX[5,3,6,2]\nloops 0\n"
UNKNOTS = "crossings 0\nloops 2\n"
MODULES = {
    "regina.py": """
class Link:
    def __init__(self, rows, count):
        self.rows, self.count = rows, count
    def pdData(self):
        return self.rows
    def countComponents(self):
        return self.count
trefoil = Link([(1, 5, 2, 4), (3, 1, 4, 6), (5, 3, 6, 2)], 1)
unknots = Link([], 2)
nothing = Link([], 0)
odd = Link([(1, 2, 3)], 1)
""",
    "sage/__init__.py": "",
    "sage/all.py": """
class Link:
    def __init__(self, rows, count):
        self.rows, self.count = rows, count
    def pd_code(self):
        return self.rows
    def number_of_components(self):
        return self.count
trefoil = Link([[1, 4, 2, 5], [3, 6, 4, 1], [5, 2, 6, 3]], 1)
unknots = Link([], 2)
""",
    "snappy.py": """
class Link:
    unlinked_unknot_components = 0
    def __init__(self, name):
        self.rows = [(1, 5, 2, 4), (3, 1, 4, 6), (5, 3, 6, 2)] if name == "3_1" else []
        if not self.rows:
            self.unlinked_unknot_components = 2
    def PD_code(self):
        return self.rows
trefoil = Link("3_1")
unknots = Link("L0")
""",
}
SEEK = """#!{python}
import sys
words = sys.argv[1:]
for word in words:
    print(open(word).read() if "knot-codes-" in word else word)
sys.exit(1)
"""


class CodesIn(unittest.TestCase):
    def setUp(self):
        self.folder = common.scratch(self)
        for path, text in {**MODULES, "seek": SEEK.format(python=sys.executable)}.items():
            path = os.path.join(self.folder, path)
            os.makedirs(os.path.dirname(path), exist_ok=True)
            with open(path, "w", encoding="utf-8") as file:
                file.write(text)
        os.chmod(os.path.join(self.folder, "seek"), 0o755)

    def call(self, program, *words, **more):
        surroundings = {**os.environ, "PYTHONPATH": self.folder, "SEEK": os.path.join(self.folder, "seek"), **more}
        done = common.call([sys.executable, "-B", os.path.join(common.TOOLS, f"from_{program}.py"), *words], env=surroundings)
        return done.returncode, done.stdout, done.stderr

    def test_one_link_is_written_as_knot_grid_reads_it(self):
        for program in ("regina", "sage", "snappy"):
            with self.subTest(program):
                self.assertEqual(self.call(program, "trefoil"), (0, TREFOIL, ""))
                self.assertEqual(self.call(program, "unknots"), (0, UNKNOTS, ""))
        self.assertEqual(self.call("snappy", 'Link("3_1")'), (0, TREFOIL, ""))

    def test_two_links_go_to_seek(self):
        status, out, errors = self.call("regina", "trefoil", "unknots", "--", "--seed", "2")
        self.assertEqual((status, errors), (1, ""))
        self.assertEqual(out, f"--pd\n{TREFOIL}\n--pd\n{UNKNOTS}\n--seed\n2\n")

    def test_seek_is_given_the_default_cocycles_of_its_tree(self):
        listed = os.path.join(self.folder, "quandles", "weights", "list.txt")
        os.makedirs(os.path.dirname(listed))
        for path in (listed, os.path.join(self.folder, "crates.txt")):
            with open(path, "w", encoding="utf-8"):
                pass
        for word, due in (("--quiet", f"--weights={listed}\n"), ("--no-weights", "")):
            self.assertEqual(self.call("regina", "trefoil", "unknots", "--", word)[1], f"{due}--pd\n{TREFOIL}\n--pd\n{UNKNOTS}\n{word}\n")

    def test_what_is_no_link_is_told(self):
        for expression, reason in (("nothing", "the link has no component"), ("odd", "it has no planar diagram code: BadCode"),
                                   ("1 + 1", "it has no planar diagram code: BadCode"), ("no_such_name", "NameError: name 'no_such_name' is not defined")):
            status, out, errors = self.call("regina", expression)
            self.assertEqual((status, out), (1, ""))
            self.assertTrue(errors.startswith(f"from_regina.py: {expression}: {reason}"), errors)

    def test_a_module_or_a_program_that_is_missing_is_told(self):
        os.remove(os.path.join(self.folder, "snappy.py"))
        status, out, errors = self.call("snappy", "trefoil")
        self.assertEqual((status, out), (3, ""))
        self.assertIn("from_snappy.py: No module named 'snappy'; install it", errors)
        self.assertEqual(self.call("regina", "trefoil", "trefoil", SEEK="/no/such/seek"), (1, "", "from_regina.py: /no/such/seek: No such file or directory\n"))

    def test_help_and_bad_words(self):
        self.assertIn("both to ./seek", self.call("regina", "--help")[1])
        for words in ((), ("trefoil", "trefoil", "trefoil"), ("trefoil", "--", "--quiet")):
            self.assertEqual(self.call("regina", *words)[:2], (2, ""), words)


if __name__ == "__main__":
    unittest.main()
