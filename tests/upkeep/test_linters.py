"""Tests of tests/linters.py: the tree as it is, and small trees with a fault that each linter must name."""
import os
import sys
import unittest

ROOT = os.path.dirname(os.path.dirname(os.path.dirname(os.path.abspath(__file__))))
sys.path[:0] = [os.path.join(ROOT, "tests"), os.path.join(ROOT, "tests", "tools")]

import linters
from common import call, scratch


def needs(linter):
    """Passes a test over where a linter isn't installed."""
    return unittest.skipUnless(linters.command_of(linter), f"{linter} isn't installed")


class Linters(unittest.TestCase):
    def small_tree(self, text):
        """A tree with each folder that the linters are given, and one module with this text."""
        top = scratch(self)
        for folder in ("tools/lib", "python/knot_workbench", "bench", "quandles/make", "upkeep", "tests"):
            os.makedirs(os.path.join(top, folder))
        for name in ("tools/lib/__init__.py", "python/knot_workbench/__init__.py"):
            with open(os.path.join(top, name), "w", encoding="utf-8") as out:
                out.write(text)
        return top

    @needs("pyflakes")
    def test_pyflakes_finds_nothing_in_the_tree(self):
        self.assertEqual(linters.found_by("pyflakes"), "")

    @needs("mypy")
    def test_mypy_finds_nothing_in_the_module_and_in_lib(self):
        self.assertEqual(linters.found_by("mypy"), "")

    @needs("pyflakes")
    def test_an_import_that_nothing_uses_is_found(self):
        self.assertRegex(linters.found_by("pyflakes", self.small_tree("import os\n")), r"lib/__init__\.py:1:1:? '?os'? imported but unused")

    @needs("mypy")
    def test_a_wrong_type_is_found_in_both_places(self):
        found = linters.found_by("mypy", self.small_tree('def number() -> int:\n    return "one"\n'))
        self.assertIn("knot_workbench/__init__.py:2: error", found)
        self.assertIn("lib/__init__.py:2: error", found)

    def test_what_is_not_installed_is_named(self):
        done = call([sys.executable, "-S", "-I", "-B", os.path.join(ROOT, "tests", "linters.py")], env={"PATH": ""})
        self.assertEqual((done.returncode, done.stdout, done.stderr), (0, "pyflakes isn't installed, mypy isn't installed\n", ""))


if __name__ == "__main__":
    unittest.main()
