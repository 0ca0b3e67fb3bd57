"""A table of three knots with its rows and symmetries, and calls of the scripts that take it, by a slow stand-in for both programs, which joins
diagrams by shifts alone."""
import csv
import os
import subprocess
import sys
import unittest

import common
from knot_workbench import Grid

STAND_IN = os.path.join(common.ROOT, "tests", "tools", "small_knot.py")
BUILT = common.built_program()
BUILT_SEEK = os.environ.get("SEEK") or os.path.join(common.ROOT, "crates", "seek", "out", "seek")
TABLES = os.path.join(common.ROOT, "tables")
TO_10, TO_12 = (os.path.join(TABLES, f"prime-knots-to-{most}.csv") for most in (10, 12))

# The left trefoil and the figure eight, as Rolfsen draws them, and 5_1; the rows of their Xs and Os from 1.
TABLE = """\
name,dt_name,crossings,arc_notation
3_1,3a_1,3,"{{2,5},{3,1},{4,2},{5,3},{1,4}}"
4_1,4a_1,4,"{{6,2},{4,1},{5,3},{2,4},{3,6},{1,5}}"
5_1,5a_2,5,"{{2,7},{3,1},{4,2},{5,3},{6,4},{7,5},{1,6}}"
"""
SYMMETRY = """\
name,mirror,reverse,mirror_reverse
3_1,different by x,equal,different by x
4_1,equal,equal,equal
5_1,different by x,equal,different by x
"""
LEFT = Grid((1, 2, 3, 4, 0), (4, 0, 1, 2, 3))
EIGHT = Grid((5, 3, 4, 1, 2, 0), (1, 0, 2, 3, 5, 4))
# A cocycle that distinguishes the two trefoils isn't to be had for so few colours, but a shadow cocycle is.
LIST = "quandle dihedral 3\nquandle tetrahedral\nquandle dihedral 3\nshadow mochizuki\nquandle dihedral 5\n"

# The rows of the table, made by the first test that needs them.
MADE = []


class IdentifyTest(unittest.TestCase):
    """Calls of scripts in a folder with this table."""

    def setUp(self):
        self.folder = common.scratch(self)
        self.log = os.path.join(self.folder, "log")
        self.seek = os.path.join(self.folder, "seek")
        os.symlink(STAND_IN, self.seek)
        self.list = self.put("list.txt", LIST)
        self.table = self.put("knots.csv", TABLE)
        if not MADE:
            status, _, said = self.call("knot_table.py", "numbers", self.table, "--list", self.list, "--write")
            assert status == 0, said
            MADE.append(self.read("knots.numbers.txt"))
        self.put("knots.numbers.txt", MADE[0])

    def put(self, name, text):
        """Writes a file of the folder, and answers its path."""
        path = os.path.join(self.folder, name)
        os.makedirs(os.path.dirname(path), exist_ok=True)
        with open(path, "w", encoding="utf-8", newline="") as out:
            out.write(text)
        return path

    def read(self, name):
        """The text of a file of the folder."""
        with open(os.path.join(self.folder, name), encoding="utf-8") as source:
            return source.read()

    def call(self, script, *words, text="", **programs):
        """Calls a script with the stand-ins as its programs, or with others."""
        environment = {**os.environ, "KNOT": STAND_IN, "SEEK": self.seek, "LOG": self.log, **programs}
        done = subprocess.run([sys.executable, "-B", os.path.join(common.TOOLS, script), *words], env=environment, input=text, capture_output=True, text=True,
                              check=False)
        return done.returncode, done.stdout, done.stderr

    def identify(self, *words, text=""):
        """Calls identify.py with this table."""
        return self.call("identify.py", "--table", self.table, "--list", self.list, *words, text=text)

    def rows(self, path):
        """The rows of a table of a file."""
        with open(path, encoding="utf-8", newline="") as source:
            return list(csv.DictReader(source))
