"""Tests of bench/table.py: the pairs, what a summary says of them, and what is wrong with it."""
import contextlib
import io
import os
import sys
import unittest

from common import LISTS, ROOT, scratch

sys.path.insert(0, os.path.join(ROOT, "bench"))
import table  # noqa: E402
from knot_workbench import diagrams  # noqa: E402


def row(name, verdict, evidence="", check="accepted"):
    return {"name": name, "verdict": verdict, "evidence": evidence, "check": check, "seconds": "0.5"}


def shown(rows, found):
    """What is printed of rows, and whether anything is wrong."""
    with contextlib.redirect_stdout(io.StringIO()) as out:
        is_wrong = table.show_pairs(rows, found, {(12, 5): "T5"})
    return out.getvalue(), is_wrong


class Pairs(unittest.TestCase):
    def test_each_knot_meets_each_other_one_and_both_mirror_images(self):
        found = dict(table.pairs(list(table.knots())))
        self.assertEqual([sum(pair.kind == kind for pair in found.values()) for kind in table.PAIR_KINDS], [35, 595, 595])
        self.assertEqual(len({(pair.one, pair.two) for pair in found.values()}), 1225)

    def test_problems_have_both_diagrams_with_their_names(self):
        folder = scratch(self)
        found = table.write_problems(folder, list(table.knots())[:3], None)
        self.assertEqual(sorted(f"{name}.txt" for name in found), sorted(os.listdir(folder)))
        with open(os.path.join(folder, "3_1-mirror-4_1.txt"), encoding="utf-8") as source:
            self.assertEqual(source.read(), "# first: 3_1\nbraid 2 1 1 1\n# second: mirror image of 4_1\nbraid 3 -1 2 -1 2\n")
        self.assertEqual(len(table.write_problems(scratch(self), list(table.knots())[:3], "mirrors")), 3)


class Evidence(unittest.TestCase):
    def test_tables_of_the_list_have_their_names(self):
        with open(os.path.join(LISTS, "weights", "list.txt"), encoding="utf-8") as text:
            found = table.names_of_tables(text.read())
        self.assertEqual(found, {(8, 2): "F8", (12, 5): "T5", (20, 3): "M20a", (20, 6): "M20b", (24, 7): "T7", (27, 3): "F27 or F27b", (28, 2): "A28",
                                 (30, 4): "M30", (42, 8): "M42a or M42c", (56, 9): "M56c", (60, 11): "T11", (72, 7): "M72"})

    def test_evidence_in_words(self):
        for said, wanted in (("dihedral 3", "dihedral 3"), ("numbers alexander 11 3: 121 / 11", "alexander 11 3, by numbers"),
                             ("numbers table 12 by weight: 12 0 0 0 60 / 12 60 0 0 0", "T5 with a cocycle mod 5"),
                             ("numbers table 6 by weight: 6 24 / 30 0", "table 6 with a cocycle mod 2"), ("linking: 1 1 / -1 -1", "linking")):
            self.assertEqual(table.evidence_in_words(row("", "different", said), {(12, 5): "T5"}), wanted)


class Shown(unittest.TestCase):
    def setUp(self):
        trefoil, eight = diagrams.Braid(2, (1, 1, 1)), diagrams.Braid(3, (1, -2, 1, -2))
        self.found = dict(table.pairs([("3_1", trefoil), ("4_1", eight)]))

    def test_counts_and_what_is_left(self):
        out, is_wrong = shown([row("3_1-mirror", "unknown", check=""), row("4_1-mirror", "equal", "11"), row("3_1-4_1", "different", "dihedral 3"),
                               row("3_1-mirror-4_1", "different", "dihedral 3")], self.found)
        self.assertFalse(is_wrong)
        lines = [line.split() for line in out.splitlines()]
        self.assertIn(["a", "knot", "and", "its", "mirror", "image", "2", "0", "1", "1", "1.0"], lines)
        self.assertIn(["two", "knots", "1", "1", "0", "0", "0.5"], lines)
        self.assertIn(["dihedral", "3", "0", "1", "1"], lines)
        self.assertIn("left: 3_1 and mirror image of 3_1", out)
        self.assertIn("3 of 3 certificates accepted", out)

    def test_a_line_for_each_pair(self):
        rows = [row("3_1-mirror", "different", "numbers dihedral 3 by weight: 9 0 18 / 9 18 0"), row("4_1-mirror", "unknown", check="")]
        out = io.StringIO()
        with contextlib.redirect_stdout(out):
            table.show_each(rows, self.found, {})
        self.assertEqual(out.getvalue(), "3_1 and mirror image of 3_1 | different | dihedral 3 with a cocycle mod 3: 9 0 18 / 9 18 0 | accepted | 0.5 s\n"
                                         "4_1 and mirror image of 4_1 | unknown |  | no certificate | 0.5 s\n\n")

    def test_wrong_verdicts_and_certificates_are_named(self):
        for one in (row("3_1-4_1", "equal", "5"), row("3_1-mirror", "equal", "5"), row("4_1-mirror", "different", "dihedral 3"),
                    row("3_1-4_1", "different", "dihedral 3", "rejected samelength"), row("3_1-4_1", "none", check="")):
            out, is_wrong = shown([one], self.found)
            self.assertTrue(is_wrong, one)
            self.assertIn("wrong: ", out)


if __name__ == "__main__":
    unittest.main()
