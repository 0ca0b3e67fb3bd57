"""Tests of bench/apart.py: what rows leave, and the order of blocks, against plain comparisons."""
import contextlib
import io
import itertools
import os
import sys
import unittest
from unittest import mock

from common import ROOT

sys.path.insert(0, os.path.join(ROOT, "bench"))
import apart  # noqa: E402
from apart import BOTH, MIRRORED, REVERSED, SAME, TURNS, Left, NamedBlock, KnotRows  # noqa: E402
from knot_workbench.tables.numbers import blocks_of  # noqa: E402

LIST = "# A comment.\nquandle dihedral 3\n# E4: a table.\nquandle table 4\n0 2 3 1\n3 1 0 2\n1 3 2 0\n2 0 1 3\nquandle dihedral 5\nshadow mochizuki\n"
BLOCKS = blocks_of(LIST)

# By these rows the first two knots aren't distinguished, nor the third and the fourth, for which the last block is too wide. The third differs from its
# reverse, and the fifth from its mirror image.
ROWS = {"a": [((9,), (4,), (25, 0, 0, 0, 0))] * 2, "b": [((9,), (4,), (25, 0, 0, 0, 0))] * 2,
        "c": [((3,), (16,), (25, 50, 0, 0, 50)), ((3,), (16,), (25, 0, 50, 50, 0))], "d": [((3,), (16,), None)] * 2,
        "e": [((3,), (4,), (25, 0, 100, 0, 0)), ((3,), (4,), (25, 0, 0, 100, 0))]}


class WhatIsLeft(unittest.TestCase):
    def test_what_is_left_is_what_no_entry_tells(self):
        rows = KnotRows(BLOCKS, ROWS)
        due = {Left(one, other, turn) for one, other in itertools.combinations(ROWS, 2) for turn in TURNS if rows.may_be(Left(one, other, turn))}
        due |= {Left(one, one, turn) for one in ROWS for turn in TURNS[1:] if rows.may_be(Left(one, one, turn))}
        found = apart.left_by(rows)
        self.assertEqual((set(found), len(found)), (due, len(due)))
        self.assertEqual({(one.one, one.other) for one in due if one.one != one.other}, {("a", "b"), ("c", "d")})
        self.assertEqual([apart.own(found, MIRRORED, BOTH), apart.own(found, REVERSED)], [{"a", "b", "c", "d"}, {"a", "b", "d", "e"}])
        self.assertEqual(apart.pairs_in(found), 2)
        self.assertEqual({apart.kind_of(one) for one in found if one.one == "e"}, {"reverses"})
        self.assertEqual({apart.kind_of(one) for one in found if one.one == "c"}, {"pairs", "mirrors"})

    def test_classes(self):
        self.assertEqual(apart.undistinguished(list(ROWS), apart.left_by(KnotRows(BLOCKS, ROWS))), (3, 1))


class Order(unittest.TestCase):
    def test_blocks_have_the_names_above_them(self):
        self.assertEqual([one.label for one in apart.named_blocks(LIST)], ["dihedral 3", "E4", "dihedral 5 with a cocycle"])
        self.assertEqual("".join(one.text for one in apart.named_blocks(LIST)), "".join(line for line in LIST.splitlines(True) if line[0] != "#"))

    def test_what_some_blocks_leave(self):
        rows = {name: pair for name, pair in ROWS.items() if name != "d"}
        marks = apart.marks_of(KnotRows(BLOCKS, rows))
        self.assertEqual(apart.untold_by(marks, []), (6, 4, 4))
        self.assertEqual(apart.untold_by(marks, [0]), (2, 4, 4))
        self.assertEqual(apart.untold_by(marks, [0, 1]), (1, 4, 4))
        self.assertEqual(apart.untold_by(marks, [0, 1, 2]), (1, 3, 3))

    def test_that_comes_first_which_tells_most_a_millisecond(self):
        some = [NamedBlock(label, label, None) for label in ("dear", "cheap", "none")]
        costs = {"dear": 10, "cheap": 1, "none": 0.1}
        told = {0: {1, 2, 3, 4, 5, 6, 7, 8}, 1: {1, 2}, 2: set()}
        with mock.patch.object(apart, "cost_of", lambda known, names, listed: costs[listed]), contextlib.redirect_stdout(io.StringIO()) as out:
            apart.say_order_of(None, [], some, lambda chosen: (9 - len(set().union(*(told[place] for place in chosen))), 1, 1))
        self.assertEqual(out.getvalue().splitlines(), ["cheap: 1.000 ms; left are 7 pairs, 1 mirror images, 1 reverses",
                                                       "dear: 10.000 ms; left are 1 pairs, 1 mirror images, 1 reverses",
                                                       "none: 0.100 ms; left are 1 pairs, 1 mirror images, 1 reverses"])

    def test_rows_of_the_table_are_not_counted_again(self):
        known = mock.Mock(listed="quandle dihedral 3\nquandle dihedral 5\nshadow mochizuki\n")
        known.row = lambda name, turn=SAME: ("three", "five") if turn == SAME else ("3", "5")
        with mock.patch.object(apart, "rows_by", lambda known, names, listed, each, book: {name: (("four",), ("4",)) for name in names}):
            found = apart.rows_of_blocks(known, ["a"], apart.named_blocks(LIST), None, None)
        self.assertEqual(found, {"a": (("three", "four", "five"), ("3", "4", "5"))})


if __name__ == "__main__":
    unittest.main()
