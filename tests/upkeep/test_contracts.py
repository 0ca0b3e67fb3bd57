"""Tests of upkeep/contracts.py: which function of an earlier commit is which of this tree."""
import os
import sys
import unittest

ROOT = os.path.dirname(os.path.dirname(os.path.dirname(os.path.abspath(__file__))))
sys.path[:0] = [os.path.join(ROOT, "upkeep"), os.path.join(ROOT, "tests", "tools")]

import contracts

FIRST, SECOND = {("ensures", "0"): "a"}, {("ensures", "0"): "b"}


class Paired(unittest.TestCase):
    def pairs(self, old, new):
        return contracts.paired(old, new)

    def test_laws_of_one_name_in_two_files_of_a_crate_stay_apart(self):
        held = {("laws", "one.rt", "comes_first"): FIRST, ("laws", "two.rt", "comes_first"): SECOND}
        self.assertEqual(self.pairs(held, dict(held)), {key: key for key in held})

    def test_in_files_of_other_names_the_clauses_tell(self):
        old = {("laws", "one.rt", "comes_first"): FIRST, ("laws", "two.rt", "comes_first"): SECOND}
        new = {("laws", "second.rt", "comes_first"): SECOND, ("laws", "first.rt", "comes_first"): FIRST}
        self.assertEqual(self.pairs(old, new), {
            ("laws", "one.rt", "comes_first"): ("laws", "first.rt", "comes_first"),
            ("laws", "two.rt", "comes_first"): ("laws", "second.rt", "comes_first")})

    def test_a_function_is_found_in_another_crate(self):
        old = {("low", "row.rt", "Row::of"): FIRST, ("low", "row.rt", "Row::end"): SECOND}
        new = {("high", "row.rt", "Row::of"): SECOND}
        self.assertEqual(self.pairs(old, new), {
            ("low", "row.rt", "Row::of"): ("high", "row.rt", "Row::of"), ("low", "row.rt", "Row::end"): None})

    def test_none_is_taken_where_several_may_be_it(self):
        old = {("low", "one.rt", "rule"): FIRST, ("low", "two.rt", "rule"): FIRST}
        new = {("high", "three.rt", "rule"): SECOND}
        self.assertEqual(self.pairs(old, new), {key: None for key in old})


if __name__ == "__main__":
    unittest.main()
