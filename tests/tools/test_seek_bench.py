"""Tests of bench/seek.py: how the walks alone are timed, with a stand-in for the program."""
import os
import sys
import unittest

from common import ROOT, scratch

sys.path.insert(0, os.path.join(ROOT, "bench"))
import seek  # noqa: E402

# Finds moves where the steps are more than some, and keeps its words and its problem.
STAND_IN = """#!/bin/sh
echo "$@" >>{0}/words
for file; do :; done
cp "$file" {0}/problem
case "$*" in
    *"--steps {1}"*) exit {2} ;;
esac
exit {3}
"""


class WalksAlone(unittest.TestCase):
    def ran(self, short, long):
        """What is answered, and the words of each run."""
        self.folder = scratch(self)
        program = os.path.join(self.folder, "seek")
        with open(program, "w", encoding="utf-8") as out:
            out.write(STAND_IN.format(self.folder, seek.short_steps(), short, long))
        os.chmod(program, 0o755)
        kept, seek.SEEK = seek.SEEK, program
        try:
            found = seek.walks_alone("braid 2 1\nbraid 2 -1\n", 7)
        finally:
            seek.SEEK = kept
        with open(os.path.join(self.folder, "words"), encoding="utf-8") as words:
            return found, [line.split()[:-1] for line in words]

    def test_a_short_walk_that_joins_is_one_run(self):
        found, words = self.ran(0, 0)
        self.assertGreaterEqual(found, 0)
        self.assertEqual(words, [["--seed", "7", "--no-weights", "--steps", str(seek.short_steps())]])
        with open(os.path.join(self.folder, "problem"), encoding="utf-8") as problem:
            lines = problem.read().splitlines()
        self.assertEqual(lines[:2], ["braid 2 1", "braid 2 -1"])
        self.assertEqual(set(lines[2:]), {"quandle trivial 1"})

    def test_long_walks_are_a_difference(self):
        found, words = self.ran(1, 0)
        self.assertIsNotNone(found)
        self.assertEqual([line[:3] for line in words], [["--seed", "7", "--no-weights"]] * 2)

    def test_walks_that_join_nothing_have_no_time(self):
        self.assertIsNone(self.ran(1, 1)[0])


if __name__ == "__main__":
    unittest.main()
