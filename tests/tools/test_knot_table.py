"""Tests of tools/knot_table.py: by stand-ins, and with the programs where they are built."""
import os
import unittest

from three_knots import BUILT, BUILT_SEEK, IdentifyTest, MADE, SYMMETRY, TABLE
from knot_workbench import Certificate, KnotTable, Turn
from knot_workbench.identifying import ROUNDS
from knot_workbench.tables.knots import read_knots
from lib.knot_table.symmetries import rounds_to


class KnotTableScript(IdentifyTest):
    def make(self, *words):
        return self.call("knot_table.py", *words, self.table, "--list", self.list)

    def test_numbers_are_counted_anew_and_compared(self):
        self.assertEqual(self.make("numbers", "--all"), (0, f"{self.table}: numbers: as in the file\n", ""))
        self.put("knots.csv", TABLE.replace("{{2,5},{3,1},{4,2},{5,3},{1,4}}", "{{4,1},{3,5},{2,4},{1,3},{5,2}}"))
        status, out, said = self.make("numbers")
        self.assertEqual((status, out), (1, f"{self.table}: numbers: 1 lines differ\n"))
        self.assertIn("3_1: the numbers differ from those in the file", said)
        self.assertEqual(self.read("knots.numbers.txt"), MADE[0])

    def test_symmetries_that_numbers_rule_out(self):
        self.assertEqual(self.make("symmetry", "--rounds", "0", "--write")[0], 0)
        rows = {row["name"]: row for row in self.rows(os.path.join(self.folder, "knots.symmetry.csv"))}
        self.assertEqual(rows["3_1"]["mirror"], "different by dihedral 3 with a cocycle mod 3")
        self.assertEqual((rows["3_1"]["reverse"], rows["3_1"]["mirror_reverse"]), ("open", "different by dihedral 3 with a cocycle mod 3"))
        self.assertEqual(set(rows["4_1"].values()), {"4_1", "open"})
        # What is known leaves out turns that need no walk.
        known = KnotTable(self.table, self.list).knots
        self.assertEqual(known["3_1"].different, (Turn(True), Turn(True, True)))
        self.assertEqual(len(known["4_1"].turns()), 4)

    def test_further_lists_and_walks_for_symmetries(self):
        # The rows of this list distinguish nothing from its mirror image, and of all turns shifts join 4_1 to its reversed mirror image alone.
        self.list = self.put("short.txt", "quandle dihedral 3\n")
        self.assertEqual(self.make("numbers", "--write")[0], 0)
        mirrors, target = self.put("mirrors.txt", "quandle dihedral 3\nshadow mochizuki\n"), os.path.join(self.folder, "knots.symmetry.csv")
        words = ("symmetry", "--mirrors", mirrors, "--rounds", "1", "--write", "--book", os.path.join(self.folder, "book"))
        self.assertEqual(self.make(*words)[0], 0)
        rows = [list(row.values()) for row in self.rows(target)]
        self.assertEqual(rows, [["3_1", "different by mirrors", "open", "different by mirrors"], ["4_1", "open", "open", "equal"],
                                ["5_1", "open", "open", "open"]])
        # What is in the book is neither counted nor walked again.
        os.unlink(target)
        calls = self.counted()
        self.assertEqual(self.make(*words)[0], 0)
        self.assertEqual([list(row.values()) for row in self.rows(target)], rows)
        self.assertEqual(self.counted(), calls)
        # Where both mirror images are known, their list is asked nothing.
        self.assertEqual(self.make("symmetry", "--mirrors", mirrors, "--rounds", "0")[0], 0)
        self.assertEqual(self.counted() - calls, 2 * 2)  # 4_1 and 5_1, and the mirror image of each

    def test_further_rounds_have_other_seeds(self):
        self.assertEqual(rounds_to(2), list(ROUNDS[:2]))
        self.assertEqual(rounds_to(6), [*ROUNDS, (5, 8_000_000), (6, 8_000_000)])

    def counted(self):
        """How many times the stand-ins were called to count or to walk."""
        with open(self.log, encoding="utf-8") as log:
            return sum(line.startswith(("numbers", "seek")) for line in log)

    def test_turns_that_make_one_knot_are_tried_once(self):
        self.put("knots.symmetry.csv", SYMMETRY.replace("5_1,different by x,equal,different by x", "5_1,open,open,equal"))
        known = KnotTable(self.table, self.list)
        self.assertEqual([[turn.words for turn in knot.turns()] for knot in known.knots.values()], [["", " mirrored"], [""], ["", " mirrored"]])
        self.assertEqual(known.parts_of("3_1 reversed"), (("3_1", Turn()),))
        self.assertEqual(known.parts_of("5_1 reversed"), (("5_1", Turn(True)),))


@unittest.skipUnless(BUILT and os.access(BUILT_SEEK, os.X_OK), "the programs aren't built")
class WithThePrograms(IdentifyTest):
    def make(self, what, *words):
        """Calls knot_table.py with the programs: its status, and what it says on standard error."""
        status, _, said = self.call("knot_table.py", what, self.table, "--list", self.list, *words, KNOT=BUILT, SEEK=BUILT_SEEK)
        return status, said

    def put_column(self, title, entries):
        """Adds a column to the table."""
        lines = [f'{line},{entry}' for line, entry in zip(TABLE.splitlines(), [title, *(f'"{entry}"' for entry in entries)])]
        self.put("knots.csv", "".join(f"{line}\n" for line in lines))

    def test_a_word_is_joined_to_its_grid_and_another_word_is_told(self):
        self.put_column("braid_notation", ("{2,{-1,-1,-1}}", "{3,{1,-2,1,-2}}", "{2,{-1,-1,-1,-1,-1}}"))
        self.assertEqual(self.make("names"), (0, ""))
        self.put_column("braid_notation", ("{2,{-1,-1,-1}}", "{3,{1,-2,1,-2}}", "{2,{-1,-1,-1}}"))
        status, said = self.make("names")
        self.assertEqual((status, said.count("the braid word is another knot")), (1, 1))
        self.assertIn(f"{self.table}: 5_1: the braid word is another knot", said)

    def test_the_grid_of_a_code_is_drawn_and_takes_the_place_of_a_larger_one(self):
        codes = ("PD[X[1,5,2,4],X[3,1,4,6],X[5,3,6,2]]", "PD[X[4,2,5,1],X[8,6,1,5],X[6,3,7,4],X[2,7,3,8]]",
                 "PD[X[1,7,2,6],X[3,9,4,8],X[5,1,6,10],X[7,3,8,2],X[9,5,10,4]]")
        self.put_column("pd_notation", codes)
        status, said = self.make("grids", "--write")
        self.assertEqual(status, 0, said)
        self.assertEqual(self.make("grids"), (0, ""))
        self.assertEqual([knot.grid.size for knot in read_knots(self.table).values()], [5, 6, 7])
        drawn = self.read("knots.csv")
        self.put("knots.csv", drawn.replace(drawn.splitlines()[1].split('"')[1], "{{2,6},{3,1},{4,2},{5,3},{6,4},{1,5}}"))
        status, said = self.make("grids")
        self.assertEqual((status, said), (1, f"{self.table}: 3_1: the grid that is drawn has 5 columns, and that of the table 6\n"))

    def test_symmetries_that_walks_show(self):
        kept = os.path.join(self.folder, "kept")
        words = ("knot_table.py", "symmetry", self.table, "--list", self.list, "--rounds", "2", "--write", "--certificates", kept)
        self.assertEqual(self.call(*words, KNOT=BUILT, SEEK=BUILT_SEEK)[0], 0)
        by = "different by dihedral 3 with a cocycle mod 3"
        rows = [tuple(row.values()) for row in self.rows(os.path.join(self.folder, "knots.symmetry.csv"))]
        self.assertEqual(rows, [("3_1", by, "equal", by), ("4_1", "equal", "equal", "equal"), ("5_1", "open", "equal", "open")])
        eight = KnotTable(self.table, self.list).knots["4_1"].grid
        for name, first, second in (("4_1-mirror", eight, eight.mirror()), ("4_1-reverse", eight, eight.reverse())):
            found = Certificate.load(os.path.join(kept, f"{name}.txt"))
            self.assertEqual((found.first, found.second, found.is_equal, found.check()), (first, second, True, True))


if __name__ == "__main__":
    unittest.main()
