"""The module's call of a census, with the slow stand-in for both programs."""
import os
import unittest

import common
import knot_workbench as kw

STAND_IN = os.path.join(common.ROOT, "tests", "tools", "small_knot.py")
TREFOIL = kw.Grid((4, 3, 2, 1, 0), (2, 1, 0, 4, 3))
SHIFTED = kw.Grid((3, 2, 1, 0, 4), (1, 0, 4, 3, 2))
UNKNOT = kw.Grid((0, 1), (1, 0))


class Sorting(unittest.TestCase):
    def setUp(self):
        self.folder = common.scratch(self)
        seek = os.path.join(self.folder, "seek")
        os.symlink(STAND_IN, seek)
        kept = {name: os.environ.pop(name, None) for name in ("KNOT", "SEEK")}
        self.addCleanup(lambda: os.environ.update({name: value for name, value in kept.items() if value is not None}))
        self.addCleanup(kw.programs._given.clear)
        kw.use(knot=STAND_IN, seek=seek)
        self.plan = os.path.join(self.folder, "plan.txt")
        with open(os.path.join(self.folder, "small.txt"), "w", encoding="utf-8") as out:
            out.write("quandle dihedral 3\n")
        with open(self.plan, "w", encoding="utf-8") as out:
            out.write("small  numbers +small.txt\nfew  seek --steps 5\n")

    def test_diagrams_by_name_are_sorted_and_kept(self):
        place = os.path.join(self.folder, "census")
        found = kw.census({"one": TREFOIL, "two": UNKNOT, "three": SHIFTED}, place, plan=self.plan, processes=2)
        self.assertEqual(found, kw.Census({"one": {"one": "", "three": ""}, "two": {"two": ""}}, (), (), place))
        with open(os.path.join(place, "certificate-1.txt"), encoding="utf-8") as source:
            self.assertTrue(source.read().startswith("certificate 4\n"))
        # Called again it goes on, with the diagrams that are given now.
        found = kw.census({"one": TREFOIL, "two": UNKNOT}, place, plan=self.plan, processes=2)
        self.assertEqual(found.classes, {"one": {"one": ""}, "two": {"two": ""}})

    def test_a_folder_is_taken_and_what_cannot_be_read_is_a_fault(self):
        given = os.path.join(self.folder, "diagrams")
        os.mkdir(given)
        for name, text in (("good", "x 0 1\no 1 0\n"), ("bad", "x 0 1\no 0 1\n")):
            with open(os.path.join(given, name + ".txt"), "w", encoding="utf-8") as out:
                out.write(text)
        found = kw.census(given, os.path.join(self.folder, "census"), plan=self.plan, processes=2)
        self.assertEqual(found.classes, {"good": {"good": ""}})
        self.assertTrue(any("bad.txt" in fault for fault in found.faults), found.faults)

    def test_what_cannot_be_asked_is_a_fault_of_its_own(self):
        with self.assertRaises(kw.NoJob):
            kw.census(os.path.join(self.folder, "nowhere"), os.path.join(self.folder, "census"))
        with self.assertRaises(kw.BadDiagram):
            kw.census({"a/b": UNKNOT}, os.path.join(self.folder, "census"))
        kw.use(knot="/no/such/program")
        with self.assertRaises(kw.NoProgram):
            kw.census({}, os.path.join(self.folder, "census"))


if __name__ == "__main__":
    unittest.main()
