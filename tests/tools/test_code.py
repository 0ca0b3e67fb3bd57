"""Codes of other programs, taken in by tools/code.py."""
import os
import unittest

import common

TREFOIL = "crossings 3\nX[4,1,5,2]\nX[6,3,1,4]\nX[2,5,3,6]\nloops 0\n"


class Code(unittest.TestCase):
    def test_a_code_becomes_rows_that_knot_reads(self):
        for words, text in ((["DT[4,6,2]"], ""), (["4 6 2"], ""), (["DT:[(4,6,2)]"], ""), (["DT[cacbca]"], ""), ([], "# of a table\n[4, 6, 2]\n"),
                            (["--as", "dt", "-"], "4 6 2")):
            self.assertEqual(common.run("code.py", *words, text=text), (0, f"# of a DT code: the mirror image has it too\n{TREFOIL}", ""), words)

    def test_gauss_codes_with_and_without_signs(self):
        status, out, _ = common.run("code.py", "-1 2 -3 1 -2 3")
        self.assertEqual((status, out.splitlines()[0]), (0, "# of a Gauss code: the mirror image has it too"))
        signed = (0, "# of a Gauss code\ncrossings 3\nX[1,5,2,4]\nX[5,3,6,2]\nX[3,1,4,6]\nloops 0\n", "")
        self.assertEqual(common.run("code.py", "--signs", "1 1 1", "-1 2 -3 1 -2 3"), signed)
        self.assertEqual(common.run("code.py", "[[[-1,2,-3,1,-2,3]],[1,1,1]]"), signed)

    def test_rows_of_sage_are_turned(self):
        self.assertEqual(common.run("code.py", "--sage", "[[1,4,2,5],[3,6,4,1],[5,2,6,3]]")[1],
                         "# of a PD code\ncrossings 3\nX[1,5,2,4]\nX[3,1,4,6]\nX[5,3,6,2]\nloops 0\n")

    def test_parts_that_may_be_mirrored_are_counted(self):
        self.assertIn("each of 2 parts may be mirrored", common.run("code.py", "DT[4,6,2,10,12,8]")[1])

    def test_faults_are_told(self):
        path = os.path.join(common.scratch(self), "code.txt")
        with open(path, "w", encoding="utf-8") as out:
            out.write("1 2 3\n")
        for words, said in ((["foo"], "code.py: 'foo' is neither a number, a comma nor a bracket\n"), ([path], f"code.py: {path}: the lists are those of no PD"),
                            (["--as", "pd", "DT[4,6,2]"], "a PD code is due"), (["--sage", "DT[4,6,2]"], "--sage is for the rows of a PD code")):
            status, out, told = common.run("code.py", *words)
            self.assertEqual((status, out), (1, ""))
            self.assertIn(said, told)
        self.assertEqual(common.run("code.py", "--signs", "1", "--as", "dt", "4 6 2")[0], 2)


if __name__ == "__main__":
    unittest.main()
