"""Results back in the table that was handed in."""
import os
import unittest

import common


class ToTable(unittest.TestCase):
    def setUp(self):
        self.folder = common.scratch(self)

    def put(self, name, text):
        path = os.path.join(self.folder, name)
        with open(path, "w", encoding="utf-8") as out:
            out.write(text)
        return path

    def test_each_row_has_its_result_behind_its_own_columns(self):
        table = self.put("t.csv", 'name,braid\n3_1 mirrored,"{1,1,1}"\nузел,"{1}"\nA,"{1}"\na,"{1}"\n')
        results = self.put("summary.csv", "name,first,verdict,evidence,stage,seconds,check\n3_1_mirrored,3_1 mirrored,equal,6,quick,0.1,accepted\n"
                           "a-2,a,unknown,budget 9,wide,0.1,\nA,A,equal,1,quick,0.1,accepted\n")
        self.assertEqual(common.run("to_table.py", table, results), (
            0, 'name,braid,verdict,evidence,stage,check\n3_1 mirrored,"{1,1,1}",equal,6,quick,accepted\nузел,{1},,,,\nA,{1},equal,1,quick,accepted\n'
               'a,{1},unknown,budget 9,wide,\n', "to_table.py: 1 rows have no result\n"))

    def test_classes_of_a_census_and_columns_that_are_asked_for(self):
        table = self.put("t.tsv", "knot\tbraid\na\t{1}\nb\t{1}\n")
        classes = self.put("classes.csv", "name,class,as,columns,known,certificate,check\na,a,,2,first,,\nb,a,mirror,2,equal 4,certificates/b.txt,accepted\n")
        out = os.path.join(self.folder, "out.tsv")
        self.assertEqual(common.run("to_table.py", table, classes, "--name", "knot", "--out", out), (0, "", ""))
        with open(out, encoding="utf-8") as file:
            self.assertEqual(file.read(), "knot\tbraid\tclass\tas\tknown\tcheck\na\t{1}\ta\t\tfirst\t\nb\t{1}\ta\tmirror\tequal 4\taccepted\n")
        self.assertEqual(common.run("to_table.py", table, classes, "--name", "knot", "--columns", "columns")[1], "knot\tbraid\tcolumns\na\t{1}\t2\nb\t{1}\t2\n")

    def test_faults(self):
        table, results = self.put("t.csv", "name\na\n"), self.put("r.csv", "name,check\nb,accepted\n")
        status, out, said = common.run("to_table.py", table, results)
        self.assertEqual((status, out), (1, "name,check\na,\n"))
        self.assertIn(f"'b' belongs to no row of {table}", said)
        for words, said in (([table, table], "none of its columns is taken unasked"), ([table, results, "--columns", "x"], "no column is called 'x'"),
                            ([table, self.put("e.csv", "")], "the table is empty"), ([os.path.join(self.folder, "none"), results], "No such file")):
            status, out, told = common.run("to_table.py", *words)
            self.assertEqual((status, out), (1, ""))
            self.assertIn(said, told)


if __name__ == "__main__":
    unittest.main()
