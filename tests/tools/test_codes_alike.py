"""Codes are read alike wherever one may be given: by code.py, in tables, in files of identify.py, and by the module; and a slip is told alike."""
import importlib
import unittest
from unittest import mock

importlib.import_module("common")  # (it knows where the scripts are)
import code as code_script
from lib.tables.given import Given, had
from knot_workbench import given
from knot_workbench.codes.reading import of_knot, read_text
from knot_workbench.diagrams import Grid
from knot_workbench.faults import Fault
from knot_workbench.tables.entries import Conventions, diagram_of

ROWS = [[1, 5, 2, 4], [3, 1, 4, 6], [5, 3, 6, 2]]
TREFOIL = [[4, 1, 5, 2], [6, 3, 1, 4], [2, 5, 3, 6]]
HOPF = [[4, 1, 3, 2], [2, 3, 1, 4]]
OF_GAUSS = [[4, 1, 5, 2], [2, 5, 3, 6], [6, 3, 1, 4]]
OF_SIGNED = [[1, 5, 2, 4], [5, 3, 6, 2], [3, 1, 4, 6]]

# Each form by the program or the page that prints it so, and the rows that it means. Each has a word or brackets that say what it is.
FORMS = (
    ("Knot Atlas", "X1524 X3146 X5362", ROWS), ("Knot Atlas", "X_{1524}, X_{3,1,4,6}, X5362", ROWS),
    ("KnotTheory", "PD[X[1,5,2,4], X[3,1,4,6], X[5,3,6,2]]", ROWS), ("KnotTheory", "PD[Xp[1,5,2,4], Xp[3,1,4,6], Xp[5,3,6,2]]", ROWS),
    ("KnotInfo", "[[1,5,2,4],[3,1,4,6],[5,3,6,2]]", ROWS), ("LinkInfo", "{{4, 1, 3, 2}; {2, 3, 1, 4}}", HOPF),
    ("SnapPy", "PD: [(1, 5, 2, 4), (3, 1, 4, 6), (5, 3, 6, 2)]", ROWS), ("SnapPy", "[(1, 5, 2, 4), (3, 1, 4, 6), (5, 3, 6, 2)]", ROWS),
    ("Regina", "(1,5,2,4),(3,1,4,6),(5,3,6,2)", ROWS), ("Sage", "[[1, 5, 2, 4], [3, 1, 4, 6], [5, 3, 6, 2]]", ROWS),
    ("one crossing", "[[1,1,2,2]]", [[1, 1, 2, 2]]), ("knot", "crossings 3\nX[1,5,2,4]\nX[3,1,4,6]\nX[5,3,6,2]\nloops 0\n", ROWS),
    ("rows and a loop", "X[1,5,2,4] X[3,1,4,6]\nX[5,3,6,2]\nloops 1\n", ROWS), ("rows without brackets", "X 1 5 2 4\nX 3 1 4 6\nX 5 3 6 2\n", ROWS),
    ("KnotTheory", "DT[4,6,2]", TREFOIL), ("KnotTheory", "DTCode[{4}, {2}]", HOPF), ("LinkInfo", "DT[{4}; {2}]", HOPF), ("LinkInfo", "{{4}, {2}}", HOPF),
    ("SnapPy", "DT: [(4, 6, 2)]", TREFOIL), ("SnapPy", "DT: [(4, 6, 2)], [0, 0, 1]", TREFOIL), ("SnapPy", "DT[cacbca]", TREFOIL),
    ("SnapPy", "DT:cacbca.001", TREFOIL), ("KnotTheory", "GaussCode[1, -2, 3, -1, 2, -3]", OF_GAUSS),
    ("LinkInfo", "{{1, -2}, {2, -1}}", [[4, 1, 3, 2], [2, 3, 1, 4]]), ("Sage", "[[[-1, 2, -3, 1, -2, 3]], [1, 1, 1]]", OF_SIGNED),
    ("Sage, by its name", "Oriented Gauss code: [[[-1, 2, -3, 1, -2, 3]], [1, 1, 1]]", OF_SIGNED), ("signed", "U1+O2+U3+O1+U2+O3+", OF_SIGNED),
    ("signed, of a link", "[O1+,U2+],[U1+,O2+]", [[3, 2, 4, 1], [2, 3, 1, 4]]), ("signed", "gauss U1+ O2+ U3+ O1+ U2+ O3+", OF_SIGNED))

# What a list means that has no word, where something else says it is a code: the title of a column, or a call.
LISTS = (("PD", "[[1,5,2,4],[3,1,4,6],[5,3,6,2]]", ROWS), ("DT", "[4, 6, 2]", TREFOIL), ("DT", "4 6 2", TREFOIL), ("DT", "cacbca", TREFOIL),
         ("Gauss", "{1, -2, 3, -1, 2, -3}", OF_GAUSS), ("Gauss", "1,-2,3,-1,2,-3", OF_GAUSS))

SLIPS = (
    ("PD[X[1,5,2,4],X[3,1,4]]", "row 2 of a PD code has four numbers, and not [3, 1, 4]"),
    ("PD[X[1,-5,2,4]]", "row 1 has the edge -5, and the names of edges are 0 or more"),
    ("PD[]", "a PD code without rows doesn't say how many unknots it has"),
    ("X152 X3146", "'X152' is no crossing: after X come four edges, as X[4,2,5,1], X4251 or X3,10,4,11"),
    ("PD[X[1,5,2,a]]", "'a]]' is neither a number, a comma nor a bracket"),
    ("PD[[1,5,2,4)]", "the bracket ')' closes none"),
    ("DT[4,6", "the bracket ']' is missing at the end"),
    ("PD[[[[[[1]]]]]]", "there are too many brackets within brackets"),
    ("Gauss[1,-2,12345678901]", "the number 123456789... has too many digits"),
    ("DT[4,6]", "a DT code of 2 crossings has each even number from 2 to 4 once"),
    ("DT[4,[6,2]]", "a DT code has a list of whole numbers for each component, and component 1 is 4"),
    ("DT: [(4,6,2),()]", "component 2 of a DT code has no crossing"),
    ("DT[]", "a DT code without numbers has no crossing"),
    ("DT[4,6,8,10,2]", "no diagram in the plane has this code"),
    ("DT[cacbc]", "the letters 'cacbc' are no DT code: the first gives the crossings, the second the components, then comes the length of each, "
                  "and a letter for each crossing"),
    ("Gauss[1,-2,-1]", "the crossing 2 is passed once, and not twice"),
    ("Gauss[1,-2,1,2]", "the crossing 1 is passed twice over: of the two passages one is negative"),
    ("Gauss[0,1,-1]", "a Gauss code numbers crossings from 1, and it has 0"),
    ("O1+U1-", "the crossing 1 has two signs"))


class Drawn:
    """Stands for what draws codes, and keeps the text of the last one."""

    def of(self, text):
        self.text = text
        return (4, 3, 2, 1, 0), (2, 1, 0, 4, 3)

    def by(self, text):
        return Grid(*self.of(text))


class CodesTest(unittest.TestCase):
    def setUp(self):
        self.drawn = Drawn()
        replaced = mock.patch.object(given, "grid_by", self.drawn.by)
        replaced.start()
        self.addCleanup(replaced.stop)
        # Each way by which a code comes in; the second word says what it is, or is None.
        self.ways = {"code.py": lambda text, kind: code_script.code_in_text(text, kind, None, False).text,
                     "a table": lambda text, kind: self.sent(diagram_of, text, None, self.conventions(kind)),
                     "a row of identify.py": lambda text, kind: self.sent(had, Given("k", "k", text, kind), self.conventions(None)),
                     "a file of identify.py": lambda text, kind: self.sent(had, Given("k", "k", text, "file"), self.conventions(kind)),
                     "the module": lambda text, kind: read_text(text, kind).text if kind else self.sent(given.diagram, text)}

    def conventions(self, kind):
        return Conventions("columns", False, False, kind, self.drawn)

    def sent(self, call, *words):
        call(*words)
        return self.drawn.text

    def test_each_form_is_read_alike(self):
        for source, text, rows in FORMS:
            for way, read in self.ways.items():
                with self.subTest(source=source, text=text, way=way):
                    self.assertEqual(of_knot(read(text, None)).rows, rows)

    def test_each_list_is_read_alike_where_it_is_said_what_it_is(self):
        for kind, text, rows in LISTS:
            for way, read in self.ways.items():
                with self.subTest(kind=kind, text=text, way=way):
                    self.assertEqual(of_knot(read(text, kind)).rows, rows)

    def test_each_slip_is_told_alike(self):
        for text, said in SLIPS:
            for way, read in self.ways.items():
                with self.subTest(text=text, way=way), self.assertRaises(Fault) as caught:
                    read(text, None)
                self.assertEqual(str(caught.exception), said, way)


if __name__ == "__main__":
    unittest.main()
