"""What callers hand in to the module: texts of codes, links of other programs, and slips, each of which is a named fault."""
import os
import sys
import unittest
from types import SimpleNamespace

sys.path.insert(0, os.path.dirname(os.path.abspath(__file__)))

from test_module import TREFOIL, UNKNOT, WORD, Case, built, common, kw, programs
from knot_workbench.codes.reading import read_lists, read_text

FIGURE_EIGHT = "PD[X[4,2,5,1], X[8,6,1,5], X[6,3,7,4], X[2,7,3,8]]"
ROWS = [[1, 5, 2, 4], [3, 1, 4, 6], [5, 3, 6, 2]]
REGINA = SimpleNamespace(pdData=lambda: ROWS, countComponents=lambda: 1)
ALTERNATING = [[4, 1, 5, 2], [6, 3, 1, 4], [2, 5, 3, 6]]


class Codes(unittest.TestCase):
    """Texts of codes, beside rows that were worked out by hand."""

    def refused(self, said, call, *words):
        with self.assertRaises(kw.BadCode) as caught:
            call(*words)
        self.assertIn(said, str(caught.exception))

    def test_the_guide_s_text_of_a_pd_code(self):
        self.assertIn(FIGURE_EIGHT, common.read("docs", "GUIDE.md"))
        for text in (FIGURE_EIGHT, "[[4,2,5,1],[8,6,1,5],[6,3,7,4],[2,7,3,8]]", "{(4 2 5 1), (8 6 1 5), (6 3 7 4), (2 7 3 8)}",
                     "X[4,2,5,1] X[8,6,1,5]\nX[6,3,7,4] X[2,7,3,8]", "(4,2,5,1),(8,6,1,5),(6,3,7,4),(2,7,3,8)", "X4251 X8615 X6374 X2738",
                     "PD: X_{4251}, X_{8,6,1,5}\nX6,3,7,4 X2738"):
            self.assertEqual(read_text(text)[:4], ("PD", [[4, 2, 5, 1], [8, 6, 1, 5], [6, 3, 7, 4], [2, 7, 3, 8]], 0, 0), text)
        for text in ("[[1,1,2,2]]", "PD[X[1,1,2,2]]", "X[1,1,2,2]", "PD[X1122]"):
            self.assertEqual(read_text(text).rows, [[1, 1, 2, 2]], text)

    def test_what_knot_writes_goes_on_as_it_stands(self):
        text = common.read("examples", "code", "right-trefoil.out")
        self.assertEqual(read_text(text).text, text)

    def test_dt_codes_as_knotinfo_and_snappy_print_them(self):
        for text in ("DT[4,6,2]", "[4, 6, 2]", "4 6 2", "{4,6,2}", "DT:[(4,6,2)]", "DT: [(4, 6, 2)], [0, 0, 1]", "DT[cacbca]", "DT:cacbca", "DT:cacbca.001"):
            self.assertEqual(read_text(text, "DT" if text[0] not in "D" else None)[:4], ("DT", ALTERNATING, 0, 1), text)
        self.assertEqual(read_text("DT[dadbcDA]").rows, read_lists([4, 6, -8, -2], "DT").rows)
        self.assertEqual(read_text("DTCode[{6,8},{2,4}]").rows, read_lists([(6, 8), (2, 4)]).rows)
        self.assertEqual(read_text("DT[dbbbcdab]").rows, read_lists([(6, 8), (2, 4)]).rows)
        self.refused("each even number from 2 to 4 once", read_text, "DT[4,6]")
        self.refused("no DT code", read_text, "DT[cacbc]")

    def test_gauss_codes(self):
        for text in ("{-1,2,-3,1,-2,3}", "GaussCode[-1, 2, -3, 1, -2, 3]", "-1 2 -3 1 -2 3"):
            found = read_text(text)
            self.assertEqual((found.kind, len(found.rows), found.parts), ("Gauss", 3, 1), text)
        signed = [[1, 5, 2, 4], [5, 3, 6, 2], [3, 1, 4, 6]]
        for text in ("U1+O2+U3+O1+U2+O3+", "gauss U1+ O2+ U3+ O1+ U2+ O3+", "[[[-1,2,-3,1,-2,3]],[1,1,1]]"):
            self.assertEqual(read_text(text)[:4], ("Gauss", signed, 0, 0), text)
        self.assertEqual(read_text("O1+U2+;U1+O2+")[:2], ("Gauss", [[3, 2, 4, 1], [2, 3, 1, 4]]))
        self.refused("passed once", read_lists, [1, -1, 2], "Gauss")
        self.refused("twice over", read_lists, [1, 1], "Gauss")
        self.refused("two signs", read_text, "O1+U1-")
        self.refused("1 crossings have 2 signs", kw.from_gauss, [1, -1], [1, 1])

    def test_other_texts_are_refused(self):
        for text, said in (("", "empty"), ("  \n", "empty"), ("4_1", "neither a number, a comma nor a bracket"), ("DT[4,6,2", "']' is missing"),
                           ("[1)", "closes none"), ("PD[]", "without rows"), ("1 2 3", "no PD, DT or Gauss code"), ("[[1,2],[3]]", "no PD, DT or Gauss code"),
                           ("[[[[[[1]]]]]]", "brackets within brackets"), ("1234567890", "too many digits"),
                           ("PD[X[1,2,3]]", "row 1 of a PD code has four numbers, and not [1, 2, 3]"), ("X425 X8615", "'X425' is no crossing"),
                           ("X4251,8 X8615", "'X4251,8' is no crossing"), ("X4251 8615", "row 2 of a PD code has four numbers, and not 8615"),
                           ("x4251", "neither a number, a comma nor a bracket"), ("DT:[(4,6,2),()]", "component 2 of a DT code has no crossing"),
                           ("Gauss[1,[-1]]", "component 1 is 1")):
            self.refused(said, read_text, text)
        self.refused("a DT code by its first word, and a PD code is due", read_text, "DT[4,6,2]", "PD")


class Given(Case):
    def test_a_code_is_drawn(self):
        with self.says(0, TREFOIL.text):
            for call, given, sent in ((kw.from_pd, FIGURE_EIGHT, "crossings 4\nX[4,2,5,1]\nX[8,6,1,5]\nX[6,3,7,4]\nX[2,7,3,8]\nloops 0\n"),
                                      (kw.from_dt, [4, 6, 2], "crossings 3\nX[4,1,5,2]\nX[6,3,1,4]\nX[2,5,3,6]\nloops 0\n"),
                                      (kw.from_dt, "DT:[(4,6,2)]", "crossings 3\nX[4,1,5,2]\nX[6,3,1,4]\nX[2,5,3,6]\nloops 0\n"),
                                      (kw.from_gauss, [[1, -2], [-1, 2]], "crossings 2\nX[3,1,4,2]\nX[2,4,1,3]\nloops 0\n")):
                self.assertEqual(call(given), TREFOIL)
                self.assertEqual(self.got(), ("grid", sent))
            kw.from_gauss("-1 2 -3 1 -2 3", signs=[1, 1, 1])
            self.assertEqual(self.got()[1], "crossings 3\nX[1,5,2,4]\nX[5,3,6,2]\nX[3,1,4,6]\nloops 0\n")

    def test_links_and_texts_are_taken_where_a_diagram_is_due(self):
        with self.says(0, TREFOIL.text):
            for given in (REGINA, FIGURE_EIGHT, "DT[4,6,2]", "{1,-2,3,-1,2,-3}", "O1+U2+O3+U1+O2+U3+", "{{6,8},{2,4}}", kw.Code(ROWS, 0, []),
                          "[[1,1,2,2]]", "# a name\nDT[4,6,2]\n"):
                self.assertEqual(kw.diagram(given), TREFOIL)
        for text, wanted in (("2 1 1 1", WORD), ("braid 2 1 1 1\n", WORD), ("{1,1,1}", WORD), ("{2,{1,1,1}}", WORD), ("{1,-1}", kw.Braid(2, [1, -1])),
                             ("# a name\n" + TREFOIL.text, TREFOIL), ("{{5,3},{4,2},{3,1},{2,5},{1,4}}", kw.Grid([4, 3, 2, 1, 0], [2, 1, 0, 4, 3]))):
            self.assertEqual(kw.diagram(text), wanted, text)
        with self.says(0, "certificate 2\nequal 0\n"):
            self.assertEqual(kw.decide("2 1 1 1", WORD).first, WORD)
        self.assertEqual(self.got()[1], WORD.text + WORD.text)

    def test_a_braid_of_one_list_or_text(self):
        for given in ([1, 1, 1], (1, 1, 1), "2 1 1 1", "{1,1,1}", "[1, 1, 1]"):
            self.assertEqual(kw.Braid(given), WORD)
        self.assertEqual((kw.Braid(2, "1 1 1"), kw.Braid([]), kw.Braid(2)), (WORD, kw.Braid(1), kw.Braid(2, ())))
        self.assertEqual((WORD.grid(), TREFOIL.grid()), (WORD.closure(), TREFOIL))

    def test_each_slip_is_a_named_fault(self):
        for kind, call, *words in (
                (kw.BadCode, kw.from_pd, ""), (kw.BadCode, kw.from_pd, "DT[4,6,2]"), (kw.BadCode, kw.from_pd, "4 6 2"), (kw.BadCode, kw.from_pd, 3),
                (kw.BadCode, kw.from_pd, None), (kw.BadCode, kw.from_pd, [[1, 1, 2]]), (kw.BadCode, kw.from_pd, [1]), (kw.BadCode, kw.from_pd, ["a"]),
                (kw.BadCode, kw.from_pd, [], "x"), (kw.BadCode, kw.from_dt, "x"), (kw.BadCode, kw.from_dt, 3), (kw.BadCode, kw.from_dt, [4, 6]),
                (kw.BadCode, kw.from_gauss, [1, 1]), (kw.BadCode, kw.from_gauss, [1, -1], 3), (kw.BadCode, kw.from_code, 3), (kw.BadCode, kw.read_code, 3),
                (kw.BadDiagram, kw.Braid, "a b"), (kw.BadDiagram, kw.Braid, 3.5), (kw.BadDiagram, kw.Braid, None), (kw.BadDiagram, kw.Braid, 2, 3),
                (kw.BadDiagram, kw.Braid, "2", [1]), (kw.BadDiagram, kw.Braid, ""), (kw.BadDiagram, kw.Grid, 1, 2), (kw.BadDiagram, kw.Grid, [0, 1], ["a", 1]),
                (kw.BadDiagram, kw.decide, [1, 1, 1], WORD), (kw.BadDiagram, kw.decide, "8_19", WORD), (kw.BadDiagram, kw.decide, None, WORD),
                (kw.OverLimit, kw.decide, kw.Braid(9, [1]), WORD), (kw.OverLimit, kw.seek, kw.Braid(2, [1] * 45), WORD), (kw.BadText, kw.decide, WORD, WORD, 3),
                (kw.BadText, kw.colour, WORD, 3), (kw.BadText, kw.colour, WORD, "foo"), (kw.BadText, kw.quandle, [["a"]]), (kw.BadDiagram, kw.linking, WORD, 3),
                (kw.BadDiagram, kw.code, [1]), (kw.BadDiagram, kw.simplify, 3), (kw.BadDiagram, kw.identify, 3), (kw.BadDiagram, kw.braid_word, 3),
                (kw.BadText, kw.replay, WORD, 3), (kw.BadText, kw.replay, WORD, [3]), (kw.BadText, kw.move_text, 3), (kw.BadText, kw.check, 3),
                (kw.BadText, kw.Certificate.parse, 3), (kw.NoFile, kw.Certificate.load, self.path("none")),
                (kw.BadDiagram, kw.Certificate, 1, WORD, kw.Equal(())), (kw.Fault, kw.Certificate, WORD, WORD, None),
                (kw.BadCode, kw.from_regina, 1), (kw.BadCode, kw.from_snappy, "4_1"), (kw.BadCode, kw.from_sage, None),
                (kw.TableError, kw.from_table, "99_1"), (kw.TableError, kw.from_table, 3), (kw.TableError, kw.from_table, self.path("none.csv"), "braid"),
                (kw.BadText, kw.cocycle, "foo"), (kw.BadText, kw.cocycle, "dihedral 3", 2), (kw.BadText, kw.cocycle, "dihedral 3", 2, 3),
                (kw.BadText, kw.cocycle, "dihedral 3", "2", [[0] * 3] * 3), (kw.BadText, kw.weights, WORD, WORD, "dihedral 3"), (kw.NoProgram, kw.use, 3)):
            with self.subTest(call=call.__name__, words=words):
                self.fails(kind, "", call, *words)
        for more in ({"budget": "x"}, {"timeout": "x"}):
            self.fails(kw.NoJob, "takes a", kw.decide, WORD, WORD, **more)
        self.fails(kw.NoJob, "names files", kw.seek, WORD, WORD, weights=3)

        def broken():
            raise AttributeError("no link")
        self.fails(kw.BadCode, "AttributeError: no link", kw.decide, SimpleNamespace(pdData=broken), WORD)

    def test_ready_cocycles_by_name(self):
        self.assertEqual((kw.quandle("T5").order, kw.cocycle("T5").modulus, kw.cocycle("mochizuki 7")), (12, 5, kw.ShadowCocycle(7, None)))
        with self.says(0, "weights 12 0 0 0 60\nweights 12 60 0 0 0\ndifferent\n"):
            self.assertTrue(kw.weights(WORD, WORD.mirror(), "T5").differ)
        self.assertEqual(self.got()[1], WORD.text + WORD.mirror().text + kw.quandle("T5").text + kw.cocycle("T5").text)
        self.fails(kw.BadText, "there are A28, F27, F27b, F8, H27, M20a", kw.cocycle, "T9")

    def test_a_knot_by_its_name(self):
        self.assertEqual(kw.from_table("8_19").size, 8)
        self.assertEqual(kw.from_table("3_1 mirrored"), kw.from_table("3_1").mirror())
        self.assertEqual(kw.from_table("unknot"), UNKNOT)
        self.assertEqual(kw.from_table(os.path.join(common.ROOT, "quandles", "knots-to-8.csv"))[0], ("3_1", WORD))

    def test_what_found_nothing_is_false(self):
        unknown = kw.Unknown(True, 2, 5)
        self.assertFalse(unknown)
        self.assertIsNone(unknown.is_equal)
        self.assertEqual(unknown, (True, 2, 5))
        for verdict in (kw.Equal(()), kw.Different(kw.quandle("trivial 2"), (), ())):
            self.assertTrue(kw.Certificate(WORD, WORD, verdict))

    def test_whether_a_certificate_holds(self):
        self.assertFalse(kw.Certificate(TREFOIL, UNKNOT, kw.Equal(())).holds())
        self.assertTrue(kw.Certificate(TREFOIL, TREFOIL, kw.Equal(())).holds())


class Pictures(Case):
    def test_diagrams_and_certificates_are_drawn(self):
        self.assertEqual(TREFOIL._repr_svg_(), kw.draw(TREFOIL))
        for what in (TREFOIL, WORD, "2 1 1 1", kw.Certificate(WORD, WORD, kw.Equal((("shift", "rows", 1),)))):
            self.assertIn("<svg ", kw.draw(what, marks=True))
        certificate = kw.Certificate.load(os.path.join(common.ROOT, "examples", "check", "trefoil-unknot-different.txt"))
        self.assertIn("9 colourings", certificate._repr_svg_())
        self.assertEqual(certificate.turned().turned(), certificate)
        self.assertEqual(certificate.turned().verdict.first, certificate.verdict.second)
        self.assertIn("#1f5fbf", kw.draw(TREFOIL, by="dihedral 3", colours=[0, 1, 2, 0, 2]))
        text = kw.draw(WORD, self.path("one.svg"))
        with open(self.path("one.svg"), encoding="utf-8") as file:
            self.assertEqual(file.read(), text)

    def test_what_cannot_be_drawn(self):
        self.fails(kw.BadText, "no colouring", kw.draw, TREFOIL, by="dihedral 3", colours=[0, 1, 1, 0, 2])
        self.fails(kw.BadText, "go together", kw.draw, TREFOIL, by="dihedral 3")
        self.fails(kw.BadText, "8 to 200", kw.draw, TREFOIL, cell=1)
        self.fails(kw.BadDiagram, "no diagram", kw.draw, 3)
        self.fails(kw.NoFile, "none", kw.draw, TREFOIL, self.path("none/a.svg"))
        self.fails(kw.Fault, "lead from the first", kw.Certificate(WORD, WORD, kw.Equal(())).turned)


@unittest.skipUnless(built("knot") and built("seek"), "the programs aren't built")
class Built(unittest.TestCase):
    def setUp(self):
        kw.use(knot=built("knot"), seek=built("seek"))
        self.addCleanup(programs._given.clear)

    def test_codes_of_one_knot_join(self):
        eight = kw.Braid(3, [1, -2, 1, -2])
        for given in (FIGURE_EIGHT, "DT[4,6,8,2]", "DT:[(4,6,8,2)]", "DT[dadbcda]", "{-1,2,-3,1,-4,3,-2,4}"):
            self.assertTrue(kw.decide(given, eight, spare=0).is_equal, given)
        self.assertTrue(kw.decide(REGINA, "2 1 1 1").is_equal)
        self.assertTrue(kw.seek(kw.from_table("4_1"), "DT[4,6,8,2]").is_equal)

    def test_signs_tell_the_mirror_images_apart(self):
        for signs, letters in (([1, 1, 1], [1, 1, 1]), ([-1, -1, -1], [-1, -1, -1])):
            self.assertTrue(kw.decide(kw.from_gauss("1 -2 3 -1 2 -3", signs), kw.Braid(letters)).is_equal)


if __name__ == "__main__":
    unittest.main()
