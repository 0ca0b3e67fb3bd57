"""Pictures of grids: verticals over horizontals, gaps, arrows, colours, frames, and bad input."""
import os
import re
import tempfile
import unittest
import xml.etree.ElementTree as tree

import common
import draw

SVG = "{http://www.w3.org/2000/svg}"
TREFOIL = "x 4 3 2 1 0\no 2 1 0 4 3\n"
CELL = 24


def drawn(text, *words):
    status, out, said = common.run("draw.py", *words, text=text)
    assert status == 0, said
    return tree.fromstring(out)


def segments(picture):
    """The strands as ((x1, y1), (x2, y2), ink)."""
    found = []
    for path in picture.findall(f"{SVG}g/{SVG}path"):
        a, b, c, d = map(float, re.fullmatch(r"M(\S+) (\S+) L(\S+) (\S+)", path.get("d")).groups())
        found.append(((a, b), (c, d), path.get("stroke")))
    return found


def arrows(picture):
    return picture.findall(f"{SVG}path")


class Pictures(unittest.TestCase):
    def test_each_column_is_one_piece_and_each_row_has_a_gap_for_each_crossing(self):
        found = segments(drawn(TREFOIL))
        verticals = [segment for segment in found if segment[0][0] == segment[1][0]]
        horizontals = [segment for segment in found if segment[0][1] == segment[1][1]]
        self.assertEqual((len(verticals), len(horizontals)), (5, 8))
        # Row 2 goes from column 0 to column 2 and passes under column 1.
        level = 0.3 * CELL + 5 * CELL - 2.5 * CELL
        row = sorted((min(a[0], b[0]), max(a[0], b[0])) for a, b, _ in horizontals if abs(a[1] - level) < 0.01)
        self.assertEqual(len(row), 2)
        column = verticals[1][0][0]
        self.assertLess(row[0][1], column)
        self.assertGreater(row[1][0], column)

    def test_no_horizontal_meets_a_vertical_but_at_its_ends(self):
        for text in (TREFOIL, "braid 3 1 -2 1 -2\n", "braid 4 1 2 -3 2 -1 3\n"):
            found = segments(drawn(text))
            for (x, y1), (x2, y2), _ in found:
                if x != x2:
                    continue
                for (a, y), (b, other), _ in found:
                    if y == other and min(y1, y2) < y < max(y1, y2):
                        self.assertFalse(min(a, b) <= x <= max(a, b), text)

    def test_each_segment_has_an_arrow_that_leads_with_it(self):
        picture = drawn(TREFOIL)
        self.assertEqual(len(arrows(picture)), 10)
        tip, first, second = (tuple(map(float, corner.split())) for corner in re.findall(r"[ML](\S+ \S+)", arrows(picture)[5].get("d")))
        # Column 0 has its X above its O: its arrow leads down the page.
        self.assertGreater(tip[1], max(first[1], second[1]))
        tip, first, second = (tuple(map(float, corner.split())) for corner in re.findall(r"[ML](\S+ \S+)", arrows(picture)[0].get("d")))
        # Row 0 leads from the O of column 2 to the X of column 4.
        self.assertGreater(tip[0], max(first[0], second[0]))

    def test_a_colouring_colours_the_pieces_as_the_walk_goes(self):
        picture = drawn(TREFOIL + "quandle dihedral 3\ncolours 0 1 2 0 2\n")
        found = segments(picture)
        level = 0.3 * CELL + 5 * CELL - 2.5 * CELL
        row = sorted((min(a[0], b[0]), ink) for a, b, ink in found if a[1] == b[1] and abs(a[1] - level) < 0.01)
        self.assertEqual([ink for _, ink in row], [draw.PALETTE[0], draw.PALETTE[2]])
        columns = [ink for a, b, ink in found if a[0] == b[0]]
        self.assertEqual(columns, [draw.PALETTE[colour] for colour in (0, 1, 2, 0, 2)])
        self.assertEqual([word.text for word in picture.iter(f"{SVG}text")], ["0", "1", "2", "0", "2"])

    def test_frames_have_the_moves_and_the_carried_colours(self):
        picture = drawn(common.read("examples", "replay", "trefoil-word-coloured.txt"))
        words = [word.text for word in picture.iter(f"{SVG}text")]
        self.assertIn("1. exchange columns 3", words)
        self.assertEqual([word for word in words if word.isdigit()], list("0120110" + "0122010"))

    def test_a_certificate_has_a_frame_for_each_move(self):
        picture = drawn(common.read("examples", "check", "disguised-unknot.txt"), "--across", "2")
        words = [word.text for word in picture.iter(f"{SVG}text")]
        self.assertEqual(words, ["0.", "1. destabilise 2 2", "2. destabilise 1 1", "3. destabilise 0 0"])

    def captions(self, text, *words):
        return [word.text for word in drawn(text, *words).iter(f"{SVG}text")]

    def test_frames_can_be_chosen(self):
        text = TREFOIL + "moves 6\n" + "".join(f"shift {which} 1\n" for which in ("rows", "columns") * 3)
        self.assertEqual(self.captions(text, "--frames", "0,2,.."), ["0.", "2. ... shift columns 1", "4. ... shift columns 1", "6. ... shift columns 1"])
        self.assertEqual(self.captions(text, "--frames", "0,4,.."), ["0.", "4. ... shift columns 1", "6. ... shift columns 1"])
        self.assertEqual(self.captions(text, "--frames", "1..2,5,99"), ["1. ... shift rows 1", "2. shift columns 1", "5. ... shift rows 1"])
        self.assertEqual(self.captions(text, "--frames", "4,.."), ["4. ... shift columns 1", "5. shift rows 1", "6. shift columns 1"])
        for bad in ("..", "a", "3,2,..", "99", "1,,2"):
            status, out, said = common.run("draw.py", "--frames", bad, text=text)
            self.assertEqual((status, out), (2, ""), bad)
            self.assertIn(f"--frames {bad} names no", said)

    def test_shifts_can_be_left_out(self):
        text = TREFOIL + "moves 4\nshift rows 1\nstabilise 0 x lowleft\nshift columns 1\nshift rows 2\n"
        self.assertEqual(self.captions(text, "--no-shifts"), ["0.", "2. ... stabilise 0 x lowleft", "4. ... shift rows 2"])

    def test_a_picture_says_what_it_shows(self):
        for text, title, said in ((TREFOIL, "A grid diagram of 5 columns", "Xs in rows 4 3 2 1 0, Os in rows 2 1 0 4 3."),
                                  (TREFOIL + "quandle dihedral 3\ncolours 0 1 2 0 2\n", "A grid diagram of 5 columns", "colours 0 1 2 0 2 by dihedral 3."),
                                  (common.read("examples", "check", "disguised-unknot.txt"), "4 grid diagrams of 2 to 5 columns, along moves",
                                   "Frame 3, destabilise 0 0: Xs in rows 0 1, Os in rows 1 0.")):
            picture = drawn(text)
            self.assertEqual(picture.get("role"), "img")
            self.assertEqual(picture[0].tag, f"{SVG}title")
            self.assertEqual(picture[0].text, title)
            self.assertTrue(picture.find(f"{SVG}desc").text.endswith(said))
        self.assertEqual(drawn(TREFOIL, "--title", "3 < 4 & more")[0].text, "3 < 4 & more")

    def test_a_verdict_different_has_both_diagrams_in_a_colouring_each(self):
        picture = drawn(common.read("examples", "check", "trefoil-unknot-different.txt"))
        self.assertEqual([word.text for word in picture.iter(f"{SVG}text")], ["9 colourings", "0", "1", "2", "0", "2", "3 colourings", "0", "0"])
        self.assertEqual(picture[0].text, "Two grid diagrams that differ: 9 colourings and 3 colourings")
        self.assertEqual({ink for _, _, ink in segments(picture)}, set(draw.PALETTE[:3]))
        # By a table, with the line of a version, and with a list that has nothing.
        self.assertIn("table 3", drawn(common.read("examples", "check", "trefoil-unknot-by-a-table.txt")).find(f"{SVG}desc").text)
        words = [word.text for word in drawn("x 0 1\no 1 0\nx 0 1\no 1 0\ncertificate 2\ndifferent trivial 2\nlist 0\nlist 1\n1 1\n").iter(f"{SVG}text")]
        self.assertEqual(words, ["0 colourings", "1 colourings", "1", "1"])

    def test_numbers_of_the_third_version_stand_above_both_diagrams(self):
        begin = TREFOIL + "x 0 1\no 1 0\ncertificate 3\n"
        weight = "weight 2\n0 1 1 0\n1 0 1 0\n1 1 0 0\n0 0 0 0\n"
        for said, captions in (("different numbers dihedral 3\nseeds 0 1\nnumbers 9\nseeds 0\nnumbers 3\n", ["9 colourings", "3 colourings"]),
                               (f"different numbers tetrahedral\n{weight}seeds 0 1\nnumbers 4 12\nseeds 0\nnumbers 4 0\n", ["weights 4 12", "weights 4 0"]),
                               ("different linking\ncomponents 1\nnumbers\ncomponents 2\nnumbers 1 1\n", ["linking numbers none", "linking numbers 1 1"])):
            self.assertEqual(self.captions(begin + said), captions)

    def test_more_than_sixteen_colours_can_be_drawn(self):
        picture = drawn("x 0 1\no 1 0\nquandle trivial 32\ncolours 31 31\n")
        self.assertEqual([word.text for word in picture.iter(f"{SVG}text")], ["31", "31"])

    def test_the_pictures_of_the_guide_are_what_the_script_writes(self):
        for name, words, text in (
                ("right-trefoil.svg", ["--marks"], TREFOIL),
                ("right-trefoil-coloured.svg", [], TREFOIL + "quandle dihedral 3\ncolours 0 1 2 0 2\n"),
                ("disguised-unknot.svg", [], common.read("examples", "check", "disguised-unknot.txt")),
                ("trefoil-unknot-different.svg", [], common.read("examples", "check", "trefoil-unknot-different.txt")),
                ("trefoil-word-coloured.svg", [], common.read("examples", "replay", "trefoil-word-coloured.txt"))):
            self.assertEqual(common.run("draw.py", *words, text=text)[:2], (0, common.read("docs", "pictures", name)))

    def test_a_picture_stands_alone(self):
        for name in os.listdir(os.path.join(common.ROOT, "docs", "pictures")):
            if not name.endswith(".svg"):
                continue
            text = common.read("docs", "pictures", name)
            self.assertNotIn("href", text)
            self.assertNotIn("url(", text)
            tree.fromstring(text)

    def test_a_file_is_written(self):
        with tempfile.TemporaryDirectory() as folder:
            path = os.path.join(folder, "out.svg")
            self.assertEqual(common.run("draw.py", "--out", path, text=TREFOIL), (0, "", ""))
            tree.parse(path)

    def test_bad_input_is_refused(self):
        self.assertEqual(common.run("draw.py", "--help")[0], 0)
        for text, said in ((TREFOIL + "moves 1\nexchange columns 0\n", "interleaved"), (TREFOIL + "quandle dihedral 3\ncolours 0 1 2 0 1\n", "no colouring"),
                           (TREFOIL + "quandle dihedral 3\ncolours 0 1 2\n", "line 4"), (TREFOIL + "quandle dihedral 3\n", "line 4"),
                           (TREFOIL + "colours 0 0 0 0 0\n", "line 3: a quandle is due before the colours"), ("x 0 1\n", "line 2"), ("", "line 1"),
                           (TREFOIL + TREFOIL + "unknown budget 5\n", "line 5: after two diagrams and quandles a verdict 'equal' or 'different' is due"), (TREFOIL + "moves 2\nshift rows 1\n", "line 5"),
                           (TREFOIL + "moves 1\nshift rows 9\n", "range")):
            status, out, fault = common.run("draw.py", text=text)
            self.assertEqual((status, out), (1, ""), text)
            self.assertIn(said, fault)
        self.assertEqual(common.run("draw.py", "no such file"), (1, "", "draw.py: no such file: No such file or directory\n"))
        self.assertEqual(common.run("draw.py", "--out", "/no/such/folder", text=TREFOIL), (1, "", "draw.py: /no/such/folder: No such file or directory\n"))
        path = os.path.join(common.scratch(self), "bad.txt")
        with open(path, "w", encoding="utf-8") as out:
            out.write("x 0 1\no 0 1\n")
        self.assertEqual(common.run("draw.py", path)[2], f"draw.py: {path}: line 2: column 0 has its X and its O in one cell\n")
        text = "x 0 1\no 1 0\nx 0 1\no 1 0\ndifferent dihedral 3\nlist 1\n0 1\nlist 0\n"
        self.assertEqual(common.run("draw.py", text=text), (1, "", "draw.py: line 7: the colours are no colouring\n"))
        self.assertEqual(common.run("draw.py", "--cell", "1", text=TREFOIL)[0], 2)


if __name__ == "__main__":
    unittest.main()
