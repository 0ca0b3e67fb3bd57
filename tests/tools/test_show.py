"""Pages of certificates: what is in them, what is refused, and in a browser without a window that the keys and sliders work."""
import html
import json
import os
import re
import shutil
import subprocess
import unittest
from html.parser import HTMLParser

import common

import knot_workbench

SAME = common.read("examples", "check", "right-trefoil-reversed.txt")
APART = common.read("examples", "check", "trefoil-unknot-different.txt")
WEIGHED = common.read("examples", "weights", "two-trefoils-twelve-colours.txt")
EMPTY = ("area", "base", "br", "col", "hr", "img", "input", "link", "meta")


def page(text, *words):
    status, out, said = common.run("show.py", *words, text=text)
    assert (status, said) == (0, ""), said
    return out


def data(text):
    return json.loads(re.search(r'<script type="application/json" id="data">(.*?)</script>', text, re.S)[1])


class Balanced(HTMLParser):
    """Finds elements that aren't closed, and takes together the text that a reader gets without scripts and pictures."""

    def __init__(self):
        super().__init__()
        self.open, self.faults, self.text, self.ids = [], [], "", []

    def handle_starttag(self, tag, attrs):
        self.ids += [value for name, value in attrs if name == "id"]
        if tag not in EMPTY:
            self.open.append(tag)

    def handle_startendtag(self, tag, attrs):
        pass

    def handle_endtag(self, tag):
        if not self.open or self.open.pop() != tag:
            self.faults.append(tag)

    def handle_data(self, data):
        if not {"script", "style", "svg"} & set(self.open):
            self.text += data


def read(text):
    reader = Balanced()
    reader.feed(text)
    return reader


class Pages(unittest.TestCase):
    def test_the_module_makes_the_same_page(self):
        for text, choices, words in ((SAME, {"title": "A title", "quandle": "dihedral 5", "frames": "0,2"}, ["--title", "A title", "--quandle", "dihedral 5", "--frames", "0,2"]),
                                     (APART, {}, []), (WEIGHED, {}, [])):
            self.assertEqual(knot_workbench.page(text, **choices), page(text, *words))
        self.assertEqual(knot_workbench.page(knot_workbench.Certificate.parse(APART)), page(knot_workbench.Certificate.parse(APART).text))
        for wrong, fault in ((7, knot_workbench.BadText), ("x", knot_workbench.BadText)):
            with self.assertRaises(fault):
                knot_workbench.page(wrong)
        for choices in ({"frames": "1,,"}, {"frames": "99"}):
            with self.assertRaises(knot_workbench.NoJob):
                knot_workbench.page(SAME, **choices)
        with self.assertRaises(knot_workbench.NoJob):
            knot_workbench.page(WEIGHED, check=True)

    def test_a_page_stands_alone_and_is_well_formed(self):
        for text in (SAME, APART, WEIGHED, common.read("examples", "replay", "trefoil-word-coloured.txt")):
            out = page(text)
            reader = read(out)
            self.assertEqual((reader.open, reader.faults), ([], []))
            self.assertEqual(len(reader.ids), len(set(reader.ids)))
            # A link that holds what it leads to, the certificate, asks nothing of others.
            own = re.sub(r'"http://www.w3.org/2000/svg"|href="data:[^"]*"', "", out)
            self.assertNotRegex(own, r"https?:|src=|href=|url\(|@import")
            self.assertIn('<meta name="viewport"', out)
            self.assertIn('<html lang="en">', out)

    def test_moves_have_their_words_and_carried_colours(self):
        out = page(SAME)
        reader = read(out)
        self.assertIn("9 moves lead from the first diagram to the second", reader.text)
        moves = [line for line in SAME.splitlines() if line.split()[0] in ("shift", "exchange", "slide", "stabilise", "destabilise")]
        self.assertEqual(re.findall(r'<li value="\d+"><button[^>]*>(.*?)</button>', out), moves)
        frames = data(out)["frames"]
        self.assertEqual([frame[1] for frame in frames], ["", *moves])
        # The first quandle of the built-in list that has a colouring of a trefoil by two colours.
        self.assertIn("a colouring by the quandle dihedral 3, carried along the moves", reader.text)
        for place, _, xs, os_, colours, _ in frames:
            self.assertTrue(is_three_coloured(xs, os_, colours), place)

    def test_what_a_move_changed_is_marked(self):
        text = "x 4 3 2 1 0\no 2 1 0 4 3\nmoves 4\nshift columns 2\nstabilise 0 x lowleft\ndestabilise 0 2\nshift rows 1\n"
        frames = data(page(text, "--plain"))["frames"]
        self.assertEqual([frame[5] for frame in frames], [None, [3, 2, 0, 5], [0, 2, 2, 2], [0, 1, 2, 1], [0, 5, 4, 1]])
        self.assertEqual([frame[0] for frame in data(page(text, "--plain", "--no-shifts"))["frames"]], [0, 2, 3, 4])

    def test_colours_can_be_chosen_or_left_out(self):
        self.assertEqual({frame[4] for frame in data(page(SAME, "--plain"))["frames"]}, {None})
        self.assertIn("by the quandle tetrahedral", read(page(SAME, "--quandle", "tetrahedral")).text)
        # By the dihedral quandle of order 5 a trefoil has no colouring but those of one colour.
        self.assertNotIn("by the quandle", read(page(SAME, "--quandle", "dihedral 5")).text)

    def test_both_lists_stand_in_a_page_of_different(self):
        reader = read(page(APART))
        self.assertIn("by the quandle dihedral 3 the first diagram has 9 colourings, and the second 3", reader.text)
        lines = [line for line in APART.splitlines() if line[0].isdigit()]
        self.assertEqual(re.findall(r"<pre class=\"list\">([^<]*)</pre>", page(APART)), ["\n".join(lines[:9]), "\n".join(lines[9:])])
        self.assertEqual(data(page(APART))["lists"][1], [[0, 0], [1, 1], [2, 2]])

    def test_weights_are_those_of_the_program(self):
        out = page(WEIGHED)
        answer = common.read("examples", "weights", "two-trefoils-twelve-colours.out").splitlines()
        rows = re.findall(r'<tr><th scope="row">the \w+ diagram</th>(.*?)</tr>', out)
        self.assertEqual([["weights", *re.findall(r"<td>(\d+)</td>", row)] for row in rows], [line.split() for line in answer[:2]])
        self.assertEqual(answer[2], "different")
        self.assertIn("These two differ", read(out).text)
        self.assertIn("The cocycle mod 5", read(out).text)
        self.assertEqual({line[-1] for line in data(out)["lists"][0]}, {0, 4})

    def test_numbers_by_a_shadow_cocycle(self):
        begin = common.read("examples", "check", "trefoils-by-regions.txt")
        out = page(begin)
        self.assertIn("How many pairs of a colouring and an outer colour by the quandle dihedral 3 have each weight mod 3", read(out).text)
        self.assertIn("The shadow cocycle is that of Mochizuki's formula, mod 3.", read(out).text)
        table = "shadow 2\n" + "0 1 1 0\n1 0 1 0\n1 1 0 0\n0 0 0 0\n" * 4
        out = page(common.read("examples", "weights", "trefoils-regions.txt").split("\nquandle")[0]
                   + f"\ncertificate 3\ndifferent numbers tetrahedral\n{table}seeds 0 1\nnumbers 16 48\nseeds 0 1\nnumbers 48 16\n")
        self.assertIn("The shadow cocycle mod 2: θ(3, x, y), line x and column y", read(out).text)
        status, out, said = common.run("show.py", text=common.read("examples", "weights", "trefoils-regions.txt"))
        self.assertEqual((status, out), (1, ""))
        self.assertIn("weights by regions are shown of a certificate alone", said)

    def test_numbers_of_the_third_version(self):
        weight = "weight 2\n0 1 1 0\n1 0 1 0\n1 1 0 0\n0 0 0 0\n"
        begin = "braid 2 1 1 1\nbraid 2\ncertificate 3\n"
        text = begin + f"different numbers tetrahedral\n{weight}seeds 3 4\nnumbers 4 12\nseeds 1 2\nnumbers 16 0\n"
        out = page(text)
        rows = re.findall(r'<tr><th scope="row">the \w+ diagram</th>(.*?)</tr>', out)
        self.assertEqual([re.findall(r"<td>(\d+)</td>", row) for row in rows], [["4", "12"], ["16", "0"]])
        self.assertIn("The colours of the columns 3 4 decide a colouring of the first diagram", read(out).text)
        self.assertIn("The cocycle mod 2", read(out).text)
        self.assertIn("Whether these numbers are right, knot check says.", read(out).text)
        out = page("x 4 3 2 1 0\no 2 1 0 4 3\nx 0 1\no 1 0\ncertificate 3\ndifferent numbers dihedral 3\nseeds 0 1\nnumbers 9\nseeds 0\nnumbers 3\n")
        self.assertIn("by the quandle dihedral 3 the first diagram has 9 colourings, and the second 3.", read(out).text)
        pictures = re.findall(r"<svg.*?</svg>", out, re.S)
        self.assertEqual([len(set(re.findall(r">(\d)</text>", picture))) for picture in pictures], [3, 0])
        out = page("braid 2 1 1\nbraid 2\ncertificate 3\ndifferent linking\ncomponents 2\nnumbers 1 1\ncomponents 2\nnumbers 0 0\n")
        self.assertEqual(re.findall(r"<td>(\d+)</td><td>([^<]*)</td>", out), [("2", "1 1"), ("2", "0 0")])
        for text, said in ((begin + "different linking\ncomponents 2\nnumbers 0 0\ncomponents 2\nnumbers 0 0\n", "linking numbers of both diagrams agree"),
                           (begin + "different numbers dihedral 3\nseeds\nnumbers 9\nseeds\nnumbers 9\n", "numbers of both diagrams agree"),
                           (begin + f"different numbers tetrahedral\n{weight}seeds\nnumbers 9\n", "line 11: the line 'numbers' is due, with 2 numbers"),
                           (begin + "equal 0\n", "line 4: a verdict 'different numbers' or 'different linking' is due")):
            status, out, fault = common.run("show.py", text=text)
            self.assertEqual((status, out), (1, ""), text)
            self.assertIn(said, fault)

    def test_a_title_is_escaped(self):
        out = page(SAME, "--title", "3 < 4 & <script>")
        self.assertIn("<title>3 &lt; 4 &amp; &lt;script&gt;</title>", out)
        self.assertIn(f"<h1>{html.escape('3 < 4 & <script>')}</h1>", out)

    def test_frames_are_chosen_as_in_pictures(self):
        self.assertEqual([frame[0] for frame in data(page(SAME, "--frames", "0,4,.."))["frames"]], [0, 4, 8, 9])
        for bad in ("a", "99"):
            self.assertEqual(common.run("show.py", "--frames", bad, text=SAME)[:2], (2, ""))

    def test_too_many_moves_are_refused(self):
        text = "x 0 1\no 1 0\nmoves 20000\n" + 20000 * "shift rows 1\n"
        status, out, said = common.run("show.py", text=text)
        self.assertEqual((status, out), (1, ""))
        self.assertIn("there are 20000 moves, and a page takes 20,000 frames: choose some by frames, as 0,20,..", said)

    def test_a_checked_page_says_so(self):
        stand_in = os.path.join(common.ROOT, "tests", "python", "stand_in.py")
        words = [os.path.join(common.TOOLS, "show.py"), "--check"]
        done = common.call(words, text=SAME, env={**os.environ, "KNOT": stand_in})
        self.assertIn("<code>knot check</code> accepted this certificate", done.stdout)
        self.assertNotIn("accepted", page(SAME))
        short = APART.replace("list 3\n0 0\n", "list 2\n")
        done = common.call(words, text=short, env={**os.environ, "KNOT": stand_in})
        self.assertEqual((done.returncode, done.stdout, done.stderr), (1, "", "show.py: rejected: list 2 0\n"))
        done = common.call(words, text=SAME, env={**os.environ, "KNOT": "/no/such/program"})
        self.assertEqual((done.returncode, done.stderr), (1, "show.py: /no/such/program: no program of this name\n"))
        self.assertEqual(common.call(words, text=WEIGHED).returncode, 2)

    def test_bad_input_is_refused(self):
        trefoil = "x 4 3 2 1 0\no 2 1 0 4 3\n"
        for text, said in ((trefoil, "line 3: a second diagram is due"), (trefoil + "equal 0\n", "line 3: after a diagram moves or a second diagram are due"),
                           (trefoil + trefoil + "unknown budget 5\n", "no evidence to be shown"), (trefoil + trefoil + "equal 1\nexchange columns 0\n", "interleaved"),
                           (trefoil + "x 0 1\no 1 0\nequal 0\n", "don't lead to the second diagram"), (trefoil + trefoil, "line 5"),
                           (APART.replace("0 1 2 0 2", "0 1 2 0 1"), "line 1 of the list of the first diagram, counted from 0, is no colouring"),
                           (common.read("examples", "check", "unknots-same-length.txt"), "both lists have"),
                           (WEIGHED.replace("weight 5", "weight 6"), "no cocycle"), ("", "line 1")):
            status, out, fault = common.run("show.py", text=text)
            self.assertEqual((status, out), (1, ""), text)
            self.assertIn(said, fault)
        self.assertEqual(common.run("show.py", "no such file"), (1, "", "show.py: no such file: No such file or directory\n"))
        self.assertEqual(common.run("show.py", "--quandle", "cyclic 3", text=SAME)[::2], (1, "show.py: line 1: 'cyclic 3' is no name of a quandle\n"))


def is_three_coloured(xs, os_, colours):
    """Whether colours are a colouring by the dihedral quandle of order 3: at each crossing of a row and a column all agree or all differ."""
    for row in range(len(xs)):
        left, right = sorted((xs.index(row), os_.index(row)))
        colour = colours[left]
        for column in range(left + 1, right):
            if min(xs[column], os_[column]) < row < max(xs[column], os_[column]):
                colour = (2 * colours[column] - colour) % 3
        if colour != colours[right]:
            return False
    return True


CHROMIUM = next(filter(None, map(shutil.which, ("chromium", "chromium-browser", "google-chrome"))), None)

# Presses keys and moves sliders, and puts what the page then says into its title.
ACTS = """
<script>
const seen = [];
const key = name => document.body.dispatchEvent(new KeyboardEvent("keydown", { key: name, bubbles: true }));
const now = () => document.getElementById("now").textContent.split(".")[0] + "/" + document.getElementById("walk").querySelectorAll("path").length;
if (document.getElementById("frame")) {
  seen.push(now()); key("ArrowRight"); seen.push(now()); key("End"); seen.push(now()); key("ArrowRight"); seen.push(now()); key("ArrowLeft"); seen.push(now());
  key("Home"); seen.push(now()); document.getElementById("on").click(); seen.push(now());
  document.querySelector('ol button[data-place="3"]').click(); seen.push(now());
  const slider = document.getElementById("frame"); slider.value = 2; slider.dispatchEvent(new Event("input")); seen.push(now());
  seen.push(document.querySelector('ol button[aria-current="true"]').textContent);
}
for (const number of [0, 1]) {
  const slider = document.getElementById("list-" + number);
  if (slider) {
    slider.value = 3; slider.dispatchEvent(new Event("input"));
    seen.push(document.getElementById("said-" + number).textContent + document.querySelectorAll("#picture-" + number + " text").length);
  }
}
document.title = seen.join("|");
</script>
</body>"""


@unittest.skipUnless(CHROMIUM, "there is no browser")
class Browser(unittest.TestCase):
    def acted(self, text):
        """What the page says after each key and click."""
        folder = common.scratch(self)
        path = os.path.join(folder, "page.html")
        with open(path, "w", encoding="utf-8") as out:
            out.write(page(text).replace("</body>", ACTS))
        call = [CHROMIUM, "--headless", "--no-sandbox", "--disable-gpu", f"--user-data-dir={folder}/profile", "--dump-dom", f"file://{path}"]
        done = subprocess.run(call, capture_output=True, text=True, timeout=300, check=False)
        return html.unescape(re.search(r"<title>(.*?)</title>", done.stdout)[1]).split("|")

    def test_keys_buttons_and_the_slider_move_through_the_frames(self):
        moves = [line for line in SAME.splitlines() if line.split()[0] in ("shift", "exchange", "slide", "stabilise", "destabilise")]
        seen = self.acted(SAME)
        self.assertEqual([said.split("/")[0] for said in seen[:9]], [
            "Frame 0 of 9, the first diagram", f"Frame 1 of 9: {moves[0]}", f"Frame 9 of 9: {moves[8]}", f"Frame 9 of 9: {moves[8]}", f"Frame 8 of 9: {moves[7]}",
            "Frame 0 of 9, the first diagram", f"Frame 1 of 9: {moves[0]}", f"Frame 3 of 9: {moves[2]}", f"Frame 2 of 9: {moves[1]}"])
        self.assertEqual(seen[9], moves[1])
        # Five columns, five rows with a gap for each of three crossings, and ten arrows.
        self.assertEqual(seen[0].split("/")[1], str(5 + 5 + 3 + 10))

    def test_sliders_move_through_lists_of_colourings(self):
        self.assertEqual(self.acted(APART), ["Colours 0 2 1 0 1.5", "Colours 2 2.2"])


if __name__ == "__main__":
    unittest.main()
