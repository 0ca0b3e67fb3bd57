"""Tests of tools/census.py: with a slow stand-in for both programs, which the independent reader answers for, and with the programs themselves
where they are built."""
import csv
import html.parser
import os
import shutil
import signal
import subprocess
import sys
import tempfile
import time
import unittest

import browser
import common
import reader
from knot_workbench.diagrams import Braid, Grid, diagram_text, grid_of, mirror_image, reverse
from knot_workbench.moves import made
from knot_workbench.texts import Lines, read_diagram
from reader.items import read_table

SCRIPT = os.path.join(common.TOOLS, "census.py")
STAND_IN = os.path.join(common.ROOT, "tests", "tools", "small_knot.py")
BUILT = common.built_program()
BUILT_SEEK = os.environ.get("SEEK") or os.path.join(common.ROOT, "crates", "seek", "out", "seek")

TREFOIL = Grid((4, 3, 2, 1, 0), (2, 1, 0, 4, 3))
UNKNOT = Grid((0, 1), (1, 0))
# Two diagrams of the trefoil that exchanges join, and that the stand-in makes no smaller.
LARGER, EXCHANGED = Grid((0, 5, 4, 3, 2, 1), (1, 3, 2, 0, 5, 4)), Grid((0, 1, 5, 4, 3, 2), (4, 2, 3, 1, 0, 5))
# One that neither they nor destabilisations make smaller than six columns.
SEVEN = Grid((3, 2, 1, 0, 4, 6, 5), (1, 4, 6, 3, 5, 2, 0))
SORTED = "6 diagrams: 4 classes, 0 pairs of classes undecided; 4 of 4 certificates accepted\n"
HOPF = Grid((0, 1, 2, 3), (2, 3, 0, 1))
PLAN = """\
# small quandles, since the stand-in is slow
linking  linking
small    numbers +small.txt
mirrors  numbers +{weights}
quick    decide --spare 0
few      seek --steps 5
"""


# A folder with diagrams and their census, and how its making ended; made by the first test that needs it.
BASE = []


class CensusTest(unittest.TestCase):
    def setUp(self):
        self.folder = common.scratch(self)
        self.diagrams = os.path.join(self.folder, "diagrams")
        self.census = os.path.join(self.folder, "census")
        self.log = os.path.join(self.folder, "log")
        os.mkdir(self.diagrams)
        self.seek = os.path.join(self.folder, "seek")
        os.symlink(STAND_IN, self.seek)
        self.put("small.txt", "quandle dihedral 3\nquandle tetrahedral\n")
        self.plan = self.put("plan.txt", PLAN.format(weights=os.path.join(common.LISTS, "weights", "3_1-mirror-3_1.txt")))

    def put(self, name, text):
        path = os.path.join(self.folder, name)
        with open(path, "w", encoding="utf-8") as out:
            out.write(text)
        return path

    def diagram(self, name, diagram):
        self.put(os.path.join("diagrams", name + ".txt"), diagram_text(diagram))

    def environment(self, **more):
        return {**os.environ, "KNOT": STAND_IN, "SEEK": self.seek, "LOG": self.log, **more}

    def words(self, *words):
        return [sys.executable, "-B", SCRIPT, *words]

    def call(self, *words, **more):
        done = subprocess.run(self.words(*words), env=self.environment(**more), capture_output=True, text=True, check=False)
        return done.returncode, done.stdout, done.stderr

    def sort(self, *words, **more):
        return self.call("sort", "--plan", self.plan, "--processes", "4", *words, self.diagrams, self.census, **more)

    def rows(self, name="classes.csv"):
        with open(os.path.join(self.census, name), encoding="utf-8", newline="") as file:
            return list(csv.DictReader(file))

    def classes(self):
        return {row["name"]: (row["class"], row["as"], row["check"]) for row in self.rows()}

    def calls_made(self):
        """The calls since the last look, but for those before the first input is run."""
        if not os.path.exists(self.log):
            return []
        with open(self.log, encoding="utf-8") as file:
            found = file.read().splitlines()
        os.unlink(self.log)
        return found

    def put_sorted(self):
        """The trefoils and a census of them, which is made once for all tests and copied."""
        if not BASE:
            BASE.append(tempfile.TemporaryDirectory())
            self.put_trefoils()
            BASE.append(self.sort())
            shutil.copytree(self.folder, os.path.join(BASE[0].name, "copy"), symlinks=True)
        else:
            os.unlink(self.seek)
            shutil.copytree(os.path.join(BASE[0].name, "copy"), self.folder, symlinks=True, dirs_exist_ok=True)
        self.calls_made()
        return BASE[1]

    def put_trefoils(self):
        self.diagram("a", TREFOIL)
        self.diagram("b", made(made(TREFOIL, ("stabilise", 1, "o", "highleft")), ("shift", "rows", 1)))
        self.diagram("c", mirror_image(TREFOIL))
        self.diagram("d", made(mirror_image(TREFOIL), ("shift", "columns", 2)))
        self.diagram("e", UNKNOT)
        self.diagram("f", Braid(2, ()))


class SortTest(CensusTest):
    def test_a_table_is_sorted_with_a_certificate_for_all_that_is_said(self):
        status, out, errors = self.put_sorted()
        self.assertEqual((status, out), (0, SORTED), errors)
        self.assertEqual(self.classes(), {"a": ("a", "", ""), "b": ("a", "", "accepted"), "c": ("c", "", ""), "d": ("c", "", "accepted"),
                                          "e": ("e", "", ""), "f": ("f", "", "")})
        apart = {(row["first"], row["second"]): (row["by"], row["check"]) for row in self.rows("apart.csv")}
        self.assertEqual(apart, {("a", "c"): ("weights by table 6 of 3_1-mirror-3_1.txt", "accepted"), ("a", "e"): ("dihedral 3", "accepted"),
                                 ("a", "f"): ("linking", "accepted"), ("c", "e"): ("dihedral 3", "accepted"), ("c", "f"): ("linking", "accepted"),
                                 ("e", "f"): ("linking", "accepted")})
        self.assertEqual(self.rows("undecided.csv"), [])
        # All evidence, by the independent reader, as somebody else would check it.
        files = {row["evidence"] for row in self.rows("apart.csv")}
        self.assertEqual(sorted(files), ["apart/a--f.txt", "apart/c--f.txt", "apart/e--f.txt", "certificate-1.txt"])
        for name in files:
            with open(os.path.join(self.census, name), "rb") as file:
                self.assertEqual(reader.answer([b"check"], file.read()).text, b"accepted\n")
        self.rows_of_the_certificate()

    def rows_of_the_certificate(self):
        """Each diagram is in the certificate as it was given, in a class of its own class alone; only those that linking numbers distinguish are
        left open."""
        with open(os.path.join(self.census, "certificate-1.txt"), "rb") as file:
            _, _, left, told = read_table(reader.Lines(file.read()))
        places = {}
        for row in self.rows():
            with open(os.path.join(self.diagrams, row["name"] + ".txt"), encoding="utf-8") as file:
                grid, place, _ = told[int(row["row"])]
                self.assertEqual(grid, tuple(grid_of(read_diagram(Lines(file.read())))))
            places.setdefault(row["class"], set()).add(place)
        self.assertEqual([len(found) for found in places.values()], [1] * 4)
        numbers = {name: found.pop() for name, found in places.items()}
        self.assertEqual(left, {tuple(sorted((numbers[name], numbers["f"]))) for name in "ace"})

    def test_again_nothing_is_run_and_a_new_diagram_joins_what_stands(self):
        self.put_sorted()
        before = self.classes()
        self.assertEqual(self.sort()[0], 0)
        # The programs were only tried before the first input.
        self.assertEqual(self.calls_made(), ["decide --spare 0", "seek --steps 5"])
        self.assertEqual(self.classes(), before)
        # One that comes before all others by its name doesn't become the first of the class.
        self.diagram("0", made(TREFOIL, ("shift", "rows", 3)))
        self.assertEqual(self.sort()[0], 0)
        self.assertEqual(self.classes(), {**before, "0": ("a", "", "accepted")})
        # It is a translate, whose key is known.
        self.assertEqual(self.calls_made(), ["decide --spare 0", "seek --steps 5", "check"])

    def test_mirror_images_and_reverses_by_option(self):
        self.put_trefoils()
        self.diagram("g", reverse(made(TREFOIL, ("shift", "rows", 1))))
        status, out, errors = self.sort("--mirror", "--reverse")
        self.assertEqual(status, 0, errors)
        found = self.classes()
        self.assertEqual({name: row[0] for name, row in found.items()}, {"a": "a", "b": "a", "c": "a", "d": "a", "e": "e", "f": "f", "g": "a"})
        self.assertIn("mirror image", found["c"][1])
        self.assertEqual({row[2] for row in found.values()}, {"", "accepted"})
        # Two classes are apart where each turn is distinguished.
        self.assertEqual([row["as"] for row in self.rows("apart.csv") if (row["first"], row["second"]) == ("a", "e")],
                         ["", "mirror image", "reverse", "reversed mirror image"])

    def test_what_nothing_joins_is_undecided_with_what_was_tried(self):
        self.diagram("a", TREFOIL)
        self.diagram("b", SEVEN)
        status, out, _ = self.sort(LONELY="1")
        self.assertEqual((status, out), (1, "2 diagrams: 2 classes, 1 pairs of classes undecided; 1 of 1 certificates accepted\n"))
        row, = self.rows("undecided.csv")
        self.assertEqual((row["first"], row["second"]), ("a", "b"))
        self.assertEqual(row["tried"], "3 numbers alike; quick: decide --spare 0: nothing found; few: seek --steps 5: nothing found")

    def test_translates_and_those_with_one_least_diagram_are_joined_without_a_search(self):
        self.diagram("a", LARGER)
        self.diagram("b", mirror_image(EXCHANGED))
        self.diagram("c", made(LARGER, ("shift", "rows", 2)))
        self.diagram("d", made(mirror_image(LARGER), ("shift", "rows", 3)))
        status, out, errors = self.sort("--mirror", LONELY="1")
        self.assertEqual((status, out), (0, "4 diagrams: 1 classes, 0 pairs of classes undecided; 1 of 1 certificates accepted\n"), errors)
        self.assertEqual({name: row[1] for name, row in self.classes().items()}, {"a": "", "b": "mirror image", "c": "", "d": "mirror image"})
        # Nothing but keys was asked for, and of each translate once; knots have no linking numbers.
        made_now = self.calls_made()
        self.assertEqual([made_now.count(job) for job in ("linking", "numbers", "seek --quiet --steps 5 -")], [0, 0, 0])

    def test_evidence_on_demand(self):
        self.put_sorted()
        for names, due, said in ((("d", "b"), 0, "a and c: weights by table 6 of 3_1-mirror-3_1.txt: accepted"),
                                 (("b", "e"), 0, "a and e: dihedral 3: accepted"),
                                 (("f", "e"), 0, "e and f: linking: accepted"), (("c", "d"), 1, "c and d are in one class, that of c")):
            status, out, errors = self.call("apart", self.census, *names)
            self.assertEqual((status, errors.splitlines()[-1]), (due, f"census.py: {said}"))
            self.assertEqual(reader.answer([b"check"], out.encode()).text, b"accepted\n")
            if "f" not in names:
                # It is of the two diagrams as they were given.
                _, _, left, told = read_table(reader.Lines(out.encode()))
                grids = []
                for name in names:
                    with open(os.path.join(self.diagrams, name + ".txt"), encoding="utf-8") as file:
                        grids.append(tuple(grid_of(read_diagram(Lines(file.read())))))
                self.assertEqual(([grid for grid, _, _ in told], len({place for _, place, _ in told}), left), (grids, 2 - due, set()))
        self.assertEqual(self.call("apart", self.census, "c", "nobody")[0], 2)
        self.assertEqual(self.call("apart", self.census, "c")[0], 2)
        # What is new isn't sorted on the way.
        self.diagram("g", LARGER)
        status, out, errors = self.call("apart", self.census, "b", "e")
        self.assertEqual((status, out), (2, ""))
        self.assertIn("call `sort` first", errors)

    def test_evidence_for_mirror_images_too(self):
        self.diagram("a", TREFOIL)
        self.diagram("b", UNKNOT)
        self.diagram("c", mirror_image(TREFOIL))
        self.assertEqual(self.sort("--mirror")[0], 0)
        status, out, errors = self.call("apart", self.census, "b", "c")
        self.assertEqual(status, 0, errors)
        self.assertIn("census.py: a and b: dihedral 3: accepted\ncensus.py: a and b, mirror image: dihedral 3: accepted\n", errors)
        self.assertEqual(reader.answer([b"check"], out.encode()).text, b"accepted\n")
        self.assertEqual(len(read_table(reader.Lines(out.encode()))[3]), 3)
        status, out, errors = self.call("apart", self.census, "a", "c")
        self.assertEqual((status, reader.answer([b"check"], out.encode()).text), (1, b"accepted\n"), errors)
        self.assertEqual(len({place for _, place, _ in read_table(reader.Lines(out.encode()))[3]}), 1)

    def test_a_diagram_that_is_none_is_named_and_the_others_are_sorted(self):
        self.diagram("a", TREFOIL)
        self.put(os.path.join("diagrams", "b.txt"), "x 0 0\no 1 1\n")
        self.diagram("c", made(TREFOIL, ("shift", "rows", 1)))
        os.mkdir(os.path.join(self.diagrams, "d.txt"))
        status, out, errors = self.sort()
        self.assertEqual((status, out), (3, "2 diagrams: 1 classes, 0 pairs of classes undecided; 1 of 1 certificates accepted\n"))
        self.assertIn("b.txt: line 1: the Xs don't have each row", errors)
        self.assertIn("d.txt: it is a folder", errors)

    def test_calls_that_cannot_be_done(self):
        self.assertIn("no file NAME.txt", self.sort()[2])
        self.diagram("a", TREFOIL)
        self.assertEqual(self.call("apart", self.census)[0], 2)
        self.assertEqual(self.call("sort", self.diagrams)[0], 2)
        self.assertEqual(self.sort("--part", "3/2")[0], 2)
        self.assertEqual(self.sort("--processes", "0")[0], 2)
        self.assertFalse(os.path.exists(self.census))


class SpreadTest(CensusTest):
    def test_parts_draw_and_a_last_call_sorts(self):
        self.put_trefoils()
        ended = [self.sort("--part", f"{part}/2") for part in (1, 2)]
        self.assertEqual([one[:2] for one in ended], [(0, f"part {part}/2: 3 of 3 diagrams are drawn\n") for part in (1, 2)])
        self.assertEqual(sorted(os.listdir(self.census)), ["census.json", "names.txt", "work"])
        self.assertEqual(self.sort()[:2], (0, SORTED))

    def test_stopped_at_any_point_it_goes_on(self):
        self.put_trefoils()
        words = self.words("sort", "--plan", self.plan, "--processes", "2", self.diagrams, self.census)
        for _ in range(3):
            # Some calls after the two by which the programs are tried, so that it hears signals by then.
            calls = len(self.logged()) + 6
            with subprocess.Popen(words, env=self.environment(), stdout=subprocess.PIPE, stderr=subprocess.PIPE, text=True,
                                  preexec_fn=common.default_signals) as process:
                while process.poll() is None and len(self.logged()) < calls:
                    time.sleep(0.02)
                process.send_signal(signal.SIGTERM)
                out, errors = process.communicate()
            self.assertEqual((process.returncode, out), (128 + signal.SIGTERM, ""), errors)
            self.assertIn("stopped by signal 15; called again, it goes on", errors)
        parts = [name for _, _, names in os.walk(self.census) for name in names if name.endswith(".part")]
        self.assertEqual(parts, [])
        self.assertEqual(self.sort()[:2], (0, SORTED))

    def test_a_folder_of_another_version_is_refused(self):
        self.put_sorted()
        work, tried = os.path.join(self.census, "work"), []
        for name in sorted(os.listdir(work)):
            path = os.path.join(work, name)
            with open(path, "rb") as file:
                before = file.read()
            # As books were before: lines without sums, and no head.
            lines = [line.rpartition("\t")[0] + "\n" for line in before.decode().splitlines()[1:]]
            if lines:
                tried.append(name)
                self.put(path, "".join(lines))
                refused = f"census.py: {path}: the folder is of another version: name another one\n"
                self.assertEqual(self.sort(), (2, "", refused))
                with open(path, "wb") as file:
                    file.write(before)
        self.assertLess({"keys.tsv", "numbers.tsv", "rows.tsv"}, set(tried))
        self.assertEqual(self.sort()[:2], (0, SORTED))

    def logged(self):
        if not os.path.exists(self.log):
            return []
        with open(self.log, encoding="utf-8") as file:
            return file.read().splitlines()


class Elements(html.parser.HTMLParser):
    """The elements of a page, and those that are open at its end."""

    EMPTY = ("meta", "input", "br")

    def __init__(self):
        super().__init__()
        self.open, self.seen, self.values = [], [], []

    def handle_starttag(self, tag, attrs):
        self.seen.append(tag)
        self.values += [value for name, value in attrs if name in ("href", "src")]
        if tag not in self.EMPTY:
            self.open.append(tag)

    def handle_endtag(self, tag):
        if self.open.pop() != tag:
            raise AssertionError(tag)


# The classes as they are on the page, by the names that are shown.
SHOWN = '[...document.querySelectorAll("tbody tr")].filter(row => !row.hidden).map(row => row.querySelector("summary").textContent).join(" ")'
FOCUSED = "document.activeElement.textContent"
STATUS = 'document.getElementById("status").textContent'
SORTED_BY = '[...document.querySelectorAll("th")].map(one => one.getAttribute("aria-sort")).join(" ").trim()'
ALL_DRAWN = '[...document.querySelectorAll("td svg")].every(one => one.getBoundingClientRect().height > 20)'


class Page(CensusTest):
    def setUp(self):
        super().setUp()
        self.put_sorted()
        with open(os.path.join(self.census, "classes.html"), encoding="utf-8") as file:
            self.text = file.read()

    def test_the_page_stands_alone(self):
        page = Elements()
        page.feed(self.text)
        page.close()
        self.assertEqual(page.open, [])
        self.assertEqual((page.seen.count("svg"), page.seen.count("tr")), (4, 5))
        # Its only links lead to the certificate beside it.
        self.assertEqual(page.values, ["certificate-1.txt"] * 2)

    @unittest.skipUnless(browser.PROGRAM, "no browser is installed")
    def test_it_is_sorted_and_searched_by_keys_in_a_browser(self):
        with browser.Browser() as page:
            page.open(os.path.join(self.census, "classes.html"))
            self.assertEqual((page.value(SHOWN), page.value(ALL_DRAWN)), ("a c e f", True))
            page.press("Tab", "Tab", "Tab", "Tab")
            self.assertEqual(page.value(FOCUSED), "columns")
            page.press("Enter")
            self.assertEqual((page.value(SHOWN), page.value(STATUS)), ("e f a c", "sorted by columns, ascending"))
            page.press(" ")
            self.assertEqual((page.value(SHOWN), page.value(SORTED_BY)), ("a c f e", "descending"))
            page.press("Tab", "Tab", "Tab", "Enter")
            self.assertEqual((page.value(FOCUSED), page.value("document.activeElement.parentElement.open")), ("a", True))
            page.value('document.getElementById("find").focus()')
            page.press("b")
            self.assertEqual((page.value(SHOWN), page.value(STATUS)), ("a", "1 of 4 classes shown"))


@unittest.skipUnless(BUILT and os.access(BUILT_SEEK, os.X_OK), "knot and seek are not built here; KNOT and SEEK may name built ones")
class BuiltTest(CensusTest):
    """With the programs themselves."""

    def environment(self, **more):
        return {**os.environ, "KNOT": BUILT, "SEEK": BUILT_SEEK, **more}

    def test_words_and_grids_of_four_knots(self):
        self.put_trefoils()
        self.diagram("g", Braid(3, (1, -2, 1, -2)))
        self.diagram("h", Braid(3, (-1, 2, -1, 2)))
        self.diagram("i", Braid(4, (1, 1, -1, -2, 1, -2, 3)))
        self.diagram("j", HOPF)
        status, out, errors = self.call("sort", "--plan", self.plan_of_built(), self.diagrams, self.census)
        self.assertEqual(status, 0, errors)
        self.assertEqual({row["name"]: row["class"] for row in self.rows()},
                         {"a": "a", "b": "a", "c": "c", "d": "c", "e": "e", "f": "f", "g": "g", "h": "g", "i": "g", "j": "j"})
        self.assertEqual({row["check"] for row in self.rows()}, {"", "accepted"})

    def test_an_array_job_of_the_examples_sorts_them_as_one_call_does(self):
        diagrams = os.path.join(common.ROOT, "examples", "census", "diagrams")
        alone = self.census
        status, out, errors = self.call("sort", diagrams, alone)
        self.assertEqual(status, 0, errors)
        self.census = os.path.join(self.folder, "array")
        tasks = []
        for task in ("1", "2", "3"):
            slurm = {"SLURM_ARRAY_TASK_ID": task, "SLURM_ARRAY_TASK_COUNT": "3", "SLURM_ARRAY_TASK_MIN": "1", "SLURM_ARRAY_TASK_MAX": "3", "SLURM_CPUS_PER_TASK": "1"}
            tasks.append(subprocess.Popen(["sh", os.path.join("examples", "census", "array-job.sh"), diagrams, self.census], env=self.environment(**slurm),
                                          stdin=subprocess.DEVNULL, stdout=subprocess.PIPE, stderr=subprocess.PIPE, text=True, cwd=common.ROOT))
        for task in tasks:
            said, errors = task.communicate(timeout=common.LONG)
            self.assertEqual(task.returncode, 0, errors)
            self.assertIn("diagrams are drawn", said)
        self.assertEqual(self.call("sort", diagrams, self.census)[:2], (0, out))
        for name in ("classes.csv", "apart.csv", "undecided.csv", "certificate-1.txt"):
            with open(os.path.join(alone, name), encoding="utf-8") as one, open(os.path.join(self.census, name), encoding="utf-8") as other:
                self.assertEqual(other.read(), one.read())

    def plan_of_built(self):
        plan = PLAN.format(weights=os.path.join(common.LISTS, "weights", "T5.txt"))
        return self.put("built.txt", plan.replace("--spare 0", "").replace("--steps 5", "--steps 100000"))


if __name__ == "__main__":
    unittest.main()
