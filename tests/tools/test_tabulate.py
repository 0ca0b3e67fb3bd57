"""Tests of tools/tabulate.py, with the programs where they are built: a table to few crossings, bad inputs, and what an interrupt leaves."""
import collections
import csv
import html
import os
import signal
import subprocess
import sys
import time
import unittest

import common
import reader
from reader.items import read_table

BUILT = common.built_program()
BUILT_SEEK = os.environ.get("SEEK") or os.path.join(common.ROOT, "crates", "seek", "out", "seek")
EMPTY = "certificate 4\nblocks 0\nclasses 0\nopen 0\nrows 0\n"
HAS_PROGRAMS = bool(BUILT) and os.access(BUILT_SEEK, os.X_OK) and common.call([BUILT, "check"], text=EMPTY).stdout == "accepted\n"
TO_10 = os.path.join(common.ROOT, "tables", "prime-knots-to-10.csv")

SCRIPT = (sys.executable, "-B", os.path.join(common.TOOLS, "tabulate.py"), "--processes", "2")

# How many prime knots there are of so many crossings, up to mirror image and reversal.
PRIME_KNOTS = {3: 1, 4: 1, 5: 2, 6: 3, 7: 7}

# To how many crossings the table of the tests goes; all to seven take a minute or two of a processor.
MOST = int(os.environ.get("TABULATE") or 7)

# Those of their own mirror image, as commonly printed.
AMPHICHEIRAL = {"unknot", "4_1", "6_3"}


def call(*words, **more):
    """A call of the script with the built programs."""
    environment = {**os.environ, "KNOT": BUILT or "", "SEEK": BUILT_SEEK}
    return subprocess.run([*SCRIPT, *words], env=environment, capture_output=True, text=True, check=False, **more)


def read(folder, name):
    with open(os.path.join(folder, name), encoding="utf-8") as source:
        return source.read()


def rows(folder, name):
    return list(csv.DictReader(read(folder, name).splitlines()))


@unittest.skipUnless(HAS_PROGRAMS, "knot and seek are not built, or older than certificates of tables")
class TableTest(unittest.TestCase):
    """A whole table."""

    def test_the_table_has_the_published_numbers(self):
        folder = common.scratch(self)
        done = call(str(MOST), folder, "--table", TO_10, timeout=common.LONG)
        self.assertEqual(done.returncode, 0, done.stdout + done.stderr)
        classes = rows(folder, "table.csv")
        primes = [one for one in classes if one["name"] != "unknot" and "#" not in one["name"]]
        self.assertTrue(all(one["name"] for one in classes))
        self.assertEqual(collections.Counter(int(one["crossings"]) for one in primes), {count: PRIME_KNOTS[count] for count in range(3, MOST + 1)})
        self.assertTrue(all(one["name"].startswith(one["crossings"] + "_") for one in primes))
        self.assertEqual({one["name"] for one in classes if one["mirror_partner"] == one["class"]}, {name for name in AMPHICHEIRAL
                         if name == "unknot" or int(name[0]) <= MOST})
        self.assertEqual({one["reverse"] for one in classes}, {"same"})
        self.assertEqual(sum(int(one["diagrams"]) for one in classes), len(rows(folder, "rows.csv")))
        self.certificates(folder, classes)
        self.page(folder, classes)

    def certificates(self, folder, classes):
        """One certificate has all rows, what turns make of the classes, and what has their names and braids."""
        text = read(folder, "certificate-1.txt")
        self.assertFalse(os.path.exists(os.path.join(folder, "certificate-2.txt")))
        self.assertEqual(common.call([BUILT, "check"], text=text).stdout, "accepted\n")
        _, standing, left, told = read_table(reader.Lines(text.encode()))
        self.assertEqual(left, set())
        self.assertEqual(len(standing), sum(4 // (1 + [one["mirror"], one["reverse"], one["mirror_reverse"]].count("same")) for one in classes))
        given = rows(folder, "rows.csv")
        braids = sum(bool(one["braid_notation"]) for one in classes)
        self.assertGreater(braids, len(classes) // 2)
        self.assertEqual(len(told), len(given) + len(classes) * (4 + 1) + braids)
        certified = [{words.partition(" ")[2]: int(words.partition(" ")[0]) for words in one["certified"].split(", ")} for one in classes]
        for one in given:
            grid, place, _ = told[int(one["row"])]
            self.assertEqual(grid, tuple(tuple(map(int, one[mark].split())) for mark in "xo"))
            self.assertEqual((place, one["certificate"]), (certified[int(one["class"]) - 1][one["turn"]], "certificate-1.txt"))
        # The first row of a class stands for it, without a turn, and so does its braid.
        by_name = {one["name"]: one for one in given}
        for number, one in enumerate(classes, 1):
            self.assertEqual((by_name[one["first"]]["class"], by_name[one["first"]]["turn"]), (str(number), ""))
            self.assertEqual(standing[certified[number - 1][""]][0], tuple(tuple(map(int, one[mark].split())) for mark in "xo"))

    def page(self, folder, classes):
        """The page has a picture for each class."""
        page = read(folder, "page.html")
        self.assertEqual((page.count("<svg "), page.count("<tr data-names=")), (len(classes), len(classes)))
        for one in classes:
            self.assertIn(html.escape(one["pd_notation"]), page)


@unittest.skipUnless(HAS_PROGRAMS, "knot and seek are not built, or older than certificates of tables")
class InputsTest(unittest.TestCase):
    """Folders and tables of diagrams."""

    def setUp(self):
        self.folder = common.scratch(self)
        self.out = os.path.join(self.folder, "out")

    def put(self, name, text):
        path = os.path.join(self.folder, name)
        os.makedirs(os.path.dirname(path), exist_ok=True)
        with open(path, "w", encoding="utf-8") as out:
            out.write(text)
        return path

    def test_bad_rows_are_named_with_their_lines_and_the_others_are_sorted(self):
        table = self.put("codes.csv", "name,pd_notation\n"
                         'good,"PD[[1,4,2,5],[3,6,4,1],[5,2,6,3]]"\n'
                         'crossed,"PD[[1,4,2,5],[3,6,4,1],[5,2,6]]"\n'
                         'torus,"PD[[1,4,2,5],[3,6,4,1],[5,3,6,2]]"\n'
                         'hopf,"PD[[4,1,3,2],[2,3,1,4]]"\n'
                         'good,"PD[[1,4,2,5],[3,6,4,1],[5,2,6,3]]"\n'
                         "cut\n"
                         'mirrored,"PD[[4,2,5,1],[6,4,1,3],[2,6,3,5]]"\n')
        done = call(table, self.out, "--table", TO_10, timeout=common.LONG)
        self.assertEqual(done.returncode, 3, done.stderr)
        for line in (3, 4, 5, 6, 7):
            self.assertIn(f"codes.csv:{line}: ", done.stderr)
        self.assertNotIn("codes.csv:2: ", done.stderr.replace("is at", ""))
        self.assertIn("2 components", done.stderr)
        self.assertEqual([one["name"] for one in rows(self.out, "rows.csv")], ["good", "mirrored"])
        self.assertEqual([one["name"] for one in rows(self.out, "table.csv")], ["3_1"])

    def test_a_table_of_gauss_codes(self):
        table = self.put("codes.csv", 'name,gauss_notation\nplain,"{1,-2,3,-1,2,-3}"\nsigned,O1+U2+O3+U1+O2+U3+\nonce,"{1,-2,3,-1,2}"\n')
        done = call(table, self.out, "--table", TO_10, timeout=common.LONG)
        self.assertEqual((done.returncode, [one["name"] for one in rows(self.out, "table.csv")]), (3, ["3_1"]), done.stderr)
        self.assertIn("codes.csv:4: the crossing 3 is passed once, and not twice", done.stderr)
        self.assertEqual([one["name"] for one in rows(self.out, "rows.csv")], ["plain", "signed"])

    def test_a_folder_of_diagrams(self):
        self.put("in/one.txt", "braid 2 1 1 1\n")
        self.put("in/two.txt", "x 4 3 2 1 0\no 2 1 0 4 3\n")
        self.put("in/three.txt", "braid 3 1 2\n")
        done = call(os.path.join(self.folder, "in"), self.out, "--table", TO_10, timeout=common.LONG)
        self.assertEqual((done.returncode, [one["name"] for one in rows(self.out, "table.csv")]), (0, ["unknot", "3_1"]), done.stderr)

    def test_lines_of_pieces_in_parts(self):
        lines = self.put("lines.txt", "# codes and grids\none\tPD[X[1,5,2,4], X[3,1,4,6], X[5,3,6,2]]\ntwo\t0\tx 4 3 2 1 0 / o 2 1 0 4 3\n"
                         "three\t8\trejected plane\nfour\tbraid 2 1 -1 1\n\nfive\n")
        # Each part names the bad lines of its own rows.
        for part, status in (("1/2", 3), ("2/2", 0)):
            done = call(lines, self.out, "--table", TO_10, "--part", part, timeout=common.LONG)
            self.assertEqual(done.returncode, status, done.stderr)
        self.assertEqual(sorted(os.listdir(self.out)), ["work"])
        before = read(self.out, "work/rows-1-of-2.tsv"), read(self.out, "work/rows-2-of-2.tsv")
        done = call(lines, self.out, "--table", TO_10, timeout=common.LONG)
        self.assertEqual(done.returncode, 3, done.stderr)
        self.assertIn("lines.txt:4: the program ended with status 8: rejected plane", done.stderr)
        self.assertIn("lines.txt:7: ", done.stderr)
        self.assertEqual([(one["name"], one["diagrams"]) for one in rows(self.out, "table.csv")], [("unknot", "1"), ("3_1", "2")])
        # What the parts found isn't looked for again.
        self.assertEqual((read(self.out, "work/rows-1-of-2.tsv"), read(self.out, "work/rows-2-of-2.tsv")), before)
        self.assertNotIn("0\tx", read(self.out, "work/rows.tsv"))

    def test_what_stops_the_call_is_told(self):
        for what in (os.path.join(self.folder, "none"), self.put("empty.csv", ""), self.put("titles.csv", "name,what\nx,y\n")):
            done = call(what, self.out)
            self.assertEqual((done.returncode, "Traceback" in done.stderr, done.stderr.startswith("tabulate.py: ")), (2, False, True), done.stderr)
        for words in (["2", self.out], ["13", self.out], [], ["7"], ["4", self.out, "--nothing"], ["4", self.out, "--part", "3/2"]):
            self.assertEqual(call(*words).returncode, 2)

    def test_a_folder_of_another_table_is_refused(self):
        # The heads are of another table, of the form before this one, and of none.
        for head in ("tabulate 4 another\n", "tabulate 3 another\n", "3.1.1\t3\tPD[]\tx 1 0 / o 0 1\t01000001\t\n"):
            path = self.put("out/work/rows.tsv", head)
            done = call("4", self.out, "--table", TO_10)
            self.assertEqual((done.returncode, done.stdout), (2, ""))
            self.assertEqual(done.stderr, f"tabulate.py: {path}: the folder is of another table or list, or of another version: name another one\n")
            self.assertEqual(read(self.out, "work/rows.tsv"), head)


@unittest.skipUnless(HAS_PROGRAMS, "knot and seek are not built, or older than certificates of tables")
class InterruptTest(unittest.TestCase):
    """An interrupt loses nothing."""

    def test_what_is_known_is_kept_and_the_table_is_the_same(self):
        whole, cut = common.scratch(self), common.scratch(self)
        self.assertEqual(call("4", whole, "--table", TO_10, timeout=common.LONG).returncode, 0)
        for number, book in ((signal.SIGTERM, "rows.tsv"), (signal.SIGINT, "keys.tsv"), (signal.SIGKILL, "numbers.tsv")):
            self.interrupted(cut, number, os.path.join(cut, "work", book))
        before = read(cut, "work/numbers.tsv")
        done = call("4", cut, "--table", TO_10, timeout=common.LONG)
        self.assertEqual(done.returncode, 0, done.stderr)
        self.assertTrue(read(cut, "work/numbers.tsv").startswith(before[:before.rfind("\n") + 1]))
        for name in ("table.csv", "rows.csv", "certificate-1.txt", "page.html"):
            self.assertEqual(read(cut, name), read(whole, name))

    def interrupted(self, folder, number, book):
        """Sends a signal to a call when a book has a line."""
        environment = {**os.environ, "KNOT": BUILT, "SEEK": BUILT_SEEK}
        process = subprocess.Popen([*SCRIPT, "4", folder, "--table", TO_10], env=environment, stdout=subprocess.PIPE, stderr=subprocess.PIPE, text=True,
                                   preexec_fn=common.default_signals)
        end = time.monotonic() + common.LONG
        while process.poll() is None and not (os.path.exists(book) and os.path.getsize(book)):
            self.assertLess(time.monotonic(), end)
            time.sleep(0.01)
        process.send_signal(number)
        said = process.communicate(timeout=common.LONG)[1]
        if number == signal.SIGKILL:
            self.assertEqual(process.returncode, -number)
        else:
            self.assertEqual(process.returncode, 128 + number, said)
            self.assertIn("goes on", said)


if __name__ == "__main__":
    unittest.main()
