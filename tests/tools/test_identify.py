"""Tests of tools/identify.py: with stand-ins, and with the programs themselves where they are built."""
import csv
import io
import os
import signal
import subprocess
import sys
import time
import unittest
from concurrent.futures import ThreadPoolExecutor

import common
from knot_workbench import Braid, Grid, KnotTable, identify
from knot_workbench.diagrams import grid_text
from three_knots import BUILT, BUILT_SEEK, EIGHT, IdentifyTest, LEFT, LIST, MADE, STAND_IN, SYMMETRY, TABLE


class OneDiagram(IdentifyTest):
    def test_a_diagram_of_the_table_has_its_name(self):
        self.assertEqual(self.identify("-", text=grid_text(EIGHT)), (0, "4_1\n", ""))

    def test_the_right_trefoil_is_the_left_one_mirrored(self):
        self.assertEqual(self.identify("-", text=grid_text(LEFT)), (0, "3_1\n", ""))
        self.assertEqual(self.identify("-", text=grid_text(LEFT.mirror())), (0, "3_1 mirrored\n", ""))

    def test_the_unknot(self):
        self.assertEqual(self.identify("--braid", "1"), (0, "unknot\n", ""))

    def test_a_knot_that_no_entry_has_the_numbers_of_is_none_of_the_table(self):
        # 6_1 has 9 colourings by dihedral 3, 4 by the tetrahedral quandle and 5 by dihedral 5.
        self.assertEqual(self.identify("--braid", "4 1 1 2 -1 -3 2 -3")[:2], (0, "none of the table\n"))

    def test_a_knot_with_the_numbers_of_the_unknot_may_be_it(self):
        # The closure is the unknot in eight columns, which the stand-in doesn't make smaller, and 5_2 has no other numbers by this list.
        for word in ("3 1 2", "3 -1 2 -1 2 2 2"):
            self.assertEqual(self.identify("--braid", word), (1, "open\n", "identify.py: candidates: unknot\n"))

    def test_a_link_is_told_and_not_looked_up(self):
        self.assertEqual(self.identify("--braid", "2 1 1"), (1, "link of 2 components\n", ""))
        self.assertFalse(os.path.exists(self.log))

    def test_candidates_that_no_walk_joins_are_told(self):
        # The closure has seven columns, which the stand-in doesn't make smaller, and it joins by shifts alone.
        status, out, said = self.identify("--braid", "3 1 -2 1 -2")
        self.assertEqual((status, out), (1, "open\n"))
        self.assertTrue(said.startswith("identify.py: candidates: 4_1"), said)


class Certificates(IdentifyTest):
    def test_a_certificate_leads_to_the_diagram_of_the_table(self):
        folder = os.path.join(self.folder, "certificates")
        shifted = Grid(EIGHT.xs[2:] + EIGHT.xs[:2], EIGHT.os[2:] + EIGHT.os[:2])
        path = self.put("eight.txt", grid_text(shifted))
        self.assertEqual(self.identify(path, "--certificates", folder)[:2], (0, "4_1\n"))
        text = self.read("certificates/eight.txt")
        self.assertTrue(text.startswith(grid_text(shifted) + grid_text(EIGHT)), text)
        self.assertEqual(common.call([sys.executable, STAND_IN, "check"], text).stdout, "accepted\n")


class BadInput(IdentifyTest):
    def answer(self, text):
        status, out, said = self.identify("-", text=text)
        self.assertEqual((status, out), (1, "refused\n"), said)
        return said.removeprefix("identify.py: ")

    def test_each_has_its_own_line(self):
        self.assertEqual(self.answer(""), "there is no diagram: the file is empty\n")
        self.assertEqual(self.answer("x 0 1\no 0 1\n"), "line 2: column 0 has its X and its O in one cell\n")
        self.assertIn("a Gauss code, and not a braid word; --as gauss takes it for one", self.answer("[1,-1,2,-2,3,-3]\n"))
        self.assertIn("at most 48 are taken", self.answer(f"braid 2 {'1 ' * 45}\n"))

    def test_a_file_with_several_codes_is_no_diagram(self):
        codes = "PD[X[1,1,2,2]]\nPD[X[1,5,2,4],X[3,1,4,6],X[5,3,6,2]]\n"
        for text in (codes, "# two codes\n\n" + codes, "X1122\nX1524 X3146 X5362\n", "[[1,5,2,4],[3,1,4,6],[5,3,6,2]]\n" * 2, "DT[4,6,2]\n[4,6,8,2]\n",
                     codes + "X12345\n"):
            self.assertIn("; several lines of the file are codes of their own: make it a table with a line for each (docs/GUIDE.md, ", self.answer(text))
        for text in ("X[1,5,2,4]\nX[3,1,4,6]\nX[5,3,6,3]\n", "X1524 X3146\nX5363\n", codes.split("\n")[1].replace("X[1,", "X[7,"), "DT[4,6,8]\n"):
            self.assertNotIn("several", self.answer(text))

    def test_a_row_without_a_diagram_is_kept_and_says_so(self):
        table = self.put("given.csv", 'name,braid_notation\nnone,\nlink,"{1,1}"\nshort\nunknot,"{1}"\n')
        status, _, said = self.identify(table, "--out", os.path.join(self.folder, "out.csv"))
        self.assertEqual((status, said), (1, ""))
        rows = self.rows(os.path.join(self.folder, "out.csv"))
        self.assertEqual([row["name"] for row in rows], ["none", "link", "short", "unknot"])
        self.assertEqual([row["answer"] for row in rows], ["refused", "link of 2 components", "refused", "unknot"])
        self.assertEqual(rows[0]["said"], "there is no diagram: the entry is empty")
        self.assertEqual(rows[2]["said"], "the row has 1 fields, and the header 2")

    def test_a_table_of_knots_that_was_cut_or_changed(self):
        cases = (("knots.csv", TABLE[:-20], "the table was cut or changed"), ("knots.csv", TABLE.rpartition("5_1")[0], "5_1 is missing, which"),
                 ("knots.csv", TABLE.replace("{2,4},{3,6},{1,5}", "{2,4},{3,5},{1,6}"), "the diagram of 4_1 isn't the one whose numbers"),
                 ("knots.csv", TABLE.replace("4_1,4a_1", "3_1,4a_1"), "'3_1' is there twice"), ("knots.csv", "", "the table is empty"),
                 ("knots.numbers.txt", MADE[0][:200], "the file was cut or changed"),
                 ("knots.numbers.txt", MADE[0].replace("9/16", "9/17"), "the file was cut or changed"),
                 ("list.txt", LIST + "quandle dihedral 7\n", "the rows were counted by another list"),
                 ("knots.symmetry.csv", SYMMETRY.rpartition("5_1")[0], "5_1 of"), ("knots.symmetry.csv", SYMMETRY[:35], "3_1 of"),
                 ("knots.symmetry.csv", SYMMETRY[:-10], "a symmetry is 'equal', 'different' or 'open'"), ("knots.symmetry.csv", "", "the table is empty"),
                 ("knots.symmetry.csv", SYMMETRY.replace("4_1,equal,equal", "4_1,equal,different by x"), "two symmetries show the third"))
        self.put("knots.symmetry.csv", SYMMETRY)
        for name, text, expected in cases:
            kept = self.read(name)
            self.put(name, text)
            status, out, said = self.identify("--braid", "1")
            self.assertEqual((status, out), (2, ""), expected)
            self.assertIn(expected, said)
            self.assertEqual(said.count("\n"), 1, said)
            self.put(name, kept)

    def test_a_folder_keeps_each_file(self):
        for name, text in (("a.txt", grid_text(EIGHT)), ("b.txt", ""), ("d.txt", "PD[X[1,2,3,4]]\n"), (".c.txt", "no diagram"), ("e.out", "none")):
            self.put(os.path.join("given", name), text)
        with open(os.path.join(self.folder, "given", "c.txt"), "wb") as file:
            file.write(b"x 0 1\n\xff")
        status, out, _ = self.identify(os.path.join(self.folder, "given"))
        rows = list(csv.DictReader(out.splitlines()))
        self.assertEqual((status, [(row["name"], row["answer"]) for row in rows]), (1, [("a", "4_1"), ("b", "refused"), ("c", "refused"), ("d", "refused")]))
        self.assertEqual(len({row["said"] for row in rows}), 4)
        self.assertIn("UTF-8", rows[2]["said"])

    def test_words(self):
        for words in ((), ("--processes", "0", "x"), ("--steps", "-1", "x")):
            self.assertEqual(self.identify(*words)[0], 2)
        os.mkdir(os.path.join(self.folder, "empty"))
        given, cut = self.put("given.csv", "name,notes\na,b\n"), self.put("cut.csv", 'name,braid\na,"{1,1}"\nb,"{1,')
        for words, due in (((os.path.join(self.folder, "none.csv"),), "No such file"), ((given,), "say which has them by --diagram"),
                           ((cut,), f"{cut}:3: unexpected end of data"),
                           ((os.path.join(self.folder, "empty"),), "it has no file NAME.txt"),
                           ((given, "--diagram", "notes", "--expect", "is"), "no column is called 'is'"),
                           (("--table", os.path.join(self.folder, "none.csv"), "--braid", "1"), "No such file"),
                           (("--seek", os.path.join(self.folder, "none"), "--braid", "1"), "none")):
            status, out, said = self.identify(*words)
            self.assertEqual((status, out, said.count("\n")), (2, "", 1), said)
            self.assertIn(due, said)

    def test_a_file_that_cannot_be_written(self):
        status, out, said = self.identify("--braid", "1", "--out", os.path.join(self.folder, "none", "out.csv"))
        self.assertEqual((status, out, said.count("\n")), (3, "", 1), said)
        self.assertIn(f"identify.py: {self.folder}/none/out.csv: No such file", said)

    def test_the_rows_go_into_a_file(self):
        status, out, said = self.identify("--braid", "1", "--out", "/dev/full")
        self.assertEqual((status, out, said), (2, "", "identify.py: /dev/full: not a regular file: name another by --out\n"))
        os.symlink("file.csv", os.path.join(self.folder, "link.csv"))
        self.assertEqual(self.identify("--braid", "1", "--out", os.path.join(self.folder, "link.csv"))[0], 0)
        self.assertEqual(os.readlink(os.path.join(self.folder, "link.csv")), "file.csv")
        self.assertEqual(self.rows(os.path.join(self.folder, "file.csv"))[0]["answer"], "unknot")


class Threads(IdentifyTest):
    def test_sums_are_made_once_however_many_ask(self):
        known = KnotTable(self.table, self.list)
        row = known.row("3_1")
        with ThreadPoolExecutor(8) as pool:
            found = list(pool.map(lambda _: known.candidates(row), range(40)))
        self.assertEqual(found, [found[0]] * 40)
        # Two to four trefoils and figure eights, and 5_1 with others, to twelve crossings in all; none has the numbers of one trefoil.
        self.assertEqual({parts[0][0] for parts in found[0]}, {"3_1"})


class GoingOn(IdentifyTest):
    def setUp(self):
        super().setUp()
        self.given = self.put("given.csv", 'name,arc_notation\na,"{{2,5},{3,1},{4,2},{5,3},{1,4}}"\nb,"{{1,2},{2,1}}"\nc,\na,"{{1,2},{2,1}}"\n')
        self.out = os.path.join(self.folder, "out.csv")

    def calls(self):
        with open(self.log, encoding="utf-8") as log:
            return sum(line.startswith("simplify") for line in log)

    def test_rows_that_stand_there_stay_and_the_others_are_done(self):
        words = (self.given, "--out", self.out, "--certificates", os.path.join(self.folder, "certificates"))
        self.assertEqual(self.identify(*words)[0], 1)
        whole, first = self.read("out.csv"), self.calls()
        self.assertEqual([row["answer"] for row in self.rows(self.out)], ["3_1", "unknot", "refused", "unknot"])
        self.assertEqual([row["certificate"] for row in self.rows(self.out)], ["a.txt", "b.txt", "", "a~2.txt"])
        # As a kill leaves it: the header, the first row, and half of the second.
        lines = whole.splitlines(keepends=True)
        self.put("out.csv", "".join(lines[:2]) + lines[2][:9])
        self.assertEqual(self.identify(*words)[0], 1)
        self.assertEqual(self.read("out.csv"), whole)
        self.assertEqual(self.calls() - first, 2 + 1 - 1)
        self.assertEqual(self.identify(*words)[0], 1)
        self.assertEqual(self.read("out.csv"), whole)
        self.assertEqual(self.calls() - first, 2)

    def test_stopped_by_a_signal_it_goes_on(self):
        words = [sys.executable, "-B", os.path.join(common.TOOLS, "identify.py"), "--table", self.table, "--list", self.list, self.given, "--out", self.out,
                 "--processes", "1"]
        with subprocess.Popen(words, env={**os.environ, "KNOT": STAND_IN, "SEEK": self.seek}, stdout=subprocess.PIPE, stderr=subprocess.PIPE, text=True,
                              preexec_fn=common.default_signals) as process:
            while process.poll() is None and not (os.path.exists(self.out) and self.rows(self.out)):
                time.sleep(0.02)
            process.send_signal(signal.SIGTERM)
            out, said = process.communicate()
        self.assertEqual((process.returncode, out, said), (128 + signal.SIGTERM, "", "identify.py: stopped by signal 15; called again, it goes on\n"))
        self.assertEqual(self.rows(self.out)[0]["answer"], "3_1")
        self.assertLess(len(self.rows(self.out)), 4)
        self.assertEqual(self.identify(self.given, "--out", self.out)[:2], (1, "4 diagrams: 3 named, 1 refused\n"))
        self.assertEqual([row["answer"] for row in self.rows(self.out)], ["3_1", "unknot", "refused", "unknot"])

    def test_a_signal_ends_the_walks(self):
        begun = os.path.join(self.folder, "begun")
        endless = self.put("endless/seek", f"#!/bin/sh\ncase \"$*\" in *--seed=*) echo >> {begun}; exec sleep 1000;; esac\nexec {self.seek} \"$@\"\n")
        os.chmod(endless, 0o755)
        self.put("given/a.txt", grid_text(Grid(EIGHT.xs[2:] + EIGHT.xs[:2], EIGHT.os[2:] + EIGHT.os[:2])))
        given = os.path.join(self.folder, "given")
        words = [sys.executable, "-B", os.path.join(common.TOOLS, "identify.py"), "--table", self.table, "--list", self.list, given]
        with subprocess.Popen(words, env={**os.environ, "KNOT": STAND_IN, "SEEK": endless}, stdout=subprocess.PIPE, stderr=subprocess.PIPE, text=True,
                              preexec_fn=common.default_signals) as process:
            while process.poll() is None and not os.path.exists(begun):
                time.sleep(0.02)
            process.send_signal(signal.SIGTERM)
            out, said = process.communicate(timeout=500)
        self.assertEqual((process.returncode, out, said), (128 + signal.SIGTERM, "", "identify.py: stopped by signal 15\n"))

    def test_what_a_program_failed_at_is_done_again(self):
        failing = self.put("failing/seek", f"#!/bin/sh\ncase \"$*\" in *--seed=*) exit 7;; esac\nexec {self.seek} \"$@\"\n")
        os.chmod(failing, 0o755)
        shifted = Grid(EIGHT.xs[2:] + EIGHT.xs[:2], EIGHT.os[2:] + EIGHT.os[:2])
        for name, grid in (("a", EIGHT), ("b", shifted)):
            self.put(f"given/{name}.txt", grid_text(grid))
        words = (os.path.join(self.folder, "given"), "--out", self.out)
        self.assertEqual(self.identify(*words, "--seek", failing)[:2], (1, "2 diagrams: 1 failed, 1 named\n"))
        row = self.rows(self.out)[1]
        self.assertEqual((row["name"], row["answer"]), ("b", "failed"))
        self.assertIn("memory ran out", row["said"])
        self.assertEqual(self.identify(*words)[:2], (0, "2 diagrams: 2 named\n"))
        self.assertEqual([row["answer"] for row in self.rows(self.out)], ["4_1", "4_1"])

    def test_a_code_that_the_program_gave_no_grid_of_costs_one_row(self):
        failing = self.put("failing/knot", f"#!/bin/sh\n[ $1 = grid ] && exit 7\nexec {STAND_IN} \"$@\"\n")
        os.chmod(failing, 0o755)
        for name, text in (("a", "[[1,4,2,5],[3,6,4,1],[5,2,6,3]]\n"), ("b", grid_text(EIGHT))):
            self.put(f"given/{name}.txt", text)
        words = (os.path.join(self.folder, "given"), "--out", self.out, "--knot", failing)
        for _ in range(2):
            self.assertEqual(self.identify(*words)[:2], (1, "2 diagrams: 1 failed, 1 named\n"))
            self.assertEqual([row["answer"] for row in self.rows(self.out)], ["failed", "4_1"])
            self.assertEqual(self.rows(self.out)[0]["said"], "knot grid: ended with status 7, memory ran out")

    def test_open_rows_are_done_again_where_that_is_asked_for(self):
        path = self.put("open.csv", 'name,braid\na,"{1,-2,1,-2}"\n')
        self.assertEqual(self.identify(path, "--out", self.out)[:2], (1, "1 diagrams: 1 open\n"))
        done = self.calls()
        self.identify(path, "--out", self.out)
        self.assertEqual(self.calls(), done)
        self.identify(path, "--out", self.out, "--again")
        self.assertEqual(self.calls(), 2 * done)

    def test_a_row_that_was_changed_is_done_again(self):
        self.identify(self.given, "--out", self.out)
        self.put("given.csv", self.read("given.csv").replace('b,"{{1,2},{2,1}}"', 'b,"{{6,2},{4,1},{5,3},{2,4},{3,6},{1,5}}"'))
        self.identify(self.given, "--out", self.out)
        self.assertEqual([row["answer"] for row in self.rows(self.out)], ["3_1", "4_1", "refused", "unknot"])

    def test_cut_at_each_place_of_a_row_it_is_done_again(self):
        self.identify(self.given, "--out", self.out)
        whole, done = self.read("out.csv"), self.calls()
        begin, end = (sum(map(len, whole.splitlines(keepends=True)[:lines])) for lines in (1, 2))
        for size in {0, begin - 1, begin, *range(begin + 1, end, 20), end - 1, end}:
            self.put("out.csv", whole[:size])
            self.assertEqual(self.identify(self.given, "--out", self.out)[0], 1)
            self.assertEqual(self.read("out.csv"), whole)
            # Two other rows are asked of, and the first where it isn't whole.
            done += 2 + (size < end)
            self.assertEqual(self.calls(), done)

    def test_rows_that_are_alike_are_done_once_more_is_known(self):
        given = self.put("twice.csv", 'name,arc_notation\na,"{{1,2},{2,1}}"\na,"{{1,2},{2,1}}"\n')
        words = (given, "--out", self.out, "--certificates", os.path.join(self.folder, "certificates"))
        self.identify(*words)
        whole, done = self.read("out.csv"), self.calls()
        self.identify(*words)
        self.assertEqual((self.read("out.csv"), self.calls()), (whole, done))
        self.put("out.csv", "".join(whole.splitlines(keepends=True)[::2]))
        self.identify(*words)
        self.assertEqual((self.read("out.csv"), self.calls()), (whole, done + 1))

    def test_what_another_program_made_of_the_file_is_taken(self):
        self.identify(self.given, "--out", self.out)
        whole, done = self.read("out.csv"), self.calls()
        with open(self.out, "w", encoding="utf-8", newline="") as out:
            csv.writer(out, quoting=csv.QUOTE_ALL, lineterminator="\r\n").writerows(csv.reader(io.StringIO(whole)))
        self.identify(self.given, "--out", self.out)
        self.assertEqual((self.read("out.csv"), self.calls()), (whole, done))

    def test_a_file_of_another_kind_is_left_as_it_is(self):
        for text in ("something,else\n1,2\n", "something", "a\0b\n", "name,answer,certificate,said\n", "name,answer,certificate,said,sha256,more\n"):
            self.put("out.csv", text)
            refused = f"identify.py: {self.out}: the file has other columns than name, answer, certificate, said, sha256: name another by --out\n"
            self.assertEqual(self.identify(self.given, "--out", self.out), (2, "", refused))
            self.assertEqual(self.read("out.csv"), text)


class Published(IdentifyTest):
    def test_each_row_is_ruled_on(self):
        entries = {"left": "{{2,5},{3,1},{4,2},{5,3},{1,4}}", "right": "{{4,1},{3,5},{2,4},{1,3},{5,2}}", "eight": "{{6,2},{4,1},{5,3},{2,4},{3,6},{1,5}}",
                   "back": "{{2,6},{1,4},{3,5},{4,2},{6,3},{5,1}}"}
        given = (("left", "3_1"), ("left", "K3a1"), ("right", "3_1"), ("right", "m3_1"), ("right", "3_1 mirrored"), ("eight", "3_1"), ("left", "10_166"),
                 ("eight", ""), ("back", "4_1"))
        path = self.put("given.csv", "name,is,arcs\n" + "".join(f'{place},{said},"{entries[what]}"\n' for place, (what, said) in enumerate(given)))
        out = os.path.join(self.folder, "out.csv")
        self.assertEqual(self.identify(path, "--expect", "is", "--out", out)[0], 1)
        rows = self.rows(out)
        self.assertEqual([row["ruling"] for row in rows],
                         ["right", "right", "mirrored", "right", "right", "wrong: it is 4_1", "wrong: it is 3_1", "no name", "mirrored"])
        self.assertEqual([row["said"] for row in rows[5:]], ["", "no knot of the table is called '10_166'", "", "it isn't known whether that is another knot"])

    def test_rows_without_a_name_are_ruled_on(self):
        # The last four closures aren't made smaller by the stand-in, nor joined.
        given = (("{1,1}", "3_1"), ("{1,1,2,-1,-3,2,-3}", "3_1"), ("", "3_1"), ("{1,-2,1,-2}", "4_1"), ("{1,-2,1,-2}", "3_1"), ("{1,2}", "3_1"),
                 ("{1,2}", "unknot"))
        path = self.put("given.csv", "name,is,braid\n" + "".join(f'{place},{said},"{word}"\n' for place, (word, said) in enumerate(given)))
        status, out, _ = self.identify(path, "--expect", "is")
        self.assertEqual(status, 1)
        rulings = [row["ruling"] for row in csv.DictReader(out.splitlines())]
        self.assertEqual(rulings[:4], ["wrong: it is a link of 2 components", "wrong: it is none of the table", "refused", "open"])
        self.assertTrue(rulings[4].startswith("wrong: it may be 4_1 or 4_1 mirrored"), rulings[4])
        self.assertEqual(rulings[5:], ["wrong: it may be unknot", "open"])


@unittest.skipUnless(BUILT and os.access(BUILT_SEEK, os.X_OK), "the programs aren't built")
class WithThePrograms(IdentifyTest):
    def identify(self, *words, text=""):
        return self.call("identify.py", "--table", self.table, "--list", self.list, *words, text=text, KNOT=BUILT, SEEK=BUILT_SEEK)

    def test_codes_in_their_spellings(self):
        for text in ("PD[X[4,2,5,1], X[8,6,1,5], X[6,3,7,4], X[2,7,3,8]]", "[[4,2,5,1],[8,6,1,5],[6,3,7,4],[2,7,3,8]]",
                     "# the figure eight\ncrossings 4\nX[4,2,5,1]\nX[8,6,1,5]\nX[6,3,7,4]\nX[2,7,3,8]\nloops 0\n", "DT: [4,6,8,2]", "{3,{1,-2,1,-2}}"):
            self.assertEqual(self.identify("-", text=text)[:2], (0, "4_1\n"), text)

    def test_the_trefoil_by_its_dt_code(self):
        self.assertEqual(self.identify("--dt", "4 6 2"), (0, "3_1\n", "identify.py: a DT code doesn't distinguish it from its mirror image\n"))

    def test_a_knot_by_its_gauss_code(self):
        told = "identify.py: a Gauss code doesn't distinguish it from its mirror image\n"
        for words, text in ((("--gauss", "1 -2 3 -1 2 -3"), ""), (("--gauss", "-1,2,-3,1,-2,3"), ""), (("-",), "GaussCode[1,-2,3,-1,2,-3]\n"),
                            (("--as", "gauss", "-"), "[1,-2,3,-1,2,-3]\n")):
            self.assertEqual(self.identify(*words, text=text), (0, "3_1\n", told), words)
        for text, name in (("O1+U2+O3+U1+O2+U3+", "3_1 mirrored"), ("[[[1,-2,3,-1,2,-3]],[-1,-1,-1]]", "3_1")):
            self.assertEqual(self.identify("-", text=text), (0, f"{name}\n", ""))

    def test_a_table_of_gauss_codes(self):
        given = self.put("given.csv", 'name,Gauss Notation\n4_1,"{-1, 2, -3, 1, -4, 3, -2, 4}"\n3_1,O1+U2+O3+U1+O2+U3+\n'
                                      'hopf,"{{1, -2}, {2, -1}}"\nodd,"{1, -2}"\n')
        status, out, _ = self.identify(given, "--expect", "name")
        self.assertEqual((status, [(row["answer"], row["ruling"], row["said"]) for row in csv.DictReader(out.splitlines())]),
                         (1, [("4_1", "right", "a Gauss code doesn't distinguish it from its mirror image"),
                              ("3_1 mirrored", "mirrored", "it isn't known whether that is another knot"),
                              ("link of 2 components", "wrong: it is a link of 2 components", "no knot of the table is called 'hopf'"),
                              ("refused", "refused", "the crossing 1 is passed once, and not twice")]))

    def test_sums_in_their_mirror_images(self):
        for word, name in (("3 1 1 1 2 2 2", "3_1 mirrored # 3_1 mirrored"), ("3 -1 -1 -1 2 2 2", "3_1 # 3_1 mirrored"), ("4 -1 -1 -1 2 -3 2 -3", "3_1 # 4_1")):
            self.assertEqual(self.identify("--braid", word), (0, name + "\n", ""))

    def test_what_a_code_lacks_is_told(self):
        self.assertEqual(self.identify("-", text="PD[X[1,2,3,4]]\n"), (1, "refused\n", "identify.py: the edge 1 doesn't occur exactly twice\n"))

    def test_a_code_that_is_too_large_is_refused_with_its_size(self):
        # The torus knot of two strands and 61 crossings, whose smallest grid has 63 columns.
        rows = [[(edge - 1) % 122 + 1 for edge in (k, k + 62, k + 1, k + 61)] for k in range(1, 123, 2)]
        self.assertEqual(self.identify("-", text=str(rows)), (1, "refused\n", "identify.py: its drawing takes 63 columns, and a grid has at most 48\n"))

    def test_bad_rows_by_the_table_of_the_tree_with_nothing_in_the_environment(self):
        torus = [[(edge - 1) % 122 + 1 for edge in (k, k + 62, k + 1, k + 61)] for k in range(1, 123, 2)]
        rows = (("none", ""), ("link", "[[4,1,3,2],[2,3,1,4]]"), ("large", torus), ("edge", "[[1,2,3,4]]"), ("good", "[[1,4,2,5],[3,6,4,1],[5,2,6,3]]"))
        given = self.put("given.csv", "name,pd_notation\n" + "".join(f'{name},"{code}"\n' for name, code in rows) + "short\n")
        words = (given, "--out", "out.csv", "--certificates", "kept", "--knot", os.path.abspath(BUILT), "--seek", os.path.abspath(BUILT_SEEK))
        environment = {"PATH": f"{os.path.dirname(sys.executable)}:/usr/bin:/bin"}
        for said in ("", "again"):
            done = subprocess.run([os.path.join(common.TOOLS, "identify.py"), *words], env=environment, cwd=self.folder, capture_output=True, text=True,
                                  check=False)
            self.assertEqual((done.returncode, done.stdout, done.stderr), (1, "6 diagrams: 1 links, 1 named, 4 refused\n", ""), said)
            self.assertEqual([(row["name"], row["answer"], row["said"]) for row in self.rows(os.path.join(self.folder, "out.csv"))],
                             [("none", "refused", "there is no diagram: the entry is empty"), ("link", "link of 2 components", ""),
                              ("large", "refused", "its drawing takes 63 columns, and a grid has at most 48"),
                              ("edge", "refused", "the edge 1 doesn't occur exactly twice"), ("good", "3_1", ""),
                              ("short", "refused", "the row has 1 fields, and the header 2")])
        self.assertEqual(os.listdir(os.path.join(self.folder, "kept")), ["good.txt"])

    def test_a_small_trial(self):
        words = ("--disguised", "9", "--published", "6", "--errors", "2", "--rows", "0", "--timed", "0", "--most", "7", "--", "--processes", "2")
        done = subprocess.run([sys.executable, "-B", os.path.join(common.ROOT, "bench", "identify.py"), *words], capture_output=True, text=True, check=False,
                              env={**os.environ, "KNOT": BUILT, "SEEK": BUILT_SEEK})
        self.assertEqual(done.returncode, 0, done.stdout + done.stderr)
        self.assertIn("9 disguised diagrams: 9 right; 9 certificates accepted", done.stdout)
        self.assertIn("6 published identifications with 2 errors: 2 of these came back, and 0 others", done.stdout)

    def test_the_module_answers_a_certificate_that_the_checker_accepts(self):
        found = identify(Braid(4, (1, 1, 2, -1, -3, 2, -3)), KnotTable(self.table, self.list))
        self.assertEqual((found.name, found.answer, found.certificate), (None, "none of the table", None))
        found = identify(Braid(2, (-1,) * 5), KnotTable(self.table, self.list))
        self.assertEqual(found.name, "5_1")
        self.assertTrue(found.certificate.check())
        self.assertEqual(found.certificate.second, KnotTable(self.table, self.list).grid(found.parts))


if __name__ == "__main__":
    unittest.main()
