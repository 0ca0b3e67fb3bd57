"""Tests of tools/batch.py, with a stand-in for knot."""
import csv
import os
import resource
import shutil
import signal
import subprocess
import sys
import tempfile
import time
import unittest

import common
from lib.calls.whole_files import host_name

TREE = common.ROOT
SCRIPT = os.path.join(TREE, "tools", "batch.py")
STAND_IN = os.path.join(TREE, "tests", "tools", "stand_in.py")

STAGES = "# two stages\nfirst --spare 1 --budget 100\nsecond --spare 1 --budget 200\n"


class BatchTest(unittest.TestCase):
    def setUp(self):
        kept = tempfile.TemporaryDirectory()
        self.addCleanup(kept.cleanup)
        self.folder = kept.name
        self.problems = os.path.join(self.folder, "problems")
        self.answers = os.path.join(self.folder, "answers")
        self.calls = os.path.join(self.folder, "calls")
        self.stages = self.put("stages.txt", STAGES)
        # Called by this name the stand-in is seek.
        self.seek = os.path.join(self.folder, "seek")
        os.symlink(STAND_IN, self.seek)
        os.mkdir(self.problems)

    def put(self, name, text):
        path = os.path.join(self.folder, name)
        with open(path, "w", encoding="utf-8") as file:
            file.write(text)
        return path

    def problem(self, name, text):
        self.put(os.path.join("problems", name + ".txt"), f"# calls: {self.calls}\n{text}")

    def words(self, *words):
        return [sys.executable, "-B", SCRIPT, "--processes", "2", "--stages", self.stages, *words]

    def environment(self, program=STAND_IN):
        return {**os.environ, "KNOT": program, "SEEK": self.seek}

    def run_it(self, *words):
        words = words or (self.problems, self.answers)
        done = subprocess.run(self.words(*words), env=self.environment(), capture_output=True, text=True, check=False)
        return done.returncode, done.stdout, done.stderr

    def batch(self, *words):
        return self.run_it(*words, self.problems, self.answers)

    def read(self, *names):
        with open(os.path.join(self.answers, *names), encoding="utf-8") as file:
            return file.read()

    def rows(self):
        with open(os.path.join(self.answers, "summary.csv"), encoding="utf-8", newline="") as file:
            return {row["name"]: row for row in csv.DictReader(file)}

    def calls_made(self):
        if not os.path.exists(self.calls):
            return []
        with open(self.calls, encoding="utf-8") as file:
            made = sorted(file.read().splitlines())
        os.unlink(self.calls)
        return made

    def kept_files(self):
        return sorted(os.path.relpath(os.path.join(folder, name), self.answers) for folder, _, names in os.walk(self.answers) for name in names)


class StagesTest(BatchTest):
    def test_what_is_unknown_goes_on_to_the_next_stage(self):
        self.problem("a", "# at 100: 0 equal 2 / shift rows 1 / shift rows 1\n")
        self.problem("b", "# at 200: 0 different dihedral 3 / list 0 / list 1\n")
        self.problem("c", "")
        status, out, _ = self.batch()
        self.assertEqual((status, out), (1, "3 problems: 1 different, 1 equal, 1 unknown; 2 of 2 certificates accepted\n"))
        rows = self.rows()
        found = [(rows[name]["verdict"], rows[name]["evidence"], rows[name]["stage"], rows[name]["check"]) for name in "abc"]
        self.assertEqual(found, [("equal", "2", "first", "accepted"), ("different", "dihedral 3", "second", "accepted"),
                                 ("unknown", "budget 200", "second", "")])
        self.assertEqual(list(rows["a"]), ["name", "first", "second", "verdict", "evidence", "stage", "seconds", "check"])
        self.assertRegex(rows["a"]["seconds"], r"^[0-9]+\.[0-9]{3}$")
        self.assertEqual(self.calls_made(), ["check", "check"] + ["decide --spare 1 --budget 100"] * 3 + ["decide --spare 1 --budget 200"] * 2)

    def test_a_certificate_is_the_problem_with_its_verdict(self):
        self.problem("a", "# at 100: 0 equal 0")
        self.assertEqual(self.batch()[0], 0)
        self.assertEqual(self.read("certificates", "a.txt"), f"# calls: {self.calls}\n# at 100: 0 equal 0\nequal 0\n")
        # The answer with its comments after the problem does as well.
        self.assertEqual([line for line in self.read("answers", "a.txt").splitlines() if not line.startswith("#")], ["equal 0"])

    def test_the_head_line_of_a_verdict_is_passed_over(self):
        self.problem("a", "# at 100: 0 certificate 2 / equal 1 / shift rows 1\n")
        self.problem("b", "# at 100: 1 certificate 2 / unknown exhausted 5 2\n# at 200: 1 certificate 2 / unknown exhausted 5 2\n")
        self.assertEqual(self.batch()[0], 1)
        rows = self.rows()
        self.assertEqual([(rows[name]["verdict"], rows[name]["evidence"], rows[name]["check"]) for name in "ab"],
                         [("equal", "1", "accepted"), ("unknown", "exhausted 5 2", "")])
        self.assertTrue(self.read("certificates", "a.txt").endswith("\ncertificate 2\nequal 1\nshift rows 1\n"))

    def test_another_call_does_nothing_again(self):
        self.problem("a", "# at 100: 0 equal 0\n")
        self.problem("b", "")
        self.assertEqual(self.batch()[0], 1)
        before = {name: self.read(name) for name in self.kept_files()}
        self.calls_made()
        self.assertEqual(self.batch()[0], 1)
        self.assertEqual(self.calls_made(), [])
        self.assertEqual({name: self.read(name) for name in self.kept_files()}, before)

    def test_a_stage_put_in_later_is_run_for_what_is_unknown(self):
        self.problem("a", "# at 100: 0 equal 0\n")
        self.problem("b", "# at 300: 0 equal 1 / shift rows 1\n")
        self.assertEqual(self.batch()[0], 1)
        self.calls_made()
        self.put("stages.txt", STAGES + "third --spare 1 --budget 300\n")
        self.assertEqual(self.batch()[0], 0)
        self.assertEqual(self.calls_made(), ["check", "decide --spare 1 --budget 300"])
        self.assertEqual(self.rows()["b"]["stage"], "third")

    def test_where_all_is_seen_more_budget_is_passed_over(self):
        self.put("stages.txt", STAGES + "wide --spare 2 --budget 300\n")
        self.problem("a", "# at 100: 1 unknown exhausted 5 2\n# at 300: 1 unknown exhausted 6 9\n")
        self.assertEqual(self.batch()[0], 1)
        self.assertEqual(self.calls_made(), ["decide --spare 1 --budget 100", "decide --spare 2 --budget 300"])
        self.assertEqual(self.rows()["a"]["evidence"], "exhausted 6 9")

    def test_a_stage_with_more_quandles(self):
        self.put("more.txt", "quandle dihedral 11\n")
        self.put("stages.txt", "first --budget 100\nmore --budget 100 +more.txt\n")
        self.problem("a", "# at 100: 1 unknown exhausted 5 2\n# at +100: 0 different dihedral 11 / list 0 / list 1")
        self.assertEqual(self.batch()[0], 0)
        self.assertEqual((self.rows()["a"]["stage"], self.rows()["a"]["evidence"]), ("more", "dihedral 11"))
        self.assertNotIn("quandle", self.read("certificates", "a.txt"))
        # Another content of the file is another stage.
        self.put("more.txt", "quandle dihedral 13\n")
        self.problem("b", "# at +100: 1 unknown budget 2\n")
        self.batch()
        self.assertEqual((self.rows()["b"]["stage"], self.rows()["b"]["evidence"]), ("first", "budget 100"))
        self.calls_made()
        self.put("more.txt", "quandle dihedral 13\nquandle dihedral 11\n")
        self.batch()
        self.assertEqual(self.calls_made(), ["decide --budget 100"])

    def test_a_quandle_by_its_table_stands_in_the_summary(self):
        self.problem("a", "# at 100: 0 different table 2 / 0 0 / 1 1 / list 0 / list 1\n")
        self.batch()
        self.assertEqual(self.rows()["a"]["evidence"], "table 2: 0 0 / 1 1")

    def test_names_are_in_the_order_of_their_numbers(self):
        for name in ("10_1", "9_2", "3_1"):
            self.problem(name, "# at 100: 0 equal 0\n")
        self.batch()
        self.assertEqual(list(self.rows()), ["3_1", "9_2", "10_1"])


class FaultsTest(BatchTest):
    def test_folders_and_programs_that_are_not_there(self):
        nowhere = os.path.join(self.folder, "nowhere")
        status, out, errors = self.run_it(nowhere, self.answers)
        self.assertEqual((status, out), (2, ""))
        self.assertIn(f"{nowhere}: No such file or directory", errors)
        status, _, errors = self.batch()
        self.assertEqual(status, 2)
        self.assertIn("no file NAME.txt is there", errors)
        self.problem("a", "")
        self.assertIn("no program of this name", self.batch("--program", nowhere)[2])
        status, _, errors = self.batch("--program", "false")
        self.assertEqual(status, 2)
        self.assertRegex(errors, "false does not run here: on no input it ends with status 1, and not with 3")
        self.assertFalse(os.path.exists(self.answers))

    def test_what_can_not_be_read_is_not_the_end_of_the_batch(self):
        self.problem("a", "# at 100: 0 equal 0\n")
        os.mkdir(os.path.join(self.problems, "d.txt"))
        os.symlink("nowhere", os.path.join(self.problems, "l.txt"))
        os.mkfifo(os.path.join(self.problems, "p.txt"))
        status, out, errors = self.batch()
        self.assertEqual((status, out), (3, "4 problems: 1 equal, 3 without an answer; 1 of 1 certificates accepted\n"))
        for text in ("d.txt: it is a folder\n", "l.txt: it is a link to nowhere, where nothing is\n", "p.txt: it is no file\n"):
            self.assertEqual(errors.count(text), 1, errors)
        rows = self.rows()
        self.assertEqual((rows["a"]["verdict"], rows["d"]["verdict"], rows["d"]["evidence"]), ("equal", "none", "it is a folder"))

    def test_a_folder_in_the_place_of_an_answer(self):
        self.problem("a", "# at 100: 0 equal 0\n")
        self.problem("b", "# at 100: 0 equal 0\n")
        os.makedirs(os.path.join(self.answers, "answers", "b.txt"))
        status, out, errors = self.batch()
        self.assertEqual((status, out), (3, "2 problems: 1 equal, 1 without an answer; 1 of 1 certificates accepted\n"))
        self.assertIn(f"b.txt: {self.answers}/answers/b.txt: Is a directory", errors)

    def test_a_file_that_can_not_be_written_is_named(self):
        self.problem("a", "# at 100: 0 equal 2 / " + " / ".join(["shift rows 1"] * 400) + "\n")

        def small_files():
            resource.setrlimit(resource.RLIMIT_FSIZE, (7000, 7000))
        done = subprocess.run(self.words(self.problems, self.answers), env=self.environment(), capture_output=True, text=True, check=False,
                              preexec_fn=small_files)
        self.assertEqual(done.returncode, 3)
        self.assertIn(f"{self.answers}/certificates/a.txt: File too large\n", done.stderr)
        self.assertNotIn("None", done.stderr)
        self.assertNotIn("Traceback", done.stderr)

    def test_answers_that_cannot_be_written(self):
        self.problem("a", "# at 100: 0 equal 0\n")
        status, _, errors = self.run_it(self.problems, os.path.join(self.stages, "answers"))
        self.assertEqual(status, 2)
        self.assertIn("Not a directory", errors)

    def test_bad_stages(self):
        self.problem("a", "")
        for text, why in (("", "no stage"), ("first\nfirst\n", ":2: a stage before has the name 'first'"),
                          ("--budget 5\n", ":1: the name of the stage is due before '--budget'"),
                          ("a +none.txt\n", "none.txt: No such file or directory"),
                          ("a --bad 5\n", "stage a: the program refuses the words 'decide --bad 5'")):
            with self.subTest(text):
                self.put("stages.txt", text)
                status, _, errors = self.batch()
                self.assertEqual(status, 2)
                self.assertIn(why, errors)

    def test_what_has_no_answer_is_named_and_tried_again(self):
        self.problem("a", "# at 100: 7\n")
        self.problem("b", "# at 100: 99\n")
        self.problem("c", "# at 200: 6 front of an answ\n")
        self.problem("d", "# at 100: 0 equal 0\n")
        status, out, errors = self.batch()
        self.assertEqual((status, out), (3, "4 problems: 1 equal, 1 unknown, 2 without an answer; 1 of 1 certificates accepted\n"))
        for text in ("a.txt: stage first: no answer, status 7, memory ran out", "b.txt: stage first: no answer, ended by signal 9",
                     "c.txt: stage second: no answer, status 6, writing failed", "a.txt: no answer\n", "b.txt: no answer\n",
                     "c.txt: no answer at stage second\n"):
            self.assertIn(text, errors)
        self.assertEqual(self.rows()["a"]["verdict"], "none")
        self.assertEqual(self.rows()["c"]["evidence"], "budget 100")
        self.assertNotIn("front", self.read("answers", "c.txt"))
        self.problem("a", "# at 100: 0 equal 0\n")
        self.calls_made()
        self.batch()
        self.assertEqual(self.calls_made(), ["check", "decide --spare 1 --budget 100", "decide --spare 1 --budget 100", "decide --spare 1 --budget 200"])

    def test_what_is_refused_is_named(self):
        self.problem("a", "# at 100: 3 malformed line 4\n")
        self.problem("b", "# at 100: 4 limit line 5\n")
        status, _, errors = self.batch()
        self.assertEqual(status, 3)
        self.assertIn("a.txt: refused at stage first: malformed line 4", errors)
        self.assertIn("b.txt: refused at stage first: limit line 5", errors)
        self.assertEqual((self.rows()["b"]["verdict"], self.rows()["b"]["evidence"]), ("refused", "limit line 5"))

    def test_a_certificate_that_is_not_accepted_is_named(self):
        self.problem("a", "# at 100: 0 equal 1 / shift rows 1\n# check: 8 rejected otherend\n")
        self.problem("b", "# at 100: 0 equal 0\n# check: 7\n")
        status, out, errors = self.batch()
        self.assertEqual((status, out), (3, "2 problems: 2 equal; 0 of 2 certificates accepted\n"))
        self.assertIn("a.txt: the certificate is not accepted: rejected otherend", errors)
        self.assertIn("the checker gave no ruling, status 7, memory ran out", errors)
        self.assertEqual(self.rows()["b"]["check"], "none")

    def test_a_problem_that_changed_is_run_anew(self):
        self.problem("a", "# at 100: 0 equal 0\n")
        self.assertEqual(self.batch()[0], 0)
        self.problem("a", "# at 100: 0 equal 1 / shift rows 1\n# check: 8 rejected step 0 range\n")
        self.assertEqual(self.batch()[0], 3)
        self.assertEqual(self.rows()["a"]["check"], "rejected step 0 range")
        self.problem("a", "")
        self.assertEqual(self.batch()[0], 1)
        self.assertEqual(self.kept_files(), ["answers/a.txt", "summary.csv"])

    def test_a_certificate_that_somebody_changed_is_written_anew(self):
        self.problem("a", "# at 100: 0 equal 0\n")
        self.batch()
        good = self.read("certificates", "a.txt")
        self.put("answers/certificates/a.txt", good + "equal 1\n")
        self.assertEqual(self.batch()[0], 0)
        self.assertEqual(self.read("certificates", "a.txt"), good)

    def test_an_answer_that_was_cut_is_no_answer(self):
        self.problem("a", "# at 100: 0 equal 2 / shift rows 1 / shift rows 1\n")
        self.batch()
        whole = self.read("answers", "a.txt")
        for end in (0, 10, len(whole) - 20, len(whole) - 1):
            self.put("answers/answers/a.txt", whole[:end])
            self.calls_made()
            self.assertEqual(self.batch()[0], 0)
            self.assertEqual(self.calls_made(), ["decide --spare 1 --budget 100"])

    def test_answers_of_another_folder_are_not_counted(self):
        self.problem("a", "# at 100: 0 equal 0\n")
        self.problem("b", "# at 100: 0 equal 0\n")
        self.batch()
        os.unlink(os.path.join(self.problems, "b.txt"))
        status, out, errors = self.batch()
        self.assertEqual((status, out), (0, "1 problems: 1 equal; 1 of 1 certificates accepted\n"))
        self.assertIn("answers/b.txt: no problem of this name; not counted", errors)
        self.assertEqual(list(self.rows()), ["a"])

    def test_help_and_bad_words(self):
        status, out, _ = self.run_it("--help")
        self.assertEqual(status, 0)
        self.assertIn("examples:\n  tools/batch.py examples/batch/problems answers", out)
        self.assertEqual(self.run_it("a")[0], 2)
        self.problem("a", "")
        self.assertEqual(self.batch("--processes", "0")[0], 2)
        for part in ("0/3", "4/3", "3", "a/b"):
            self.assertIn("--part takes K/N", self.batch("--part", part)[2])


class OtherJobsTest(BatchTest):
    def test_check(self):
        self.problem("a", "")
        self.problem("b", "# check: 8 rejected otherend\n")
        self.problem("c", "# check: 3 malformed line 7\n")
        self.put("stages.txt", "only\n")
        status, out, errors = self.batch("--job", "check")
        self.assertEqual((status, out), (3, "3 problems: 1 accepted, 1 refused, 1 rejected\n"))
        self.assertIn("b.txt: rejected: otherend", errors)
        self.assertIn("c.txt: refused at stage only: malformed line 7", errors)
        self.assertEqual(self.calls_made(), ["check"] * 3)
        self.assertEqual([name for name in self.kept_files() if name.startswith(("cert", "rul"))], [])

    def test_a_program_that_takes_no_job(self):
        self.problem("a", "# at 100: 0 equal 0\n")
        self.assertEqual(self.batch("--job", "", "--program", STAND_IN)[0], 0)
        self.assertEqual(self.calls_made(), ["--spare 1 --budget 100", "check"])

    def test_answers_of_another_job_are_not_taken(self):
        self.problem("a", "# at 100: 0 equal 0\n# at none: 0 quandle dihedral 3 / list 9\n")
        self.batch()
        self.put("stages.txt", "only\n")
        status, out, _ = self.batch("--job", "colour")
        self.assertEqual((status, out), (0, "1 problems: 1 answered\n"))

    def test_linking_and_weights_have_their_last_line_as_verdict(self):
        self.put("stages.txt", "only\n")
        self.problem("a", "# at none: 0 numbers 1 1 / numbers -1 -1 / different\n")
        self.problem("b", "# at none: 0 numbers / numbers / alike\n")
        for job in ("linking", "weights"):
            status, out, errors = self.batch("--job", job)
            self.assertEqual((status, out), (0, "2 problems: 1 alike, 1 different\n"), errors)
            rows = self.rows()
            self.assertEqual([(rows[name]["verdict"], rows[name]["evidence"], rows[name]["check"]) for name in "ab"],
                             [("different", "numbers 1 1 / numbers -1 -1", ""), ("alike", "numbers / numbers", "")])
        self.assertEqual(set(name.split(os.sep)[0] for name in self.kept_files()), {"answers", "summary.csv"})

    def test_wide_and_the_check_of_braids(self):
        self.put("stages.txt", "only\n")
        self.problem("a", "# at none: 0 wide 2 5\n")
        self.assertEqual(self.batch("--job", "weights")[1], "1 problems: 1 wide\n")
        self.problem("a", "# at none: 0 accepted\n")
        self.assertEqual(self.batch("--job", "braidcheck")[1], "1 problems: 1 accepted\n")


class PartsTest(BatchTest):
    def test_parts_together_are_the_whole(self):
        for name in "abcde":
            self.problem(name, "# at 100: 0 equal 0\n")
        status, out, errors = self.batch("--part", "1/2")
        self.assertEqual((status, out), (0, "3 problems: 3 equal\n"), errors)
        self.assertEqual(self.kept_files(), ["answers/a.txt", "answers/c.txt", "answers/e.txt"])
        self.assertEqual(self.batch("--part", "2/2")[1], "2 problems: 2 equal\n")
        self.calls_made()
        self.assertEqual(self.batch()[0], 0)
        self.assertEqual(self.calls_made(), ["check"] * 5)

    def test_again_forgets(self):
        self.problem("a", "# at 100: 0 equal 0\n")
        self.batch()
        self.calls_made()
        self.assertEqual(self.batch("--again")[0], 0)
        self.assertEqual(self.calls_made(), ["check", "decide --spare 1 --budget 100"])


class SignalsTest(BatchTest):
    def stop_with(self, number):
        for name in "abcd":
            self.problem(name, "# sleep 3600\n")
        process = subprocess.Popen(self.words(self.problems, self.answers), env=self.environment(), stdout=subprocess.PIPE,
                                   stderr=subprocess.PIPE, text=True, preexec_fn=common.default_signals)
        limit = time.monotonic() + common.LONG
        while not os.path.exists(self.calls) and time.monotonic() < limit:
            time.sleep(0.05)
        process.send_signal(number)
        # The problems take an hour, so it was the signal that ended them.
        _, errors = process.communicate(timeout=common.LONG)
        self.assertEqual(process.returncode, 128 + number)
        self.assertIn(f"stopped by signal {number:d}; called again, it goes on", errors)
        self.assertEqual(self.kept_files(), [])
        for name in "abcd":
            self.problem(name, "# at 100: 0 equal 0\n")
        self.assertEqual(self.batch()[0], 0)

    def test_a_signal_leaves_no_part_of_a_file(self):
        for number in (signal.SIGINT, signal.SIGTERM, signal.SIGHUP):
            with self.subTest(number):
                self.stop_with(number)
                shutil.rmtree(self.answers)
                os.unlink(self.calls)

    def test_parts_that_a_kill_left_are_swept(self):
        self.problem("a", "# at 100: 0 equal 0\n")
        self.batch()
        gone = subprocess.run([sys.executable, "-c", "import os; print(os.getpid())"], capture_output=True, text=True, check=True).stdout.strip()
        old = self.put(f"answers/answers/.a.txt.{host_name()}.{gone}.0.part", "half")
        new = self.put(f"answers/answers/.b.txt.{host_name()}.{os.getpid()}.0.part", "half")
        other = self.put("answers/answers/.c.txt.elsewhere.1.0.part", "half")
        self.batch()
        self.assertEqual([os.path.exists(path) for path in (old, new, other)], [False, True, True])


class WhatWent(BatchTest):
    def test_an_option_that_went_is_refused_with_the_way_now(self):
        for words, name in ((["--hosts", "hosts.txt"], "--hosts"), (["--with", "parallel"], "--with parallel"), (["--stage", "first", "--trial"], "--trial")):
            status, out, errors = self.batch(*words)
            self.assertEqual((status, out, os.path.exists(self.answers)), (2, "", False))
            self.assertIn(f"batch.py: error: {name} is no option any more: GNU parallel, ssh or a queue calls the parts of a folder, each by --part K/N; "
                          "docs/BATCH.md has the lines, under 'Several machines'\n", errors)
        self.assertIn("\n## Several machines\n", common.read("docs", "BATCH.md"))

    def test_the_scripts_own_processes_may_be_asked_for_by_name(self):
        self.problem("a", "# at 100: 0 equal 0\n")
        for name in ("python", "auto"):
            self.assertEqual(self.batch("--with", name)[:2], (0, "1 problems: 1 equal; 1 of 1 certificates accepted\n"))


if __name__ == "__main__":
    unittest.main()
