"""Tests that tools/batch.py and tools/census.py read every kind of answer: those of all examples, each in the place of the job that it answers.

Both scripts run in this process, the workers of the census too, and what they would call as well: a stand-in for knot and seek.
"""
import contextlib
import io
import os
import shutil
import unittest
from unittest import mock

import common
import plain_orbits
import small_knot
from lib.batch import call as batch_call
from lib.census import call as census_call
from lib.sorting.reduced import Reducer
from knot_workbench.answers import Answer
from knot_workbench.diagrams import Braid, Grid, grid_of, grid_text, mirror_image
from knot_workbench.faults import Fault
from knot_workbench.programs import Caller, Ran
from knot_workbench.texts import Lines, read_diagram
from test_census import HOPF, TREFOIL, UNKNOT, CensusTest

EXAMPLES = os.path.join(common.ROOT, "examples")

# Jobs that a census asks.
OF_CENSUS = ("braid", "check", "decide", "least", "linking", "numbers", "seek", "simplify")
JOBS = (*OF_CENSUS, "braidcheck", "close", "code", "colour", "grid", "replay", "weights")

TREFOILS = grid_text(TREFOIL) + grid_text(mirror_image(TREFOIL))

# Kinds of answers that no example has, or not in this form.
NUMBERS = "certificate 3\ndifferent numbers {}seeds 0\nnumbers {}\nseeds 0 1\nnumbers {}\n"
TABLE_30 = "table 30\n" + "".join(" ".join(str((2 * y - x) % 30) for y in range(30)) + "\n" for x in range(30))
MORE = {
    "by numbers of a table of 30": ("seek", 0, NUMBERS.format(TABLE_30, 30, 90)),
    "by numbers": ("seek", 0, NUMBERS.format("dihedral 3\n", 9, 3)),
    "by a cocycle": ("seek", 0, NUMBERS.format("dihedral 3\nweight 2\n0 0 0\n0 0 0\n0 0 0\n", "9 0", "3 0")),
    "by a shadow cocycle": ("seek", 0, NUMBERS.format("dihedral 3\nshadow mochizuki\n", "9 0 18", "9 18 0")),
    "by linking numbers": ("seek", 0, "certificate 3\ndifferent linking\ncomponents 2\nnumbers 1 1\ncomponents 2\nnumbers -1 -1\n"),
    "by lists": ("decide", 0, "certificate 2\ndifferent trivial 2\nlist 1\n0 0\nlist 0\n"),
    "equal": ("seek", 0, "certificate 2\nequal 0\n"),
    "exhausted": ("decide", 1, "certificate 2\nunknown exhausted 5 2\n"),
    "budget": ("decide", 1, "certificate 2\nunknown budget 20000\n"),
    "nothing": ("seek", 1, ""),
    "malformed": ("decide", 3, "malformed line 3\n"),
    "limit": ("decide", 4, "limit line 3\n"),
    "too many bytes": ("numbers", 4, "limit bytes\n"),
    "refused by seek": ("seek", 3, ""),
    "rejected": ("check", 8, "rejected otherend\n"),
    "no memory": ("seek", 7, ""),
    "half an answer": ("decide", 0, "certificate 2\nequal 3\nshift rows 1\n"),
    "no answer at all": ("simplify", 0, ""),
    "moves that are none": ("simplify", 0, "x 0 1\no 1 0\nmoves 1\njump 3\nirreducible\n"),
    "other numbers": ("numbers", 0, "quandle dihedral 3\nnumber 9\n"),
}


def example_answers():
    """Each example's answer of each job: the job, its name, its input, the status and the text. Those of seek have their input in words, and two
    trefoils stand for it."""
    for job in JOBS:
        folder = os.path.join(EXAMPLES, job)
        for name in sorted(name[:-len(".out")] for name in os.listdir(folder) if name.endswith(".out")):
            base = os.path.join(folder, name)
            out, status = common.read(base + ".out"), int(common.read(base + ".status")) if os.path.exists(base + ".status") else 0
            if job != "seek":
                yield job, name, common.read(base + ".txt"), status, out
            elif out.startswith("certificate"):
                yield job, name, TREFOILS, status, out


def answered_in_place(job, status, out):
    """What is in place of Caller.run: it gives one answer to this job, and asks the stand-in for all others."""
    def run(_, call, given, **_limits):
        """The answer of a call; of an empty input the line that is due is missing."""
        words, text = call[1:], given.decode()
        is_seek = os.path.basename(call[0]) == "seek"
        if text and job == ("seek" if is_seek else words[0]):
            return Ran(status, out.encode())
        with mock.patch.object(small_knot, "IS_SEEK", is_seek):
            found = small_knot.answered(["decide"] if is_seek else words, text)
        return Ran(found[0], found[1].encode())
    return run


class Here:
    """Stands in place of the workers: one worker in this process."""

    def __init__(self, _, begin, words):
        self.worker = begin(*words)

    def __enter__(self):
        return self

    def __exit__(self, *_):
        pass

    def each(self, function, items, lot=1):
        """The answers to all items."""
        return (function(self.worker, item) for item in items)


class AnswersTest(CensusTest):
    def main(self, script, words, given):
        """A call of a script, where a job has the answer that is given: its status and what it said."""
        out, errors = io.StringIO(), io.StringIO()
        with mock.patch.object(Caller, "run", answered_in_place(*given)), mock.patch.object(script, "on_signals", lambda: None), \
                mock.patch.object(census_call, "processes", Here), \
                mock.patch.dict(os.environ, self.environment()), contextlib.redirect_stdout(out), contextlib.redirect_stderr(errors):
            status = script.main(words)
        return status, errors.getvalue()

    def batch(self, job, text, status, out):
        """Runs one problem through batch.py."""
        problems = os.path.join(self.folder, "problems")
        os.makedirs(problems, exist_ok=True)
        self.put("problems/a.txt", text)
        words = ["--again", "--job", job, problems, os.path.join(self.folder, "answers")]
        if job == "decide":
            words[:0] = ["--stages", self.put("one.txt", "only --spare 0\n")]
        return self.main(batch_call, words, (job, status, out))

    def summary(self):
        with open(os.path.join(self.folder, "answers", "summary.csv"), encoding="utf-8", newline="") as file:
            return file.read().splitlines()[1].split(",")[3:5]


class BatchReads(AnswersTest):
    def assert_status(self, status, due, errors):
        """The status is that of the verdict, but that a certificate which isn't of this problem makes it 3."""
        self.assertEqual(status, 3 if "the certificate is not accepted" in errors else due, errors)

    def test_every_answer_of_every_example(self):
        kinds = set()
        for job, name, text, due, out in example_answers():
            with self.subTest(job=job, name=name):
                status, errors = self.batch(job, text, due, out)
                kind = Answer(job, due, out).kind
                kinds.add(kind)
                verdict = {"malformed": "refused", "limit": "refused", "nothing": "unknown"}.get(kind, kind)
                self.assertEqual(self.summary()[0], verdict)
                self.assert_status(status, {"refused": 3, "rejected": 3, "unknown": 1}.get(verdict, 0), errors)
                # The answer can be read whole as well.
                Answer(job, due, out).value()
        self.assertLessEqual({"equal", "different", "unknown", "accepted", "rejected", "limit", "alike", "answered"}, kinds)

    def test_kinds_that_no_example_has(self):
        for name, (job, due, out) in MORE.items():
            with self.subTest(name):
                status, errors = self.batch(job, TREFOILS, due, out)
                kind = Answer(job, due, out).kind
                self.assert_status(status, {"none": 3, "malformed": 3, "limit": 3, "rejected": 3, "unknown": 1, "nothing": 1}.get(kind, 0), errors)


# The most columns that short diagrams have which the stand-in is asked of.
LARGEST = 7

STEPS = "linking linking\nquick decide --spare 0\nfew seek --steps 5\nsmall numbers +one.txt\nagain seek --steps 6\n"


class CensusReads(AnswersTest):
    def sort_given(self, diagrams, given, *more, steps=STEPS):
        """Sorts diagrams, with small quandles and steps of each kind."""
        for folder in (self.diagrams, self.census):
            shutil.rmtree(folder, ignore_errors=True)
        os.mkdir(self.diagrams)
        for place, diagram in enumerate(diagrams):
            self.diagram("ab"[place], diagram)
        plan = self.put("given.txt", steps)
        self.put("one.txt", "quandle trivial 2\n")
        words = ["sort", "--plan", plan, "--processes", "1", *more, self.diagrams, self.census]
        status, errors = self.main(census_call, words, given)
        # It ended as its help says: with a result, or a fault in one line.
        self.assertIn(status, (0, 1, 2, 3), errors)
        if status in (2, 3):
            self.assertRegex(errors, "(?m)^census.py: ")
        return status, errors

    def test_every_answer_of_every_example_of_the_jobs_it_asks(self):
        count, reducer = 0, Reducer(small_knot.simplified, plain_orbits.least)
        for job, name, text, due, out in example_answers():
            diagrams = diagrams_in(text) if job in OF_CENSUS else []
            # The stand-in is too slow for large ones.
            if diagrams and all(len(reducer.short(grid_of(one))[0]) <= 2 * LARGEST for one in diagrams):
                with self.subTest(job=job, name=name):
                    self.sort_given(diagrams, (job, due, out))
                    count += 1
        self.assertGreater(count, 30)

    def test_kinds_that_no_example_has(self):
        for name, given in MORE.items():
            with self.subTest(name):
                status, errors = self.sort_given([TREFOIL, HOPF if "linking" in name else mirror_image(TREFOIL)], given)
                if name.startswith("by "):
                    # What is reported wrongly the checker finds.
                    self.assertTrue(status in (0, 1) or "the checker says" in errors or "of another form than was due" in errors, errors)
                elif name in ("half an answer", "no answer at all", "moves that are none", "other numbers"):
                    self.assertEqual(status, 3)
                    self.assertIn("wrote a text of another form than was due", errors)

    def test_a_search_without_an_answer_is_named_and_the_rest_goes_on(self):
        two = [TREFOIL, mirror_image(TREFOIL)]
        status, errors = self.sort_given(two, ("seek", 7, ""))
        self.assertEqual(status, 3, errors)
        self.assertIn("census.py: seek ended with status 7\n", errors)
        self.assertEqual(len(self.rows()), 2)
        self.assertEqual(self.sort_given(two, ("seek", 1, ""))[0], 1)

    def test_what_seek_tells_apart_has_its_numbers_in_the_certificate(self):
        # Colours of the dihedral quandle of order 33, by its table, which is too large for decide: the trefoil has 99, the unknot 33.
        table = "table 33\n" + "".join(" ".join(str((2 * y - x) % 33) for y in range(33)) + "\n" for x in range(33))
        text = f"certificate 3\ndifferent numbers {table}seeds 0 1\nnumbers 99\nseeds 0\nnumbers 33\n"
        status, errors = self.sort_given([TREFOIL, UNKNOT], ("seek", 0, text), steps="few seek --steps 5\n")
        self.assertEqual(status, 0, errors)
        row, = self.rows("apart.csv")
        self.assertEqual((row["first"], row["second"], row["by"], row["evidence"], row["check"]), ("a", "b", "table 33", "certificate-1.txt", "accepted"))
        self.assertEqual(self.rows("undecided.csv"), [])


def diagrams_in(text):
    """The first two diagrams of an input, or one; none where the first line has none."""
    lines, found = Lines(text), []
    try:
        while len(found) < 2 and lines.peek() in ("x", "braid"):
            found.append(read_diagram(lines))
    except Fault:
        pass
    return [one for one in found if isinstance(one, (Braid, Grid))]


if __name__ == "__main__":
    unittest.main()
