"""The module knot_workbench, beside a stand-in for the programs, and beside the built ones where they are there."""
import contextlib
import glob
import os
import signal
import stat
import subprocess
import sys
import tempfile
import unittest
from types import SimpleNamespace

ROOT = os.path.dirname(os.path.dirname(os.path.dirname(os.path.abspath(__file__))))
sys.path[:0] = [os.path.join(ROOT, "python"), os.path.join(ROOT, "tests", "tools")]

import common
import knot_workbench as kw
from knot_workbench import programs

STAND_IN = os.path.join(ROOT, "tests", "python", "stand_in.py")
TREFOIL = kw.Grid([4, 3, 2, 1, 0], [2, 1, 0, 4, 3])
UNKNOT = kw.Grid([0, 1], [1, 0])
WORD = kw.Braid(2, [1, 1, 1])


def built(name):
    """A built program, where the variable KNOT or SEEK names it or it was built in this tree, or None."""
    given = os.environ.get(name.upper())
    if given:
        return given
    beside = os.path.join(ROOT, "crates", name, "out", name)
    return beside if os.access(beside, os.X_OK) else None


@contextlib.contextmanager
def variables(**given):
    """Variables of the system, for a while."""
    before = {name: os.environ.get(name) for name in given}
    os.environ.update(given)
    try:
        yield
    finally:
        for name, value in before.items():
            if value is None:
                del os.environ[name]
            else:
                os.environ[name] = value


class Case(unittest.TestCase):
    """Tests whose programs are the stand-in, unless they say otherwise."""

    def setUp(self):
        kw.use(knot=STAND_IN, seek=STAND_IN)
        self.addCleanup(programs._given.clear)
        kept = tempfile.TemporaryDirectory()
        self.addCleanup(kept.cleanup)
        self.folder = kept.name

    def path(self, name):
        return os.path.join(self.folder, name)

    def says(self, status, text="", told=""):
        """The stand-in answers so, and notes what it got."""
        return variables(STAND_IN_SAYS=f"{status} {text}", STAND_IN_TELLS=told, STAND_IN_NOTES=self.path("notes"))

    def got(self):
        """The words and the input of the last call."""
        with open(self.path("notes"), encoding="utf-8") as file:
            words, _, text = file.read().partition("\n")
        return words, text

    def fails(self, kind, said, call, *words, **more):
        with self.assertRaises(kind) as caught:
            call(*words, **more)
        self.assertIn(said, str(caught.exception))
        self.assertIsInstance(caught.exception, kw.Fault)
        return caught.exception


class Diagrams(Case):
    def test_diagrams_are_plain_values(self):
        self.assertEqual((TREFOIL.size, TREFOIL.text), (5, "x 4 3 2 1 0\no 2 1 0 4 3\n"))
        self.assertEqual((WORD.text, WORD.closure().text), ("braid 2 1 1 1\n", "x 4 3 2 0 1 5 6\no 6 5 4 3 2 1 0\n"))
        self.assertEqual(TREFOIL.mirror(), kw.Grid([0, 1, 2, 3, 4], [2, 3, 4, 0, 1]))
        self.assertEqual(TREFOIL.reverse(), kw.Grid(TREFOIL.os, TREFOIL.xs))
        self.assertEqual((WORD.mirror(), kw.Braid(3, (1, -2)).reverse()), (kw.Braid(2, (-1, -1, -1)), kw.Braid(3, (-2, 1))))
        self.assertEqual(len({TREFOIL, kw.Grid(list(TREFOIL.xs), list(TREFOIL.os)), WORD}), 2)

    def test_numbers_that_make_no_diagram_are_refused(self):
        for numbers, said in ((([0], [0]), "two columns"), (([0, 0], [1, 1]), "Xs"), (([0, 1], [1, 1]), "Os"), (([0, 1], [0, 1]), "column 0"),
                              (([0, 1, 2], [1, 0]), "Os")):
            self.fails(kw.BadDiagram, said, kw.Grid, *numbers)
        for numbers, said in (((0, []), "one strand"), ((2, [2]), "2 is no letter"), ((3, [1, 0]), "0 is no letter")):
            self.fails(kw.BadDiagram, said, kw.Braid, *numbers)

    def test_quandles_by_name_and_by_table(self):
        self.assertEqual(kw.quandle("dihedral 3").over, ((0, 2, 1), (2, 1, 0), (1, 0, 2)))
        table = kw.quandle([[0, 2, 1], [2, 1, 0], [1, 0, 2]])
        self.assertEqual((table.order, table.text), (3, "quandle table 3\n0 2 1\n2 1 0\n1 0 2\n"))
        self.assertEqual(kw.quandle(table.text), table)
        self.assertEqual([one.name for one in kw.built_in_list()], ["trivial 2", "dihedral 3", "tetrahedral", "dihedral 5", "dihedral 7"])
        self.fails(kw.BadText, "no name of a quandle", kw.quandle, "cyclic 3")
        self.fails(kw.BadText, "1 ▷ 1 is not 1", kw.quandle, [[0, 0], [1, 0]])

    def test_cocycles(self):
        weight = kw.cocycle("tetrahedral", 2, [[0, 1, 1, 0], [1, 0, 1, 0], [1, 1, 0, 0], [0, 0, 0, 0]])
        self.assertEqual(weight.text, "weight 2\n0 1 1 0\n1 0 1 0\n1 1 0 0\n0 0 0 0\n")
        self.fails(kw.BadText, "no cocycle", kw.cocycle, "tetrahedral", 2, [[0, 1, 0, 0], *[[0] * 4] * 3])
        self.fails(kw.BadText, "4 lines of 4 numbers below 2", kw.cocycle, "tetrahedral", 2, [[0] * 4] * 3)


class Answers(Case):
    """What the jobs answer; the independent reader stands for the program where there is one answer alone."""

    def test_colourings(self):
        (three,) = kw.colour(TREFOIL, "dihedral 3")
        self.assertEqual((three.quandle.name, len(three.colours), three.bottoms), ("dihedral 3", 9, None))
        self.assertIn((0, 1, 2, 0, 2), three.colours)
        self.assertEqual([(found.quandle.name, len(found.colours)) for found in kw.colour(WORD)],
                         [("trivial 2", 2), ("dihedral 3", 9), ("tetrahedral", 16), ("dihedral 5", 5), ("dihedral 7", 7)])
        (wide,) = kw.colour(kw.Braid(5), kw.quandle("dihedral 32"))
        self.assertEqual((wide.colours, wide.bottoms), (None, 5))

    def test_codes(self):
        code = kw.code(TREFOIL)
        self.assertEqual((code.rows, code.loops, code.signs(), code.writhe()), ([[5, 3, 6, 2], [1, 5, 2, 4], [3, 1, 4, 6]], 0, [1, 1, 1], 3))
        self.assertEqual(code.text, common.read("examples", "code", "right-trefoil.out"))
        self.assertEqual(kw.code(UNKNOT), kw.Code([], 1, []))

    def test_linking_numbers(self):
        self.assertEqual(kw.linking(kw.Braid(2, [1, 1]), kw.Braid(2)), ((1, 1), (0, 0), True))
        self.assertEqual(kw.linking(kw.Braid(2, [-1, -1]), kw.Braid(2, [-1, -1])), ((-1, -1), (-1, -1), False))

    def test_weights(self):
        weight = kw.cocycle("tetrahedral", 2, [[0, 1, 1, 0], [1, 0, 1, 0], [1, 1, 0, 0], [0, 0, 0, 0]])
        self.assertEqual(kw.weights(TREFOIL, kw.Braid(2), "tetrahedral", weight), ((4, 12), (16, 0), True))
        self.assertEqual(kw.weights(TREFOIL, TREFOIL.mirror(), "tetrahedral", weight), ((4, 12), (4, 12), False))
        by_regions = kw.ShadowCocycle(3, None)
        self.assertEqual(by_regions.text, "shadow mochizuki\n")
        self.assertEqual(kw.weights(TREFOIL, TREFOIL.mirror(), "dihedral 3", by_regions), ((9, 0, 18), (9, 18, 0), True))
        zero = kw.cocycle("dihedral 32", 2, [[0] * 32] * 32)
        fault = self.fails(kw.Wide, "diagram 2", kw.weights, UNKNOT, kw.Braid(5), "dihedral 32", zero)
        self.assertEqual((fault.which, fault.bottoms), (2, 5))

    def test_moves_are_replayed(self):
        certificate = kw.Certificate.load(os.path.join(ROOT, "examples", "check", "disguised-unknot.txt"))
        self.assertEqual(kw.replay(certificate.first, certificate.moves), (UNKNOT, None))
        after = kw.replay(WORD, [("exchange", "columns", 3)], "dihedral 3", [0, 1, 2, 0, 1, 1, 0])
        self.assertEqual(after.colours, (0, 1, 2, 2, 0, 1, 0))
        self.assertEqual(self.fails(kw.Rejected, "step 0", kw.replay, TREFOIL, [("exchange", "columns", 0)]).cause, "step 0 interleaved")
        self.assertEqual(self.fails(kw.Rejected, "colours", kw.replay, TREFOIL, [], "dihedral 3", [0, 1, 1, 0, 2]).cause, "colours")
        self.fails(kw.Fault, "go together", kw.replay, TREFOIL, [], "dihedral 3")

    def test_a_braid_word(self):
        self.assertEqual(kw.braid_word(TREFOIL), kw.Braid(3, [2, 1, 2, 1]))

    def test_simplified_diagrams(self):
        with self.says(0, common.read("examples", "simplify", "disguised-unknot.out")):
            found = kw.simplify(TREFOIL, budget=50)
        self.assertEqual(self.got(), ("simplify --budget=50", TREFOIL.text))
        self.assertEqual((found.grid, len(found.moves), found.is_irreducible), (UNKNOT, 10, True))
        with self.says(0, TREFOIL.text + "moves 0\nspent 50\n"):
            self.assertEqual(kw.simplify(TREFOIL), (TREFOIL, (), False))

    def test_least_diagrams(self):
        with self.says(0, common.read("examples", "least", "trefoil.out")):
            found = kw.least(TREFOIL, budget=50)
        self.assertEqual(self.got(), ("least --budget=50", TREFOIL.text))
        self.assertEqual(found, (kw.Grid([0, 4, 3, 2, 1], [3, 2, 1, 0, 4]), (("shift", "rows", 4),), True))
        with self.says(0, TREFOIL.text + "moves 0\nspent 50\n"):
            self.assertEqual(kw.least(TREFOIL), (TREFOIL, (), False))

    def test_numbers_of_colourings(self):
        weight = kw.cocycle("tetrahedral", 2, [[0, 1, 1, 0], [1, 0, 1, 0], [1, 1, 0, 0], [0, 0, 0, 0]])
        table = kw.quandle([[0, 2, 1], [2, 1, 0], [1, 0, 2]])
        with self.says(0, f"{table.text}numbers 9\nquandle tetrahedral\nnumbers 4 12\nquandle dihedral 32\nwide 5\n"):
            found = kw.numbers(TREFOIL, table, ("tetrahedral", weight), "dihedral 32")
        self.assertEqual(self.got(), ("numbers", f"{TREFOIL.text}{table.text}quandle tetrahedral\n{weight.text}quandle dihedral 32\n"))
        self.assertEqual([one[1:] for one in found], [((9,), None), ((4, 12), None), (None, 5)])
        self.assertEqual(found[0].quandle, table)

    def test_numbers_by_larger_tables(self):
        text = "quandle table 33\n" + "".join(" ".join(str((2 * y - x) % 33) for y in range(33)) + "\n" for x in range(33))
        with self.says(0, f"{text}numbers 99\n"):
            found, = kw.numbers(TREFOIL, text)
        self.assertEqual(self.got(), ("numbers", TREFOIL.text + text))
        self.assertEqual((found.quandle, found.counts), (kw.quandle([[(2 * y - x) % 33 for y in range(33)] for x in range(33)]), (99,)))
        self.fails(kw.BadText, "the order is not 1 to 128", kw.quandle, "table 129")
        self.fails(kw.BadText, "the order is not 1 to 32", kw.quandle, "dihedral 33")

    def test_an_older_program_has_no_such_job(self):
        with self.says(2, "usage: knot JOB\n"):
            self.fails(kw.NoJob, "knot doesn't take the words 'numbers'", kw.numbers, TREFOIL)


class Searches(Case):
    def test_what_decide_writes_is_a_certificate(self):
        seen = 0
        for path in sorted(glob.glob(os.path.join(ROOT, "examples", "decide", "*.out"))):
            problem, answer = common.read(path[:-4] + ".txt"), common.read(path)
            if "\nunknown" in answer:
                self.fails(kw.BadText, "no evidence", kw.Certificate.parse, problem + answer)
                continue
            if not answer.startswith("certificate"):
                continue
            seen += 1
            found = kw.Certificate.parse(problem + answer)
            self.assertTrue(found.text.endswith(answer), path)
            self.assertTrue(found.check(), path)
            with self.says(0, answer):
                self.assertEqual(kw.decide(found.first, found.second, found.quandles), found)
                self.assertEqual(self.got(), ("decide", found.text[:-len(answer)]))
        self.assertGreater(seen, 4)

    def test_an_equal_has_its_moves(self):
        found = kw.Certificate.load(os.path.join(ROOT, "examples", "check", "disguised-unknot.txt"))
        self.assertEqual((found.is_equal, found.version), (True, 1))
        self.assertEqual(found.moves, (("destabilise", 2, 2), ("destabilise", 1, 1), ("destabilise", 0, 0)))
        self.assertEqual((len(found.grids()), found.grids()[-1]), (4, found.second))
        self.assertEqual(found.colours(kw.quandle("dihedral 3"), [1] * 5), [[1] * size for size in (5, 4, 3, 2)])
        wrong = kw.Certificate(TREFOIL, TREFOIL, kw.Equal((("exchange", "columns", 0),)))
        self.fails(kw.Illegal, "move 0, 'exchange columns 0', is not legal: interleaved", wrong.grids)

    def test_a_different_has_both_lists(self):
        found = kw.Certificate.load(os.path.join(ROOT, "examples", "check", "trefoil-unknot-by-a-table.txt"))
        self.assertEqual((found.is_equal, found.verdict.quandle.name), (False, "table 3"))
        self.assertEqual((len(found.verdict.first), found.verdict.second), (9, ((0, 0), (1, 1), (2, 2))))
        self.assertTrue(found.check())
        self.fails(kw.Fault, "no moves", lambda: found.moves)

    def test_numbers_are_evidence_of_the_third_version(self):
        begin = TREFOIL.text + "braid 2\ncertificate 3\n"
        weight = "weight 2\n0 1 1 0\n1 0 1 0\n1 1 0 0\n0 0 0 0\n"
        text = begin + f"different numbers tetrahedral\n{weight}seeds 0 1\nnumbers 4 12\nseeds 1 2\nnumbers 16 0\n"
        found = kw.Certificate.parse(text)
        self.assertEqual((found.text, found.version, found.is_equal, repr(found)), (text, 3, False, "<Certificate: different by tetrahedral>"))
        self.assertEqual((found.verdict.cocycle.modulus, found.verdict.first, found.verdict.second), (2, ((0, 1), (4, 12)), ((1, 2), (16, 0))))
        text = begin + "different numbers table 3\n0 2 1\n2 1 0\n1 0 2\nseeds 0 1\nnumbers 9\nseeds\nnumbers 3\n"
        found = kw.Certificate.parse(text)
        self.assertEqual((found.text, found.verdict.cocycle, found.verdict.second), (text, None, ((), (3,))))
        text = begin + "different linking\ncomponents 1\nnumbers\ncomponents 2\nnumbers -1 -1\n"
        found = kw.Certificate.parse(text)
        self.assertEqual((found.text, found.verdict, repr(found)), (text, ((1, ()), (2, (-1, -1))), "<Certificate: different by linking numbers>"))
        for text, said in (("different numbers dihedral 3\nseeds 0\nnumbers 9 0\n", "line 7: the line 'numbers' is due, with 1 numbers"),
                           ("different dihedral 3\nlist 0\nlist 0\n", "line 5: a verdict 'different numbers' or 'different linking' is due"),
                           ("different numbers\n", "line 5: '' is no name of a quandle")):
            self.fails(kw.BadText, said, kw.Certificate.parse, begin + text)

    def test_a_certificate_is_saved_whole(self):
        found = kw.Certificate(TREFOIL, WORD, kw.Equal((("shift", "rows", 1),)), [kw.quandle("dihedral 3")])
        found.save(self.path("one.txt"))
        self.assertEqual(kw.Certificate.load(self.path("one.txt")), found)
        self.assertEqual(found.text, TREFOIL.text + "braid 2 1 1 1\nquandle dihedral 3\ncertificate 2\nequal 1\nshift rows 1\n")
        self.assertEqual(os.listdir(self.folder), ["one.txt"])
        with self.assertRaises(OSError):
            found.save(self.path("none/one.txt"))
        with open(self.path("bytes"), "wb") as out:
            out.write(b"x 0\xff\n")
        self.fails(kw.BadText, "not UTF-8 at byte 3", kw.Certificate.load, self.path("bytes"))

    def test_check_names_the_first_cause(self):
        wrong = kw.Certificate(TREFOIL, UNKNOT, kw.Equal(()))
        self.assertEqual(self.fails(kw.Rejected, "rejected: otherend", wrong.check).cause, "otherend")
        self.assertEqual(self.fails(kw.Malformed, "line 3", kw.check, "x 0 1\no 1 0\nx 0\n").line, 3)

    def test_seek(self):
        with self.says(0, "certificate 2\nequal 1\nshift rows 1\n"):
            found = kw.seek(TREFOIL, WORD, ["dihedral 11"], seed=3, steps=1000, room=500, workers=2)
        self.assertEqual(self.got(), ("--quiet --seed=3 --steps=1000 --room=500 --workers=2 -", TREFOIL.text + "braid 2 1 1 1\nquandle dihedral 11\n"))
        self.assertEqual((found.moves, found.quandles[0].order, repr(found)), ((("shift", "rows", 1),), 11, "<Certificate: equal, 1 moves>"))
        with self.says(1, "", "seek: nothing found\n"):
            self.assertIsNone(kw.seek(TREFOIL, WORD, "dihedral 3"))

    def test_unknown(self):
        with self.says(1, "certificate 2\nunknown exhausted 5 2\n"):
            self.assertEqual(kw.decide(TREFOIL, TREFOIL.mirror(), spare=0), kw.Unknown(True, 2, 5))
        self.assertEqual(self.got()[0], "decide --spare=0")
        with self.says(1, "certificate 2\nunknown budget 50\n"):
            self.assertEqual(kw.decide(TREFOIL, TREFOIL.mirror(), budget=50, workers=2), kw.Unknown(False, 50, None))


class Faults(Case):
    def test_each_status_has_an_error_of_its_own(self):
        for status, text, told, kind, said in (
                (2, "usage: knot JOB\n", "knot: --budget takes a whole number\n", kw.NoJob, "'code': --budget takes a whole number"),
                (3, "malformed line 2\n", "knot: line 2: 7 is not a row\n", kw.Malformed, "line 2: 7 is not a row"),
                (4, "limit bytes\n", "", kw.OverLimit, "limit bytes"), (5, "", "knot: reading failed: busy\n", kw.Failed, "ended with status 5, reading failed: "),
                (7, "", "", kw.Failed, "memory ran out"), (127, "", "knot: there is no program\n", kw.Failed, "could not be built"),
                (99, "", "", kw.Failed, "which is none of its own"), (0, "crossings 1\n", "", kw.BadAnswer, "knot code wrote a text of another form"),
                (0, "", "", kw.BadAnswer, "'crossings N' is due")):
            with self.says(status, text, told):
                self.fails(kind, said, kw.code, TREFOIL)
        with self.says(4, "limit line 2\n"):
            self.assertEqual(self.fails(kw.OverLimit, "limit line 2", kw.code, TREFOIL).limit, "line 2")
        with self.says(0, "numbers 1\nnumbers 0\nsame\n"):
            self.fails(kw.BadAnswer, "'different' or 'alike'", kw.linking, TREFOIL, TREFOIL)

    def script(self, line):
        path = self.path("script")
        with open(path, "w", encoding="utf-8") as out:
            out.write(f"#!/bin/sh\n{line}\n")
        os.chmod(path, 0o700)
        return path

    def test_a_program_that_is_ended(self):
        kw.use(knot=self.script("kill -9 $$"))
        self.assertEqual(self.fails(kw.Failed, "ended by signal 9", kw.code, TREFOIL).status, -signal.SIGKILL)

    def test_a_program_that_takes_too_long(self):
        kw.use(seek=self.script("exec sleep 30"))
        self.fails(kw.TimedOut, "ended after 0.2 seconds", kw.seek, TREFOIL, UNKNOT, timeout=0.2)

    def test_no_program(self):
        kw.use(knot=self.path("none"))
        self.fails(kw.NoProgram, "none: no program of this name", kw.code, TREFOIL)
        path = self.path("odd")
        with open(path, "w", encoding="utf-8") as out:
            out.write("#!/no/such/interpreter\n")
        os.chmod(path, stat.S_IRWXU)
        kw.use(knot=path)
        self.fails(kw.NoProgram, "No such file", kw.code, TREFOIL)

    def test_where_programs_are_looked_for(self):
        programs._given.clear()
        with variables(KNOT="/some/knot"):
            self.assertEqual(programs.candidates("knot"), ["/some/knot"])
        with variables(SEEK=""):
            self.assertEqual(programs.candidates("seek"), [os.path.join(ROOT, "crates", "seek", "out", "seek"), "seek"])
        # A module that is installed below PREFIX/lib finds the programs in PREFIX/bin.
        package = os.path.join(self.folder, "lib", "python3", "dist-packages", "knot_workbench")
        os.makedirs(os.path.dirname(package))
        os.symlink(os.path.join(ROOT, "python", "knot_workbench"), package)
        before = programs.HERE
        self.addCleanup(setattr, programs, "HERE", before)
        programs.HERE = package
        with variables(KNOT=""):
            self.assertIn(os.path.join(self.folder, "bin", "knot"), programs.candidates("knot"))


class DefaultCocycles(Case):
    """A tree with the launcher and the program that was built, an installation, and programs elsewhere."""

    def setUp(self):
        super().setUp()
        for path in ("tree/seek", "tree/knot", "tree/crates/seek/out/seek", "prefix/bin/seek", "prefix/lib/knot-workbench/seek", "other/seek"):
            os.makedirs(os.path.dirname(self.path(path)), exist_ok=True)
            os.symlink(STAND_IN, self.path(path))
        self.tree, self.prefix = (self.path(f"{place}/{programs.COCYCLES}") for place in ("tree", "prefix/share/knot-workbench"))
        for path in (self.path("tree/crates.txt"), self.tree, self.prefix, self.path(f"other/{programs.COCYCLES}")):
            os.makedirs(os.path.dirname(path), exist_ok=True)
            with open(path, "w", encoding="utf-8"):
                pass

    def found(self, program, *words):
        return programs.default_cocycles(self.path(program), words)

    def test_a_seek_has_those_of_its_tree_or_of_its_installation(self):
        os.unlink(self.path("tree/seek"))
        with open(self.path("tree/seek"), "w", encoding="utf-8") as out:
            out.write("#!/bin/sh\n")
        os.symlink(self.path("tree/seek"), self.path("link"))
        due = {"tree/seek": self.tree, "tree/crates/seek/out/seek": self.tree, "link": self.tree, "prefix/bin/seek": self.prefix,
               "other/seek": None, "tree/knot": None, "prefix/lib/knot-workbench/seek": None, "nowhere/seek": None}
        self.assertEqual({program: self.found(program) for program in due}, due)
        with variables(PATH=self.path("prefix/bin")):
            self.assertEqual(programs.default_cocycles("seek"), self.prefix)
        os.unlink(self.tree)
        self.assertIsNone(self.found("tree/seek"))

    def test_words_that_say_what_is_counted_by(self):
        for words in (["--weights", "a"], ["--weights=a"], ["--no-weights"], ["--seed", "2", "--no-weights"]):
            self.assertIsNone(self.found("tree/seek", *words), words)
        self.assertEqual(self.found("tree/seek", "--quandles", "a", "--seed=2"), self.tree)

    def test_the_module_names_them_as_other_files(self):
        for program, weights, due in (("tree/seek", None, f"--weights={self.tree} "), ("other/seek", None, ""), ("tree/seek", (), "--no-weights "),
                                      ("tree/seek", "a.txt", "--weights=a.txt ")):
            kw.use(seek=self.path(program))
            with self.says(1):
                self.assertIsNone(kw.seek(TREFOIL, WORD, weights=weights))
            self.assertEqual(self.got()[0], f"--quiet {due}-")


class Sources(Case):
    def test_a_planar_diagram_code(self):
        with self.says(0, TREFOIL.text):
            self.assertEqual(kw.from_pd([(1, 5, 2, 4), (3, 1, 4, 6), (5, 3, 6, 2)]), TREFOIL)
            self.assertEqual(self.got(), ("grid", "crossings 3\nX[1,5,2,4]\nX[3,1,4,6]\nX[5,3,6,2]\nloops 0\n"))
            kw.from_pd([], loops=2)
            self.assertEqual(self.got()[1], "crossings 0\nloops 2\n")
            kw.from_code(kw.read_code(common.read("examples", "code", "right-trefoil.out")))
            self.assertEqual(self.got()[1], common.read("examples", "code", "right-trefoil.out"))
        for answer, cause in (("rejected edge 5", "edge 5"), ("rejected direction 2", "direction 2"), ("rejected plane", "plane"), ("rejected empty", "empty")):
            with self.says(8, f"{answer}\n"):
                self.assertEqual(self.fails(kw.Rejected, cause, kw.from_pd, []).cause, cause)
        with self.says(4, "limit columns 60\n"):
            self.assertEqual(self.fails(kw.OverLimit, "columns 60", kw.from_pd, []).limit, "columns 60")
        with self.says(2, "usage: knot JOB\n"):
            self.fails(kw.NoJob, "'grid'", kw.from_pd, [])
        self.fails(kw.BadCode, "row 1 of a PD code has four numbers", kw.from_pd, [[1, 1, 2]])

    def test_links_of_other_programs(self):
        rows = [(1, 5, 2, 4), (3, 1, 4, 6), (5, 3, 6, 2)]
        sage = SimpleNamespace(pd_code=lambda: [[i, l, k, j] for i, j, k, l in rows], number_of_components=lambda: 1)
        regina = SimpleNamespace(pdData=lambda: rows, countComponents=lambda: 2)
        snappy = SimpleNamespace(PD_code=lambda: rows, unlinked_unknot_components=1)
        with self.says(0, TREFOIL.text):
            kw.from_sage(sage)
            self.assertEqual(self.got()[1], "crossings 3\nX[1,5,2,4]\nX[3,1,4,6]\nX[5,3,6,2]\nloops 0\n")
            kw.from_regina(regina)
            self.assertEqual(self.got()[1], "crossings 3\nX[1,5,2,4]\nX[3,1,4,6]\nX[5,3,6,2]\nloops 1\n")
            kw.from_snappy(snappy)
            self.assertEqual(self.got()[1], "crossings 3\nX[1,5,2,4]\nX[3,1,4,6]\nX[5,3,6,2]\nloops 1\n")
        regina.countComponents = lambda: 0
        self.fails(kw.BadCode, "the code has 1 components, and the link 0", kw.from_regina, regina)

    def test_a_table(self):
        path = os.path.join(ROOT, "quandles", "knots-to-8.csv")
        knots = kw.from_table(path, "braid")
        self.assertEqual((len(knots), knots[0]), (35, ("3_1", kw.Braid(2, (1, 1, 1)))))
        self.assertEqual(kw.from_table(path, "braid", mirror=True)[0][1], kw.Braid(2, (-1, -1, -1)))
        with open(self.path("t.csv"), "w", encoding="utf-8") as out:
            out.write('name,word\na,"{1,1,1}"\nb,"{0}"\nc,"{{1,3},{2,1},{3,2}}"\n')
        self.fails(kw.EntryError, "t.csv:3: b: letter 1 is 0", kw.from_table, self.path("t.csv"), "word")
        faults = []
        found = kw.from_table(self.path("t.csv"), "word", faults=faults)
        self.assertEqual(([name for name, _ in found], len(faults)), (["a", "c"], 1))
        self.fails(kw.TableError, "no column is called 'x'", kw.from_table, self.path("t.csv"), "x")


class Module(Case):
    def test_each_public_name_has_a_docstring(self):
        for name in kw.__all__:
            self.assertTrue(hasattr(kw, name), name)
            if name not in ("Diagram", "Move"):
                self.assertTrue(getattr(kw, name).__doc__, name)
        self.assertIn("Python 3.9 or later and nothing else", kw.__doc__)

    def test_the_guide_shows_the_example(self):
        example = common.read("examples", "python", "trefoils.py").split('"""\n', 2)[-1]
        self.assertIn(f"```\n{example}```\n", common.read("docs", "GUIDE.md"))

    def test_it_imports_the_standard_library_alone(self):
        script = "import sys; sys.path.insert(0, sys.argv[1]); import knot_workbench; print(*{name.split('.')[0] for name in sys.modules})"
        done = subprocess.run([sys.executable, "-I", "-S", "-B", "-c", script, os.path.join(ROOT, "python")], capture_output=True, text=True, check=True)
        names = set(done.stdout.split())
        self.assertIn("knot_workbench", names)
        known = getattr(sys, "stdlib_module_names", names)
        self.assertLessEqual({name for name in names if not name.startswith("_")}, {"knot_workbench", *known})


@unittest.skipUnless(built("knot") and built("seek"), "the programs aren't built")
class Built(unittest.TestCase):
    """The built programs."""

    def setUp(self):
        kw.use(knot=built("knot"), seek=built("seek"))
        self.addCleanup(programs._given.clear)

    def test_seek_and_decide(self):
        for call in (kw.seek, kw.decide):
            found = call(WORD, kw.Grid([4, 3, 2, 1, 0], [1, 0, 4, 3, 2]))
            self.assertTrue(found.is_equal)
            self.assertTrue(found.check())
            self.assertEqual(found.grids()[-1], found.second)
            found = call(WORD, UNKNOT)
            self.assertEqual((found.is_equal, found.verdict.quandle.name, len(found.verdict.first)), (False, "dihedral 3", 9))
            self.assertTrue(found.check())
        self.assertEqual(kw.decide(TREFOIL, TREFOIL.mirror(), spare=0), kw.Unknown(True, 2, 5))
        self.assertIsNone(kw.seek(TREFOIL, TREFOIL.mirror(), weights=(), steps=1000))

    def test_the_other_jobs(self):
        self.assertEqual(kw.code(TREFOIL).writhe(), 3)
        self.assertEqual([len(found.colours) for found in kw.colour(TREFOIL)], [2, 9, 16, 5, 7])
        self.assertEqual(kw.linking(kw.Braid(2, [1, 1]), kw.Braid(2)), ((1, 1), (0, 0), True))
        self.assertEqual(kw.braid_word(TREFOIL), kw.Braid(3, [2, 1, 2, 1]))
        simple = kw.simplify(kw.Braid(2, [1]))
        self.assertEqual((simple.grid.size, simple.is_irreducible), (2, True))
        self.assertEqual(kw.replay(kw.Braid(2, [1]), simple.moves).grid, simple.grid)
        first = kw.least(TREFOIL)
        self.assertEqual((kw.replay(TREFOIL, first.moves).grid, first.is_whole), (first.grid, True))
        self.assertEqual(kw.least(kw.Grid([0, 4, 3, 2, 1], [3, 2, 1, 0, 4])).grid, first.grid)
        fault = None
        try:
            kw.decide(kw.Grid(range(50), [*range(1, 50), 0]), UNKNOT)
        except kw.OverLimit as caught:
            fault = caught
        self.assertEqual(fault.limit, "line 1")

    def test_numbers_where_the_program_has_the_job(self):
        try:
            found = kw.numbers(TREFOIL, "dihedral 3", "tetrahedral")
        except kw.NoJob:
            self.skipTest("the program has no job numbers")
        self.assertEqual([one.counts for one in found], [(9,), (16,)])

    def test_codes_come_back_where_the_program_has_the_job(self):
        for diagram in (TREFOIL, kw.Braid(3, [1, -2, 1, -2]), kw.Braid(2, [1, 1])):
            code = kw.code(diagram)
            try:
                drawn = [kw.from_code(code), kw.from_pd(code.rows)]
            except kw.NoJob:
                self.skipTest("the program has no job grid")
            for again in drawn:
                self.assertEqual(sorted(kw.code(again).signs()), sorted(code.signs()))

    def test_a_link_of_regina(self):
        try:
            import regina
        except ImportError:
            self.skipTest("Regina isn't installed for this Python")
        try:
            grid = kw.from_regina(regina.ExampleLink.trefoilRight() if hasattr(regina.ExampleLink, "trefoilRight") else regina.ExampleLink.trefoil())
        except kw.NoJob:
            self.skipTest("the program has no job grid")
        self.assertEqual(abs(kw.code(grid).writhe()), 3)


if __name__ == "__main__":
    unittest.main()
