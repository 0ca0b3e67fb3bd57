"""Tests of tools/ask_seek.py: with stand-ins that say what they were asked, and with the programs themselves where they are built."""
import os
import re
import subprocess
import sys
import unittest

import common
from knot_workbench import Certificate, from_table
from knot_workbench.diagrams import diagram_text

BUILT = common.built_program()
BUILT_SEEK = os.environ.get("SEEK") or os.path.join(common.ROOT, "crates", "seek", "out", "seek")
TREFOIL = "x 4 3 2 1 0\no 2 1 0 4 3\n"
LEFT = "x 0 1 2 3 4\no 2 3 4 0 1\n"
UNKNOT = "x 0 1\no 1 0\n"
WORD, MIRRORED, REVERSED, BOTH = ("braid 3 1 1 -2 1 -2 -2\n", "braid 3 -1 -1 2 -1 2 2\n", "braid 3 -2 -2 1 -2 1 1\n", "braid 3 2 2 -1 2 -1 -1\n")
# What a stand-in for seek does: it writes its words and its input, says a sentence, and ends with a status.
SEEK = '#!/bin/sh\necho "$*"\ncat\necho "seek: a sentence" >&2\nexit ${ENDS:-0}\n'
# One that finds the first diagram and the second to be equal without a move, if they are, and else nothing.
EQUAL = '#!/bin/sh\nread first; read remark; read second\n[ "$first" = "$second" ] && echo equal 0 || { echo "seek: nothing found: of these" >&2; exit 1; }\n'
KNOT = "#!/bin/sh\ncat >/dev/null\necho accepted\n"
LAUNCHER = '#!/bin/sh\nexec "${0%/*}/crates/seek/out/seek" "$@"\n'


class AskSeekTest(unittest.TestCase):
    def setUp(self):
        self.folder = common.scratch(self)
        self.put("knot", KNOT)
        for name, text in (("trefoil", TREFOIL), ("word", WORD), ("both", TREFOIL + WORD + "quandle dihedral 3\n")):
            self.put(f"{name}.txt", text)

    def put(self, name, text):
        path = os.path.join(self.folder, name)
        os.makedirs(os.path.dirname(path), exist_ok=True)
        with open(path, "w", encoding="utf-8") as out:
            out.write(text)
        os.chmod(path, 0o755)
        return path

    def read(self, name):
        with open(os.path.join(self.folder, name), encoding="utf-8") as source:
            return source.read()

    def call(self, *words, seek=SEEK, text="", **more):
        programs = {"KNOT": os.path.join(self.folder, "knot"), "SEEK": self.put("seek", seek)}
        done = subprocess.run([sys.executable, "-B", os.path.join(common.TOOLS, "ask_seek.py"), *words], env={**os.environ, **programs, **more},
                              cwd=self.folder, input=text, capture_output=True, text=True, check=False)
        return done.returncode, done.stdout, done.stderr


class OneTurn(AskSeekTest):
    def test_seek_is_asked_about_the_turned_diagram(self):
        for words, name, second in ((["--mirror"], "mirrored", MIRRORED), (["--reverse"], "reversed", REVERSED),
                                    (["--reverse", "--mirror"], "mirrored and reversed", BOTH)):
            problem = f"{TREFOIL}# the second diagram, {name}\n{second}"
            self.assertEqual(self.call(*words, "--problem", "p.txt", "trefoil.txt", "word.txt", "--seed", "5", "--quiet"),
                             (0, f"--seed=5 --quiet -\n{problem}", "seek: a sentence\n"))
            self.assertEqual(self.read("p.txt"), problem)

    def test_diagrams_keep_their_order_however_they_are_given(self):
        word = ["--braid", "3 1 1 -2 1 -2 -2"]
        for words, first, second in ((["trefoil.txt", *word], TREFOIL, MIRRORED), ([*word, "trefoil.txt"], WORD, LEFT),
                                     (["--braid=" + word[1], "--", "trefoil.txt"], WORD, LEFT), (["-", "word.txt"], TREFOIL, MIRRORED),
                                     (["both.txt"], TREFOIL, MIRRORED), ([], TREFOIL, MIRRORED)):
            text = self.read("both.txt") if not words else TREFOIL
            status, out, _ = self.call("--mirror", *words, text=text)
            quandles = "quandle dihedral 3\n" if words in ([], ["both.txt"]) else ""
            self.assertEqual((status, out), (0, f"-\n{first}# the second diagram, mirrored\n{second}{quandles}"), words)

    def test_a_knot_is_named(self):
        three, eight = (diagram_text(from_table(name)) for name in ("3_1", "8_19 mirrored"))
        self.assertEqual(self.call("--knot", "3_1", "trefoil.txt", "--problem", "p.txt"), (0, f"-\n{three}{TREFOIL}", "seek: a sentence\n"))
        self.assertEqual(self.read("p.txt"), three + TREFOIL)
        self.assertEqual(self.call("trefoil.txt", "--knot=8_19 mirrored")[1], f"-\n{TREFOIL}{eight}")
        status, out, said = self.call("--knot", "13_1", "trefoil.txt")
        self.assertEqual((status, out), (3, ""))
        self.assertTrue(said.startswith("seek: '13_1' is no knot of prime-knots-to-12.csv"), said)

    def test_the_status_is_that_of_seek(self):
        for ends in ("1", "6", "7"):
            self.assertEqual(self.call("--mirror", "trefoil.txt", "word.txt", ENDS=ends)[0], int(ends))

    def test_words_that_ask_for_nothing(self):
        for words in (["a", "b"], ["--mirror", "a", "b", "c"], ["--mirror", "--braid", "1"], ["--turns", "--mirror", "a", "b"],
                      ["--turns", "--out", "a", "b", "c"], ["--turns", "--problem", "p", "a", "b"], ["--mirror", "--certificates", "c", "a", "b"],
                      ["--mirror", "--problem", "word.txt", "trefoil.txt", "word.txt"]):
            status, out, said = self.call(*words)
            self.assertEqual((status, out), (2, ""), words)
            self.assertIn("error: ", said)
        self.assertEqual(self.read("word.txt"), WORD)

    def test_what_cannot_be_read_or_written(self):
        self.put("bad.txt", "x 0 1\no 0 1\n")
        for words, status, said in ((["trefoil.txt", "bad.txt"], 3, "seek: bad.txt: line 2: "),
                                    (["--braid", "2 3", "trefoil.txt"], 3, "seek: --braid '2 3': line 1: 3 is no letter"),
                                    (["trefoil.txt", "none.txt"], 5, "seek: none.txt: No such file"), (["trefoil.txt", "."], 5, "seek: .: Is a directory"),
                                    (["--problem", "no/p", "trefoil.txt", "word.txt"], 6, "seek: no/p: "), (["trefoil.txt"], 3, "seek: trefoil.txt: line 3: ")):
            found = self.call("--mirror", *words)
            self.assertEqual(found[:2], (status, ""), words)
            self.assertTrue(found[2].startswith(said), found[2])

    def test_a_program_that_is_not_there(self):
        status, _, said = self.call("--mirror", "trefoil.txt", "word.txt", SEEK="/no/such/seek")
        self.assertEqual((status, said), (127, "seek: /no/such/seek: no program of this name\n"))


class DefaultCocycles(AskSeekTest):
    def setUp(self):
        super().setUp()
        self.listed = self.put("tree/quandles/weights/list.txt", "")
        self.put("tree/crates.txt", "")
        self.put("tree/seek", LAUNCHER)
        self.put("tree/crates/seek/out/seek", SEEK)

    def words_for(self, seek, *words):
        """The words that a seek of the tree is given."""
        status, out, _ = self.call("--mirror", "trefoil.txt", "word.txt", *words, SEEK=seek, PATH=os.pathsep.join([self.folder + "/tree", os.environ["PATH"]]))
        self.assertEqual(status, 0)
        return out.splitlines()[0]

    def test_seek_is_given_those_of_its_tree(self):
        for seek in (self.folder + "/tree/seek", self.folder + "/tree/crates/seek/out/seek", "seek"):
            self.assertEqual(self.words_for(seek, "--seed", "5"), f"--weights={self.listed} --seed=5 -", seek)

    def test_seek_is_given_none_where_its_words_name_others_or_none(self):
        for words, given in ((["--weights", "mine.txt"], "--weights=mine.txt"), (["--no-weights"], "--no-weights")):
            self.assertEqual(self.words_for(self.folder + "/tree/seek", *words), f"{given} -")

    def test_a_seek_of_no_tree_is_given_none(self):
        os.unlink(self.folder + "/tree/crates.txt")
        self.assertEqual(self.words_for(self.folder + "/tree/crates/seek/out/seek", "--seed", "5"), "--seed=5 -")


class AllTurns(AskSeekTest):
    def test_each_turn_has_a_line(self):
        # (the stand-in reads a braid in a line)
        self.put("a.txt", MIRRORED)
        self.put("b.txt", WORD)
        status, out, said = self.call("--turns", "a.txt", "b.txt", "--certificates", "kept", seek=EQUAL)
        self.assertEqual((status, out), (1, "as given: open\nmirrored: equal 0\nreversed: open\nmirrored and reversed: open\n"))
        self.assertEqual(said.splitlines(), [f"seek: {name}: nothing found: of these" for name in ("as given", "reversed", "mirrored and reversed")])
        self.assertEqual(os.listdir(os.path.join(self.folder, "kept")), ["mirrored.txt"])
        self.assertEqual(self.read("kept/mirrored.txt"), f"{MIRRORED}# the second diagram, mirrored\n{MIRRORED}equal 0\n")

    def test_what_check_rejects_is_not_told(self):
        self.put("knot", "#!/bin/sh\ncat >/dev/null\necho rejected otherend\nexit 8\n")
        self.put("a.txt", MIRRORED)
        self.put("b.txt", WORD)
        status, out, said = self.call("--turns", "a.txt", "b.txt", seek=EQUAL)
        self.assertEqual((status, out), (8, "as given: open\n"))
        self.assertIn("knot check rejects what was found: otherend", said)

    def test_another_end_of_seek_ends_it(self):
        self.assertEqual(self.call("--turns", "trefoil.txt", "word.txt", ENDS="7")[0], 7)


@unittest.skipUnless(BUILT and os.access(BUILT_SEEK, os.X_OK), "knot and seek aren't built")
class ByThePrograms(AskSeekTest):
    def asked(self, *words):
        done = common.call([sys.executable, "-B", os.path.join(common.TOOLS, "ask_seek.py"), *words], cwd=self.folder,
                           env={**os.environ, "KNOT": os.path.abspath(BUILT), "SEEK": os.path.abspath(BUILT_SEEK)})
        return done.returncode, done.stdout, done.stderr

    def test_a_trefoil_is_its_reverse_and_not_its_mirror_image(self):
        listed = os.path.join(common.LISTS, "weights", "list.txt")
        status, out, said = self.asked("--turns", "--weights", listed, "--certificates", "kept", "trefoil.txt", "--braid", "2 1 1 1")
        self.assertEqual((status, said), (0, ""))
        self.assertEqual(re.findall("(?m)^(.*): (equal|different)", out), [("as given", "equal"), ("mirrored", "different"), ("reversed", "equal"),
                                                                           ("mirrored and reversed", "different")])
        for name in ("as-given", "mirrored", "reversed", "mirrored-and-reversed"):
            self.assertTrue(Certificate.load(os.path.join(self.folder, "kept", f"{name}.txt")).text)
            done = common.call([BUILT, "check"], text=self.read(f"kept/{name}.txt"))
            self.assertEqual(done.stdout, "accepted\n")

    def test_the_problem_and_the_answer_are_a_certificate(self):
        self.put("left.txt", "PD[X[1,4,2,5],X[3,6,4,1],X[5,2,6,3]]\n")
        status, verdict, _ = self.asked("--mirror", "--problem", "p.txt", "--pd", "left.txt", "--braid", "2 1 1 1", "--quiet")
        self.assertEqual(status, 0)
        self.assertEqual(common.call([BUILT, "check"], text=self.read("p.txt") + verdict).stdout, "accepted\n")
        self.assertTrue(verdict.startswith("certificate 2\nequal "))


if __name__ == "__main__":
    unittest.main()
