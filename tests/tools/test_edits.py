"""Tests of tests/edits.py, with a stand-in for rt."""
import fcntl
import os
import re
import shutil
import signal
import stat
import subprocess
import sys
import tempfile
import time
import unittest

TREE = os.path.dirname(os.path.dirname(os.path.dirname(os.path.abspath(__file__))))
sys.path.insert(0, os.path.join(TREE, "tests"))
import edit_rounds  # noqa: E402

SCRIPT = os.path.join(TREE, "tests", "edits.py")

# An edit's line 'new: says: W' has the stand-in say what rt says of such an edit; the words are rt's own. Where functions are checked alone, it says that
# of each whose body has the word; a check without --only proves them all.
STAND_IN = """#!{python}
import os, re, sys, time
FOR = {{
    "refused": "refused, as it must be: src/lib.rt:3:1: error: `f.ensures`: not proved",
    "by a limit": "refused, as it must be (only by a limit of the prover, which gave no verdict): src/lib.rt:3:1: error",
    "missed": "NOT REFUSED: the crate is still proved with this edit",
    "bad": "BAD EDIT: an 'old:' text is in src/lib.rt 0 times, and not once",
    "unsure": "NOT TRIED: its check ended with status 4, so nothing is known of it: run this again",
}}
WHY = {{
    "refused": "note: src/lib.rt:{{}}:1: it is not proved that what the function ensures holds when it returns (`returns-then`)",
    "answers": "./proofs/{{1}}/Answers.antt:10:5: error: `returns-clause`: as printed, the two types differ",
    "names": "./proofs/{{1}}/Answers.antt:10:5: error: `returns-clause`: `kept` is not in scope\\n./proofs/{{1}}/Answers.antt:9:5: note: see there",
    "scope": "./src/lib.rt:{{}}:1: error: `returns-clause`: `n` is not in scope",
    "elsewhere": "./src/lib.rt:1:1: error: `other`: not proved",
}}
words, here = sys.argv[1:], os.getcwd()
name = os.path.basename(here)
if words == ["version"]:
    sys.exit(print("the stand-in"))
with open({calls!r}, "a") as calls:
    calls.write(" ".join(words) + " in " + name + "\\n")
if words[0] == "lib" and os.path.exists("out/rlib/stamp"):
    sys.exit(0)
if words[0] in ("check", "lib"):
    with open("src/lib.rt") as file:
        rows = file.read().split("\\n")
    found, body = {{}}, None
    for number, row in enumerate(rows, 1):
        if re.match(" *(pub )?fn ", row):
            body = found[f"{{name}}::" + re.search(r"fn (\\w+)", row)[1]] = [number, ""]
        elif body and "says: " in row:
            body[:] = number, row.split("says: ")[1]
    if "--only" not in words:
        if os.path.exists("src/unproved"):
            print("./src/lib.rt:1:1: error: `f.ensures`: not proved")
            sys.exit(1)
        for made in ("incremental/work", "rlib/stamp")[:1 + (words[0] == "lib")]:
            os.makedirs("out/" + made.split("/")[0], exist_ok=True)
            open("out/" + made, "a").close()
        print(*[f"fn {{it}}: proved" + ", may wait" * it.endswith("two") for it in found], sep="\\n")
        sys.exit(0)
    asked = [it for it in words[words.index("--only") + 1 :: 2]]
    if any(found[it][1] in ("bad", "nowhere") for it in asked):
        print(*[f"./src/lib.rt:{{found[it][0]}}:5: error[unknown-name]: no such name" for it in asked if found[it][1] == "bad"], "error: rejected", sep="\\n")
        sys.exit(1)
    for it in asked:
        row, says = found[it]
        behind = [f"{{name}}::{{other}}" for other in says.split()[1:]]
        behind = [other for other in behind if other in asked and found[other][1].split()[:1] in (["refused"], ["calls"])]
        call = f"it calls `{{behind[0]}}`, which is not proved" if behind else ""
        if behind and says.startswith("calls"):
            print(f"fn {{it}}: no proof: {{call}}")
        elif says in WHY or says.startswith(("calls", "refused")):
            print(WHY.get(says, WHY["refused"]).format(row, it.split("::")[1]))
            print(f"fn {{it}}: " + ("not proved" if says in ("answers", "names") else "no proof: expected answers; `search` did not prove `returns-then`")
                  + (f"; {{call}}" if call else ""))
        else:
            print(f"fn {{it}}: " + {{"unsure": "could not tell", "silent": "not proved"}}.get(says, "proved"))
    print("only=1 proved=0")
    sys.exit(1)
(name,) = words[1:]
status = 0
for edit in sorted(os.listdir(f"crates/{{name}}/must-fail")):
    with open(f"crates/{{name}}/must-fail/{{edit}}") as file:
        says = file.read().split("says: ")[-1].strip()
    says = {{"nowhere": "bad", "scope": "bad", "silent": "refused", "names": "refused", "elsewhere": "missed"}}.get(says, says)
    if says == "sleep":
        time.sleep(60)
    if says == "file":
        print(f"rt: {{here}}/crates/{{name}}/must-fail/{{edit}}: BAD EDIT: an edit stands right in must-fail/")
    elif says != "nothing":
        print(f"rt: must-fail {{name}}/{{edit}}: {{FOR[says]}}")
    status = status or says not in ("refused", "by a limit")
sys.exit(status)
"""
CODE = """const LIMIT: u8 = 4;

fn one() -> u8
    ensures { result ≡ 1 }
{
    1
}

fn two() -> u8 {
    2
}

impl Three {
    fn three() -> u8 {
        3
    }
}

#[cycle(four)]
fn four() -> u8 {
    4
}
"""


def edit(says):
    return f"file: src/lib.rt\nold: fn f() {{}}\nnew: says: {says}\n"


class EditsTest(unittest.TestCase):
    def setUp(self):
        kept = tempfile.TemporaryDirectory()
        self.addCleanup(kept.cleanup)
        self.folder = os.path.realpath(kept.name)
        self.top = os.path.join(self.folder, "repository")
        self.commands = os.path.join(self.folder, "commands")
        self.calls = os.path.join(self.folder, "calls")
        self.copy = os.path.join(self.folder, "copy")
        os.mkdir(self.commands)
        os.symlink(shutil.which("git"), os.path.join(self.commands, "git"))
        self.rt = os.path.join(self.commands, "rt")
        with open(self.rt, "w", encoding="utf-8") as file:
            file.write(STAND_IN.format(python=sys.executable, calls=self.calls))
        os.chmod(self.rt, stat.S_IRWXU)
        self.put("HANDLES", "Handles allowed: none.\n")
        self.put("crates.txt", "# lowest first\nlow:\nmiddle: low\nhigh: middle low\n")
        for name in ("low", "middle", "high"):
            self.put(f"crates/{name}/src/lib.rt", "fn f() {}\n")
            self.put(f"crates/{name}/must-fail/gates_own.edit", edit("bad"))
        self.edits = {}
        for path in ("tests/edits.py", "tests/edit_rounds.py", "upkeep/house_crates.py"):
            self.put(path, self.text(TREE, path))
        self.git("init", "--quiet")

    def put(self, path, text):
        path = os.path.join(self.top, path)
        os.makedirs(os.path.dirname(path), exist_ok=True)
        with open(path, "w", encoding="utf-8") as file:
            file.write(text)

    def text(self, *parts):
        with open(os.path.join(*parts), encoding="utf-8") as file:
            return file.read()

    def edit(self, crate, name, says):
        """Gives the crate an edit, in place of one of the same name."""
        self.edits.setdefault(crate, {})[name] = edit(says)
        self.write_edits(crate)

    def write_edits(self, crate):
        self.put(f"crates/{crate}/edits.txt", "# Edits of this crate.\n" + "".join(f"\n{name}\n{text}" for name, text in self.edits[crate].items()))

    def git(self, *words):
        subprocess.run(["git", *words], cwd=self.top, check=True, capture_output=True)

    def words(self, *words):
        return [sys.executable, "-B", os.path.join(self.top, "tests", "edits.py"), *words]

    def run_it(self, *words):
        """Its status, its lines on standard output, and standard error."""
        self.git("add", "--all")
        done = subprocess.run(self.words(*words), env={"PATH": self.commands}, capture_output=True, text=True, check=False)
        return done.returncode, done.stdout.splitlines(), done.stderr

    def calls_made(self):
        return self.text(self.calls).splitlines() if os.path.exists(self.calls) else []

    def kept_files(self):
        return sorted(os.path.relpath(os.path.join(folder, name), self.copy) for folder, _, names in os.walk(self.copy) for name in names)


class Verdicts(EditsTest):
    def test_all_refused_is_status_0(self):
        self.edit("low", "one", "refused")
        self.edit("low", "two", "by a limit")
        status, lines, errors = self.run_it()
        self.assertEqual((status, errors), (0, ""))
        self.assertEqual(lines[-1], "in all: 2 refused, 0 NOT REFUSED, 0 BAD EDIT, 0 NOT TRIED")

    def test_each_verdict_is_counted(self):
        for number, says in enumerate(("refused", "refused", "refused", "missed", "missed", "bad", "file", "unsure", "nothing")):
            self.edit("middle", f"edit_{number}", says)
        status, lines, _ = self.run_it("middle")
        self.assertEqual(status, 1)
        self.assertEqual(lines[-1], "in all: 3 refused, 2 NOT REFUSED, 2 BAD EDIT, 2 NOT TRIED")
        self.assertIn("rt: must-fail middle/edit_3.edit: NOT REFUSED: the crate is still proved with this edit", lines)

    def test_any_verdict_but_refused_is_status_1(self):
        for says in ("missed", "bad", "file", "unsure", "nothing"):
            self.edit("low", "one", says)
            self.assertEqual(self.run_it()[0], 1, says)

    def test_a_crate_that_is_not_proved_has_no_edit_refused(self):
        self.edit("low", "one", "refused")
        self.edit("high", "two", "refused")
        self.put("crates/low/src/unproved", "")
        status, lines, _ = self.run_it()
        self.assertEqual(status, 1)
        self.assertEqual(lines[-1], "in all: 0 refused, 0 NOT REFUSED, 0 BAD EDIT, 2 NOT TRIED")
        self.assertIn("./src/lib.rt:1:1: error: `f.ensures`: not proved", lines)
        for crate in ("low", "high"):
            self.assertIn(f"{crate}: it, or a crate that it uses, isn't proved, so none of its other edits was tried", lines)
        self.assertEqual(self.calls_made(), ["lib in low"])

    def test_the_edits_below_a_crate_that_is_not_proved_are_tried(self):
        self.edit("low", "one", "refused")
        self.edit("high", "two", "refused")
        self.put("crates/middle/src/unproved", "")
        status, lines, _ = self.run_it()
        self.assertEqual((status, lines[-1]), (1, "in all: 1 refused, 0 NOT REFUSED, 0 BAD EDIT, 1 NOT TRIED"))


class Together(EditsTest):
    """Edits of the bodies of CODE, by the word that the stand-in says of each."""

    def setUp(self):
        super().setUp()
        self.put("crates/low/src/lib.rt", CODE)

    def bodies(self, **edits):
        """Gives the crate an edit of each name, of a function's body, by the function's number and the word."""
        self.edits["low"] = {name: f"file: src/lib.rt\nold: {number}\nnew: says: {says}\n" for name, (number, says) in edits.items()}
        for name, text in self.edits["low"].items():
            number = text.split("old: ")[1][0]
            self.edits["low"][name] = text.replace(f"old: {number}", "old: " + next(row for row in CODE.splitlines() if row.strip() == number))
        self.write_edits("low")

    def run_low(self, *words):
        status, lines, errors = self.run_it("--keep", self.copy, *words)
        self.assertEqual(errors, "")
        return status, lines

    def checks(self):
        """The calls after the crate's proof: of a check the functions, of must-fail the edits."""
        calls = self.calls_made()
        self.assertEqual(calls[0], "check in low")
        return [re.sub(r"check --jobs 1 | in low|--only |low::", "", call) for call in calls[1:]]

    def test_edits_of_different_functions_are_one_check(self):
        self.bodies(a=(1, "refused"), b=(2, "refused"))
        status, lines = self.run_low()
        self.assertEqual(status, 0)
        self.assertEqual(self.checks(), ["one two"])
        for edit, row in (("a", 6), ("b", 10)):
            why = f"note: src/lib.rt:{row}:1: it is not proved that what the function ensures holds when it returns (`returns-then`)"
            self.assertIn(f"low/{edit}: refused: {why}", lines)
        self.assertEqual(lines[-2:], ["low: 2 refused, 0 NOT REFUSED, 0 BAD EDIT, 0 NOT TRIED; 2 by 1 checks of many",
                                      "in all: 2 refused, 0 NOT REFUSED, 0 BAD EDIT, 0 NOT TRIED"])

    def test_edits_of_one_function_are_in_checks_of_their_own(self):
        self.bodies(a=(1, "refused"), b=(1, "refused"), c=(2, "refused"))
        self.assertEqual(self.run_low()[0], 0)
        self.assertEqual(self.checks(), ["one two", "one"])

    def test_an_error_of_its_own_is_one_whatever_the_function_calls(self):
        self.bodies(a=(1, "refused two"), b=(2, "refused"))
        status, lines = self.run_low()
        self.assertEqual((status, lines[-1]), (0, "in all: 2 refused, 0 NOT REFUSED, 0 BAD EDIT, 0 NOT TRIED"))
        self.assertEqual(self.checks(), ["one two"])

    def test_an_error_in_a_proof_file_of_the_function_is_one_of_its_own(self):
        self.bodies(a=(1, "answers"))
        status, lines = self.run_low()
        self.assertEqual((status, self.checks()), (0, ["one"]))
        self.assertIn("low/a: refused: ./proofs/one/Answers.antt:10:5: error: `returns-clause`: as printed, the two types differ", lines)

    def test_a_function_that_calls_one_that_is_not_proved_waits(self):
        self.bodies(a=(1, "calls two"), b=(2, "refused"))
        self.assertEqual(self.run_low()[0], 0)
        self.assertEqual(self.checks(), ["one two", "one"])

    def test_what_is_not_said_to_be_refused_is_tried_alone(self):
        for says, verdict in (("missed", "NOT REFUSED"), ("unsure", "NOT TRIED"), ("scope", "BAD EDIT"), ("silent", "refused"), ("names", "refused"),
                              ("elsewhere", "NOT REFUSED")):
            self.bodies(a=(1, says), b=(2, "refused"))
            status, lines = self.run_low()
            self.assertEqual(status, int(verdict != "refused"))
            self.assertEqual(self.checks(), ["one two", "must-fail low in copy"])
            self.assertTrue(any(line.startswith(f"rt: must-fail low/a.edit: {verdict}") for line in lines), says)
            self.assertFalse(any(line.startswith("rt: must-fail low/b") for line in lines))
            os.unlink(self.calls)
            shutil.rmtree(self.copy)

    def test_code_that_can_not_be_read_is_tried_alone_and_the_others_once_more(self):
        self.bodies(a=(1, "bad"), b=(2, "refused"))
        status, lines = self.run_low()
        self.assertEqual(lines[-1], "in all: 1 refused, 0 NOT REFUSED, 1 BAD EDIT, 0 NOT TRIED")
        self.assertEqual((status, self.checks()), (1, ["one two", "two", "must-fail low in copy"]))

    def test_where_no_row_is_named_each_half_is_tried(self):
        self.put("crates/low/src/lib.rt", CODE.replace("#[cycle(four)]\n", ""))
        self.bodies(a=(1, "refused"), b=(2, "nowhere"), c=(4, "refused"))
        status, lines = self.run_low()
        self.assertEqual(lines[-1], "in all: 2 refused, 0 NOT REFUSED, 1 BAD EDIT, 0 NOT TRIED")
        self.assertEqual((status, self.checks()), (1, ["one two four", "one", "two four", "two", "four", "must-fail low in copy"]))

    def test_what_is_not_one_body_is_tried_alone(self):
        self.edits["low"] = {"limit": "file: src/lib.rt\nold: u8 = 4;\nnew: u8 = 5; // says: refused\n",
                             "contract": "file: src/lib.rt\nold: result ≡ 1\nnew: says: refused\n",
                             "two_bodies": "file: src/lib.rt\nold:     1\nnew:     11\nold:     2\nnew:     says: refused\n",
                             "of_a_cycle": "file: src/lib.rt\nold:     4\nnew:     says: refused\n"}
        self.write_edits("low")
        self.assertEqual(self.run_low()[0], 0)
        self.assertEqual(self.checks(), ["must-fail low in copy"])

    def test_with_alone_each_is(self):
        self.bodies(a=(1, "refused"), b=(2, "missed"))
        status, lines = self.run_low("--alone")
        self.assertEqual((status, self.checks()), (1, ["must-fail low in copy"]))
        self.assertEqual(lines[-1], "in all: 1 refused, 1 NOT REFUSED, 0 BAD EDIT, 0 NOT TRIED")

    def test_what_was_refused_is_kept_until_a_file_changes(self):
        self.bodies(a=(1, "refused"), b=(2, "silent"))
        self.run_low()
        self.assertEqual(self.checks(), ["one two", "must-fail low in copy"])
        os.unlink(self.calls)
        status, lines = self.run_low()
        self.assertEqual((status, self.calls_made()), (0, []))
        self.assertTrue(any(line.startswith("low/a: refused by an earlier run: note: src/lib.rt:6:1: it is not proved") for line in lines))
        self.bodies(a=(1, "refused"), b=(2, "missed"))
        self.assertEqual(self.run_low()[0], 1)
        self.assertEqual(self.checks(), ["two", "must-fail low in copy"])
        os.unlink(self.calls)
        self.put("crates/low/src/lib.rt", "// Changed.\n" + CODE)
        self.assertEqual(self.run_low()[0], 1)
        self.assertEqual(self.checks(), ["one two", "must-fail low in copy"])

    def test_the_copy_and_the_work_tree_stay_as_they_are(self):
        self.bodies(a=(1, "refused"))
        self.put(".gitignore", "out/\n")
        self.put("crates/low/out/rlib/stamp", "")
        self.put("crates/low/out/rlib/low.rlib", "library")
        self.put("crates/low/out/incremental/work", "kept")
        self.assertEqual(self.run_low()[0], 0)
        self.assertEqual(self.text(self.copy, "crates/low/src/lib.rt"), CODE)
        self.assertEqual(self.text(self.copy, "crates/low/out/incremental/work"), "kept")
        self.assertEqual(sorted(os.listdir(os.path.join(self.copy, "crates", "low", "out"))), ["incremental"])
        self.assertEqual(self.text(self.top, "crates/low/src/lib.rt"), CODE)

    def test_what_was_built_in_the_work_tree_is_not_built_again(self):
        self.bodies(a=(1, "refused"))
        self.edit("high", "two", "refused")
        self.put(".gitignore", "out/\n")
        for crate in ("low", "middle"):
            self.put(f"crates/{crate}/out/rlib/stamp", "the same")
            self.put(f"crates/{crate}/out/incremental/work", "kept")
        self.assertEqual(self.run_low()[0], 0)
        self.assertEqual([call for call in self.calls_made() if not call.startswith("must-fail")],
                         ["lib in low", "check in low", "check --jobs 1 --only low::one in low", "lib in middle", "check in high"])
        self.assertEqual(self.text(self.copy, "crates/low/out/rlib/stamp"), "the same")
        self.assertEqual(self.text(self.copy, "crates/middle/out/incremental/work"), "kept")

    def test_crates_side_by_side_have_the_same_verdicts(self):
        self.bodies(a=(1, "refused"), b=(2, "missed"))
        self.put("crates/high/src/lib.rt", CODE)
        self.edits["high"] = self.edits["low"]
        self.write_edits("high")
        status, lines = self.run_low("--jobs", "2")
        self.assertEqual((status, lines[-1]), (1, "in all: 2 refused, 2 NOT REFUSED, 0 BAD EDIT, 0 NOT TRIED"))
        self.assertEqual(self.run_it("--jobs", "0"), (2, [], "edits.py: --jobs takes a number from 1 on\n"))


class Places(unittest.TestCase):
    FUNCTIONS = ["low::one", "low::two", "low::Three::three", "low::names::Type::own", "low::names::TypeFromOther::from", "low::names::TypeDisplay::fmt",
                 "low::names::OtherDisplay::fmt", "low::more::free", "low::more::inner::free"]

    def place(self, path, text, old):
        with tempfile.TemporaryDirectory() as folder:
            os.makedirs(os.path.join(folder, "src"))
            with open(os.path.join(folder, path), "w", encoding="utf-8") as file:
                file.write(text)
            return edit_rounds.place_of(f"file: {path}\nold: {old}\nnew: changed\n", folder, "low", self.FUNCTIONS)

    def test_a_body_has_its_file_rows_and_function(self):
        self.assertEqual(self.place("src/lib.rt", CODE, "    1"), ("src/lib.rt", {6: "changed"}, 3, 7, "low::one"))
        self.assertEqual(self.place("src/lib.rt", CODE, "        3"), ("src/lib.rt", {15: "changed"}, 14, 16, "low::Three::three"))

    def test_methods_are_named_by_their_type_and_trait_and_others_by_their_module(self):
        for head, name, function in (("impl<'a, T: Fn(u8) -> u8> Type<'a, T> {", "own", "low::names::Type::own"),
                                     ("impl From<Other<u8>> for Type {", "from", "low::names::TypeFromOther::from"),
                                     ("impl<T> std::fmt::Display for Type<T>\nwhere\n    T: Copy,\n{", "fmt", "low::names::TypeDisplay::fmt"),
                                     ("impl Display for Unknown {", "fmt", None), ("impl Type {", "other", None), ("trait Type {", "own", None),
                                     ("impl Display for &mut Type {", "fmt", None), ("impl Typ {", "own", None)):
            place = self.place("src/more.rt", f"{head}\n    /// What it is.\n    fn {name}(&self) -> u8 {{\n        7\n    }}\n}}\n", "        7")
            self.assertEqual(place and place.function, function, head)
        place = self.place("src/more.rt", "fn free() -> u8 {\n    7\n}\n", "    7")
        self.assertEqual(place.function, "low::more::free")

    def test_what_has_no_body_of_its_own_has_no_place(self):
        for text, old in ((CODE, "const LIMIT"), (CODE, "≡ 1"), (CODE, "u8 {"), (CODE, "    4"), (CODE, "}"), ("const fn one() -> u8 {\n    1\n}\n", "    1"),
                          ("fn one() {\n    fn two() {\n        1\n    }\n}\n", "        1"), ("fn unknown() {\n    1\n}\n", "    1")):
            self.assertIsNone(self.place("src/lib.rt", text, old), (text, old))
        self.assertIsNone(self.place("src/lib.rt", "fn one() {\n    1;\n}\n", "    1;\nnew: }\nold: changed"))


class Forms(EditsTest):
    def test_what_is_no_edit_ends_it_with_its_line(self):
        for text, line, why in (("one\nfile: src/lib.rt\nsays: what\n", 3, "a line of an edit begins with `file: `, `old: ` or `new:`"),
                                (edit("refused"), 1, "the name of an edit is due, of small letters, digits and _"),
                                ("one\n" + edit("refused") + "\n\none\n", 7, "the crate has another edit of this name")):
            self.put("crates/low/edits.txt", text)
            for words in ((), ("--stand",)):
                self.assertEqual(self.run_it(*words), (2, [], f"edits.py: crates/low/edits.txt:{line}: {why}\n"))
        self.assertEqual(self.calls_made(), [])

    def test_each_edit_of_a_file_has_a_file_of_its_own_with_its_lines(self):
        two = "file: src/lib.rt\nold: fn f\nnew: fn g\nold: () {\nnew:\n"
        self.put("crates/low/edits.txt", f"# a line\n\n# another one\none\n{edit('refused')}\n\n# and one\ntwo\n{two}")
        self.run_it("--keep", self.copy)
        self.assertEqual(self.kept_files()[5:7], ["crates/low/must-fail/one.edit", "crates/low/must-fail/two.edit"])
        self.assertEqual(self.text(self.copy, "crates/low/must-fail/one.edit"), edit("refused"))
        self.assertEqual(self.text(self.copy, "crates/low/must-fail/two.edit"), two)


class Stand(EditsTest):
    def stand(self, *names):
        return self.run_it("--stand", *names)

    def test_edits_of_both_kinds_that_can_be_applied_are_counted(self):
        self.edit("low", "one", "refused")
        self.edits["low"]["two"] = "file: src/lib.rt\nold: fn f\nnew: fn g\nold: g()\nnew:\n"
        self.write_edits("low")
        self.assertEqual(self.stand(), (0, ["5 edits, 0 of which can't be applied"], ""))
        self.assertEqual(self.stand("low"), (0, ["3 edits, 0 of which can't be applied"], ""))
        self.assertEqual(self.calls_made(), [])

    def test_it_needs_neither_rt_nor_git(self):
        os.unlink(self.rt)
        os.unlink(os.path.join(self.commands, "git"))
        done = subprocess.run(self.words("--stand"), env={"PATH": self.commands}, capture_output=True, text=True, check=False)
        self.assertEqual((done.returncode, done.stdout), (0, "3 edits, 0 of which can't be applied\n"))

    def test_each_that_can_not_is_named_with_why(self):
        self.put("crates/low/src/lib.rt", "fn f() { f() }\n")
        self.put("crates/low/README.md", "fn f\n")
        for text, why in (("old: f()\nnew: g()\n", "src/lib.rt has this 2 times, and not once: f()"),
                          ("old: h()\nnew: g()\n", "src/lib.rt has this 0 times, and not once: h()"),
                          ("old: fn f\nnew: fn g\nold: fn f\nnew: fn h\n", "src/lib.rt has this 0 times, and not once: fn f"),
                          ("old: fn f\nnew: fn f\n", "it changes nothing"), ("old: fn f\n", "it changes nothing"), ("", "it changes nothing"),
                          ("new: fn g\n", "a line `new:` comes before a line `file:` or `old:`"),
                          ("file: README.md\nold: fn f\nnew: fn g\n", "there is no file README.md in src/, specs/ or proofs/"),
                          ("file: src/../src/lib.rt\nold: fn f\nnew: fn g\n", "there is no file src/../src/lib.rt in src/, specs/ or proofs/"),
                          ("file: src/main.rt\nold: fn f\nnew: fn g\n", "there is no file src/main.rt in src/, specs/ or proofs/")):
            text = f"file: src/lib.rt\n{text}"
            self.put("crates/low/edits.txt", f"one\n{text}")
            self.put("crates/low/must-fail/gates_own.edit", text)
            self.assertEqual(self.stand("low"), (1, [f"crates/low/edits.txt: one: {why}", f"crates/low/must-fail/gates_own.edit: {why}",
                                                     "2 edits, 2 of which can't be applied"], ""))

    def test_an_unknown_crate_ends_it(self):
        self.assertEqual(self.stand("lower"), (2, [], "edits.py: there is no crate lower in crates.txt\n"))

    def test_each_edit_of_this_tree_can_be_applied(self):
        done = subprocess.run([sys.executable, "-B", SCRIPT, "--stand"], capture_output=True, text=True, check=False)
        self.assertRegex(done.stdout, r"\A[1-9][0-9]+ edits, 0 of which can't be applied\n\Z")
        self.assertEqual(done.returncode, 0)


class Crates(EditsTest):
    def test_all_that_have_edits_are_tried_lowest_first(self):
        self.edit("high", "one", "refused")
        self.edit("low", "two", "refused")
        self.assertEqual(self.run_it("--keep", self.copy)[0], 0)
        self.assertEqual(self.calls_made(), ["lib in low", "must-fail low in copy", "lib in middle", "check in high", "must-fail high in copy"])

    def test_with_several_at_a_time_each_is_proved_once_after_those_that_it_uses(self):
        for crate in ("low", "middle", "high"):
            self.edit(crate, "one", "refused")
        self.assertEqual(self.run_it("--keep", self.copy, "--jobs", "4")[0], 0)
        proofs = [call for call in self.calls_made() if not call.startswith("must-fail")]
        self.assertEqual(proofs, ["lib --jobs 1 in low", "lib --jobs 1 in middle", "check --jobs 1 in high"])
        self.assertEqual(sorted(os.listdir(os.path.join(self.copy, "crates", "low", "out"))), ["incremental", "rlib"])

    def test_crates_that_use_one_another_end_it(self):
        self.put("crates.txt", "low: high\nmiddle: low\nhigh: middle low\n")
        self.edit("low", "one", "refused")
        self.assertEqual(self.run_it()[::2], (2, "edits.py: crates.txt has crates that use one another\n"))

    def test_those_that_are_named_are_tried_alone(self):
        self.edit("high", "one", "missed")
        self.edit("low", "two", "refused")
        self.assertEqual(self.run_it("--keep", self.copy, "low")[0], 0)
        self.assertEqual(self.calls_made(), ["check in low", "must-fail low in copy"])

    def test_an_unknown_crate_ends_it(self):
        self.edit("low", "one", "refused")
        self.assertEqual(self.run_it("low", "lower"), (2, [], "edits.py: there is no crate lower in crates.txt\n"))
        self.assertEqual(self.calls_made(), [])

    def test_a_crate_without_edits_ends_it(self):
        self.edit("low", "one", "refused")
        self.assertEqual(self.run_it("middle"), (2, [], "edits.py: middle has no edits: git tracks no crates/middle/edits.txt\n"))
        self.assertEqual(self.calls_made(), [])


class Wanting(EditsTest):
    def test_want_of_rt_ends_it(self):
        self.edit("low", "one", "refused")
        os.unlink(self.rt)
        self.assertEqual(self.run_it(), (2, [], "edits.py: rt, the command of the Rattle kit, is not on PATH\n"))

    def test_want_of_git_ends_it(self):
        os.unlink(os.path.join(self.commands, "git"))
        self.assertEqual(self.run_it(), (2, [], "edits.py: git is not on PATH\n"))

    def test_a_folder_that_git_does_not_know_ends_it(self):
        shutil.rmtree(os.path.join(self.top, ".git"))
        done = subprocess.run(self.words(), env={"PATH": self.commands}, capture_output=True, text=True, check=False)
        self.assertEqual((done.returncode, done.stdout), (2, ""))
        self.assertIn(f"edits.py: git lists no files of {self.top}: ", done.stderr)


class Copies(EditsTest):
    FILES = [".copy-for-edits", ".refused-edits", "HANDLES", "crates.txt", "crates/high/src/lib.rt", "crates/low/must-fail/one.edit",
             "crates/low/out/incremental/work", "crates/low/src/lib.rt", "crates/middle/src/lib.rt"]

    def test_it_has_the_tracked_files_with_each_edit_in_must_fail(self):
        self.edit("low", "one", "refused")
        self.put(".gitignore", "passed-over\n")
        self.put("crates/low/src/passed-over", "")
        self.assertEqual(self.run_it("--keep", self.copy)[0], 0)
        self.assertEqual(self.kept_files(), self.FILES)
        self.assertEqual(self.text(self.copy, "crates/low/must-fail/one.edit"), edit("refused"))

    def test_files_are_those_of_the_work_tree(self):
        self.edit("low", "one", "refused")
        self.edit("low", "two", "missed")
        self.git("add", "--all")
        self.put("crates/low/src/lib.rt", "fn changed() {}\n")
        del self.edits["low"]["two"]
        self.write_edits("low")
        done = subprocess.run(self.words("--keep", self.copy), env={"PATH": self.commands}, capture_output=True, text=True, check=False)
        self.assertEqual(done.returncode, 0, done.stdout)
        self.assertEqual(self.kept_files(), self.FILES)
        self.assertEqual(self.text(self.copy, "crates/low/src/lib.rt"), "fn changed() {}\n")

    def test_a_kept_copy_is_used_again(self):
        self.edit("low", "one", "refused")
        self.edit("low", "two", "refused")
        self.run_it("--keep", self.copy)
        untouched = os.path.join(self.copy, "crates", "low", "src", "lib.rt")
        was = os.stat(untouched)
        self.edit("low", "one", "missed")
        del self.edits["low"]["two"]
        self.write_edits("low")
        status, lines, _ = self.run_it("--keep", self.copy)
        self.assertEqual(status, 1)
        self.assertEqual(lines[-1], "in all: 0 refused, 1 NOT REFUSED, 0 BAD EDIT, 0 NOT TRIED")
        self.assertEqual(self.kept_files(), self.FILES)
        self.assertEqual(os.stat(untouched).st_mtime_ns, was.st_mtime_ns)

    def test_no_other_folder_is_taken_for_a_copy(self):
        self.edit("low", "one", "refused")
        near = "is in this repository, or around it"
        for folder, why in ((self.commands, "has other files in it"), (self.top, near), (self.folder, near), (os.path.join(self.top, "inside"), near),
                            (self.rt, "is no folder")):
            status, lines, errors = self.run_it("--keep", folder)
            self.assertEqual((status, lines), (2, []))
            self.assertTrue(errors.startswith(f"edits.py: {folder} {why}"), errors)
        self.assertEqual(sorted(os.listdir(self.commands)), ["git", "rt"])

    def test_two_runs_do_not_share_a_copy(self):
        self.edit("low", "one", "refused")
        self.run_it("--keep", self.copy)
        with open(os.path.join(self.copy, ".copy-for-edits"), encoding="utf-8") as mark:
            fcntl.flock(mark, fcntl.LOCK_EX)
            self.assertEqual(self.run_it("--keep", self.copy), (2, [], f"edits.py: another run uses {self.copy}\n"))

    def test_a_copy_that_is_not_kept_is_removed(self):
        self.edit("low", "one", "refused")
        room = os.path.join(self.folder, "room")
        os.mkdir(room)
        self.git("add", "--all")
        done = subprocess.run(self.words(), env={"PATH": self.commands, "TMPDIR": room}, capture_output=True, text=True, check=False)
        self.assertEqual(done.returncode, 0, done.stderr)
        self.assertEqual(os.listdir(room), [])

    def test_a_signal_ends_it_and_its_rt(self):
        self.edit("low", "one", "sleep")
        room = os.path.join(self.folder, "room")
        os.mkdir(room)
        self.git("add", "--all")
        run = subprocess.Popen(self.words(), env={"PATH": self.commands, "TMPDIR": room}, stdout=subprocess.DEVNULL, stderr=subprocess.PIPE)
        for _ in range(200):
            if any(call.startswith("must-fail") for call in self.calls_made()):
                break
            time.sleep(0.05)
        run.send_signal(signal.SIGTERM)
        self.assertEqual(run.communicate(timeout=20)[1], b"")
        self.assertEqual(run.returncode, 128 + signal.SIGTERM)
        self.assertEqual(os.listdir(room), [])


if __name__ == "__main__":
    unittest.main()
