"""Tests of tests/rows.py: how rows are read, and what is found of them, with a stand-in for knot."""
import contextlib
import io
import os
import sys
import unittest
from unittest import mock

from common import ROOT, scratch

sys.path.insert(0, os.path.join(ROOT, "tests"))
import rows  # noqa: E402
import rows_language  # noqa: E402

KNOWN = {"MAX_SIZE": 6}

# How it is called: Python itself doesn't start where standard input is a folder, which the job `sample` takes.
LAUNCHER = """#!/bin/sh
if [ "$1" = sample ]; then
    cat >/dev/null 2>&1 && exit 5
    [ -t 2 ] && echo unread >&2
    exit 0
fi
exec '{python}' '{path}' "$@"
"""

# A program that takes lines `good`, writes them again as one line, and names the first other one.
STAND_IN = """import os
import resource
import sys
import time
if sys.argv[1:] == ["tell"]:
    if sys.stderr.isatty():
        print("told", file=sys.stderr)
    sys.exit(1)
if sys.argv[1:] in (["brim"], ["room"]):
    if sys.argv[1] == "room":
        told = resource.getrlimit(resource.RLIMIT_AS)[0]
    else:
        try:
            told = os.write(1, b"good")
        except OSError:
            told = "full"
    if sys.stderr.isatty():
        print(told, file=sys.stderr)
    sys.exit(6)
if sys.argv[1:] == ["sleep"]:
    time.sleep(60)
if sys.argv[1:] == ["chatter"]:
    print("told", file=sys.stderr)
    sys.exit(0)
if len(sys.argv) == 3 and sys.argv[1] == "word":
    sys.exit(10 if os.fsencode(sys.argv[2]) == bytes([255, 97]) else 0)
if sys.argv[1:2] == ["write"]:
    with open(sys.argv[2], "w") as file:
        file.write("certificate\\nand more\\n")
    print("written", sys.argv[3])
    sys.exit(0)
if sys.argv[1:] == ["colour"]:
    sys.stdout.write("quandle table 1\\n0\\nlist 2\\n0 0\\n1 1\\nquandle trivial 1\\nlist 1\\n0 0\\n")
    sys.exit(0)
if sys.argv[1:] == ["decide"]:
    sys.stdout.write("certificate 2\\nequal 3\\nstabilise 0 x lowleft\\nshift rows 1\\ndestabilise 0 0\\n")
    sys.exit(0)
if sys.argv[1:] == ["typed"]:
    text = sys.stdin.read()
    print("at a terminal" if sys.stdin.isatty() else "elsewhere", text, end="")
    if sys.stderr.isatty():
        print("typed", text, end="", file=sys.stderr)
    sys.exit(0)
if sys.argv[1:] == ["place"]:
    print(os.getpid())
    sys.exit(0)
if sys.argv[1:2] == ["replace"]:
    os.rename(sys.argv[2], "old")
    open(sys.argv[2], "w").close()
    os.chmod(sys.argv[2], 0o604)
    sys.exit(0)
if sys.argv[1:] == ["grid"]:
    sys.stdout.write("x 0 1 2\\no 1 2 0\\n")
    sys.exit(0)
if sys.argv[1:] == ["shown"]:
    sys.stdout.write(open("shown").read())
    sys.exit(0)
if sys.argv[1:] == ["check"] and sys.stderr.isatty():
    print("bad day", file=sys.stderr, end="")
lines = sys.stdin.buffer.read().split(b"\\n")
lines = lines[:-1] if lines[-1] == b"" else lines
for number, line in enumerate(lines, 1):
    if line != b"good":
        print(f"malformed line {number}")
        sys.exit(3)
if not lines:
    print("malformed line 1")
    sys.exit(3)
print("good" if sys.argv[1:] and sys.argv[1] != "check" else "accepted")
"""

# A separate checker that takes all.
TAKES_ALL = """#!/bin/sh
cat >/dev/null
echo accepted
"""

# All kinds of answers, of which the last is another one.
MANY = """# all of them

== one
knot job
input
    good

answer 0
    good

== none
knot job
answer 3
    malformed line 1

== many
knot job
input
    good
    ...
    good
each of
    good
    \\
taken
each of
    bad
    good\\nbad
answer 3
    malformed line 2
"""

STREAMS = """== told
knot tell
answer 1
error
    told

== unread
knot sample
unreadable input
taken

== a file
knot shown
file shown
    a

    b

answer 0
    a

    b
"""

# What a terminal gets where memory, the output or the input is as a row says.
AT_A_TERMINAL = """== little memory
knot room
memory 4000000
answer 6
error
    4096000000

== a full output
knot brim
full output
answer 6
error
    full

== an input that can't be read
knot sample
unreadable input
answer 0
error
    unread

== a file
knot typed
file here
    good
input is here
answer 0
    elsewhere good
error
    typed good
"""

# What a call writes, and of each kind a row that fails.
WRITTEN = """== written
knot write made "two words"
front 0
    writ\\
written made
    certificate
unwritten other

== not written
knot write made "two words"
front 1
    written by
written other
unwritten made

== lists
knot colour
lists of 2 1

== other lists
knot colour
lists of 2

== within
knot decide
input
    x 0 1
    o 1 0
equal within 3 columns

== too wide
knot decide
input
    braid 1
equal within 2 columns

== drawn
knot grid
drawn in 3 columns

== drawn in others
knot grid
drawn in 4 columns
"""

# What is said of the four that fail.
NOT_WRITTEN = """some: not written
    status is 0, and not 1
    the front of standard output is b'written two', and not b'written by\\n'
    no file other is written
    a file made is written
some: other lists
    the numbers of lines that are reported is [2, 1], and not [2]
    the numbers of lines is [2, 1], and not [2]
some: too wide
    a diagram along the moves has 3 columns, and not at most 2
some: drawn in others
    columns is [3, 3], and not [4, 4]
8 cases, 8 calls, 4 different
"""

# Terminals, the same call again, and files beside what is written.
BESIDE = """== at a terminal
knot typed
typed input
    good
    day
answer 0
    at a terminal good
    day
error
    typed good
    day

== again
knot job
input
    good
again

== not again
knot place
again

== kept
knot write made more
file made
    old
mode 640 of made
written made
nothing beside

== not kept
knot replace made
file made
    old
mode 640 of made
written made
nothing beside
"""

# What is said of those that fail; the second line has two numbers.
NOT_BESIDE = r"""some: not again
    the answer of the same call is \(0, b'[0-9]+\\n'\), and not \(0, b'[0-9]+\\n'\)
some: not kept
    the mode of made is '604', and not '640'
    what else is there is \['old'\], and not \[\]
5 cases, 8 calls, 2 different
"""

ACCEPTED = """== good in a file
knot job
input
    good
file made
    good
accepted in made

== bad in a file
knot job
input
    good
file made
    bad
accepted in made

== in no file
knot job
input
    good
accepted in made
"""

NOT_ACCEPTED = """some: bad in a file
    what `check` says of it is b'malformed line 2\\n', and not b'accepted\\n'
some: in no file
    no file made is written
3 cases, 5 calls, 2 different
"""

# What is no row, and a part of what is said of it.
NO_ROWS = (
    ("knot job\n", "a row begins with a line"),
    ("== one\nrun job\ntaken\n", "a call is due"),
    ("== one\nknot \"job\ntaken\n", "No closing quotation"),
    ("== one\nknot job\n", "nothing is expected"),
    ("== one\nknot job\ninputs\n    good\ntaken\n", "is no part of a row"),
    ("== one\nknot job\ninput\n    ...\ntaken\n", "go together"),
    ("== one\nknot job\neach of\n    good\ntaken\n", "go together"),
    ("== one\nknot job\ninput\n    ...\neach of\n    good\n", "nothing is expected"),
)


class Lines(unittest.TestCase):
    def test_escapes_stand_for_bytes(self):
        self.assertEqual(rows_language.text_of(["a\\tb\\r", "\\xff\\0\\\\", "c\\n\\", "\\"], KNOWN), b"a\tb\r\n\xff\0\\\nc\n")
        self.assertEqual(rows_language.text_of(["▷ …"], KNOWN), "▷ …\n".encode())

    def test_numbers_and_copies_are_made(self):
        self.assertEqual(rows_language.bytes_of("x \\{0 to MAX_SIZE - 4} \\{MAX_SIZE + 1} \\{3}", KNOWN), b"x 0 1 2 7 3")
        self.assertEqual(rows_language.bytes_of('braid 2\\{" 1" x MAX_SIZE - 4}\\{"a\\n" x 2}', KNOWN), b"braid 2 1 1a\na\n")
        self.assertEqual(rows_language.bytes_of("\\{alexander MAX_SIZE - 3 by 2}", KNOWN), b"0 2 1\n2 1 0\n1 0 2")

    def test_what_stands_for_nothing_is_an_error(self):
        for line in ("\\q", "\\{MIN_SIZE}", "\\{MAX_SIZE * 2}", "\\{}"):
            self.assertRaises(rows_language.RowError, rows_language.bytes_of, line, KNOWN)


class Rows(unittest.TestCase):
    def setUp(self):
        self.folder = scratch(self)
        self.stand_in = os.path.join(self.folder, "knot")
        with open(f"{self.stand_in}.py", "w", encoding="utf-8") as file:
            file.write(STAND_IN)
        with open(self.stand_in, "w", encoding="utf-8") as file:
            file.write(LAUNCHER.format(python=sys.executable, path=f"{self.stand_in}.py"))
        os.chmod(self.stand_in, 0o755)
        os.mkdir(os.path.join(self.folder, "rows"))
        # (nor is a checker that was built in this tree asked)
        for patch in (mock.patch.object(rows_language, "ROWS", os.path.join(self.folder, "rows")), mock.patch.object(rows, "built_checker", lambda: None)):
            patch.start()
            self.addCleanup(patch.stop)

    def found(self, text, *words):
        """The exit status of the script, and what it prints, where these are all rows."""
        with open(os.path.join(self.folder, "rows", "some.txt"), "w", encoding="utf-8") as file:
            file.write(text)
        said, told = io.StringIO(), io.StringIO()
        with mock.patch.object(sys, "argv", ["rows.py", "--knot", self.stand_in, *words]):
            with contextlib.redirect_stdout(said), contextlib.redirect_stderr(told):
                status = rows.main()
        return status, said.getvalue() + told.getvalue()

    def test_rows_that_have_what_they_must(self):
        self.assertEqual(self.found(MANY), (
            1, "some: many, 4: good\\nbad\n    standard output is b'malformed line 3\\n', and not b'malformed line 2\\n'\n6 cases, 6 calls, 1 different\n"))

    def test_streams_and_files(self):
        self.assertEqual(self.found(STREAMS), (0, "3 cases, 4 calls, 0 different\n"))

    def test_a_terminal_beside_other_streams_and_little_memory(self):
        self.assertEqual(self.found(AT_A_TERMINAL), (0, "4 cases, 8 calls, 0 different\n"))

    def test_knot_says_nothing_but_to_a_terminal(self):
        self.assertEqual(self.found("== one\nknot chatter\nanswer 0\n"), (
            1, "some: one\n    standard error is b'told\\n', and not b''\n1 cases, 1 calls, 1 different\n"))

    def test_a_call_that_does_not_end_is_a_difference_of_its_own(self):
        with mock.patch.object(rows, "PATIENCE", 1):
            self.assertEqual(self.found("== one\nknot sleep\ntaken\n"), (
                1, "some: one\n    a call didn't end within 1 seconds\n1 cases, 1 calls, 1 different\n"))

    def test_a_word_of_other_bytes(self):
        self.assertEqual(self.found("== one\nknot word\nword \\xffa\nanswer 10\n"), (0, "1 cases, 1 calls, 0 different\n"))

    def test_a_file_as_standard_input(self):
        self.assertEqual(self.found("== one\nknot job\nfile here\n    good\n    bad\ninput is here\nanswer 3\n    malformed line 2\n"),
                         (0, "1 cases, 1 calls, 0 different\n"))

    def test_a_file_as_standard_output(self):
        self.assertEqual(self.found("== one\nknot job\ninput\n    good\noutput to here\nfile here\n    before\nanswer 0\nwritten here\n    before\n    good\n"),
                         (0, "1 cases, 1 calls, 0 different\n"))

    def test_what_a_call_writes(self):
        self.assertEqual(self.found(WRITTEN), (1, NOT_WRITTEN))

    def test_terminals_and_what_stands_beside(self):
        status, said = self.found(BESIDE)
        self.assertEqual(status, 1)
        self.assertRegex(said, f"^{NOT_BESIDE}$")

    def test_what_is_accepted_in_a_file(self):
        self.assertEqual(self.found(ACCEPTED), (1, NOT_ACCEPTED))

    def test_an_empty_line_within_a_part_counts(self):
        self.assertEqual(self.found("== one\nknot job\ninput\n    good\n\n    good\n\nanswer 3\n    malformed line 2\n")[0], 0)

    def test_rules(self):
        # a front of whole lines is no bad one to the stand-in
        self.assertEqual(self.found("== cut\nknot check\ninput\n    good\n    good\nanswer 0\n    accepted\naltered at each byte\ncut at each byte\n"), (
            1, "some: cut\n    cut to 4 bytes: the status is 0, and not 3\n    cut to 5 bytes: the status is 0, and not 3\n1 cases, 21 calls, 1 different\n"))
        self.assertEqual(self.found("== behind\nknot job\ninput\n    good\naccepted behind it\n"), (0, "1 cases, 2 calls, 0 different\n"))

    def test_the_separate_checker_answers_the_rows_of_check_too(self):
        text = "== one\nknot check\ninput\n    good\nanswer 0\n    accepted\nerror\n    bad day\\\n" \
               "== options\nknot check --seed 1\nanswer 3\n    malformed line 1\n== behind\nknot job\ninput\n    good\naccepted behind it\n"
        self.assertEqual(self.found(text), (0, "3 cases, 5 calls, 0 different\n"))
        self.assertEqual(self.found(text, "--check", self.stand_in), (0, "4 cases, 7 calls, 0 different\n"))
        other = os.path.join(self.folder, "other")
        with open(other, "w", encoding="utf-8") as file:
            file.write(TAKES_ALL)
        os.chmod(other, 0o755)
        status, said = self.found("== two\nknot check\ninput\n    bad\nanswer 3\n    malformed line 1\n", "--check", other)
        self.assertEqual(status, 1)
        self.assertTrue(said.startswith("some: two, by the separate checker\n    status is 0, and not 3\n"), said)
        self.assertEqual(self.found(text, "--check", "/no/such/program")[0], 2)

    def test_rows_of_the_checker_are_passed_over_where_it_is_not_there(self):
        text = "== one\nknot job\ninput\n    good\ntaken\n== its own\nknot_check word\nword \\xffa\nanswer 10\n== loud\nknot_check chatter\nanswer 0\n"
        passed_over = "passed over, since the separate checker isn't built: 2 cases\n"
        self.assertEqual(self.found(text), (0, f"{passed_over}1 cases, 1 calls, 0 different\n"))
        self.assertEqual(self.found(text, "--check", self.stand_in), (
            1, "some: loud\n    standard error is b'told\\n', and not b''\n3 cases, 3 calls, 1 different\n"))

    def test_what_is_no_row_is_refused(self):
        for text, why in NO_ROWS:
            status, said = self.found(text)
            self.assertEqual(status, 2, text)
            self.assertIn(why, said)

    def test_files_are_named_without_their_ending(self):
        self.assertEqual(self.found("== one\nknot job\ntaken\n", "other")[0], 2)
        self.assertEqual(self.found("== none\nknot job\nanswer 3\n    malformed line 1\n", "some"), (0, "1 cases, 1 calls, 0 different\n"))


class Tree(unittest.TestCase):
    def test_the_rows_of_the_tree_are_rows(self):
        cases = rows_language.all_cases([])
        names = [(subject, case.name) for subject, case in cases]
        self.assertGreater(len(names), 400)
        self.assertEqual(len(names), len(set(names)))


if __name__ == "__main__":
    unittest.main()
