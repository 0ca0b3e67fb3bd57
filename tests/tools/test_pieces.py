"""Tests of tools/pieces.py, with a stand-in for knot and seek."""
import contextlib
import hashlib
import io
import json
import os
import signal
import subprocess
import sys
import time
import unittest
from unittest import mock

import common
from lib.calls.whole_files import host_name
from lib.pieces import call as pieces_call

SCRIPT = os.path.join(common.TOOLS, "pieces.py")
SIGNALS = (signal.SIGINT, signal.SIGTERM, signal.SIGHUP)

# Notes its words, and answers what a line '# JOB STATUS TEXT' or '# any STATUS TEXT' of its input says, where '\n' begins a new line. With
# status 99 it ends by a signal. A line '# sleep S' has it write half of an answer and wait, and '# stay' stay so.
STAND_IN = r"""#!/bin/sh
said=
while IFS= read -r line; do
    case $line in
        'x 0 1') said='0 accepted' ;;
        '# sleep '*) printf half; sleep "${line#'# sleep '}" ;;
        '# stay') printf half; exec sleep 3600 ;;
        '# any '*) [ -n "$said" ] || said=${line#'# any '} ;;
        "# ${1-} "*) said=${line#"# $1 "} ;;
    esac
done
[ "${1-}" != nojob ] || exit 2
[ -n "$said" ] || { echo malformed line 1; exit 3; }
echo "${0##*/} $*" >> "${0%/*}/calls"
[ "${said%% *}" != 7 ] || echo 'knot: there is no memory' >&2
[ "${said%% *}" != 99 ] || kill -9 $$
[ -z "${said#* }" ] || printf '%b\n' "${said#* }"
exit "${said%% *}"
"""


class PiecesTest(unittest.TestCase):
    def setUp(self):
        self.folder = common.scratch(self)
        for name in ("knot", "seek"):
            self.put(name, STAND_IN)
            os.chmod(self.path(name), 0o755)

    def path(self, *names):
        return os.path.join(self.folder, *names)

    def put(self, name, text):
        with open(self.path(name), "w", encoding="utf-8", newline="") as file:
            file.write(text)
        return self.path(name)

    def read(self, *names):
        with open(self.path(*names), encoding="utf-8", newline="") as file:
            return file.read()

    def words(self, *words):
        return [sys.executable, "-B", SCRIPT, *words]

    def environment(self):
        return {**os.environ, "KNOT": self.path("knot"), "SEEK": self.path("seek")}

    def script(self, *words, **more):
        """A call of the script in the folder of the test: status, standard output, lines of standard error."""
        more = {"env": self.environment(), **more}
        done = subprocess.run(words if words[0] == "sh" else self.words(*words), cwd=self.folder, capture_output=True, text=True, check=False, **more)
        self.assertNotIn("Traceback", done.stderr)
        return done.returncode, done.stdout, done.stderr.splitlines()

    def pieces(self, *words):
        """The same without a process of its own, which takes far less time."""
        out, errors, before, kept = io.TextIOWrapper(io.BytesIO(), "utf-8"), io.StringIO(), os.getcwd(), [signal.getsignal(one) for one in SIGNALS]
        os.chdir(self.folder)
        try:
            with mock.patch.dict(os.environ, self.environment()), contextlib.redirect_stdout(out), contextlib.redirect_stderr(errors):
                status = pieces_call.main(words)
        finally:
            os.chdir(before)
            for one, act in zip(SIGNALS, kept):
                signal.signal(one, act)
        out.flush()
        return status, out.buffer.getvalue().decode(), errors.getvalue().splitlines()

    def cut(self, table, *words, each=2):
        """Cuts a table, which is given by its lines or its text, into the run `run`."""
        self.put("table.txt", table if isinstance(table, str) else "".join(f"{line}\n" for line in table))
        return self.pieces("cut", "table.txt", "run", "--each", str(each), *(words or ("--job", "numbers")))

    def made(self, *table, words=(), each=2):
        """Cuts a table and answers all its pieces."""
        self.assertEqual(self.cut(table, *words, each=each)[0], 0)
        status, _, _ = self.pieces("run", "run", f"1-{-(-len(table) // each)}", "--processes", "2")
        self.assertEqual(status, 0)

    def tree(self, program, cocycles):
        """A tree with this program as its seek and this file as its default cocycles: the path of the program there."""
        for path, target in (("tree/crates/seek/out/seek", program), ("tree/quandles/weights/list.txt", cocycles)):
            os.makedirs(os.path.dirname(self.path(path)))
            os.symlink(os.path.abspath(target), self.path(path))
        self.put("tree/crates.txt", "")
        return self.path("tree", "crates", "seek", "out", "seek")

    def calls_made(self):
        made = self.read("calls").splitlines() if os.path.exists(self.path("calls")) else []
        self.put("calls", "")
        return sorted(made)

    def kept(self):
        return sorted(os.path.relpath(os.path.join(folder, name), self.path("run")) for folder, _, names in os.walk(self.path("run")) for name in names)


    def forged(self, number, change):
        """Changes the lines of an answer, and gives it the sums that these have."""
        rows = self.read("run", "answers", f"{number:05}.txt").splitlines(True)
        head = [row for row in rows[:-1] if row.startswith("#")]
        body = "".join(head + change([row for row in rows if not row.startswith("#")]))
        count = rows[-1].split("\t")[1]
        self.put(f"run/answers/{number:05}.txt", f"{body}#end\t{count}\t{len(body)}\t{hashlib.sha256(body.encode()).hexdigest()}\n")


FIVE = [f"k{number}\tx {number} / # any 0 numbers {number}" for number in range(1, 6)]
FIVE_ANSWERS = "".join(f"k{number}\t0\tnumbers {number}\n" for number in range(1, 6))


class CutTest(PiecesTest):
    def test_the_pieces_are_the_rows_of_the_table(self):
        for each, count in ((1, 5), (2, 3), (5, 1), (9, 1)):
            with self.subTest(each):
                self.put("table.txt", "\n".join(FIVE))
                found = self.pieces("cut", "table.txt", f"run-{each}", "--each", str(each), "--job", "numbers")
                self.assertEqual(found[:2], (0, f"{count} pieces\n"))
                names = sorted(os.listdir(self.path(f"run-{each}", "pieces")))
                self.assertEqual(names, [f"{number:05}.txt" for number in range(1, count + 1)])
                texts = [self.read(f"run-{each}", "pieces", name) for name in names]
                self.assertEqual("".join(texts), "".join(f"{line}\n" for line in FIVE))
                self.assertTrue(all(text.count("\n") <= each for text in texts))

    def test_lines_at_fault_are_named_and_nothing_is_cut(self):
        text = "a\tx 0 1\nno tab\n\n\tx 1\nb\t \nc\tx\ty\n#d\tx\na\tx 0 1\ne\tx\r\nf\tx\x01\ng\tx"
        status, out, errors = self.cut(text)
        self.assertEqual((status, out), (2, ""))
        self.assertEqual([error.removeprefix("pieces.py: table.txt: ") for error in errors], [
            "line 2: it has no tab: a name, a tab and a problem are due", "line 3: it is empty", "line 4: it has no name before the tab",
            "line 5: it has no problem after the tab", "line 6: it has a second tab", "line 7: a name doesn't begin with '#'",
            "line 9: it ends with a carriage return", "line 10: it has a control character", "line 8: the name 'a' is that of line 1 too",
            "lines are at fault; nothing was cut"])
        self.assertEqual([name for name in os.listdir(self.folder) if "run" in name], [])

    def test_bytes_that_are_no_text_are_named(self):
        with open(self.path("table.txt"), "wb") as file:
            file.write(b"a\tx 0 1\n\xff\tx\n")
        self.assertEqual(self.pieces("cut", "table.txt", "run", "--each", "2", "--job", "numbers")[2][0], "pieces.py: table.txt: line 2: it is not UTF-8")

    def test_an_empty_table_is_refused(self):
        self.assertEqual(self.cut(""), (2, "", ["pieces.py: table.txt: it is empty"]))

    def test_cut_again_changes_nothing(self):
        self.made(*FIVE)
        before = {name: self.read("run", name) for name in self.kept()}
        self.assertEqual(self.cut(FIVE)[:2], (0, "3 pieces\n"))
        self.assertEqual({name: self.read("run", name) for name in self.kept()}, before)

    def test_another_table_or_question_is_refused_where_a_run_is(self):
        self.made(*FIVE)
        before = {name: self.read("run", name) for name in self.kept()}
        for table, words, each in ((FIVE[:4], (), 2), (FIVE, (), 3), (FIVE, ("--job", "simplify"), 2), (FIVE, ("--keep", "wide", "--job", "numbers"), 2)):
            with self.subTest((words, each)):
                self.assertEqual(self.cut(table, *words, each=each), (2, "", ["pieces.py: run: another run is there already: name another folder"]))
        self.assertEqual({name: self.read("run", name) for name in self.kept()}, before)

    def test_a_folder_with_other_things_is_refused(self):
        os.mkdir(self.path("run"))
        self.put("run/notes.txt", "mine\n")
        self.assertEqual(self.cut(FIVE), (2, "", ["pieces.py: run: it is there already, and is no run: name another folder"]))
        self.assertEqual(self.kept(), ["notes.txt"])

    def test_more_pieces_than_a_queue_takes_are_refused_but_where_they_are_asked_for(self):
        status, out, errors = self.cut(FIVE, "--most", "2", "--job", "numbers", each=1)
        self.assertEqual((status, out), (2, ""))
        self.assertIn("these are 5 pieces", errors[0])
        self.assertIn("--each 3", errors[0])
        self.assertEqual(self.cut(FIVE, "--most", "5", "--job", "numbers", each=1)[:2], (0, "5 pieces\n"))

    def test_words_that_the_program_refuses_are_told_before_all_else(self):
        status, out, errors = self.cut(FIVE, "--job", "nojob")
        self.assertEqual((status, out), (2, ""))
        self.assertIn("the program refuses the words 'nojob'", errors[0])
        self.assertFalse(os.path.exists(self.path("run")))

    def test_the_sums_of_program_files_and_pieces_are_written_down(self):
        self.put("more.txt", "quandle dihedral 3")
        self.cut(FIVE, "--job", "numbers", "+more.txt")
        job = json.loads(self.read("run", "job"))

        def sum_of(*names):
            return hashlib.sha256(self.read(*names).encode()).hexdigest()
        self.assertEqual(job["program_sum"], sum_of("knot"))
        self.assertEqual(job["files"], [["files/1-more.txt", sum_of("more.txt")]])
        self.assertEqual([row.split()[2] for row in job["pieces"]], [sum_of("run", "pieces", f"0000{number}.txt") for number in (1, 2, 3)])

    def test_a_stopped_or_failed_cut_leaves_nothing(self):
        self.put("table.txt", "".join(f"k{number}\tx {'0 ' * 400}\n" for number in range(100)))
        status, out, errors = self.script("sh", "-c", 'ulimit -f 8; exec "$@"', "sh",
                                          *self.words("cut", "table.txt", "run", "--each", "100", "--job", "numbers"))
        self.assertEqual((status, out), (3, ""))
        self.assertIn("File too large", errors[0])
        self.assertEqual([name for name in os.listdir(self.folder) if "run" in name], [])


class PipeTest(PiecesTest):
    def test_a_pipe_is_refused_since_a_table_is_read_twice(self):
        os.mkfifo(self.path("pipe"))
        status, out, errors = self.pieces("cut", "pipe", "run", "--each", "1", "--job", "numbers")
        self.assertEqual((status, out), (2, ""))
        self.assertIn("pipe: it is no file; a table is read twice", errors[0])
        self.assertFalse(os.path.exists(self.path("run")))


class RunTest(PiecesTest):
    def test_answers_stand_in_the_order_of_the_table_however_many_run(self):
        table = [f"k{number}\t{'# sleep 0.2 / ' if number % 3 == 0 else ''}# any 0 numbers {number}" for number in range(8)]
        wanted = "".join(f"k{number}\t0\t{'half' if number % 3 == 0 else ''}numbers {number}\n" for number in range(8))
        texts = []
        for processes in ("1", "4"):
            self.cut(table, each=8)
            status, _, errors = self.pieces("run", "run", "1", "--processes", processes)
            self.assertEqual(status, 0)
            self.assertRegex(errors[0], r"^pieces.py: piece 1: 8 answers in [0-9.]+ s$")
            texts.append(self.read("run", "answers", "00001.txt"))
            os.rename(self.path("run"), self.path(f"run-{processes}"))
        self.assertEqual(texts[0], texts[1])
        self.assertEqual("".join(line for line in texts[0].splitlines(True) if not line.startswith("#")), wanted)

    def test_the_problem_comes_in_lines_and_added_files_come_last(self):
        self.put("echo", "#!/bin/sh\nset -- $(cat | tr '\\n ' ',_')\n[ $# -gt 0 ] || { echo malformed line 1; exit 3; }\necho \"$@\"\n")
        os.chmod(self.path("echo"), 0o755)
        os.rename(self.path("echo"), self.path("knot"))
        self.put("one.txt", "quandle dihedral 3")
        self.put("two.txt", "quandle tetrahedral\n")
        self.made("a\tx 0 1 / o 1 0", words=("--job", "numbers", "+one.txt", "+two.txt"))
        self.assertEqual(self.pieces("join", "run")[1], "a\t0\tx_0_1,o_1_0,quandle_dihedral_3,quandle_tetrahedral,\n")

    def test_a_program_that_changes_meanwhile_leaves_the_piece_without_an_answer(self):
        """The second line puts another program in the place of the first one."""
        os.rename(self.path("knot"), self.path("inner"))
        wrapper = "#!/bin/sh\ntext=$(cat; echo .)\ntext=${text%%.}\ncase $text in *change*) mv %s %s ;; esac\nprintf %%s \"$text\" | %s \"$@\"\n"
        for name, end in (("knot", ""), ("other", "# another version\n")):
            self.put(name, wrapper % (self.path("other"), self.path("knot"), self.path("inner")) + end)
            os.chmod(self.path(name), 0o755)
        table = ["a\t# any 0 numbers 1", "b\t# change / # any 0 numbers 2", "c\t# any 0 numbers 3"]
        self.assertEqual(self.cut(table, each=3)[0], 0)
        status, _, errors = self.pieces("run", "run", "1", "--processes", "1")
        self.assertEqual(status, 2)
        self.assertIn("it has changed since `cut`, so what it answers can't be joined with the other pieces", errors[-1])
        self.assertEqual(self.pieces("left", "run")[:2], (1, "1\n"))

    def test_statuses_that_write_an_answer_are_answers(self):
        table = [f"s{status}\t# any {status} said {status}\\nand more" for status in (0, 1, 3, 4, 8)]
        self.made(*table, each=5)
        self.assertEqual(self.pieces("join", "run")[1], "".join(f"s{status}\t{status}\tsaid {status} / and more\n" for status in (0, 1, 3, 4, 8)))

    def test_a_line_without_an_answer_is_named_and_its_piece_is_left(self):
        for status, why in ((5, "status 5, reading failed"), (6, "status 6, writing failed"), (7, "status 7, memory ran out: there is no memory"),
                            (10, "status 10, it was given no words"), (127, "status 127, it could not be built"), (99, "ended by signal 9"),
                            (2, "status 2, it refuses the words"), (77, "status 77")):
            with self.subTest(status):
                self.cut([FIVE[0], f"lost\t# any {status} half", *FIVE[2:]])
                self.assertEqual(self.pieces("run", "run", "1")[::2], (3, [f"pieces.py: piece 1: lost: no answer, {why}",
                                                                          "pieces.py: piece 1: without an answer to 1 of its lines nothing was written"]))
                self.assertEqual(os.listdir(self.path("run", "answers")), [])
                os.rename(self.path("run"), self.path(f"run-{status}"))

    def test_the_other_pieces_are_answered_beside_one_that_is_not(self):
        self.cut([*FIVE[:3], "lost\t# any 7 half", FIVE[4]])
        self.assertEqual(self.pieces("run", "run", "1-3")[0], 3)
        self.assertEqual(self.pieces("left", "run")[:2], (1, "2\n"))

    def test_a_piece_is_given_up_after_ten_lines(self):
        self.cut([f"k{number}\t# any 7 half" for number in range(40)], each=40)
        status, _, errors = self.pieces("run", "run", "1", "--processes", "2")
        self.assertEqual((status, errors[-1]), (3, "pieces.py: piece 1: given up after 10 lines without an answer; nothing was written"))
        self.assertEqual(len(errors), 11)

    def test_a_second_run_asks_nothing(self):
        self.made(*FIVE)
        self.assertEqual(len(self.calls_made()), 5)
        self.assertEqual(self.pieces("run", "run", "1,2-3")[::2], (0, [f"pieces.py: piece {number}: it has a whole answer" for number in (1, 2, 3)]))
        self.assertEqual(self.calls_made(), [])

    def test_numbers_of_no_piece_are_refused(self):
        self.cut(FIVE)
        for numbers in ("0", "4", "3-2", "1,", "x", ""):
            with self.subTest(numbers):
                status, _, errors = self.pieces("run", "run", numbers)
                self.assertEqual(status, 2)
                self.assertIn("they have the numbers 1 to 3", errors[0])

    def test_another_program_is_refused(self):
        self.cut(FIVE)
        self.put("knot", STAND_IN + "# a later version\n")
        status, _, errors = self.pieces("run", "run", "1")
        self.assertEqual((status, len(errors)), (2, 1))
        self.assertIn("this is another program than the one that `cut` found", errors[0])
        self.assertEqual((self.calls_made(), os.listdir(self.path("run", "answers"))), ([], []))

    def test_another_list_or_piece_is_refused(self):
        self.put("more.txt", "quandle dihedral 3\n")
        self.cut(FIVE, "--job", "numbers", "+more.txt")
        self.put("more.txt", "quandle dihedral 5\n")
        self.assertEqual(self.pieces("run", "run", "1")[0], 0)
        self.put("run/files/1-more.txt", "quandle dihedral 5\n")
        self.assertEqual(self.pieces("run", "run", "2")[::2], (2, ["pieces.py: run/files/1-more.txt: it is not as `cut` copied it"]))
        self.put("run/files/1-more.txt", "quandle dihedral 3\n")
        self.put("run/pieces/00002.txt", "other\tx\n")
        self.assertEqual(self.pieces("run", "run", "2")[::2], (2, ["pieces.py: run/pieces/00002.txt: it is not as `cut` wrote it"]))

    def test_the_program_of_the_run_is_called_where_no_variable_names_one(self):
        self.cut(FIVE)
        environment = {name: value for name, value in os.environ.items() if name not in ("KNOT", "SEEK")}
        self.assertEqual(self.script("run", "run", "1", env=environment)[0], 0)
        self.assertEqual(self.calls_made(), ["knot numbers"] * 2)

    def asked_of_seek(self, program, *words, named=None):
        """The words with which this seek is called by a run that is given these; the run is put aside. It is named by its path, or by a name on PATH."""
        environment = {**self.environment(), "SEEK": named or program, "PATH": os.pathsep.join([os.path.dirname(program), os.environ["PATH"]])}
        with mock.patch.object(self, "environment", lambda: environment):
            self.made("a\t# any 0 equal 0", words=("--job", "seek", *words))
        os.rename(self.path("run"), self.path("run-" + str(len(os.listdir(self.folder)))))
        notes = os.path.join(os.path.dirname(program), "calls")
        with open(notes, encoding="utf-8") as made:
            found = made.read().splitlines()
        os.unlink(notes)
        return found

    def test_seek_is_given_the_default_cocycles_of_its_tree(self):
        seek = self.tree(self.path("seek"), self.put("mine.txt", "quandle dihedral 5\n"))
        self.assertEqual(self.asked_of_seek(seek, "--seed", "2"), ["seek --weights run/files/1-list.txt --seed 2"])
        run = next(name for name in os.listdir(self.folder) if name.startswith("run-"))
        self.assertEqual(self.read(run, "files", "1-list.txt"), "quandle dihedral 5\n")

    def test_a_seek_on_path_is_given_the_default_cocycles_of_its_tree(self):
        seek = self.tree(self.path("seek"), self.put("mine.txt", "quandle dihedral 5\n"))
        self.assertEqual(self.asked_of_seek(seek, "--seed", "2", named="seek"), ["seek --weights run/files/1-list.txt --seed 2"])

    def test_a_seek_of_no_tree_is_given_no_cocycles(self):
        self.assertEqual(self.asked_of_seek(self.path("seek"), "--seed", "2"), ["seek --seed 2"])

    def test_seek_is_given_no_default_cocycles_where_its_words_name_others_or_none(self):
        mine = self.put("mine.txt", "quandle dihedral 3\n")
        seek = self.tree(self.path("seek"), mine)
        for words, wanted in ((("--no-weights",), "seek --no-weights"), (("--weights", "mine.txt"), "seek --weights run/files/1-mine.txt"),
                              (("--weights=mine.txt", "--quandles", "mine.txt"), "seek --weights run/files/1-mine.txt --quandles run/files/2-mine.txt")):
            with self.subTest(words):
                self.assertEqual(self.asked_of_seek(seek, *words), [wanted])

    def test_what_is_kept_of_an_answer(self):
        self.made("a\t# any 0 quandle dihedral 3\\nnumbers 9\\nquandle trivial 19\\nwide 5", "b\t# any 3 malformed line 1",
                  words=("--keep", "numbers,wide", "--job", "numbers"))
        self.assertEqual(self.pieces("join", "run")[1], "a\t0\tnumbers 9 / wide 5\nb\t3\tmalformed line 1\n")

    def test_an_answer_of_which_nothing_is_kept_is_none(self):
        self.cut(["a\t# any 0 numbers 9"], "--keep", "number", "--job", "numbers")
        self.assertEqual(self.pieces("run", "run", "1")[::2], (3, ["pieces.py: piece 1: a: no answer, --keep leaves nothing of its answer",
                                                                  "pieces.py: piece 1: without an answer to 1 of its lines nothing was written"]))

    def test_an_answer_that_does_not_fit_a_line_is_none(self):
        self.cut(["a\t# any 0 one\\ttwo"])
        status, _, errors = self.pieces("run", "run", "1")
        self.assertEqual(status, 3)
        self.assertIn("can't be put in one line", errors[0])

    def test_a_full_disk_is_told_in_a_line_and_nothing_is_half_written(self):
        self.cut([f"k{number}\t# any 0 {'1 ' * 250}" for number in range(8)], each=8)
        found = self.script("sh", "-c", 'ulimit -f 4; exec "$@"', "sh", *self.words("run", "run", "1"))
        self.assertEqual(found, (3, "", ["pieces.py: run/answers/00001.txt: File too large"]))
        self.assertEqual(os.listdir(self.path("run", "answers")), [])

    def test_a_signal_ends_it_and_leaves_nothing_half_written(self):
        for number in SIGNALS:
            with self.subTest(number):
                self.cut([FIVE[0], "slow\t# stay / # any 0 numbers 1", *FIVE[2:]], each=5)
                process = subprocess.Popen(self.words("run", "run", "1", "--processes", "2"), cwd=self.folder, env=self.environment(),
                                           stderr=subprocess.PIPE, text=True, preexec_fn=common.default_signals)
                while process.poll() is None and len(self.read("calls").splitlines() if os.path.exists(self.path("calls")) else []) < 4:
                    time.sleep(0.02)
                process.send_signal(number)
                # The line takes far longer, so it was the signal that ended it.
                _, said = process.communicate(timeout=common.LONG)
                self.assertEqual((process.returncode, said), (128 + number, f"pieces.py: stopped by signal {int(number)}; called again, it goes on\n"))
                self.assertEqual(os.listdir(self.path("run", "answers")), [])
                os.unlink(self.path("calls"))

    def test_what_a_kill_leaves_does_not_count(self):
        self.cut(FIVE)
        gone = subprocess.Popen(["true"])
        gone.wait()
        self.put("run/answers/.00001.txt.elsewhere.77.0.part", "half")
        self.put(f"run/answers/.00001.txt.{host_name()}.{gone.pid}.0.part", "half")
        self.assertEqual(self.pieces("left", "run")[1], "1-3\n")
        self.assertEqual(self.pieces("run", "run", "1-3")[0], 0)
        self.assertEqual(os.listdir(self.path("run", "answers")).count(f".00001.txt.{host_name()}.{gone.pid}.0.part"), 0)
        self.assertEqual(self.pieces("join", "run")[1], FIVE_ANSWERS)


class LeftTest(PiecesTest):
    def test_what_is_left_is_told_as_queues_take_it(self):
        self.cut([f"k{number}\t# any 0 numbers {number}" for number in range(9)], each=1)
        self.assertEqual(self.pieces("left", "run"), (1, "1-9\n", []))
        self.pieces("run", "run", "2,4-5,9")
        self.assertEqual(self.pieces("left", "run"), (1, "1,3,6-8\n", []))
        self.assertEqual(self.pieces("left", "run", "--lines"), (1, "1\n3\n6\n7\n8\n", []))
        self.pieces("run", "run", "1,3,6-8")
        self.assertEqual(self.pieces("left", "run"), (0, "", []))

    def test_a_cut_answer_and_one_of_another_run_are_left(self):
        self.made(*FIVE)
        with open(self.path("run", "answers", "00001.txt"), "r+b") as file:
            file.truncate(os.path.getsize(file.name) - 40)
        self.put("run/answers/00002.txt", self.read("run", "answers", "00003.txt"))
        self.put("run/answers/00003.txt", "")
        self.assertEqual(self.pieces("left", "run")[:2], (1, "1-3\n"))

    def test_a_changed_byte_is_found_by_the_sums_and_mended_by_a_run(self):
        self.made(*FIVE)
        self.put("run/answers/00002.txt", self.read("run", "answers", "00002.txt").replace("numbers 3", "numbers 8"))
        self.assertEqual(self.pieces("left", "run")[:2], (0, ""))
        self.assertEqual(self.pieces("left", "run", "--sums")[:2], (1, "2\n"))
        status, out, errors = self.pieces("join", "run")
        self.assertEqual((status, out), (3, "".join(FIVE_ANSWERS.splitlines(True)[:2])))
        self.assertIn("run/answers/00002.txt: it has been changed or cut", errors[0])
        self.assertEqual(self.pieces("run", "run", "2")[0], 0)
        self.assertEqual(self.pieces("join", "run"), (0, FIVE_ANSWERS, []))

    def test_a_folder_that_is_no_run_is_told(self):
        self.put("run-job", "")
        os.mkdir(self.path("other"))
        self.assertEqual(self.pieces("left", "other"), (2, "", ["pieces.py: other/job: No such file or directory; `cut` makes a run"]))
        self.put("other/job", "{}")
        self.assertEqual(self.pieces("left", "other"), (2, "", ["pieces.py: other/job: it is not as `cut` writes it"]))


class JoinTest(PiecesTest):
    def test_the_script_goes_the_whole_way(self):
        self.put("table.txt", "".join(f"{line}\n" for line in FIVE))
        for words, wanted in ((("cut", "table.txt", "run", "--each", "2", "--job", "numbers"), (0, "3 pieces\n")), (("left", "run"), (1, "1-3\n")),
                              (("join", "run"), (3, "")), (("run", "run", "1-3"), (0, "")), (("left", "run"), (0, "")), (("join", "run"), (0, FIVE_ANSWERS)),
                              (("check", "run", "--try", "3"), (0, "3 of 3 answers are the same when made anew\n")), (("again", "run"), (3, ""))):
            with self.subTest(words):
                self.assertEqual(self.script(*words)[:2], wanted)

    def test_the_answers_come_in_the_order_of_the_table(self):
        self.made(*FIVE)
        self.assertEqual(self.pieces("join", "run"), (0, FIVE_ANSWERS, []))

    def test_a_missing_piece_is_told_before_anything_is_written(self):
        self.cut(FIVE)
        self.pieces("run", "run", "2")
        self.assertEqual(self.pieces("join", "run"), (3, "", ["pieces.py: 2 of 3 pieces have no whole answer: 1,3"]))

    def test_some_pieces_are_joined_where_they_are_named(self):
        self.cut(FIVE)
        self.pieces("run", "run", "2-3")
        self.assertEqual(self.pieces("join", "run", "2-3"), (0, "".join(FIVE_ANSWERS.splitlines(True)[2:]), []))
        self.assertEqual(self.pieces("join", "run", "1-2"), (3, "", ["pieces.py: 1 of 2 pieces have no whole answer: 1"]))

    def test_a_name_that_is_missing_or_twice_or_out_of_order_is_told(self):
        for change, said in ((lambda rows: rows[:1], "the name 'k4' is missing"), (lambda rows: [rows[0], rows[0]], "the name 'k3' comes twice"),
                             (lambda rows: rows[::-1], "the name 'k4' comes where 'k3' is due"),
                             (lambda rows: [*rows, "k9\t0\tnumbers 1\n"], "the name 'k9' is none of the piece's, or comes twice")):
            with self.subTest(said):
                self.made(*FIVE)
                self.forged(2, change)
                status, out, errors = self.pieces("join", "run")
                self.assertEqual((status, out), (3, "".join(FIVE_ANSWERS.splitlines(True)[:2])))
                self.assertEqual(errors, [f"pieces.py: run/answers/00002.txt: {said}"])
                os.unlink(self.path("run", "answers", "00002.txt"))

    def test_an_output_that_is_full_is_told(self):
        self.made(*FIVE)
        found = self.script("sh", "-c", '"$@" > /dev/full', "sh", *self.words("join", "run"))
        self.assertEqual(found, (3, "", ["pieces.py: standard output: No space left on device"]))


class CheckTest(PiecesTest):
    def test_answers_that_are_right_are_made_anew_alike(self):
        self.made(*FIVE)
        self.calls_made()
        self.assertEqual(self.pieces("check", "run"), (0, "5 of 5 answers are the same when made anew\n", []))
        self.assertEqual(len(self.calls_made()), 5)

    def test_a_wrong_answer_is_named(self):
        self.made(*FIVE)
        self.forged(2, lambda rows: [rows[0].replace("numbers 3", "numbers 4"), rows[1]])
        self.assertEqual(self.pieces("check", "run"), (3, "4 of 5 answers are the same when made anew\n", [
            "pieces.py: k3: its answer is '0 numbers 4', and a new call answers '0 numbers 3'"]))

    def test_a_sample_is_drawn_by_a_seed_from_what_is_answered(self):
        table = [f"k{number}\t# any 0 numbers {number}" for number in range(40)]
        self.made(*table, each=10)
        os.unlink(self.path("run", "answers", "00002.txt"))
        self.put("knot", STAND_IN.replace('echo "${0##*/} $*"', 'echo "$said"'))
        drawn = []
        job = json.loads(self.read("run", "job"))
        job["program_sum"] = hashlib.sha256(self.read("knot").encode()).hexdigest()
        self.put("run/job", json.dumps(job))
        for number in (1, 3, 4):
            old = self.read("run", "answers", f"{number:05}.txt")
            self.put(f"run/answers/{number:05}.txt", self.with_program(old, job["program_sum"]))
        for words in ((), ("--seed", "1"), ("--seed", "2")):
            self.calls_made()
            status, out, errors = self.pieces("check", "run", "--try", "6", *words)
            self.assertEqual((status, out), (0, "6 of 6 answers are the same when made anew\n"))
            self.assertEqual(errors, ["pieces.py: 1 of 4 pieces have no whole answer, and are passed over"])
            drawn.append(self.calls_made())
        self.assertEqual(drawn[0], drawn[1])
        self.assertNotEqual(drawn[0], drawn[2])
        self.assertEqual([len(set(names)) for names in drawn], [6, 6, 6])
        self.assertTrue(all(not 10 <= int(name.split()[-1]) < 20 for names in drawn for name in names))

    def with_program(self, text, found):
        """An answer as another program would have made it."""
        rows = text.splitlines(True)[:-1]
        body = "".join(f"#program\t{found}\n" if row.startswith("#program") else row for row in rows)
        return f"{body}#end\t10\t{len(body)}\t{hashlib.sha256(body.encode()).hexdigest()}\n"

    def test_certificates_are_ruled_on(self):
        self.made("a\t# any 0 certificate 2\\nequal 1\\nshift rows 1 / # check 0 accepted",
                  "b\t# any 0 different dihedral 3\\nlist 0 / # check 0 accepted", "c\t# any 1 ", words=("--job", "seek"))
        self.assertEqual(self.pieces("check", "run"), (0, "3 of 3 answers are the same when made anew; 2 of 2 certificates accepted\n", []))

    def test_a_certificate_that_is_not_accepted_is_named(self):
        self.made("a\t# any 0 equal 0 / # check 8 rejected target", words=("--job", "decide"))
        self.assertEqual(self.pieces("check", "run"), (3, "1 of 1 answers are the same when made anew; 0 of 1 certificates accepted\n", [
            "pieces.py: a: its certificate is not accepted: rejected target"]))


class AgainTest(PiecesTest):
    def test_certificates_are_the_table_of_another_run(self):
        self.made("a\tx 1 / # any 0 equal 1\\nshift rows 1 / # check 0 accepted", "b\tx 2 / # any 1 unknown budget 2",
                  "c\tx 3 / # any 0 certificate 2\\ndifferent dihedral 3 / # check 8 rejected lists", words=("--job", "decide"))
        status, out, _ = self.pieces("again", "run")
        self.assertEqual((status, out), (0, "a\tx 1 / # any 0 equal 1\\nshift rows 1 / # check 0 accepted / equal 1 / shift rows 1\n"
                                            "c\tx 3 / # any 0 certificate 2\\ndifferent dihedral 3 / # check 8 rejected lists"
                                            " / certificate 2 / different dihedral 3\n"))
        self.put("certificates.txt", out)
        self.assertEqual(self.pieces("cut", "certificates.txt", "checks", "--each", "9", "--job", "check")[0], 0)
        self.assertEqual(self.pieces("run", "checks", "1")[0], 0)
        self.assertEqual(self.pieces("join", "checks")[1], "a\t0\taccepted\nc\t8\trejected lists\n")

    def test_another_job_has_no_certificates(self):
        self.made(*FIVE)
        self.assertEqual(self.pieces("again", "run"), (3, "", ["pieces.py: run: certificates come of the jobs decide and seek, without --keep"]))


class AlikeTest(PiecesTest):
    def test_the_first_of_each_answer_stands_beside_each_other_one(self):
        self.made(*(f"{name}\tx {name} / # any {status} {text}" for name, status, text in (
            ("a", 0, "numbers 9"), ("b", 0, "numbers 3"), ("c", 0, "numbers 9"), ("d", 3, "malformed line 1"), ("e", 0, "numbers 9"),
            ("f", 0, "numbers 3\\nwide 5"), ("g", 3, "malformed line 1"))))
        status, out, errors = self.pieces("alike", "run")
        self.assertEqual(status, 0)
        self.assertEqual(out, "a|c\tx a / # any 0 numbers 9 / x c / # any 0 numbers 9\na|e\tx a / # any 0 numbers 9 / x e / # any 0 numbers 9\n")
        self.assertEqual(errors, ["pieces.py: answers by which a quandle is too large: 1; they are paired only with those that say the same"])
        self.put("pairs.txt", out)
        self.assertEqual(self.pieces("cut", "pairs.txt", "pairs", "--each", "9", "--job", "seek"), (0, "1 pieces\n", []))


BUILT = {"KNOT": common.built_program(), "SEEK": os.environ.get("SEEK") or os.path.join(common.ROOT, "crates", "seek", "out", "seek")}
TREFOIL, MIRROR = "braid 2 1 1 1", "braid 2 -1 -1 -1"


@unittest.skipUnless(all(path and os.access(path, os.X_OK) for path in BUILT.values()), "knot and seek are not built here; KNOT and SEEK may name built ones")
class BuiltTest(PiecesTest):
    """With the programs themselves: pieces answer what a call of the launcher answers."""

    def setUp(self):
        super().setUp()
        self.seek = self.tree(BUILT["SEEK"], os.path.join(common.LISTS, "weights", "list.txt"))

    def environment(self):
        return {**os.environ, **BUILT, "SEEK": self.seek}

    def answer(self, words, given):
        """A line of an answer, by a call without pieces."""
        done = common.call(words, given)
        return f"{done.returncode}\t{' / '.join(done.stdout.splitlines())}\n"

    def test_numbers_are_those_of_a_call_for_each_line(self):
        table = common.read("examples", "pieces", "knots.txt").splitlines()[:3]
        lists = os.path.join(common.LISTS, "list-short.txt")
        self.made(*table, words=("--job", "numbers", "+" + lists))
        rows = [line.split("\t") for line in table]
        wanted = [f"{name}\t" + self.answer([BUILT["KNOT"], "numbers"], f"{text}\n{common.read('quandles', 'list-short.txt')}") for name, text in rows]
        self.assertEqual(self.pieces("join", "run")[1], "".join(wanted))

    def test_seek_tells_mirror_images_apart_as_its_launcher_does(self):
        self.made(f"a\t{TREFOIL} / {MIRROR}", words=("--job", "seek"))
        lists = os.path.join(common.LISTS, "weights", "list.txt")
        found = self.pieces("join", "run")[1]
        self.assertEqual(found, "a\t" + self.answer([BUILT["SEEK"], "--weights", lists], f"{TREFOIL}\n{MIRROR}\n"))
        self.assertIn("different numbers", found)
        self.assertEqual(self.pieces("check", "run")[:2], (0, "1 of 1 answers are the same when made anew; 1 of 1 certificates accepted\n"))

    def test_certificates_of_decide_are_accepted_in_another_run(self):
        self.made(f"same\t{TREFOIL} / x 4 3 2 1 0 / o 1 0 4 3 2", f"mirror\t{TREFOIL} / {MIRROR}", "other\tbraid 2 1 1 1 / braid 1",
                  words=("--job", "decide", "--budget", "500"))
        self.put("certificates.txt", self.pieces("again", "run")[1])
        self.pieces("cut", "certificates.txt", "checks", "--each", "9", "--job", "check")
        self.assertEqual(self.pieces("run", "checks", "1")[0], 0)
        self.assertEqual(self.pieces("join", "checks")[1], "same\t0\taccepted\nother\t0\taccepted\n")


if __name__ == "__main__":
    unittest.main()
