"""Tests of what survives an interrupt: tools/lib/calls/store.py."""
import os
import resource
import signal
import subprocess
import sys
import unittest

import common
from lib.calls.store import LineForm, Store, StoreError, answers_in

FORM = LineForm("question 1", "it is of another question")

# Puts so many answers, each of two fields, under keys that begin with a word.
WRITER = """
import sys
from lib.calls.store import LineForm, Store
path, word, count = sys.argv[1], sys.argv[2], int(sys.argv[3])
with Store(path, LineForm("question 1", "it is of another question")) as store:
    for number in range(count):
        store.put(f"{word}{number}", number, word * 500)
        print(number, flush=True)
"""


class StoreTest(unittest.TestCase):
    def setUp(self):
        self.path = os.path.join(common.scratch(self), "store")

    def put(self, *answers):
        with Store(self.path, FORM) as store:
            for key, *fields in answers:
                store.put(key, *fields)

    def data(self):
        with open(self.path, "rb") as file:
            return file.read()

    def replace(self, data):
        with open(self.path, "wb") as file:
            file.write(data)

    def writer(self, word, count, **more):
        environment = {**os.environ, "PYTHONPATH": os.pathsep.join([common.TOOLS, os.path.join(common.ROOT, "python")])}
        return subprocess.Popen([sys.executable, "-B", "-c", WRITER, self.path, word, str(count)], env=environment, stdout=subprocess.PIPE,
                                stderr=subprocess.PIPE, text=True, **more)


class KeptTest(StoreTest):
    def test_what_was_put_is_there_with_the_last_answer_of_a_key(self):
        self.put(("a", 1, "x 0 1 / o 1 0"), ("b",), ("a", 2, ""))
        self.put(("c", "é"))
        self.assertEqual(answers_in(self.path, FORM), {"a": ["2", ""], "b": [], "c": ["é"]})
        with Store(self.path, FORM) as store:
            self.assertEqual(store.answers, answers_in(self.path, FORM))

    def test_there_are_no_answers_where_there_is_no_file(self):
        self.assertEqual(answers_in(self.path, FORM), {})
        self.assertFalse(os.path.exists(self.path))

    def test_cut_at_each_byte_the_whole_lines_stay_and_more_can_be_put(self):
        self.put(("one", "1", "a b"), ("two", "2"), ("three", ""))
        whole, asked = self.data(), [("one", ["1", "a b"]), ("two", ["2"]), ("three", [""])]
        for size in range(len(whole)):
            self.replace(whole[:size])
            # A line that lacks its end alone is whole.
            known = dict(asked[:max(0, whole[:size + 1].count(b"\n") - 1)])
            self.assertEqual(answers_in(self.path, FORM), known, size)
            self.put(("four", "4"))
            self.assertEqual(answers_in(self.path, FORM), {**known, "four": ["4"]}, size)

    def test_a_line_with_a_byte_changed_is_passed_over(self):
        self.put(("one", "1"), ("two", "2"), ("three", "3"))
        whole = self.data()
        begin = whole.index(b"two")
        for place in range(begin, whole.index(b"three") - 1):
            for byte in (b"\0", b"\t", b"\n", b"\xff"):
                if whole[place:place + 1] != byte:
                    self.replace(whole[:place] + byte + whole[place + 1:])
                    self.assertEqual(answers_in(self.path, FORM), {"one": ["1"], "three": ["3"]}, (place, byte))


class RefusedTest(StoreTest):
    def refused(self, form, said):
        for use in (Store, answers_in):
            with self.assertRaises(StoreError) as caught:
                use(self.path, form)
            self.assertEqual(str(caught.exception), f"{self.path}: {said}")

    def test_another_question(self):
        self.put(("one", "1"))
        before = self.data()
        for head in ("question 12", "question", "question 2"):
            self.refused(LineForm(head, "it is of another question", "begin a new one"), "it is of another question: begin a new one")
        self.assertEqual(self.data(), before)

    def test_a_file_of_another_kind(self):
        for data in (b"one\t1\n", b"question 1", b"question 1 ", b"\n", b"\xff\xfe", b"question 1\r\n"):
            self.replace(data)
            if FORM.head.encode().startswith(data):
                self.assertEqual(answers_in(self.path, FORM), {})
            else:
                self.refused(FORM, "it is of another question: name another one")
            self.assertEqual(self.data(), data)

    def test_what_is_no_regular_file(self):
        os.mkdir(self.path)
        self.refused(FORM, "not a regular file: name another one")
        self.path = "/dev/null"
        self.refused(FORM, "not a regular file: name another one")


class ProcessesTest(StoreTest):
    def test_a_kill_loses_nothing_that_was_put(self):
        process = self.writer("a", 1_000_000)
        said = [process.stdout.readline() for _ in range(100)]
        process.kill()
        process.communicate()
        self.assertEqual((process.returncode, said[-1]), (-signal.SIGKILL, "99\n"))
        known = answers_in(self.path, FORM)
        self.assertEqual(known["a99"], ["99", "a" * 500])
        self.assertEqual(list(known), [f"a{number}" for number in range(len(known))])

    def test_two_processes_at_once_lose_nothing(self):
        processes = [self.writer(word, 500) for word in "abc"]
        self.assertEqual([(process.communicate()[1], process.returncode) for process in processes], [("", 0)] * 3)
        self.assertEqual(answers_in(self.path, FORM), {f"{word}{number}": [str(number), word * 500] for word in "abc" for number in range(500)})

    def test_a_full_disk_is_named_and_what_was_put_before_stays(self):
        def limit():
            signal.signal(signal.SIGXFSZ, signal.SIG_IGN)
            resource.setrlimit(resource.RLIMIT_FSIZE, (5_000, 5_000))
        process = self.writer("a", 100, preexec_fn=limit)
        said = process.communicate()[1]
        self.assertEqual(process.returncode, 1)
        self.assertIn(f"File too large: '{self.path}'", said)
        # A line has 514 to 516 bytes, and the last one was cut.
        self.assertEqual((len(self.data()), list(answers_in(self.path, FORM))), (5_000, [f"a{number}" for number in range(9)]))
        # Another process, which has room again, adds to the cut line and then goes on.
        with Store(self.path, FORM) as store:
            store.put("b", "1")
        self.assertEqual(answers_in(self.path, FORM)["b"], ["1"])


if __name__ == "__main__":
    unittest.main()
