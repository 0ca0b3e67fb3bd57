"""Tests of seek itself, where it is built, that no row can make: the line of a terminal that says how far a search is, which of several
workers has its say, and what is left where a call is killed while it writes, or where the system refuses a step of it."""
import os
import re
import resource
import shutil
import signal
import subprocess
import sys
import time
import unittest

import common
import rows
import terminals

SEEK = os.path.abspath(os.environ.get("SEEK") or os.path.join(common.ROOT, "crates", "seek", "out", "seek"))

# A knot and its mirror image reversed: no number of colourings differs, and walks make all the steps that they may.
IN_VAIN = ["--no-weights", "--room", "65536", "--braid", "3 1 1 1 1 -2 1 1 1 -2 -2", "--braid", "3 2 2 -1 -1 -1 2 -1 -1 -1 -1"]
# The line, which is written over; how it is cleared; and what is told at the end.
HOW_FAR = rb"\rseek: [1-9][0-9]* steps, [1-9][0-9]* forms, least sizes [0-9]+ and [0-9]+\x1b\[K"
CLEARED = rb"\r\x1b\[K"
AT_LAST = rb"seek: nothing found: [^\r\n]*\n"

# A knot of ten crossings and its reversal: walks join them after many steps, and how many these are depends on the seed.
REVERSED = ["--no-weights", "--quiet", "--room", "262144", "--braid", "3 1 1 1 1 -2 1 1 1 -2 -2", "--braid", "3 -2 -2 1 1 1 -2 1 1 1 1"]
FEW_STEPS, MORE_STEPS, MANY_STEPS = 150_000, 300_000, 1_000_000

BRAIDS = ["--braid", "2 1 1 1", "--braid", "1"]
OLD = b"what was there before\n"
# How many bytes a file may have at most.
ROOM = 20
# Of how many requests for memory, the first and the last of a call, each is refused in turn.
ENDS = 60


@unittest.skipUnless(os.access(SEEK, os.X_OK), "seek isn't built")
class AtATerminal(unittest.TestCase):
    def search(self, steps):
        """What a terminal gets of a search in vain of so many steps, and how many seconds it takes."""
        begun = time.monotonic()
        status, text, told = terminals.run([SEEK, *IN_VAIN, "--steps", str(steps)], b"", timeout=common.LONG)
        self.assertEqual((status, text), (1, b""))
        return told, time.monotonic() - begun

    def test_how_far_a_search_is_stands_in_one_line_that_is_cleared(self):
        steps = 500_000
        told, seconds = self.search(steps)
        # A search that ends in half a second tells nothing, and how many steps these are depends on the machine.
        while re.fullmatch(AT_LAST, told):
            self.assertLess(seconds, 30)
            steps *= 2
            told, seconds = self.search(steps)
        self.assertIsNotNone(re.fullmatch(b"(?:%s)+%s%s" % (HOW_FAR, CLEARED, AT_LAST), told), told)
        self.assertLessEqual(len(re.findall(HOW_FAR, told)), seconds / 0.5)


@unittest.skipUnless(os.access(SEEK, os.X_OK), "seek isn't built")
class SeveralWorkers(unittest.TestCase):
    def found(self, steps, seed, workers=1):
        """What so many workers write, the first of which has this seed; nothing where they find nothing."""
        words = ["--steps", str(steps), "--seed", str(seed), "--workers", str(workers)]
        ended = subprocess.run([SEEK, *REVERSED, *words], stdout=subprocess.PIPE, timeout=common.LONG, check=False)
        self.assertEqual(ended.returncode, 0 if ended.stdout else 1)
        return ended.stdout

    def test_two_workers_answer_as_the_quicker_of_their_seeds(self):
        self.assertEqual(self.found(MORE_STEPS, 1), b"")
        quicker, slower = self.found(MORE_STEPS, 2), self.found(MANY_STEPS, 1)
        self.assertTrue(quicker and slower and quicker != slower)
        self.assertEqual(self.found(MANY_STEPS, 1, workers=2), quicker)

    def test_as_many_workers_work_as_are_asked_for(self):
        alone = [self.found(FEW_STEPS, seed) for seed in (3, 4, 5)]
        self.assertEqual([bool(text) for text in alone], [False, False, True])
        self.assertEqual([self.found(FEW_STEPS, 3, workers) for workers in (1, 2, 3)], alone)


class Files(unittest.TestCase):
    """Calls in a folder in which a file is to be replaced."""

    def setUp(self):
        self.folder = common.scratch(self)
        with open(os.path.join(self.folder, "here"), "wb") as file:
            file.write(OLD)

    def files(self):
        found = {}
        for name in os.listdir(self.folder):
            with open(os.path.join(self.folder, name), "rb") as file:
                found[name] = file.read()
        return found


@unittest.skipUnless(os.access(SEEK, os.X_OK), "seek isn't built")
@unittest.skipUnless(shutil.which("cc"), "there is no C compiler, cc")
@unittest.skipIf(rows.is_sanitized(SEEK), "a program with a sanitizer takes no other library before its own")
class RefusedSteps(Files):
    def setUp(self):
        super().setUp()
        kept = common.scratch(self)
        self.library, self.count = os.path.join(kept, "refused.so"), os.path.join(kept, "count")
        subprocess.run(["cc", "-shared", "-fPIC", "-O1", "-o", self.library, os.path.join(common.ROOT, "tests", "refused.c")], check=True)

    def call(self, name, **refused):
        """How a call ends that writes this file, and what it says."""
        environment = {**os.environ, "LD_PRELOAD": self.library, **refused}
        ended = subprocess.run([SEEK, "--no-weights", "--out", name, *BRAIDS], cwd=self.folder, env=environment, stderr=subprocess.PIPE, check=False)
        return ended.returncode, ended.stderr

    def requests(self):
        """How often a call asks for memory that replaces the file."""
        with open(self.count, "wb") as file:
            file.write(bytes(8))
        self.assertEqual(self.call("here", REFUSE_COUNT=self.count), (0, b""))
        with open(self.count, "rb") as file:
            return int.from_bytes(file.read(), sys.byteorder)

    def test_a_file_that_cannot_be_renamed_or_synced_leaves_the_old_one(self):
        for call in ("rename", "fsync"):
            for name in ("here", "there"):
                with self.subTest(call=call, name=name):
                    told = f"seek: {name} can't be written: Input/output error (os error 5)\n".encode()
                    self.assertEqual(self.call(name, REFUSE_CALL=call), (6, told))
                    self.assertEqual(self.files(), {"here": OLD})

    def test_want_of_memory_for_writing_a_file_ends_with_7_and_leaves_the_old_one(self):
        requests = self.requests()
        verdict = self.files()["here"]
        for number in sorted({*range(min(requests, ENDS)), *range(max(0, requests - ENDS), requests)}):
            with self.subTest(request=number):
                with open(os.path.join(self.folder, "here"), "wb") as file:
                    file.write(OLD)
                status, _ = self.call("here", REFUSE=str(number))
                self.assertIn((status, self.files()), [(7, {"here": OLD}), (0, {"here": verdict})])


@unittest.skipUnless(os.access(SEEK, os.X_OK), "seek isn't built")
class FullFiles(Files):
    def setUp(self):
        super().setUp()
        self.verdict = subprocess.run([SEEK, *BRAIDS], stdout=subprocess.PIPE, check=True).stdout
        self.assertGreater(len(self.verdict), ROOM)

    def call(self, disposition):
        """A call that may write some bytes of a file, and what happens to it then: its number, its end, and its message."""
        def limit():
            resource.setrlimit(resource.RLIMIT_CORE, (0, 0))
            resource.setrlimit(resource.RLIMIT_FSIZE, (ROOM, ROOM))
            signal.signal(signal.SIGXFSZ, disposition)

        with subprocess.Popen([SEEK, "--out", "here", *BRAIDS], cwd=self.folder, stderr=subprocess.PIPE, preexec_fn=limit) as process:
            said = process.communicate()[1]
        return process.pid, process.returncode, said

    def test_a_call_that_is_killed_while_it_writes_leaves_the_old_file_and_a_part_beside_it(self):
        number, status, _ = self.call(signal.SIG_DFL)
        self.assertEqual(status, -signal.SIGXFSZ)
        self.assertEqual(self.files(), {"here": OLD, f"here.{number}.part": self.verdict[:ROOM]})
        subprocess.run([SEEK, "--out", "here", *BRAIDS], cwd=self.folder, check=True)
        self.assertEqual(self.files(), {"here": self.verdict, f"here.{number}.part": self.verdict[:ROOM]})

    def test_a_file_that_cannot_be_written_whole_leaves_the_old_one(self):
        self.assertEqual(self.call(signal.SIG_IGN)[1:], (6, b"seek: here can't be written: File too large (os error 27)\n"))
        self.assertEqual(self.files(), {"here": OLD})


if __name__ == "__main__":
    unittest.main()
