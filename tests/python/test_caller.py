"""The module's calls of programs: streams, limits, and what ends them."""
import os
import signal
import sys
import tempfile
import threading
import time
import unittest
from unittest import mock

ROOT = os.path.dirname(os.path.dirname(os.path.dirname(os.path.abspath(__file__))))
sys.path.insert(0, os.path.join(ROOT, "python"))

from knot_workbench import programs  # noqa: E402
from knot_workbench.programs import BYTES, KILLED, SECONDS, STOPPED, Caller, Ran  # noqa: E402

# Longer than any test takes.
LONG = 600


def python(line):
    """The call of a line of Python."""
    return [sys.executable, "-c", f"import os, sys, time; {line}"]


def begun(mark, line):
    """The call of a line of Python that first makes a file."""
    return python(f"open({mark!r}, 'w').close(); {line}")


class CallerTest(unittest.TestCase):
    def setUp(self):
        kept = tempfile.TemporaryDirectory()
        self.addCleanup(kept.cleanup)
        self.mark = os.path.join(kept.name, "mark")

    def wait_for_mark(self):
        """Waits until what `begun` calls has begun."""
        while not os.path.exists(self.mark):
            time.sleep(0.01)

    def assert_gone(self):
        """Nothing runs any more, and there is nothing that nobody has waited for."""
        self.assertRaises(ChildProcessError, os.waitpid, -1, os.WNOHANG)

    def test_both_streams_are_read_to_their_end(self):
        many = 1 << 20
        ran = Caller().run(python(f"sys.stdout.write(sys.stdin.read() * {many}); sys.stderr.write('e' * {many}); sys.exit(3)"), b"ab")
        self.assertEqual((ran.status, ran.cut, ran.body, ran.said), (3, "", b"ab" * many, b"e" * many))
        self.assertGreater(ran.seconds, 0)
        self.assertEqual((Ran(0, b"\xff").text, Ran(0, b"", b"\xff").told), ("\ufffd",) * 2)

    def test_calls_leave_nothing_for_the_next(self):
        caller = Caller()
        self.assertEqual(caller.run(python("print(sys.stdin.read())"), b"longer").body, b"longer\n")
        self.assertEqual(caller.run(python("print(sys.stdin.read())"), b"one").body, b"one\n")
        self.assertEqual(caller.run(python("pass"), b"one").body, b"")

    def test_a_stop_while_a_program_begins_ends_it(self):
        caller, popen, ended = Caller(), programs.subprocess.Popen, []

        def begin(*words, **streams):
            # As the handler of a signal may, in the same thread, before the process is known.
            process = popen(*words, **streams)
            caller.stop(lambda: ended.append(process.pid))
            self.assertEqual(ended, [])
            return process

        with mock.patch.object(programs.subprocess, "Popen", begin):
            ran = caller.run(python(f"time.sleep({LONG})"), b"")
        self.assertEqual((ran.status, ran.cut, len(ended)), (KILLED, STOPPED, 1))
        self.assert_gone()

    def test_files_stand_in_where_there_are_none_in_memory(self):
        with mock.patch.object(programs.os, "memfd_create", create=True):
            del programs.os.memfd_create
            self.assertEqual(Caller().run(python("print(sys.stdin.read())"), b"one").body, b"one\n")

    def test_a_program_that_takes_too_long_is_ended(self):
        began = time.monotonic()
        ran = Caller().run(python(f"time.sleep({LONG})"), b"", seconds=0.2)
        self.assertEqual((ran.status, ran.cut), (KILLED, SECONDS))
        self.assertLess(time.monotonic() - began, LONG / 2)
        self.assert_gone()

    def test_a_program_that_writes_too_much_is_ended(self):
        for stream in ("stdout", "stderr"):
            ran = Caller().run(python(f"any(sys.{stream}.write('y') is None for _ in iter(int, 1))"), b"", most=1 << 16)
            self.assertEqual((ran.status, ran.cut), (KILLED, BYTES))
        self.assertEqual(Caller().run(python("print('y' * 99)"), b"", most=99).cut, BYTES)
        self.assertEqual(Caller().run(python("print('y' * 99)"), b"", most=100).body, b"y" * 99 + b"\n")

    def test_what_runs_is_ended_where_all_is_stopped_and_nothing_begins_then(self):
        caller, found = Caller(), []
        thread = threading.Thread(target=lambda: found.append(caller.run(begun(self.mark, f"time.sleep({LONG})"), b"")))
        thread.start()
        self.wait_for_mark()
        caller.stop()
        thread.join()
        self.assert_gone()
        os.unlink(self.mark)
        found.append(caller.run(begun(self.mark, "pass"), b""))
        self.assertEqual([(ran.status, ran.cut) for ran in found], [(KILLED, STOPPED)] * 2)
        self.assertFalse(os.path.exists(self.mark))

    def test_a_signal_that_raises_ends_and_reaps_what_runs(self):
        class Asked(BaseException):
            """What the signal raises."""

        def handle(*_):
            raise Asked()

        self.addCleanup(signal.signal, signal.SIGUSR1, signal.signal(signal.SIGUSR1, handle))
        self.assertRaises(Asked, Caller().run, python(f"os.kill(os.getppid(), {int(signal.SIGUSR1)}); time.sleep({LONG})"), b"")
        self.assert_gone()

    def test_a_program_that_is_not_there_is_named(self):
        with self.assertRaises(OSError) as caught:
            Caller().run(["/no/such/program"], b"")
        self.assertEqual(caught.exception.filename, "/no/such/program")
        with mock.patch.object(programs, "stream_file", side_effect=OSError(24, "Too many open files")), self.assertRaises(OSError) as caught:
            Caller().run(["/some/program"], b"")
        self.assertEqual(caught.exception.filename, "/some/program")


if __name__ == "__main__":
    unittest.main()
