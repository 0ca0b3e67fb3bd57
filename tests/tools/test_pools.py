"""Tests of the workers of the scripts, threads and processes: order, faults, and what ends them."""
import os
import signal
import subprocess
import sys
import time
import unittest
from collections import deque

import common
from lib.calls.pools import Pool, processes, threads
from knot_workbench.faults import Fault
from knot_workbench.programs import KILLED, Caller

# Longer than any test takes.
HOUR = 3600


def square(item):
    """What threads are asked."""
    return item * item


def power(known, item):
    """What processes are asked, which know an exponent."""
    return item ** known


def blocked(*_):
    """The signals that a program can't get, as Linux writes them."""
    return Caller().run(["/bin/sh", "-c", "exec grep SigBlk /proc/self/status"], b"").text.split()[1].strip("0")


def fail(_, item):
    """A question without an answer."""
    raise Fault(f"no answer to {item}")


def die(_, item):
    """A question at which a worker is killed."""
    os.kill(os.getpid(), signal.SIGKILL)


# A script whose two workers call programs that take an hour, each of which makes a file first. Signals raise Stopped, as in the scripts.
SCRIPT = """
import os, sys
sys.path[:0] = [sys.argv[1], os.path.join(os.path.dirname(sys.argv[1]), "python")]
from lib.calls.pools import processes
from lib.calls.signals import Stopped, on_signals
from knot_workbench.programs import CALLER

def call(known, item):
    CALLER.run(["/bin/sh", "-c", f"echo $PPID $$ > {known}/{item}~; mv {known}/{item}~ {known}/{item}; exec sleep 3600"], b"")

on_signals()
try:
    with processes(2, str, (sys.argv[2],)) as pool:
        print(list(pool.each(call, ["one", "two"])))
except Stopped as stopped:
    sys.exit(128 + stopped.number)
"""


class SignalsTest(unittest.TestCase):
    @unittest.skipUnless(os.path.exists("/proc/self/status"), "this isn't Linux")
    def test_programs_get_all_signals(self):
        with threads(2, self.fail) as pool:
            self.assertEqual(list(pool.each(blocked, range(4))), [""] * 4)
        with processes(2, int, ("3",)) as pool:
            self.assertEqual(list(pool.each(blocked, range(4))), [""] * 4)


class ThreadsTest(unittest.TestCase):
    def test_answers_come_in_order_where_they_are_due_so(self):
        with threads(3, self.fail) as pool:
            self.assertEqual(list(pool.in_order(square, range(3000))), [item * item for item in range(3000)])
            self.assertEqual(sorted(pool.each(square, range(100), 7)), [item * item for item in range(100)])

    def test_the_first_answer_comes_first(self):
        with threads(2, self.fail) as pool:
            self.assertEqual(next(pool.each(lambda item: time.sleep(item) or item, [1, 0])), 0)

    def test_what_is_added_meanwhile_is_asked_too(self):
        waiting, found = deque([1, 2]), []
        with threads(2, self.fail) as pool:
            for one in pool.each(lambda item: item, waiting):
                found.append(one)
                if one < 4:
                    waiting.append(one + 2)
        self.assertEqual(sorted(found), [1, 2, 3, 4, 5])

    def test_an_exception_ends_what_runs_and_nothing_else_begins(self):
        caller, began, ended = Caller(), time.monotonic(), []

        def call(seconds):
            ended.append(caller.run(["/bin/sh", "-c", f"exec sleep {seconds}"], b"").status)
            if not seconds:
                raise Fault("one")

        with self.assertRaises(Fault), threads(2, caller.stop) as pool:
            list(pool.each(call, [HOUR, 0, *[HOUR] * 9]))
        self.assertLess(time.monotonic() - began, HOUR / 2)
        self.assertEqual(set(ended), {0, KILLED})
        self.assertLess(len(ended), 5)


class ProcessesTest(unittest.TestCase):
    def test_workers_know_what_their_beginning_made(self):
        with processes(2, int, ("3",)) as pool:
            self.assertEqual(sorted(pool.each(power, range(50), 4)), [item ** 3 for item in range(50)])
            self.assertEqual(list(pool.in_order(power, range(5))), [0, 1, 8, 27, 64])

    def test_a_fault_is_raised_here(self):
        with self.assertRaisesRegex(Fault, "^no answer to 2$"), processes(2, int, ("3",)) as pool:
            list(pool.each(fail, [2]))

    def test_a_worker_that_is_killed_is_told(self):
        for ask in (Pool.each, Pool.in_order):
            with self.assertRaisesRegex(Fault, "^a worker has ended"), processes(2, int, ("3",)) as pool:
                list(ask(pool, die, range(9)))

    def test_nothing_is_left_of_a_script_that_a_signal_ends(self):
        for number in (signal.SIGINT, signal.SIGTERM, signal.SIGHUP, signal.SIGKILL):
            with self.subTest(number):
                self.stop_with(number, whole_group=number == signal.SIGINT)

    def stop_with(self, number, whole_group):
        """Sends a signal to a script while two workers call programs, or to all of its group as a terminal does."""
        folder = common.scratch(self)
        script = subprocess.Popen([sys.executable, "-B", "-c", SCRIPT, common.TOOLS, folder], stdout=subprocess.PIPE, stderr=subprocess.PIPE, text=True,
                                  preexec_fn=common.default_signals, start_new_session=True)
        paths = [os.path.join(folder, name) for name in ("one", "two")]
        while not all(map(os.path.exists, paths)):
            self.assertIsNone(script.poll(), "the script has ended")
            time.sleep(0.02)
        (os.killpg if whole_group else os.kill)(script.pid, number)
        # This is over when nothing has its streams any more, and so neither workers nor programs.
        out, said = script.communicate(timeout=common.LONG)
        self.assertEqual((script.returncode, out, said), (-number if number == signal.SIGKILL else 128 + number, "", ""))
        for path in paths:
            with open(path, encoding="ascii") as file:
                for process in map(int, file.read().split()):
                    self.assert_ends(process)

    def assert_ends(self, process):
        """A process ends soon; one that only its parent has to wait for has ended."""
        end = time.monotonic() + common.LONG
        while os.path.exists(f"/proc/{process}") and state_of(process) != "Z":
            self.assertLess(time.monotonic(), end)
            time.sleep(0.02)


def state_of(process):
    """The letter of a process's state, by the files of Linux."""
    try:
        with open(f"/proc/{process}/stat", encoding="ascii") as file:
            return file.read().rpartition(")")[2].split()[0]
    except OSError:
        return "Z"


if __name__ == "__main__":
    unittest.main()
