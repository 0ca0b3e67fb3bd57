#!/usr/bin/env python3
"""Runs the gate, and says after it how many seconds of the processor its proofs, tests and edits took.

    tests/gate_seconds.py rt ci           runs it
    tests/gate_seconds.py --beside PID    looks at what the process PID has begun, until a signal or the end of PID; .ci/run calls it so

A kit that keeps what it proved takes that over; `rt ci --anew` of such a kit runs from nothing.

Every half second the processes of the run are looked at, since rt reports no times; so each sum may lack half a second for each of them. What
the run itself takes beside the prover, to compile and to run tests and programs, is the rest. The exit status is that of the run; with
--beside it is 0, and nothing is said where PID has ended.
"""
import os
import signal
import subprocess
import sys
import time

TICKS = os.sysconf("SC_CLK_TCK")
PROVER = "/bin/rattle"
KINDS = ("proofs", "tests", "edits")


def bytes_of(path):
    """A file of the system, or nothing where the process has ended."""
    try:
        with open(path, "rb") as file:
            return file.read()
    except OSError:
        return b""


def numbers_of(number):
    """Of a process its parent, its start, its own ticks of the processor and those of its children that have ended; None where it has ended."""
    stat = bytes_of(f"/proc/{number}/stat").rpartition(b")")[2].split()
    return (int(stat[1]), stat[19], sum(map(int, stat[11:13])), sum(map(int, stat[13:15]))) if stat else None


def processes():
    """The numbers of all processes."""
    found = {int(name): numbers_of(name) for name in os.listdir("/proc") if name.isdigit()}
    return {number: row for number, row in found.items() if row}


def is_below(number, top, now):
    """Whether a process was started by another one, at whatever distance."""
    while number in now and number != top:
        number = now[number][0]
    return number == top


def call_of(number):
    """The words of a call of the prover after its path; none where the process is none."""
    words = bytes_of(f"/proc/{number}/cmdline").decode("utf-8", "replace").split("\0")
    for place, word in enumerate(words):
        if word.endswith(PROVER):
            return words[place + 1:]
    return []


def kind_of(number, words):
    """What a process of the prover works on; None where it proves nothing, as one that lays out files or compiles what was proved.

    A check in a crate's own folder is a program's proof where the program is then built of it, and else what the edits of the crate begin with.
    """
    try:
        folder = os.readlink(f"/proc/{number}/cwd")
    except OSError:
        folder = ""
    if words[:1] not in (["check"], ["build"]) or "--crate-checked" in words or "--help" in words:
        return None
    if "rt-edit-" in folder:
        return "edits"
    if "--test" in words:
        return "tests"
    return "proofs" if words[0] == "build" or any("/rt-proved-" in word for word in words) else "edits"


class Sums:
    """The seconds of the prover's processes below a process, by kind."""

    def __init__(self, top):
        self.top = top
        # By number and start: the kind of a process, None for one that doesn't count; and the most ticks that were seen of those that do.
        self.kinds, self.ticks = {}, {}

    def look(self):
        """Looks at all processes once."""
        now = processes()
        for number, (parent, start, own, children) in now.items():
            if not is_below(number, self.top, now):
                continue
            key = number, start
            # (a process may become the prover's a little later, so one that is none is looked at again)
            if self.kinds.get(key) is None:
                self.kinds[key] = None if call_of(parent) else kind_of(number, call_of(number))
            if self.kinds[key]:
                below = sum(row[2] + row[3] for row in now.values() if row[0] == number)
                self.ticks[key] = max(self.ticks.get(key, 0), own + children + below)

    def seconds(self, kind):
        """The seconds of a kind."""
        return sum(ticks for key, ticks in self.ticks.items() if self.kinds[key] == kind) / TICKS

    def tell(self, whole, began):
        """Says all sums; `whole` is what all processes took."""
        rest = max(0, whole - sum(map(self.seconds, KINDS)))
        print(f"seconds of the processor: {', '.join(f'{kind} {self.seconds(kind):.0f}' for kind in KINDS)}, the rest {rest:.0f}; "
              f"by the clock {time.monotonic() - began:.0f}", flush=True)


def run(words):
    """Runs words: the status."""
    began = time.monotonic()
    process = subprocess.Popen(words)
    sums = Sums(process.pid)
    while True:
        ended, status, usage = os.wait4(process.pid, os.WNOHANG)
        if ended:
            sums.tell(usage.ru_utime + usage.ru_stime, began)
            return os.waitstatus_to_exitcode(status)
        sums.look()
        time.sleep(0.5)


def beside(number):
    """Looks at what a process has begun, until a signal asks for the sums."""
    asked = []
    for one in (signal.SIGTERM, signal.SIGINT, signal.SIGHUP):
        signal.signal(one, lambda sent, _: asked.append(sent))
    began, sums, first = time.monotonic(), Sums(number), numbers_of(number)
    while not asked:
        now = numbers_of(number)
        if not first or not now or now[1] != first[1]:
            return
        sums.look()
        time.sleep(0.5)
    now = numbers_of(number)
    if first and now and now[1] == first[1]:
        sums.tell((now[3] - first[3]) / TICKS, began)


def main():
    words = sys.argv[1:]
    if len(words) == 2 and words[0] == "--beside" and words[1].isdigit():
        beside(int(words[1]))
        return 0
    if not words or words[0].startswith("-"):
        sys.exit(__doc__.strip())
    status = run(words)
    return status if status >= 0 else 128 - status


if __name__ == "__main__":
    sys.exit(main())
