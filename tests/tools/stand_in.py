#!/usr/bin/env python3
"""Stands for knot in tests of the batch, and called with a name that begins with seek for seek. It does what comments of its input say, and
knows nothing of knots.

A line '# at B: S TEXT' has decide with the budget B end with status S and write TEXT, where ' / ' begins a new line.
A line '# check: S TEXT' does the same for check, and '# seek: S TEXT' for seek, which without it finds nothing and says so.
'# says: TEXT' says something on standard error first, '# sleep T' waits. 'calls: PATH' appends a line to this file for each call.
After a '+' the line holds only where the input has the word 'quandle'.
"""
import os
import re
import signal
import sys
import time

IS_SEEK = os.path.basename(sys.argv[0]).startswith("seek")
NAME = "seek" if IS_SEEK else "knot"


def answer_of(words, text):
    """The status and the text of a call."""
    if IS_SEEK:
        if text.startswith("x 0 1\no 1 0\nx 0 1\no 1 0\n"):
            return "0", "certificate 2 / equal 0"
        said = re.search("^# seek: ([0-9]+) ?(.*)$", text, re.M)
        if not said:
            print("seek: nothing found: none of the 294 quandles distinguishes them", file=sys.stderr)
        return (said[1], said[2]) if said else ("1", "")
    if words and words[0] == "check":
        said = re.search("^# check: ([0-9]+) ?(.*)$", text, re.M)
        return (said[1], said[2]) if said else ("0", "accepted")
    budget = words[words.index("--budget") + 1] if "--budget" in words else "none"
    mark = "+" if re.search("^quandle", text, re.M) else ""
    said = re.search(f"^# at {re.escape(mark)}{budget}: ([0-9]+) ?(.*)$", text, re.M)
    return (said[1], said[2]) if said else ("1", f"unknown budget {budget}")


def main():
    words = sys.argv[1:]
    text = sys.stdin.read()
    if any(word.startswith("--bad") for word in words) or words and words[0] == "nojob" or IS_SEEK and words and not words[0].startswith("-"):
        print("error: these words aren't known" if IS_SEEK else "usage: knot JOB", file=sys.stderr if IS_SEEK else sys.stdout)
        return 2
    if not text:
        print(f"{NAME}: standard input, line 1: the problem ends here", file=sys.stderr)
        if not IS_SEEK:
            print("malformed line 1")
        return 3
    calls = re.search("^# calls: (.*)$", text, re.M)
    if calls:
        with open(calls[1], "a", encoding="utf-8") as out:
            out.write(" ".join([*(["seek"] if IS_SEEK else []), *words]) + "\n")
    aloud = re.search("^# says: (.*)$", text, re.M)
    if aloud:
        print(f"{NAME}: {aloud[1]}", file=sys.stderr)
    pause = re.search("^# sleep ([0-9.]+)$", text, re.M)
    if pause:
        print("half of an answ", end="", flush=True)
        time.sleep(float(pause[1]))
    status, answer = answer_of(words, text)
    if status == "99":
        os.kill(os.getpid(), signal.SIGKILL)
    if answer:
        print(answer.replace(" / ", "\n"))
    return int(status)


if __name__ == "__main__":
    sys.exit(main())
