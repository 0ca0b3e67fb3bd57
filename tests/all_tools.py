#!/usr/bin/env python3
"""Runs the tests of the scripts, of the module and of the launchers: a file of tests a process, several at once, each with a limit of time.

    tests/all_tools.py                      all of them
    tests/all_tools.py test_batch test_ways some, by the names of their files
    tests/all_tools.py --processes 2 --seconds 600

The variables KNOT and SEEK name built programs; without them those of this tree are taken, if they are built. Standard output has a line for
each file as it ends, with its seconds by the clock and of the processor, with what it passed over and why, and with all that it wrote where it
failed; the last lines name each test that failed. No test gets an input or a terminal. A signal that ends the script ends all that it began.
Since tests of signals and of time depend on how busy the machine is, a file that failed is run once more, when all others have ended; what then
passes counts as passed. The exit status is 0 where all passed, and else 1.
"""
import argparse
import concurrent.futures
import os
import re
import signal
import subprocess
import sys
import tempfile
import threading
import time

HERE = os.path.dirname(os.path.realpath(__file__))
FOLDERS = ("tools", "make", "upkeep", "python", "launcher")

# Those that take longest begin first.
SLOW = ("test_tabulate", "test_census", "test_ways", "test_census_answers", "test_table_certificate", "test_batch", "test_batch_examples", "test_batch_faults",
        "test_quandles", "test_from_table", "test_launcher")

FAILED = re.compile(r"^(?:FAIL|ERROR): (.*)$", re.M)
SKIPPED = re.compile(r"\.\.\. skipped (['\"])(.*)\1$", re.M)


def modules(names):
    """The files of tests, of all folders or those of some names, each with its folder."""
    found = [(folder, name[:-len(".py")]) for folder in FOLDERS for name in sorted(os.listdir(os.path.join(HERE, folder)))
             if name.startswith("test_") and name.endswith(".py")]
    unknown = set(names) - {name for _, name in found}
    if unknown:
        sys.exit(f"all_tools.py: no file of tests is called {', '.join(sorted(unknown))}")
    wanted = [(folder, name) for folder, name in found if not names or name in names]
    return sorted(wanted, key=lambda one: SLOW.index(one[1]) if one[1] in SLOW else len(SLOW))


# The processes that run, each the first of a group of its own.
RUNNING = set()


def stop(number, _):
    """Ends all that runs, and this script with it: the threads that wait would go on else."""
    for process in list(RUNNING):
        try:
            os.killpg(process.pid, signal.SIGKILL)
        except ProcessLookupError:
            pass
    os._exit(128 + number)


def default_signals():
    """Undoes what nohup or a shell's `&` has set: tests send these signals."""
    for number in (signal.SIGINT, signal.SIGTERM, signal.SIGHUP):
        signal.signal(number, signal.SIG_DFL)


def wait_for(process, seconds):
    """Waits for a process, and kills it with its group after so many seconds: whether it was killed, and the seconds of the processor that it took,
    with what it has waited for."""
    killed = threading.Event()

    def kill():
        killed.set()
        try:
            os.killpg(process.pid, signal.SIGKILL)
        except ProcessLookupError:
            pass

    timer = threading.Timer(seconds, kill)
    timer.daemon = True
    timer.start()
    _, status, used = os.wait4(process.pid, 0)
    timer.cancel()
    process.returncode = -os.WTERMSIG(status) if os.WIFSIGNALED(status) else os.WEXITSTATUS(status)
    return killed.is_set(), used.ru_utime + used.ru_stime


def run(folder, name, seconds):
    """Runs a file of tests: its lines, what it wrote, the tests that failed, which are none where it passed, and how many were run and passed over."""
    began = time.monotonic()
    call = [sys.executable, "-B", "-m", "unittest", "discover", "-v", "-s", os.path.join(HERE, folder), "-p", name + ".py"]
    # A file and no pipe, which what a test has left behind could keep open.
    with tempfile.TemporaryFile() as said:
        process = subprocess.Popen(call, stdin=subprocess.DEVNULL, stdout=said, stderr=subprocess.STDOUT, start_new_session=True,
                                   cwd=os.path.dirname(HERE), preexec_fn=default_signals)
        RUNNING.add(process)
        is_killed, used = wait_for(process, seconds)
        end = f"FAILED: it took more than {seconds} seconds" if is_killed else "ok" if process.returncode == 0 else f"FAILED with status {process.returncode}"
        RUNNING.discard(process)
        said.seek(0)
        told = said.read().decode("utf-8", "replace")
    count = re.search("^Ran ([0-9]+) tests?", told, re.M)
    if end == "ok" and not (count and int(count[1])):
        end = "FAILED: no test was run"
    line = f"{folder}/{name}: {end}, {count[1] if count else 0} tests in {time.monotonic() - began:.0f} s ({used:.0f} of the processor)"
    reasons = [match[2] for match in SKIPPED.finditer(told)]
    lines = [line, *(f"    {reasons.count(reason)} passed over: {reason}" for reason in dict.fromkeys(reasons))]
    failed = list(dict.fromkeys(FAILED.findall(told)))
    return lines, told, [] if end == "ok" else failed or [f"{folder}/{name}: {end}"], (int(count[1]) if count else 0, len(reasons))


def main():
    parser = argparse.ArgumentParser(description=__doc__, formatter_class=argparse.RawDescriptionHelpFormatter)
    parser.add_argument("names", metavar="FILE", nargs="*", help="a file of tests by its name, as test_batch")
    parser.add_argument("--processes", type=int, default=os.cpu_count() or 1, help="how many at once (default: as many as there are processors)")
    parser.add_argument("--seconds", type=int, default=1800, help="how long each may take (default: 1800)")
    options = parser.parse_args()
    for number in (signal.SIGINT, signal.SIGTERM, signal.SIGHUP):
        signal.signal(number, stop)
    again, all_failed, began, counts = [], [], time.monotonic(), []
    with concurrent.futures.ThreadPoolExecutor(options.processes) as pool:
        futures = {pool.submit(run, folder, name, options.seconds): (folder, name) for folder, name in modules(options.names)}
        for future in concurrent.futures.as_completed(futures):
            lines, told, failed, count = future.result()
            print("\n".join([told, *lines] if failed else lines), flush=True)
            counts.append(count)
            if failed:
                again.append(futures[future])
    for folder, name in again:
        print(f"{folder}/{name} is run once more, alone:", flush=True)
        lines, told, failed, _ = run(folder, name, options.seconds)
        print("\n".join([told, *lines] if failed else lines), flush=True)
        all_failed += failed
    tests, passed_over = map(sum, zip(*counts))
    print(f"all files of tests: {'FAILED' if all_failed else 'ok'}, {tests} tests, {passed_over} passed over, in {time.monotonic() - began:.0f} s")
    for name in all_failed:
        print(f"    failed: {name}")
    return 1 if all_failed else 0


if __name__ == "__main__":
    sys.exit(main())
