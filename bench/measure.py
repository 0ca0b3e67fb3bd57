"""What the benches measure of the built program: seconds, peak memory, what it wrote, instructions, and memory taken."""
import argparse
import os
import resource
import subprocess
import sys
import tempfile

CRATES = os.path.join(os.path.dirname(os.path.abspath(__file__)), "..", "crates")
PROGRAM = os.path.join(CRATES, "knot", "out", "knot")
# The line before a verdict.
HEAD = "certificate 2\n"
# A quandle that distinguishes nothing: with it alone `decide` is only a search.
NO_QUANDLE = "quandle trivial 1\n"

# A run as a small process of its own sees it: a child's peak memory counts what its parent held when it was started.
RUNNER = """
import os, subprocess, sys, time
with open(sys.argv[1], "rb") as source:
    start = time.perf_counter()
    child = subprocess.Popen(sys.argv[2:], stdin=source, stdout=subprocess.PIPE)
    written = child.stdout.read()
    _, _, usage = os.wait4(child.pid, 0)
    seconds = time.perf_counter() - start
    sys.stdout.buffer.write(f"{seconds} {usage.ru_maxrss * 1024}\\n".encode() + written)
"""


def built(program=PROGRAM, build="./knot check < examples/check/unknot-shifted.txt"):
    """Stops where there is no built program to measure."""
    if not os.access(program, os.X_OK):
        sys.exit(f"build the program first: {build}")


def processor_seconds():
    """Seconds of the processor that this script and the programs that it called have taken."""
    return sum(used.ru_utime + used.ru_stime for used in map(resource.getrusage, (resource.RUSAGE_SELF, resource.RUSAGE_CHILDREN)))


def write_input(path, text):
    """Writes the input of a run."""
    with open(path, "w", encoding="utf-8") as out:
        out.write(text)


def output_lines(request, path):
    """The lines that one run of the request on the file writes."""
    with open(path, "rb") as source:
        return subprocess.run([PROGRAM, request], stdin=source, stdout=subprocess.PIPE, check=True).stdout.decode().splitlines()


def best(words, path, turns=5):
    """Of some runs on the file: the least seconds, the peak memory in bytes (some 11 MB of it may be the runner's own), and what the first one wrote."""
    seconds, memory, texts = zip(*(timed(words, path) for _ in range(turns)))
    return min(seconds), max(memory), texts[0]


def timed(words, path):
    done = subprocess.run([sys.executable, "-S", "-E", "-c", RUNNER, path, *words], capture_output=True)
    head, _, written = done.stdout.partition(b"\n")
    seconds, memory = head.split()
    return float(seconds), int(memory), written.decode()


def instructions(request, path, *options):
    """The instructions of one run of the request with these options on the file, counted by callgrind."""
    with open(path, "rb") as source:
        return counted([PROGRAM, request, *options], source)


def counted(command, source=subprocess.DEVNULL):
    """The instructions of one run of a command, counted by callgrind."""
    with tempfile.NamedTemporaryFile() as out:
        done = subprocess.run(
            ["valgrind", "--tool=callgrind", f"--callgrind-out-file={out.name}", *command],
            stdin=source, capture_output=True, text=True)
    for line in done.stderr.splitlines():
        if "Collected" in line:
            return int(line.split()[-1].replace(",", ""))
    sys.exit("callgrind gave no count: " + done.stderr[-300:])


def taken(request, path, *options):
    """The most bytes that one run of the request with these options on the file holds at a time, counted by massif."""
    with tempfile.NamedTemporaryFile("r") as out, open(path, "rb") as source:
        done = subprocess.run(
            ["valgrind", "--tool=massif", "--peak-inaccuracy=0.0", f"--massif-out-file={out.name}", PROGRAM, request, *options],
            stdin=source, capture_output=True, text=True)
        counts = [int(line.split("=")[1]) for line in out if line.startswith("mem_heap_B=")]
    if not counts:
        sys.exit("massif gave no count: " + done.stderr[-300:])
    return max(counts)


def wants_no_words(about):
    """Tells what a script does, where it is asked."""
    argparse.ArgumentParser(description=about, formatter_class=argparse.RawDescriptionHelpFormatter).parse_args()


def wants_instructions(about):
    """Whether the words of the call ask for instructions."""
    words = argparse.ArgumentParser(description=about, formatter_class=argparse.RawDescriptionHelpFormatter)
    words.add_argument("--instructions", action="store_true")
    return words.parse_args().instructions
