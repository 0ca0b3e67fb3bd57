"""The built programs knot and seek: where they are, and how they are called."""
import os
import re
import shutil
import subprocess
import tempfile
import threading
import time
from contextlib import contextmanager, suppress
from typing import IO, Callable, Dict, Iterator, List, NamedTuple, Optional, Sequence, Set, Tuple

from .faults import Failed, Fault, Malformed, NoJob, NoProgram, OverLimit, Rejected, TimedOut

NAMES = ("knot", "seek")

# The folder of this module, in a tree python/knot_workbench, and installed below PREFIX/lib.
HERE = os.path.dirname(os.path.realpath(__file__))

# The default cocycles, from the folder of a tree or of what is shared by an installation: a file of quandles with cocycles.
COCYCLES = os.path.join("quandles", "weights", "list.txt")

_given: Dict[str, str] = {}

# Why a call was ended from here: all were stopped, it took too long, or it wrote too much.
STOPPED, SECONDS, BYTES = "stopped", "seconds", "bytes"

# The status of a program that is killed.
KILLED = -9

# How often a call with a limit is looked at, in seconds.
LOOK = 0.05


class Ran(NamedTuple):
    """How a call ended: its status, what it wrote on standard output and on standard error, and the seconds that it took. Of one that was ended
    from here, or that wasn't begun any more, the status is that of a program that is killed, and `cut` has the reason."""

    status: int
    body: bytes = b""
    said: bytes = b""
    seconds: float = 0.0
    cut: str = ""

    @property
    def text(self) -> str:
        """Standard output as a text."""
        return self.body.decode("utf-8", "replace")

    @property
    def told(self) -> str:
        """Standard error as a text."""
        return self.said.decode("utf-8", "replace")


def do_nothing() -> None:
    """What is done after an end where nothing else is due."""


class Caller:
    """Calls programs. What runs is ended where an exception, as that of a signal, leaves its call, and where all is stopped."""

    def __init__(self) -> None:
        # What handles a signal may stop a caller at which the same thread is at work.
        self._lock = threading.RLock()
        self._running: "Set[subprocess.Popen[bytes]]" = set()
        self._is_stopped = self._is_beginning = False
        self._then: Callable[[], None] = do_nothing

    def run(self, call: Sequence[str], given: bytes, *, seconds: Optional[float] = None, most: Optional[int] = None, is_shown: bool = False) -> Ran:
        """Runs a program, by its path and its words, with these bytes as its input: for so many seconds, and until it has written more than `most`
        bytes. What it says on standard error is kept, or passed on where `is_shown`. Raises OSError where it can't be begun.

        Input and output are files without a name, of which a signal leaves nothing."""
        try:
            with stream_file() as source, stream_file() as sink, stream_file() as errors:
                source.write(given)
                source.seek(0)
                began = time.monotonic()
                status, cut = self._ended(call, (source, sink, None if is_shown else errors), seconds, most)
                took = time.monotonic() - began
                return Ran(KILLED, seconds=took, cut=cut) if cut else Ran(status, content_of(sink), content_of(errors), took)
        except OSError as error:
            error.filename = error.filename or call[0]
            raise

    def _ended(self, call: Sequence[str], streams: "Tuple[Optional[IO[bytes]], ...]", seconds: Optional[float],
               most: Optional[int]) -> Tuple[int, str]:
        """The status of a call with these streams, and why it was ended from here, or nothing."""
        with self._lock:
            if self._is_stopped:
                return KILLED, STOPPED
            process = self._begun(call, streams)
        try:
            with limited(process, streams[1:], seconds, most) as cut:
                status = process.wait()
        except BaseException:
            process.kill()
            process.wait()
            raise
        finally:
            with self._lock:
                self._running.discard(process)
        return status, STOPPED if self._is_stopped else BYTES if is_over(streams[1:], most) else "".join(cut)

    def _begun(self, call: Sequence[str], streams: "Tuple[Optional[IO[bytes]], ...]") -> "subprocess.Popen[bytes]":
        """A process that is known from now on. If this thread handles a signal while it begins, `stop` is made up for."""
        self._is_beginning = True
        try:
            process = subprocess.Popen(call, stdin=streams[0], stdout=streams[1], stderr=streams[2])
            self._running.add(process)
        finally:
            self._is_beginning = False
            if self._is_stopped:
                self.stop(self._then)
        return process

    def stop(self, then: Callable[[], None] = do_nothing) -> None:
        """Ends what runs; later calls begin nothing. `then` is called at the end; both wait for a process that just begins."""
        with self._lock:
            self._is_stopped, self._then = True, then
            if self._is_beginning:
                return
            for process in self._running:
                # It may have ended just now.
                with suppress(ProcessLookupError):
                    process.kill()
        then()


@contextmanager
def limited(process: "subprocess.Popen[bytes]", streams: "Sequence[Optional[IO[bytes]]]", seconds: Optional[float],
            most: Optional[int]) -> Iterator[List[str]]:
    """Ends a process meanwhile where it takes too long or writes too much: a list that gets the reason."""
    found: List[str] = []
    if seconds is None and most is None:
        yield found
        return
    has_ended, end = threading.Event(), None if seconds is None else time.monotonic() + seconds

    def watch() -> None:
        while not has_ended.wait(LOOK if end is None else min(LOOK, max(0.0, end - time.monotonic()))):
            if is_over(streams, most) or end is not None and time.monotonic() >= end:
                found.append(BYTES if is_over(streams, most) else SECONDS)
                process.kill()
                return

    watcher = threading.Thread(target=watch, daemon=True)
    watcher.start()
    try:
        yield found
    finally:
        has_ended.set()
        watcher.join()


def is_over(streams: "Sequence[Optional[IO[bytes]]]", most: Optional[int]) -> bool:
    """Whether one of these files has more than so many bytes."""
    return most is not None and any(stream is not None and os.fstat(stream.fileno()).st_size > most for stream in streams)


def stream_file() -> "IO[bytes]":
    """A file without a name: in memory, where the system has such files."""
    if hasattr(os, "memfd_create"):
        return os.fdopen(os.memfd_create("stream"), "w+b")
    return tempfile.TemporaryFile()


def content_of(file: "IO[bytes]") -> bytes:
    """All bytes of an open file."""
    file.seek(0)
    return file.read()


# What makes the calls of the module.
CALLER = Caller()


def use(knot: Optional[str] = None, seek: Optional[str] = None) -> None:
    """Names the programs that are called from now on, each by its path or by its name on PATH; None leaves one as it is."""
    for name, path in (("knot", knot), ("seek", seek)):
        if path is not None:
            if not isinstance(path, (str, os.PathLike)):
                raise NoProgram(f"{path!r:.40} is no path of a program")
            _given[name] = os.fspath(path)


def candidates(name: str) -> List[str]:
    """Where a program may be, first the place that counts most: what `use` named; the variable KNOT or SEEK; the tree that this module is in,
    or the folder bin of the prefix that it is installed in; and PATH."""
    if name in _given:
        return [_given[name]]
    if os.environ.get(name.upper()):
        return [os.environ[name.upper()]]
    found = [os.path.join(os.path.dirname(os.path.dirname(HERE)), "crates", name, "out", name)]
    above = HERE
    while os.path.dirname(above) != above:
        above, folder = os.path.split(above)
        if folder == "lib":
            found.append(os.path.join(above, "bin", name))
    return [*found, name]


def path_of(name: str) -> str:
    """The path of a built program. Raises NoProgram where there is none."""
    places = candidates(name)
    for place in places:
        found = shutil.which(place)
        if found:
            return os.path.abspath(found)
    if len(places) == 1:
        raise NoProgram(f"{places[0]}: no program of this name")
    raise NoProgram(f"there is no built program {name}: build it with tools/build.py, or name it by the variable {name.upper()}")


def default_cocycles(program: str, words: Sequence[str] = ()) -> Optional[str]:
    """The default cocycles of a seek, which is given by its path or its name on PATH: the file of the tree whose launcher it is or in which it
    was built, or of the prefix in which it is installed. None for a program that belongs to no tree and no installation, and if one of these
    words is --weights or --no-weights."""
    if any(word.partition("=")[0] in ("--weights", "--no-weights") for word in words):
        return None
    found = shutil.which(program) or program
    places = [*homes_of_seek(os.path.abspath(found)), *homes_of_seek(os.path.realpath(found))]
    return next((path for path in (os.path.join(place, COCYCLES) for place in places) if os.path.isfile(path)), None)


def homes_of_seek(path: str) -> List[str]:
    """The tree to which a seek belongs by this path, or the folder of what its installation shares; none for another program."""
    folder, name = os.path.split(path)
    above = os.path.dirname(folder)
    tree = os.path.dirname(os.path.dirname(above)) if folder.endswith(os.path.join("crates", "seek", "out")) else folder
    marks = {tree: os.path.join(tree, "crates.txt"), os.path.join(above, "share", "knot-workbench"): os.path.join(above, "lib", "knot-workbench", "seek")}
    return [place for place, mark in marks.items() if name == "seek" and os.path.isfile(mark)]


def run_program(name: str, words: Sequence[str], text: str, timeout: Optional[float] = None) -> Ran:
    """Runs a program on a text, and waits so many seconds at most. Raises NoProgram, TimedOut."""
    path = path_of(name)
    if timeout is not None and not isinstance(timeout, (int, float)):
        raise NoJob(f"timeout takes a number of seconds, and {timeout!r:.30} is none")
    try:
        ran = CALLER.run([path, *words], text.encode(), seconds=timeout)
    except OSError as error:
        raise NoProgram(f"{path}: {error.strerror}") from None
    if ran.cut == SECONDS:
        raise TimedOut(f"{name} {' '.join(words)}: ended after {timeout:g} seconds")
    return ran


def end_calls(then: Callable[[], None] = do_nothing) -> None:
    """Ends the programs that run for other threads, and lets no other one begin. Their calls raise Failed. `then` is called at the end."""
    CALLER.stop(then)


def answered(name: str, words: Sequence[str], text: str, also: Sequence[int] = (), timeout: Optional[float] = None) -> Ran:
    """A call that ends with status 0 or one of those in `also`. Raises a named error for each other status."""
    ran = run_program(name, words, text, timeout)
    if ran.status == 0 or ran.status in also:
        return ran
    raise fault_of(name, words, ran)


def fault_of(name: str, words: Sequence[str], ran: Ran) -> Fault:
    """The named error of a call that gave no answer."""
    said = ran.text.strip()
    told = ran.told.strip().splitlines()
    reason = re.sub(rf"^{name}: ", "", told[-1]) if told else said
    if ran.status == 2:
        return NoJob(f"{name} doesn't take the words '{' '.join(words)}'" + (f": {reason}" if told else ""))
    if ran.status == 3:
        line = re.search(r"line (\d+)", said) or re.search(r"line (\d+)", reason)
        return Malformed(reason or "the text can't be read", int(line[1]) if line else None)
    if ran.status == 4:
        line = re.search(r"line \d+", reason)
        return OverLimit(reason or "a limit is exceeded", re.sub("^limit ", "", said) or (line[0] if line else ""))
    if ran.status == 8:
        return Rejected(re.sub("^rejected ", "", said))
    why = {5: "reading failed", 6: "writing failed", 7: "memory ran out", 10: "it got no words that can be read", 127: "it could not be built"}
    ended = f"ended by signal {-ran.status}" if ran.status < 0 else f"ended with status {ran.status}, {why.get(ran.status, 'which is none of its own')}"
    return Failed(f"{name} {' '.join(words)}: {ended}" + (f": {reason}" if reason else ""), ran.status)
