"""How the programs of tools/ are called: what they read and write, and each fault reported in one line with a status.

A program ends with 1 and a line `NAME.py: ...` on standard error where its input is at fault, or where a file or a standard stream can't be
read or written, is full or is closed; with 130 where it is interrupted; and without a line, with 141, where nobody reads its output any more.
Where the call answers a status of its own, as that of batch.py does, `ended` sees to the streams alone.
"""
import argparse
import io
import os
import sys
from contextlib import contextmanager

from knot_workbench.faults import Fault, not_utf8

STATUS, INTERRUPTED, UNREAD = 1, 130, 141

__all__ = ("Closed", "Fault", "StreamError", "WordsParser", "end", "ended", "input_bytes", "naming", "note", "put", "reason_of", "run", "say", "input_text")


class StreamError(Fault):
    """A standard stream can't be used."""


class Closed:
    """Stands in place of a standard stream that was closed before the program began."""

    def __init__(self, name):
        self.name = name

    def fault(self, *_):
        raise StreamError(f"{self.name} is closed")

    read = write = fault

    @property
    def buffer(self):
        """Its bytes, which there are none of."""
        return self

    def flush(self):
        """Nothing waits to be written."""


def guard_streams():
    """Sees to it that no file gets the number of a standard stream that is closed, and that the stream says so where it is used.

    `sys.stderr` stays None: there is no place to say it.
    """
    for number in range(3):
        try:
            os.fstat(number)
        except OSError:
            os.open(os.devnull, os.O_RDWR)
    for stream in (sys.stdout, sys.stderr):
        if stream is not None:
            stream.reconfigure(errors="backslashreplace")
    sys.stdin = sys.stdin or Closed("standard input")
    sys.stdout = sys.stdout or Closed("standard output")


def drop_output():
    """Sends what standard output still holds to the null device: at the end Python would try once more to write it, and complain."""
    if not isinstance(sys.stdout, Closed):
        null = os.open(os.devnull, os.O_WRONLY)
        os.dup2(null, sys.stdout.fileno())
        os.close(null)


def input_text(path=None):
    """The text of a file, or of standard input where there is none."""
    name = path or "standard input"
    try:
        if not path:
            # Python's own decoding of it takes any bytes where the locale is that of C.
            return io.TextIOWrapper(io.BytesIO(sys.stdin.buffer.read()), encoding="utf-8").read()
        with open(path, encoding="utf-8") as source:
            return source.read()
    except UnicodeDecodeError as fault:
        raise Fault(f"{name}: {not_utf8(fault)}") from None
    except OSError as fault:
        raise Fault(f"{name}: {fault.strerror}") from None


def input_bytes():
    """All bytes of standard input. A StreamError where it is closed or can't be read."""
    try:
        return sys.stdin.buffer.read()
    except OSError as error:
        raise StreamError(f"standard input: {error.strerror}") from None


@contextmanager
def naming(path):
    """Puts the file's name before what is wrong with its text; nothing before that of standard input."""
    try:
        yield
    except Fault as fault:
        raise fault if not path or str(fault).startswith(f"{path}: ") else Fault(f"{path}: {fault}") from None


def put(path, text):
    """Writes a text to a file, or to standard output where there is none."""
    if not path:
        sys.stdout.write(text)
        return
    try:
        with open(path, "w", encoding="utf-8") as out:
            out.write(text)
    except OSError as fault:
        raise Fault(f"{path}: {fault.strerror}") from None


def say(text):
    """Writes a line to standard output at once. A StreamError where it is closed or can't be written."""
    try:
        print(text, flush=True)
    except OSError as error:
        drop_output()
        raise StreamError(f"standard output: {error.strerror}") from None


def note(said):
    """Says a line on standard error at once, where that can be done: to print to none would put it among the output."""
    try:
        if sys.stderr is not None:
            print(said, file=sys.stderr, flush=True)
    except OSError:
        # There is no other place to say it.
        pass


def reason_of(error):
    """What an error of the system says, with the name of its file where it has one."""
    return f"{error.filename}: {error.strerror}" if error.filename is not None else str(error.strerror or error)


class WordsParser(argparse.ArgumentParser):
    """A parser of a script's words that fails where its help can't be written; argparse's own passes over it."""

    def print_help(self, file=None):
        """Writes the help to standard output. A StreamError where it can't."""
        say(self.format_help().rstrip("\n"))


def end(name, said, status=STATUS):
    """Ends the program with a line. What standard output still holds is let go."""
    drop_output()
    if said:
        note(f"{name}: {said}")
    raise SystemExit(status)


def run(name, main, failed=STATUS):
    """Calls the program's `main`, which may end by SystemExit; `failed` is the status where the input, a file or a stream is at fault."""
    guard_streams()
    try:
        try:
            main()
        finally:
            # A call of --help ends by SystemExit, and its text waits to be written as the rest.
            sys.stdout.flush()
    except Fault as fault:
        end(name, str(fault), failed)
    except BrokenPipeError:
        end(name, None, UNREAD)
    except OSError as fault:
        end(name, f"{fault.filename or 'standard output'}: {fault.strerror}", failed)
    except KeyboardInterrupt:
        end(name, "interrupted", INTERRUPTED)


def ended(script, main, words, failed):
    """The exit status of a call of main with these words; `failed` where standard output can't take what it wrote."""
    guard_streams()
    try:
        try:
            return main(words)
        except SystemExit as end_of_words:
            # argparse ends so, after the help or a complaint.
            status = end_of_words.code
        try:
            sys.stdout.flush()
        except OSError as error:
            drop_output()
            raise StreamError(f"standard output: {error.strerror}") from None
        return status
    except StreamError as error:
        note(f"{script}: {error}")
        return failed
