"""Stores: files to which a line is added for each answer, so that an interrupt loses nothing. Several processes may add to one at once.

The first line says what was asked, and a file of another question is refused. A line that was cut, as by a kill or on a full disk, is passed over:
what it answered is asked again. So is one that was damaged where lines have a sum, as those of `LineForm` have.
"""
import os
import zlib

from knot_workbench.faults import Fault


class StoreError(Fault):
    """A file is no store, or one of another question."""


class LineForm:
    """The form of a store: after the `head` each line has a key, the fields of an answer and a sum of these, parted by tabs. `other` is said of a
    file that has another head, and `hint` what to do."""

    def __init__(self, head, other, hint="name another one"):
        self.head, self.other, self.hint = f"{head}\n", other, hint

    def line(self, key, *fields):
        """The line of an answer."""
        said = "\t".join((key, *fields))
        return f"{said}\t{sum_of(said)}\n"

    def answers(self, text):
        """The answers of a text by their keys, the last of each; None if it has another head."""
        if not text.startswith(self.head):
            return None
        lines = (line.rpartition("\t") for line in text[len(self.head):].split("\n"))
        whole = (said.split("\t") for said, _, last in lines if said and last == sum_of(said))
        return {key: fields for key, *fields in whole}


def sum_of(said):
    """The sum at the end of a line."""
    return f"{zlib.crc32(said.encode()):08x}"


def read_store(path, form):
    """The answers in a file by their keys, and the bytes that have to come before others are added. StoreError if it is of another question."""
    if os.path.exists(path) and not os.path.isfile(path):
        raise StoreError(f"{path}: not a regular file: {form.hint}")
    try:
        with open(path, "rb") as file:
            data = file.read()
    except FileNotFoundError:
        data = b""
    head = form.head.encode()
    if head.startswith(data):
        return {}, head[len(data):]
    found = form.answers(data.decode("utf-8", "replace"))
    if found is None:
        raise StoreError(f"{path}: {form.other}: {form.hint}")
    return found, b"" if data.endswith(b"\n") else b"\n"


def answers_in(path, form):
    """The answers in a file by their keys, none if there is no file. StoreError if it is of another question."""
    return read_store(path, form)[0]


class Store:
    """A file with the `answers` in it by their keys. `put` adds one."""

    def __init__(self, path, form):
        self.path, self.form = path, form
        self.answers, due = read_store(path, form)
        self.file = open(path, "ab", buffering=0)
        if due:
            self.write(due)
            # Another process may just have begun it, for another question.
            self.answers = answers_in(path, form)

    def __enter__(self):
        return self

    def __exit__(self, *_):
        self.close()

    def put(self, key, *fields):
        """Adds an answer: its fields as texts. OSError if it can't be written, with the path."""
        answer = self.answers[key] = [str(field) for field in fields]
        self.write(self.form.line(key, *answer).encode())
        return answer

    def write(self, data):
        """Writes at the end of the file, at once where the system can, so that what others write isn't in between."""
        try:
            while data:
                data = data[self.file.write(data):]
        except OSError as error:
            raise OSError(error.errno, error.strerror, self.path) from None

    def close(self):
        """Ends the writing."""
        try:
            os.fsync(self.file.fileno())
        finally:
            self.file.close()
