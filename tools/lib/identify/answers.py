"""The rows that identify.py writes, and those that an earlier call left."""
import collections
import csv
import io
import os

from lib.calls.store import answers_in

# A row of what is written.
AnswerRow = collections.namedtuple("AnswerRow", "name answer expected ruling certificate said sha256")

# Answers without a certificate.
WITHOUT_CERTIFICATE = ("none of the table", "open", "refused", "failed")


class AnswerTable:
    """The form of what is written, as a Store takes it: a table of some columns, of which the last says all that decides an answer."""

    def __init__(self, columns):
        self.columns = columns
        self.other, self.hint = f"the file has other columns than {', '.join(columns)}", "name another by --out"
        self.head = self.text([AnswerRow(*AnswerRow._fields)])

    def text(self, rows):
        """The lines of these rows."""
        out = io.StringIO(newline="")
        csv.writer(out, lineterminator="\n").writerows([getattr(row, column) for column in self.columns] for row in rows)
        return out.getvalue()

    def line(self, _, *row):
        """The line of a row."""
        return self.text([AnswerRow(*row)])

    def answers(self, text):
        """The whole rows of a text, by what tells them from others; None if it has other columns. A last line that was cut is left out."""
        try:
            head, *lines = list(csv.reader(io.StringIO(text[:text.rfind("\n") + 1], newline=""))) or [None]
        except csv.Error:
            return None
        if head != self.columns:
            return None
        rows = (AnswerRow(**{**dict.fromkeys(AnswerRow._fields, ""), **dict(zip(head, line))}) for line in lines if len(line) == len(head))
        return {(row.name, row.certificate, row.sha256): row for row in rows}


def known_answers(run, givens, files):
    """The rows that are in --out already, by their places."""
    options, kept = run.options, collections.defaultdict(list)
    for row in answers_in(options.out, run.form).values() if options.out else ():
        if row.answer != "failed" and not (options.again and row.answer in ("open", "refused")):
            kept[row.name, row.sha256].append(row)
    found = {}
    for place, (given, file) in enumerate(zip(givens, files) if kept else ()):
        row = next((row for row in kept[given.name, run.digest_of(given)] if has_certificate(row, file, options)), None)
        if row:
            found[place] = row
    return found


def has_certificate(row, file, options):
    """Whether the certificate of a row that is in --out is there, where one is due: one that isn't there any more is made anew."""
    if not options.certificates or row.answer in WITHOUT_CERTIFICATE or row.answer.startswith("link of "):
        return True
    return row.certificate == file and os.path.isfile(os.path.join(options.certificates, file))


def answers_text(run, rows):
    """The table of these rows, with its header."""
    return run.form.head + run.form.text(rows)
