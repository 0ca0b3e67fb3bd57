"""Each knot, joined to its mirror image, its reverse and the reverse of its mirror image, or distinguished from them."""
import collections
import os

from knot_workbench import Certificate, seek
from knot_workbench.diagrams import diagram_text
from knot_workbench.identifying import ROUNDS, sought
from knot_workbench.tables.knots import MIRRORED, SYMMETRIES, KnotTable, beside, records, text_digest, text_in
from knot_workbench.tables.numbers import blocks_of, opposite
from lib.calls import calls
from lib.calls.store import Store
from lib.calls.whole_files import write_whole
from lib.knot_table.work import columns_text, keep_certificate
from lib.tables.further import BOOK, labels_of, rows_by

# So many knots are tried before what is known of symmetries is put down.
KNOTS_A_WRITE = 50

SYMMETRY_COLUMNS = MIRROR, REVERSE, MIRROR_REVERSE = tuple(column for column, _ in SYMMETRIES)

# The turns that are tried first: most knots are distinguished from their mirror images by rows, and most others are their own reverses.
TRIED = (SYMMETRIES[1], SYMMETRIES[0], SYMMETRIES[2])

# What may show a symmetry: its name in the store, and what it finds of two grids, a certificate that the checker accepted or None.
Effort = collections.namedtuple("Effort", "mark find")


def find_symmetries(path, asked, work):
    """Joins each knot to itself after each turn, or distinguishes it; what two turns show of the third is taken as shown."""
    found = Symmetries(path, asked)
    found.by_rows(labels_of(found.known.listed), {name: (found.known.row(name), found.known.row(name, MIRRORED)) for name in found.rows}, asked.list)
    mirrors = (MIRROR, MIRROR_REVERSE)
    for file, columns in [*((file, mirrors) for file in asked.mirrors), *((file, SYMMETRY_COLUMNS) for file in asked.further)]:
        listed = text_in(file)
        found.by_rows(labels_of(listed, file), rows_by(found.known, found.open_names(columns), listed, work.each, found.store), file)
    for seed, steps in rounds_to(asked.rounds):
        effort = Effort(f"{seed} {steps}", lambda *grids: certificate_of_walk(*grids, seed, steps))
        found.try_all(f"walks of {steps} steps", effort, asked.walk or SYMMETRY_COLUMNS, work)
    found.put()
    for row in found.rows.values():
        if row != found.old.get(row["name"]):
            work.differs(f"{found.target}: {row['name']}: {', '.join(f'{column} {row[column]}' for column, _ in SYMMETRIES)}")
    for kind, count in sorted(collections.Counter(map(symmetry_in_words, found.rows.values())).items()):
        calls.note(f"{path}: {kind}: {count}")


def rounds_to(count):
    """The first rounds of walks, each a seed and steps: those of identify.py, and after them as many steps as in the last, with other seeds."""
    return [ROUNDS[place] if place < len(ROUNDS) else (place + 1, ROUNDS[-1][1]) for place in range(count)]


def certificate_of_walk(first, second, seed, steps):
    """What a walk finds of two grids: a certificate that the checker accepted, or None."""
    verdict = sought(first, second, seed, steps)
    if verdict is None:
        return None
    found = Certificate(first, second, verdict)
    found.check()
    return found


class Symmetries:
    """What is known of the symmetries of a table's knots: `rows` have it by names, and `old` what is in the file."""

    def __init__(self, path, asked):
        self.asked, self.target = asked, beside(path, ".symmetry.csv")
        self.known = KnotTable(path, asked.list, is_partial=True)
        self.columns = ["name", *(column for column, _ in SYMMETRIES)]
        self.old = {row["name"]: row for _, row in records(self.target, text_in(self.target), self.columns)} if os.path.exists(self.target) else {}
        kept = {} if asked.all else self.old
        self.rows = {name: {**dict.fromkeys(self.columns, "open"), "name": name, **kept.get(name, {})} for name in self.known.knots}
        self.store = Store(asked.book, BOOK) if asked.book else None

    def open_names(self, columns=SYMMETRY_COLUMNS):
        """The knots of which some symmetry of these isn't known."""
        return [name for name, row in self.rows.items() if any(row[column] == "open" for column in columns)]

    def take(self, row, column, said):
        """Takes what is known of one symmetry into a row, and what follows for the others."""
        row[column] = said
        for other, _ in SYMMETRIES:
            if row[other] == "open":
                row[other] = symmetry_by(row, other) or "open"

    def by_rows(self, labels, rows, file):
        """Takes what the rows of knots and of their mirror images show by a list."""
        blocks = blocks_of(text_in(file))
        for name in set(rows).intersection(self.open_names()):
            row, mirrored = rows[name]
            turned = {"mirror": mirrored, "reverse": opposite(mirrored, blocks), "mirror_reverse": opposite(row, blocks)}
            for column, turn in TRIED:
                label = self.rows[name][column] == "open" and differing_block(labels, row, turned[column])
                if label and self.is_kept(name, column, turn, file):
                    self.take(self.rows[name], column, f"different by {label}")

    def is_kept(self, name, column, turn, file):
        """Whether the certificate of a difference is kept, where certificates are asked for."""
        if not self.asked.certificates:
            return True
        grid = self.known.knots[name].grid
        found = seek(grid, turn.of(grid), weights=[file], steps=0)
        if found is not None:
            found.check()
            keep_certificate(self.asked, f"{name}-{column}", found)
        return found is not None

    def place(self, name, column, effort):
        """The name of an effort in the store."""
        return f"{text_digest(diagram_text(self.known.knots[name].grid))} {column} {effort.mark}"

    def try_all(self, said, effort, columns, work):
        """Takes what an effort shows of all symmetries in these columns that are open, and notes it in the store."""
        due = self.open_names(columns)
        calls.note(f"{self.target}: {said} for {len(due)} knots")
        for place, (name, shown) in enumerate(zip(due, work.each(lambda name: self.shown(name, effort, columns), due)), 1):
            for column, text in shown.items():
                self.take(self.rows[name], column, text)
                if self.store and [text] != self.store.answers.get(self.place(name, column, effort)):
                    self.store.put(self.place(name, column, effort), text)
            if place % KNOTS_A_WRITE == 0:
                self.put()

    def shown(self, name, effort, columns):
        """What an effort shows of the open symmetries of a knot, by columns, `open` where nothing; certificates are kept where they are asked for."""
        row, grid, found = dict(self.rows[name]), self.known.knots[name].grid, {}
        for column, turn in TRIED:
            if row[column] == "open" and column in columns:
                before = self.store.answers.get(self.place(name, column, effort)) if self.store else None
                if before is None or (self.asked.certificates and before != ["open"]):
                    certificate = effort.find(grid, turn.of(grid))
                    keep_certificate(self.asked, f"{name}-{column}", certificate)
                    before = [symmetry_text(certificate)]
                found[column] = before[0]
                self.take(row, column, before[0])
        return found

    def put(self):
        """Puts what is known into the file, where that is asked for."""
        if self.asked.write:
            write_whole(self.target, columns_text(self.columns, self.rows.values()).encode())


def symmetry_text(found):
    """What is in a table of a certificate: `equal`, `different` and by what, or `open`."""
    if found is None:
        return "open"
    if found.is_equal:
        return "equal"
    by = found.verdict.quandle.name
    cocycle = getattr(found.verdict, "cocycle", None)
    return f"different by {by}" + (f" with a cocycle mod {cocycle.modulus}" if cocycle else "")


def differing_block(labels, one, other):
    """By which block of a list two rows differ, or None."""
    return next((label for label, first, second in zip(labels, one, other) if first is not None and second is not None and first != second), None)


def symmetry_in_words(row):
    """What a knot is joined to, by its row."""
    joined = [words for column, words in (("mirror", "mirror images"), ("reverse", "reverses"), ("mirror_reverse", "reversed mirror images"))
              if row[column] == "equal"]
    if len(joined) == 3:
        return "their own mirror images and reverses"
    if "open" in row.values():
        return "open" + (f", but their own {joined[0]}" if joined else "")
    return f"their own {joined[0]} alone" if joined else "distinguished from all three"


def symmetry_by(row, column):
    """What two symmetries show of the third: of two that are equal, it is too; of one that is equal and one that is different, it is different."""
    others = [row.get(other, "open") for other, _ in SYMMETRIES if other != column]
    if sorted(other.partition(" ")[0] for other in others) == ["different", "equal"]:
        return next(other for other in others if other != "equal")
    return "equal" if others == ["equal", "equal"] else None
