"""What a census writes: its certificates, checked, and its tables."""
import collections
import hashlib
import os

from knot_workbench.certificates import DifferentLinking, Linked, third_text
from knot_workbench.moves import turned
from knot_workbench.tables.knots import BOTH, MIRRORED, REVERSED, SAME
from lib.batch.runs import write_named
from lib.calls.whole_files import write_whole
from lib.classes.certificate import Head, certificates, head_text, row_text
from lib.classes.standing import classes_of
from lib.classes.telling import Telling
from lib.classes.written import csv_text
from lib.sorting.lines import grid_in, moves_in
from lib.tables.blocks import block_label, block_of

RESULT_COLUMNS = ("name", "class", "as", "columns", "known", "certificate", "check", "row")
APART_COLUMNS = ("first", "second", "as", "by", "evidence", "check")
UNDECIDED_COLUMNS = ("first", "second", "as", "tried")

# What a diagram after a turn is called.
SAID = {SAME: "", MIRRORED: "mirror image", REVERSED: "reverse", BOTH: "reversed mirror image"}

# The most letters of a file's name without its ending; longer ones are cut.
MAX_NAME_LETTERS = 150

# Two classes of a census and the turn of the second by which they are compared; where both are in certificates.
ComparedClasses = collections.namedtuple("ComparedClasses", "one other turn first second")


def pair_name(names, turn):
    """The name of a file for two diagrams, the second after a turn. Where it is long, or could be that of others, a digest is after it."""
    name = "--".join(names) + turn.words.replace(" ", "~")
    is_plain = len(name) <= MAX_NAME_LETTERS and not any("~" in one or "--" in f"-{one}-" for one in names)
    return name if is_plain else f"{name[:MAX_NAME_LETTERS - 40]}~{hashlib.sha256(repr((names, turn.words)).encode()).hexdigest()[:32]}"


def digest_of(text):
    """The SHA-256 of a diagram's text."""
    return hashlib.sha256(text.encode("utf-8", "surrogateescape")).hexdigest()


class Results:
    """The classes of a census with the rulings on all evidence: `rows`, `apart` and `undecided` are those of the files of these names. `given`
    has the rows of the sorting by the names of the diagrams."""

    def __init__(self, folder, sorting, steps, given, labels):
        self.folder, self.sorting, self.steps, self.given, self.labels = folder, sorting, steps, given, labels
        self.rows, self.apart, self.undecided, self.rulings = [], [], [], {}
        for row in given.values():
            # So the first diagram of a class represents it.
            row.crossings = 0
        self.classes = classes_of(given, steps.joins, sorting.keys)
        self.telling = Telling(folder, sorting, given, self.classes, steps.joins)
        self.standings = self.telling.standings
        self.head = self.telling.head()

    # ---- pairs of classes

    def pairs(self, numbers=None):
        """The pairs of classes, or one of their numbers, with each turn of the second."""
        count = len(self.classes)
        for one, other in [numbers] if numbers else ((one, other) for one in range(count) for other in range(one + 1, count)):
            for turn in self.sorting.turns:
                yield ComparedClasses(one, other, turn, self.standings.place[one, SAME], self.standings.place[other, turn])

    def block_of(self, pair):
        """The place in certificates of the block that distinguishes a pair, or None."""
        return shown_block(self.telling.shown, pair.first, pair.second)

    def is_linked(self, pair):
        """Whether the numbers of components, or linking numbers, distinguish a pair."""
        one, other = (self.classes[number].key for number in (pair.one, pair.other))
        turn = self.standings.keys[pair.first][1].then(self.standings.keys[pair.second][1])
        return not self.steps.joins.numbers.may_be_linked(one, other, turn)

    def linked_text(self, pair):
        """The certificate that distinguishes a pair by linking numbers."""
        both = []
        for place in (pair.first, pair.second):
            key, turn = self.standings.keys[place]
            count, numbers = self.steps.joins.numbers.linked[key]
            both.append(Linked(count, tuple(sorted(-number for number in numbers)) if turn.is_mirrored else numbers))
        names = (f"# {word}: {self.telling.shown.classes[place].said}\n{self.telling.shown.classes[place].grid.text}"
                 for word, place in (("first", pair.first), ("second", pair.second)))
        return "".join(names) + third_text(DifferentLinking(*both))

    def vain(self, pair):
        """What was asked of a pair in vain, in words."""
        first, second = (self.steps.joins.numbers.row(*self.standings.keys[place]) for place in (pair.first, pair.second))
        both = [(one, other) for one, other in zip(first, second) if one is not None and other is not None]
        numbers = f"{len(both)} numbers alike" if all(one == other for one, other in both) else "numbers differ, and no evidence fits both diagrams"
        return "; ".join([numbers, *self.steps.vain(self.standings.tries(pair.first, pair.second))])

    # ---- all of them

    def write_certificates(self):
        """Writes the certificates, has them checked, and says of each diagram and each pair what they show."""
        found = self.telling.certified(self.head)
        self.rulings.update(self.telling.rulings)
        places = self.telling.places(found)
        for (name, row), (path, number) in zip(self.given.items(), places):
            one = self.classes[self.standings.places[self.standings.end(row.form)[0]].number]
            turn, is_first = self.standings.turn(row), name == one.first
            moves = len(self.standings.of_row(row)[1])
            self.rows.append((name, one.first, SAID[turn], len(grid_in(row.line).xs), "first" if is_first else f"equal {moves}",
                              "" if is_first else os.path.basename(path), "" if is_first else self.ruling(path), number))
        order = {one.first: number for number, one in enumerate(self.classes)}
        self.rows.sort(key=lambda row: order[row[1]])
        self.compare_pairs([path for path, _ in found])

    def ruling(self, path):
        """The ruling on a certificate in a word."""
        return "accepted" if self.rulings[path] else "not accepted"

    def compare_pairs(self, paths):
        """Says of each pair of classes what distinguishes it."""
        pairs = list(self.pairs())
        blocks = {pair: self.block_of(pair) for pair in pairs}
        by_links = [pair for pair in pairs if blocks[pair] is None and self.is_linked(pair)]
        self.steps.link({self.classes[number].key for pair in by_links for number in pair[:2]})
        files = {pair: os.path.join(self.folder, "apart", pair_name([self.first(pair.one), self.first(pair.other)], pair.turn) + ".txt") for pair in by_links}
        os.makedirs(os.path.join(self.folder, "apart"), exist_ok=True)
        for name in set(os.listdir(os.path.join(self.folder, "apart"))) - {os.path.basename(path) for path in files.values()}:
            os.unlink(os.path.join(self.folder, "apart", name))
        digests = {}
        for pair, path in files.items():
            data = self.linked_text(pair).encode()
            write_whole(path, data)
            digests[path] = hashlib.sha256(data).hexdigest()
        self.rulings.update(self.sorting.accepted(digests))
        whole = "accepted" if all(self.rulings[path] for path in paths) else "not accepted"
        for pair in pairs:
            head = self.first(pair.one), self.first(pair.other), SAID[pair.turn]
            if blocks[pair] is not None:
                self.apart.append((*head, self.label(blocks[pair]), os.path.basename(paths[0]), whole))
            elif pair in files:
                self.apart.append((*head, "linking", os.path.relpath(files[pair], self.folder), self.ruling(files[pair])))
            else:
                self.undecided.append((*head, self.vain(pair)))

    def first(self, number):
        """The name of a class."""
        return self.classes[number].first

    def label(self, place):
        """What a block of the certificates is called."""
        text = self.telling.shown.blocks[place]
        return block_label(self.labels.get(text) or block_of(f"quandle {text}".splitlines()))

    def write(self):
        """Writes the tables."""
        for name, columns, rows in (("classes.csv", RESULT_COLUMNS, self.rows), ("apart.csv", APART_COLUMNS, self.apart),
                                    ("undecided.csv", UNDECIDED_COLUMNS, self.undecided)):
            write_named(os.path.join(self.folder, name), csv_text([columns, *rows]).encode("utf-8", "surrogateescape"))

    def count_line(self):
        """How many diagrams and classes there are, and how much of what is claimed was accepted."""
        pairs = len({row[:2] for row in self.undecided})
        return (f"{len(self.rows)} diagrams: {len(self.classes)} classes, {pairs} pairs of classes undecided; "
                f"{sum(self.rulings.values())} of {len(self.rulings)} certificates accepted")

    # ---- two diagrams

    def of_two(self, one, other):
        """Of two diagrams, by their names, the texts of certificates that say what is known of them, and for each turn of the second the pair of
        their classes and what distinguishes it, or None. Of two in one class there is one pair."""
        numbers = sorted(self.standings.places[self.standings.end(self.given[name].form)[0]].number for name in (one, other))
        if numbers[0] == numbers[1]:
            first, second = (self.standings.turn(self.given[name]) for name in (one, other))
            return [self.part_text([(one, SAME), (other, first.then(second))])], []
        pairs = list(self.pairs(numbers))
        blocks = {pair: self.block_of(pair) for pair in pairs}
        by_links = [pair for pair in pairs if blocks[pair] is None and self.is_linked(pair)]
        self.steps.link({self.classes[number].key for pair in by_links for number in pair[:2]})
        texts = [self.linked_text(pair) for pair in by_links]
        if len(by_links) < len(pairs):
            texts.insert(0, self.part_text([(one, SAME), *((other, turn) for turn in self.sorting.turns)]))
        return texts, [(pair, "linking" if pair in by_links else None if blocks[pair] is None else self.label(blocks[pair])) for pair in pairs]

    def part_text(self, given):
        """The certificate that has of all only some diagrams, each after a turn, and the classes that these are in."""
        shown, rows = self.telling.shown, []
        for name, turn in given:
            row = self.given[name]
            grid, (key, more, line) = grid_in(row.line), self.sorting.keys[row.form]
            moves = turned(grid.size, moves_in(row.moves), *more) + moves_in(line)
            rows.append((f"{name}{', ' + SAID[turn] if turn != SAME else ''}", turn.of(grid), *self.standings.row(turn.of(grid), turn.then(more), key, moves)))
        places = sorted({place for _, _, place, _ in rows})
        kept = sorted({shown_block(shown, first, second) for first in places for second in places if first < second} - {None})
        classes = [shown.classes[place]._replace(numbers=[shown.classes[place].numbers[block] for block in kept]) for place in places]
        left = [(one, other) for other, second in enumerate(places) for one, first in enumerate(places[:other]) if shown_block(shown, first, second) is None]
        head = head_text(Head([shown.blocks[block] for block in kept], classes, left))
        (text, _), = certificates(head, [row_text(said, grid.text, places.index(place), moves) for said, grid, place, moves in rows])
        return text


def shown_block(shown, first, second):
    """The place of the block of fewest colours by which what is before the rows distinguishes two classes, or None."""
    found = [(block_order(shown.blocks[place]), place)
             for place, (one, other) in enumerate(zip(shown.classes[first].numbers, shown.classes[second].numbers))
             if one is not None and other is not None and one != other]
    return min(found)[1] if found else None


def block_order(text):
    """How many colours a block has."""
    words = text.split()
    return 4 if words[0] == "tetrahedral" else int(words[1])
