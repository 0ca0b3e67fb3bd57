"""Diagrams sorted to classes: stores of what is known, workers that find the rest, and in between keys, numbers and walks. Both tabulate.py and
census.py rest on it."""
import hashlib
import os
import re
from collections import deque

from knot_workbench.faults import Fault
from knot_workbench.tables.knots import TURNS
from knot_workbench.tables.numbers import blocks_of, entry_in, entry_text
from lib.calls.calls import note
from lib.calls.store import Store, answers_in
from lib.sorting.apart import blocks_in
from lib.sorting.joins import KeyNumbers
from lib.sorting.lines import line_of, moves_in
from lib.sorting.pool import Progress
from lib.sorting.reduced import Reduced, Shorter, through
from lib.sorting.worker_classes import check_file
from lib.sorting.worker_keys import count_numbers, try_pair
from lib.sorting.worker_rows import find_key, find_row

# The stores of parts of the rows.
ROWS = re.compile(r"rows-[0-9]+-of-[0-9]+\.tsv")

# How many rows a worker gets at once.
LOT = 20


class DiagramRow:
    """What a store of rows says of a diagram: how many crossings it has, its code or nothing, its grid, and the moves to the grid of a short form.
    Of one that can't be had `fault` says why."""

    __slots__ = ("fields", "crossings", "code", "line", "form", "moves", "fault")

    def __init__(self, fields):
        self.fields, self.fault = fields, fields[1] if fields[0] == "!" else None
        if self.fault is None:
            crossings, self.code, self.line, form, self.moves = fields
            self.crossings, self.form = int(crossings), bytes.fromhex(form)


class Sorting:
    """One call: the folder of its stores and their form, its workers, the texts of its lists, and the turns by which diagrams are one. `script` has the name
    that is said, `parts` how many parts the work has."""

    def __init__(self, script, work, form, pool, lists, turns, parts):
        self.script, self.work, self.form, self.pool, self.turns, self.parts = script, work, form, pool, turns, parts
        self.lists, self.blocks = lists, [blocks_of(text) for text in lists]
        self.marks = [hashlib.sha256(text.encode()).hexdigest()[:16] for text in lists]
        self.stores, self.faults, self.part, self.what = {}, 0, 0, ""
        self.keys, self.keyless, self.texts = {}, {}, []

    def fault(self, said):
        """Tells at once what is missing, and counts it."""
        self.faults += 1
        note(f"{self.script}: {said}")

    def store(self, name):
        """A store of the folder."""
        if name not in self.stores:
            self.stores[name] = Store(os.path.join(self.work, name), self.form)
        return self.stores[name]

    def close(self):
        """Ends the writing of all stores."""
        for store in self.stores.values():
            store.close()

    # ---- how far it is

    def begin(self, what):
        """The next part of the work begins."""
        self.part += 1
        self.what = f"part {self.part} of {self.parts}, {what}"

    def reported(self, items, count, done=0):
        """The same items, with lines on how far they are."""
        progress = Progress(f"{self.script}: {self.what}", count, done)
        for item in items:
            progress.step()
            yield item
        progress.end()

    def answers(self, function, items, done=0, lot=1):
        """What workers answer to items by a function, with lines on how far they are."""
        items = list(items)
        yield from self.reported(self.pool.each(function, items, lot), len(items) + done, done)

    # ---- the parts

    def rows(self, given, part=""):
        """What is known of diagrams, by their names: a dictionary of rows. Each part of the rows has a store of its own; what others found
        is known too."""
        self.begin("rows")
        store, known = self.store(f"rows{part}.tsv"), {}
        for name in sorted(filter(ROWS.fullmatch, os.listdir(self.work))):
            known.update(answers_in(os.path.join(self.work, name), self.form))
        known.update(store.answers)
        waiting = [one for one in given if known.get(one[0], "!")[0] == "!"]
        for name, *fields in self.answers(find_row, waiting, len(given) - len(waiting), LOT):
            known[name] = store.put(name, *fields)
        return {name: DiagramRow(known[name]) for name, _ in given}

    def drawn(self, rows, places):
        """The rows that have a grid. Of each other one the reason is reported, with the place where it is."""
        for name, row in rows.items():
            if row.fault is not None:
                self.fault(f"{places.get(name, name)}: {row.fault}")
        return {name: row for name, row in rows.items() if row.fault is None}

    def with_keys(self, rows, places):
        """The rows that have a key, as `drawn`. `keys` are found on the way."""
        rows = self.drawn(rows, places)
        self.find_keys({row.form for row in rows.values()})
        for name, row in rows.items():
            if row.form not in self.keys:
                self.fault(f"{places.get(name, name)}: {self.keyless[row.form]}")
        return {name: row for name, row in rows.items() if row.form in self.keys}

    def find_keys(self, forms):
        """Finds the keys of short forms, each with a turn and the line of the moves that lead there from the turned grid; of those in `keyless`
        why there is none."""
        self.begin("keys")
        store, mark = self.store("keys.tsv"), f".{len(self.turns)}{self.turns[-1].words}"
        waiting, asked = deque(), set()

        def ask(form):
            """Asks of a form; where it leads to a shorter one, of this."""
            while f"{form.hex()}{mark}" in store.answers:
                found, turn, _ = store.answers[f"{form.hex()}{mark}"]
                if turn:
                    return
                form = bytes.fromhex(found)
            if form not in asked:
                asked.add(form)
                waiting.append(form)

        # Large ones take longest.
        for form in sorted(forms, key=len, reverse=True):
            ask(form)
        progress = Progress(f"{self.script}: {self.what}", len(asked))
        for form, found in self.pool.each(find_key, waiting):
            if isinstance(found, str):
                self.keyless[form] = found
            else:
                is_key = isinstance(found, Reduced)
                store.put(f"{form.hex()}{mark}", found[0].hex(), TURNS.index(found.turn) if is_key else "", line_of(found.moves))
                ask(form)
            progress.count = len(asked)
            progress.step()
        progress.end()
        for form in forms:
            self.find_end(form, store, mark)

    def find_end(self, form, store, mark):
        """Finds the key of a form by what a store says of it, and of those to which it leads."""
        if form in self.keys or form in self.keyless:
            return
        found, turn, line = store.answers[f"{form.hex()}{mark}"]
        if turn:
            self.keys[form] = bytes.fromhex(found), TURNS[int(turn)], line
            return
        shorter = Shorter(bytes.fromhex(found), moves_in(line))
        self.find_end(shorter.form, store, mark)
        if shorter.form in self.keyless:
            self.keyless[form] = self.keyless[shorter.form]
        else:
            key, turn, line = self.keys[shorter.form]
            self.keys[form] = key, turn, line_of(through(form, shorter, Reduced(key, turn, moves_in(line))).moves)

    def numbers(self, keys, place):
        """The rows of numbers of keys by one of the lists, and where there are turns those of their mirror images."""
        self.begin("numbers")
        store, blocks, mark = self.store("numbers.tsv"), self.blocks[place], self.marks[place]
        sides = min(2, len(self.turns))
        known = {key: store.answers.get(f"{key.hex()}.{mark}", ()) for key in keys}
        waiting = [key for key in keys if len(known[key]) < sides]
        for key, found in self.answers(count_numbers, [(key, place) for key in waiting], len(keys) - len(waiting)):
            known[key] = store.put(f"{key.hex()}.{mark}", *("/".join(map(entry_text, row, blocks)) for row in found))
        return {key: tuple(tuple(map(entry_in, text.split("/"), blocks)) for text in known[key][:sides]) for key in keys}

    def learn(self, numbers, keys, place):
        """Counts keys by a list, after what is known of them. `texts` are the blocks of the lists that were learned."""
        numbers.learn(self.numbers(keys, place), self.blocks[place])
        self.texts += blocks_in(self.lists[place])

    def no_numbers(self, keys):
        """Rows of no numbers."""
        return KeyNumbers({key: ((),) * min(2, len(self.turns)) for key in keys}, [], self.turns)

    def search_answers(self, waiting, left):
        """What searches find, as `try_all` of Joins asks. What has no answer is reported."""
        progress = Progress(f"{self.script}: {self.what}", len(left))
        for pair, found in self.pool.each(try_pair, waiting):
            if isinstance(found, Fault):
                self.fault(str(found))
            yield pair, found
            progress.step(progress.count - len(left) - progress.done)
        progress.end()

    def accepted(self, paths):
        """Whether the checker accepts certificates: for each path, with the digest of its file."""
        self.begin("rulings")
        store = self.store("rulings.tsv")
        waiting = {path: digest for path, digest in paths.items() if store.answers.get(digest) != ["accepted"]}
        for path, said in self.answers(check_file, waiting, len(paths) - len(waiting)):
            store.put(waiting[path], said)
            if said != "accepted":
                self.fault(f"{path}: the checker says '{said}'")
        return {path: store.answers.get(digest) == ["accepted"] for path, digest in paths.items()}
