"""What a sorted table says: names, codes and braids of its classes, and the certificates, on which the checker rules."""
import collections
import hashlib
import os

from knot_workbench.diagrams import Braid, diagram_text, grid_of
from knot_workbench.moves import back
from knot_workbench.tables.knots import SAME, TURNS, name_of
from lib.calls.whole_files import write_whole
from lib.classes.certificate import certificates, head_text, row_text
from lib.classes.standing import Standings
from lib.classes.written import csv_text
from lib.sorting.lines import grid_in, in_one_line, line_of, moves_in
from lib.sorting.keys import grid_of_form
from lib.sorting.worker_classes import distinguish, find_braid, find_name, write_code

CERTIFICATE = "certificate-{}.txt"


class Telling:
    """What is said of the classes of a sorting, from their rows by names. `shown` is what all certificates have before their rows, and `rulings`
    has for each certificate whether it is accepted."""

    def __init__(self, folder, sorting, rows, classes, joins):
        self.folder, self.sorting, self.rows, self.classes, self.joins = folder, sorting, rows, classes, joins
        self.standings = Standings(classes, joins, sorting.keys)
        self.further, self.shown, self.rulings = [], None, {}

    def learn(self, function, name, asked, fields_of):
        """Asks workers by a function what isn't in a store yet: `asked` has for each key what is asked, and `fields_of` makes the fields of an answer."""
        store = self.sorting.store(name)
        waiting = [one for key, one in asked.items() if key not in store.answers]
        for key, found in self.sorting.answers(function, waiting, len(asked) - len(waiting)):
            store.put(key if isinstance(key, str) else key.hex(), *fields_of(found))
        return {key: store.answers[key] for key in asked}

    # ---- of each class

    def named(self):
        """Gives classes their names by the table, and adds its diagrams to the rows of the certificates."""
        self.sorting.begin("names")

        def fields_of(found):
            if found is None:
                return "!", "", ""
            return " # ".join(f"{name}:{TURNS.index(turn)}" for name, turn in found.parts), in_one_line(found.aim.text), line_of(found.moves)

        ways = collections.defaultdict(dict)
        for key in self.joins.numbers.rows:
            first, *way = self.joins.way(key)
            ways[first][key] = way
        asked = {one.key.hex(): (one.key, self.joins.numbers.row(one.key), ways[one.key]) for one in self.classes}
        known = self.learn(find_name, "names.tsv", asked, fields_of)
        for one in self.classes:
            said, aim, moves = known[one.key.hex()]
            if said == "!":
                continue
            parts = tuple((name, TURNS[int(turn)]) for name, _, turn in (part.rpartition(":") for part in said.split(" # ") if part))
            one.parts = tuple((name, turn.then(parts[0][1])) for name, turn in parts)
            grid = grid_in(aim)
            self.further.append((f"{name_of(parts)} of the table of knots", grid.text,
                                 *self.standings.row(grid, SAME, one.key, back(grid_of_form(one.key), moves_in(moves)))))

    def coded(self):
        """Gives classes the planar diagram codes of their first rows, where these came without."""
        self.sorting.begin("codes")
        known = self.learn(write_code, "codes.tsv", {one.first: (one.first, grid_in(one.line)) for one in self.classes if not one.code},
                           lambda code: (code,))
        for one in self.classes:
            one.code = one.code or known[one.first][0]

    def braided(self):
        """Gives classes braids, where they are found, and adds their closures to the rows of the certificates."""
        self.sorting.begin("braids")

        def fields_of(found):
            return ("!", "", "") if found is None else (diagram_text(found.braid).strip(), TURNS.index(found.turn), line_of(found.moves))

        names = {f"{one.key.hex()}.{TURNS.index(one.base)}": one for one in self.classes}
        known = self.learn(find_braid, "braids.tsv", {name: (name, one.key, one.base) for name, one in names.items()}, fields_of)
        for name, one in names.items():
            said, turn, moves = known[name]
            if said != "!":
                strands, *letters = map(int, said.split()[1:])
                one.braid = Braid(strands, letters)
                place, moves = self.standings.row(grid_of(one.braid), TURNS[int(turn)], one.key, moves_in(moves))
                self.further.append((f"a braid of class {self.standings.number[one.key] + 1}", f"{said}\n", place, moves))

    # ---- certificates

    def head(self):
        """The text of what all certificates have before their rows."""
        self.sorting.begin("classes distinguished")

        def further(pairs, searches):
            asked = {in_one_line(one.text + other.text): (one, other, by) for (one, other), by in zip(pairs, searches)}
            known = self.learn(distinguish, "apart.tsv", {name: (name, *pair) for name, pair in asked.items()}, lambda said: (in_one_line(said),))
            return [known[name][0].replace(" / ", "\n") + "\n" for name in asked]

        self.shown = self.standings.head(self.joins.numbers, self.sorting.texts, further)
        return head_text(self.shown)

    def texts(self):
        """The texts of the rows of certificates."""
        for said, diagram, place, moves in self.further:
            yield row_text(said, diagram, place, moves)
        yield from self.standings.rows_of_turns()
        self.sorting.begin("certificates")
        for name, row in self.sorting.reported(self.rows.items(), len(self.rows)):
            yield self.standings.text_of(name, row)

    def certified(self, head):
        """Writes the certificates: their paths, and of each how many rows it has."""
        found, paths = [], {}
        for text, count in certificates(head, self.texts()):
            path = os.path.join(self.folder, CERTIFICATE.format(len(found) + 1))
            data = text.encode()
            write_whole(path, data)
            found.append((path, count))
            paths[path] = hashlib.sha256(data).hexdigest()
        number = len(found) + 1
        while os.path.exists(os.path.join(self.folder, CERTIFICATE.format(number))):
            os.unlink(os.path.join(self.folder, CERTIFICATE.format(number)))
            number += 1
        self.rulings = self.sorting.accepted(paths)
        return found

    def places(self, found):
        """For each row, in order, the certificate that has it, and its number there."""
        before = len(self.further) + len(self.classes) * len(self.joins.numbers.of_turns)
        return [(path, number) for path, count in found for number in range(count)][before:]

    def rows_text(self, found):
        """The table of rows, with the certificate that has each, and its number there."""
        table = [("name", "class", "turn", "x", "o", "certificate", "row")]
        for (name, row), (path, where) in zip(self.rows.items(), self.places(found)):
            number, turn = self.standings.places[self.standings.end(row.form)[0]]
            x, o = row.line.split(" / ")
            table.append((name, number + 1, turn.words.strip(), x[2:], o[2:], os.path.basename(path), where))
        return csv_text(table)
