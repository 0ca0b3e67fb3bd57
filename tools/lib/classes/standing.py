"""The classes that certificates have. A class of a table is one knot up to its turns; a certificate has of it one class for each knot that
turns make of it: one of a knot that is its mirror image and its reverse, four of one that is neither."""
import collections

from knot_workbench.moves import tidied, turned
from knot_workbench.tables.knots import SAME, TURNS
from knot_workbench.texts import move_text
from lib.classes.certificate import MOST_BLOCKS, Head, Standing, needed, row_of_lines, row_text
from lib.classes.written import SYMMETRIES, Class
from lib.sorting.apart import Seeds, cost, numbers_in
from lib.sorting.lines import moves_in
from lib.sorting.joins import Pair
from lib.sorting.keys import grid_of_form

# A class of a certificate: the place of its class in the table, and the turn that makes it of this one's diagram.
Place = collections.namedtuple("Place", "number turn")


def classes_of(rows, joins, keys):
    """The classes of rows, which are given by names, in the order of their first rows. `keys` has for short forms their keys and turns."""
    found, ways = {}, {}
    for name, row in rows.items():
        if row.form not in ways:
            key, turn, _ = keys[row.form]
            root, further, _ = joins.way(key)
            ways[row.form] = root, turn.then(further)
        root, turn = ways[row.form]
        found.setdefault(root, Class(root)).add(name, row.crossings, row.code, row.line, turn)
    return list(found.values())


class Standings:
    """The classes of certificates, of sorted classes of a table. `keys` has for short forms their keys, each with a turn and a line of moves."""

    def __init__(self, classes, joins, keys=()):
        self.classes, self.joins, self.forms, self.seeds, self._ways, self._joined, self._ends = classes, joins, keys, Seeds(), {}, {}, {}
        self.number = {one.key: place for place, one in enumerate(classes)}
        self.places = []
        self.place = {}
        for number, one in enumerate(classes):
            one.turns = []
            for turn in joins.numbers.of_turns:
                if not any(turn.then(other) in joins.same[one.key] for other in one.turns):
                    one.turns.append(turn)
                    self.place[number, turn] = len(self.places)
                    self.places.append(Place(number, turn))
        self.keys = [(classes[place.number].key, classes[place.number].base.then(place.turn)) for place in self.places]
        self.blocks, self.left = [], []

    def grid(self, place):
        """The diagram that represents a class of the certificates."""
        one = self.classes[place.number]
        return one.grid(place.turn)

    def words(self, place):
        """What a class is called."""
        return f"class {place.number + 1}{place.turn.words}"

    # ---- rows

    def turn_of(self, one, turn):
        """The first turn of a class that makes the same knot of it as another one."""
        return next(first for first in one.turns if turn.then(first) in self.joins.same[one.key])

    def way(self, key, turn):
        """Of the first key of a class, after a turn: the place of its class in certificates, and moves to the diagram that represents this."""
        if (key, turn) not in self._ways:
            number = self.number[key]
            one = self.classes[number]
            first = self.turn_of(one, turn.then(one.base))
            moves = self.of_symmetry(one.key, turn.then(one.base).then(first))
            self._ways[key, turn] = self.place[number, first], turned(len(key) // 2, moves, *one.base.then(first))
        return self._ways[key, turn]

    def of_symmetry(self, key, turn):
        """Moves from the turned diagram of a key to itself: what a try found, or those of the two other turns, one after the other."""
        if turn == SAME:
            return []
        found = self.joins.loops.get(Pair(key, key, turn))
        if found is not None:
            return list(found)
        one, other = (other for other in TURNS if other not in (SAME, turn))
        first, second = (self.joins.loops[Pair(key, key, each)] for each in (one, other))
        return turned(len(key) // 2, first, *other) + list(second)

    def row(self, grid, turn, key, moves):
        """Of a grid, a turn and moves from the turned grid to a key: the place of its class, and moves from the grid to the diagram of this."""
        if key not in self._joined:
            self._joined[key] = self.joins.way(key)
        root, further, more = self._joined[key]
        both = turn.then(further)
        moves = turned(grid.size, turned(grid.size, moves, *further) + list(more), *both)
        place, last = self.way(root, both)
        return place, tidied(grid, moves + last)

    def end(self, form):
        """The place of the class of a short form, and the lines of the moves from its grid to the diagram that represents the class."""
        if form not in self._ends:
            key, turn, line = self.forms[form]
            place, moves = self.row(grid_of_form(form), turn, key, moves_in(line))
            self._ends[form] = place, [move_text(move) for move in moves]
        return self._ends[form]

    def of_row(self, row):
        """The place of the class of a row, and the lines of the moves from its grid to the diagram that represents the class."""
        place, lines = self.end(row.form)
        return place, [*(row.moves.split(" / ") if row.moves else ()), *lines]

    def turn(self, row):
        """The turn that makes a row's knot of the diagram that represents its class of the table, the first where there are several."""
        return self.places[self.end(row.form)[0]].turn

    def text_of(self, said, row):
        """A row as certificates have it."""
        return row_of_lines(said, row.line.replace(" / ", "\n") + "\n", *self.of_row(row))

    def rows_of_turns(self):
        """The texts of rows that say what turns make of each class."""
        for number, one in enumerate(self.classes):
            for turn in self.joins.numbers.of_turns:
                place, moves = self.way(one.key, one.base.then(turn))
                yield row_text(self.words(Place(number, turn)), one.grid(turn).text, place, tidied(one.grid(turn), moves))

    # ---- what distinguishes them

    def head(self, numbers, texts, further):
        """What is before the rows: numbers by blocks of the list, whose texts are given, and of pairs that a search distinguished those by
        other blocks. `further` answers what searches say of two grids each, of a list of such pairs and one of the searches."""
        rows = [numbers.row(key, turn) for key, turn in self.keys]
        seeds = [self.seeds.of(key) for key, _ in self.keys]
        costs = [[cost(block, len(some)) for block in numbers.blocks] for some in seeds]
        told, places, left = needed(rows, costs)
        while len(places) > MOST_BLOCKS:
            # The block that the fewest classes need is done without.
            _, least = min((sum(row[number] is not None for row in told), place) for number, place in enumerate(places))
            for row in costs:
                row[least] = None
            told, places, left = needed(rows, costs)
        self.blocks = [texts[place] for place in places]
        self.left = []
        asked = [pair for pair in left if self.is_distinguished(*pair)]
        searches = [next((self.joins.by[one] for one in self.tries(*pair) if one in self.joins.by), None) for pair in asked]
        said = dict(zip(asked, further([tuple(self.grid(self.places[one]) for one in pair) for pair in asked], searches)))
        for pair in left:
            if not self.add(told, pair, numbers_in(said.get(pair) or "")):
                self.left.append(pair)
        for row in told:
            row += [None] * (len(self.blocks) - len(row))
        standing = [Standing(self.words(place), self.grid(place), some, row) for place, some, row in zip(self.places, seeds, told)]
        return Head(self.blocks, standing, self.left)

    def add(self, told, pair, found):
        """Adds numbers of two classes by a block to what is said: whether there was room."""
        if not found or found[0] not in self.blocks and len(self.blocks) == MOST_BLOCKS:
            return False
        if found[0] not in self.blocks:
            self.blocks.append(found[0])
        for one, entry in zip(pair, found[1:]):
            told[one] += [None] * (len(self.blocks) - len(told[one]))
            told[one][self.blocks.index(found[0])] = entry
        return True

    def tries(self, first, second):
        """The pairs that may have been tried of two classes of certificates, as they are or after turns."""
        (one, turn), (other, more) = (self.keys[place] for place in (first, second))
        turns = {turn.then(more).then(same) for same in (*self.joins.same[one], *self.joins.same[other])}
        return [Pair(*keys, each) for keys in ((one, other), (other, one)) for each in turns]

    def is_distinguished(self, first, second):
        """Whether a search distinguished two classes of certificates, as they are or after turns."""
        return any(pair in self.joins.verdicts for pair in self.tries(first, second))

    def decide_symmetries(self):
        """Gives classes their symmetries, by what the head left open: how many are open, and the pairs of classes of which something is."""
        left = {(self.places[first], self.places[second]) for first, second in self.left}
        count, pairs = 0, set()
        for first, second in left:
            if first.number != second.number:
                pairs.add((first.number + 1, second.number + 1))
        for number, one in enumerate(self.classes):
            for word, turn in SYMMETRIES:
                if self.turn_of(one, turn) == SAME:
                    one.symmetry[word] = "same"
                else:
                    is_open = (Place(number, SAME), Place(number, self.turn_of(one, turn))) in left
                    one.symmetry[word] = "open" if is_open else "different"
                    count += is_open
        return count, sorted(pairs)
