"""Keys joined to classes: walks are tried only between keys whose numbers agree after some turn. The same tries show the symmetries of a class."""
import collections
import hashlib
import itertools

from knot_workbench.alexander import alexander_square
from knot_workbench.faults import Fault
from knot_workbench.identifying import components_of_grid
from knot_workbench.moves import turned
from knot_workbench.tables.knots import SAME, TURNS
from knot_workbench.tables.numbers import may_be_one, opposite
from knot_workbench.texts import move_of, move_text
from lib.sorting.lines import in_lines, in_one_line
from lib.sorting.keys import grid_of_form
from lib.sorting.searches import LINEAR
from lib.sorting.tries import Course, Rounds

# A pair of keys that may be one after a turn of the first.
Pair = collections.namedtuple("Pair", "key aim turn")


class KeyNumbers:
    """What is known of keys after some turns: `rows` has for each key the row of numbers of its diagram and, where there are turns, that of the
    mirror image. `linked` has for each how many components it has, and their linking numbers in order, or None."""

    def __init__(self, rows, blocks, turns=TURNS):
        self.rows, self.blocks, self.of_turns, self._kept, self._turns = dict(rows), list(blocks), turns, {}, {}
        self.linked = {key: (components_of_grid(grid_of_form(key)), None) for key in self.rows}

    def row(self, key, turn=SAME):
        """The row of a key after a turn. A reverse has the row of the mirror image with negative weights."""
        if (key, turn) not in self._kept:
            row = self.rows[key][turn.is_mirrored != turn.is_reversed]
            self._kept[key, turn] = opposite(row, self.blocks) if turn.is_reversed else row
        return self._kept[key, turn]

    def turns(self, key, aim):
        """The turns of a key after which nothing that is known distinguishes it from another one."""
        if (key, aim) not in self._turns:
            aims = self.row(aim)
            self._turns[key, aim] = [turn for turn in self.of_turns if self.may_be_linked(key, aim, turn) and may_be_one(self.row(key, turn), aims)]
        return self._turns[key, aim]

    def may_be_linked(self, key, aim, turn):
        """Whether linking numbers don't distinguish a key after a turn from another one. Those of a mirror image are negative."""
        (count, numbers), (other, aims) = self.linked[key], self.linked[aim]
        if numbers is not None and turn.is_mirrored:
            numbers = tuple(sorted(-number for number in numbers))
        return count == other and (numbers is None or aims is None or numbers == aims)

    def buckets(self, keys=None):
        """Keys, or all, in lists, the smallest first, such that no two of different lists are one after any turn."""
        keys = sorted(self.rows if keys is None else keys, key=lambda key: (len(key), key))
        rows = [row for key in keys for row in self.rows[key]]
        full = [place for place in range(min(map(len, rows), default=0)) if all(row[place] is not None for row in rows)]
        found = collections.defaultdict(list)
        for key in keys:
            found[self.linked[key][0], min(tuple(self.row(key, turn)[place] for place in full) for turn in self.of_turns)].append(key)
        return list(found.values())

    def learn(self, rows, blocks):
        """Takes the numbers of some keys by further blocks; of the others nothing is known by these."""
        nothing = (None,) * len(blocks)
        self.blocks += blocks
        for key, kept in self.rows.items():
            self.rows[key] = tuple(row + more for row, more in zip(kept, rows.get(key, (nothing,) * len(kept))))
        self.forget()

    def link(self, key, numbers):
        """Takes the linking numbers of a key, in order."""
        self.linked[key] = self.linked[key][0], tuple(numbers)
        self.forget()

    def forget(self):
        """What was concluded is concluded anew."""
        self._kept.clear()
        self._turns.clear()


class Joins:
    """What is known of keys, each of which is joined to the first key of its class.

    `above` has for each key that was joined another key, a turn, and the moves to that from its turned diagram. `verdicts` has the texts that
    distinguish pairs, and `by` the searches that found them. `loops` has for each turn that leaves a first key the same the moves from its turned
    diagram, and `vain` for each pair the searches that found nothing. `store` has all tries. `left` are the keys that may still be tried."""

    def __init__(self, numbers, store):
        self.numbers, self.store = numbers, store
        self.above, self.verdicts, self.by, self.loops, self.vain = {}, {}, {}, {}, collections.defaultdict(list)
        self.buckets = numbers.buckets()
        self.same = collections.defaultdict(lambda: [SAME])
        self.left, self._alexander = set(), {}

    def way(self, key):
        """The first key of the class, and a turn and moves that lead there from the turned diagram of the key."""
        turn, moves, size = SAME, [], len(key) // 2
        while key in self.above:
            key, more, steps = self.above[key]
            moves = turned(size, moves, more.is_mirrored, more.is_reversed) + list(steps)
            turn = turn.then(more)
        return key, turn, moves

    def roots(self):
        """The first keys of the classes."""
        return [key for bucket in self.buckets for key in bucket if key not in self.above]

    def renew_buckets(self):
        """Parts the first keys anew, since more is known of them."""
        self.buckets = self.numbers.buckets(self.roots())

    def not_alone(self):
        """The first keys that may be one with another."""
        found = set()
        for bucket in self.buckets:
            roots = [key for key in bucket if key not in self.above]
            for place, key in enumerate(roots):
                for aim in roots[:place]:
                    if not {key, aim} <= found and next(self.pairs(key, aim), None):
                        found |= {key, aim}
        return [key for key in self.roots() if key in found]

    def pairs(self, key, aim):
        """The turns by which a first key may be another one, but those that were distinguished, or that symmetries make one with another."""
        kept = []
        for turn in self.numbers.turns(key, aim):
            alike = [turn.then(same) for same in self.same[aim]]
            if not any(Pair(key, aim, one) in self.verdicts or one in kept for one in alike):
                kept.append(turn)
                yield Pair(key, aim, turn)

    def chain(self, key, aims):
        """The pairs of a first key with some others, one after the other."""
        for aim in aims:
            yield from self.pairs(key, aim)

    def symmetries(self, key):
        """The pairs of a first key with itself after a turn that may leave it the same, but those that are known."""
        for turn in self.numbers.turns(key, key):
            if turn not in self.same[key] and Pair(key, key, turn) not in self.verdicts:
                yield Pair(key, key, turn)

    def alexander(self, key):
        """What the Alexander polynomial of a knot is at one place; of a link None. No answer rests on it."""
        if key not in self._alexander:
            self._alexander[key] = alexander_square(grid_of_form(key)) if self.numbers.linked[key][0] == 1 else None
        return self._alexander[key]

    def parts(self, bucket, efforts, with_symmetries):
        """The searches of a bucket, each with its rounds: of each first key the pairs with others, the smallest of these first, and perhaps then
        its symmetries. No walk is tried between two knots whose Alexander polynomials differ."""
        for search in efforts:
            keys = [key for key in bucket if key not in self.above]
            is_walk = len(keys) > 1 and search.is_walk
            groups, chains = collections.defaultdict(list), {}
            for key in keys:
                aims = groups[self.alexander(key) if is_walk else None]
                chains[key] = self.chain(key, itertools.islice(aims, len(aims)))
                aims.append(key)
            yield search, Rounds(chains)
            if with_symmetries:
                yield search, Rounds({key: self.symmetries(key) for key in keys if key not in self.above})

    def try_all(self, ask, efforts, with_symmetries=True):
        """Tries all pairs by searches, one after the other. `ask` has a deque of questions, as workers are asked by `try_pair`, to which others are
        added as it answers, and the set of keys that may still be tried. It answers each pair with what is found, or a fault."""
        waiting, courses = collections.deque(), {}
        self.left = set(self.roots())

        def go_on(course, pairs=()):
            for pair in course.go_on(pairs):
                courses[pair] = course
                waiting.append((pair, pair.turn.of(grid_of_form(pair.key)), grid_of_form(pair.aim), course.search))
            if course.is_ended:
                self.left.difference_update(course.keys)

        for bucket in self.buckets:
            go_on(Course(bucket, self.parts(bucket, efforts, with_symmetries), self.take_known))
        for pair, found in ask(waiting, self.left) if waiting else ():
            course = courses.pop(pair)
            if isinstance(found, Fault):
                go_on(course, course.rounds.took(pair, False))
            else:
                self.store.put(key_of_try(pair, course.search), found_in_words(found))
                go_on(course, [pair])

    def take_known(self, pair, search):
        """Whether it is known what a try finds, by the store or since no linear quandle distinguishes knots of one Alexander polynomial; and whether
        the key is joined."""
        line = self.store.answers.get(key_of_try(pair, search))
        if search == LINEAR and self.alexander(pair.key) is not None and self.alexander(pair.key) == self.alexander(pair.aim):
            line = [found_in_words(None)]
        if line is not None:
            self.take(pair, found_in(line[0]), search)
        return line is not None, pair.key in self.above

    def take(self, pair, found, search):
        """What a try makes of the classes."""
        if isinstance(found, str):
            self.verdicts[pair], self.by[pair] = found, search
        elif found is None:
            self.vain[pair].append(search)
        elif pair.key == pair.aim:
            self.loops[pair] = found
            self.same[pair.key] += [turn for turn in [one.then(pair.turn) for one in self.same[pair.key]] if turn not in self.same[pair.key]]
        elif pair.key not in self.above:
            self.above[pair.key] = pair.aim, pair.turn, found
            self.left.discard(pair.key)


def key_of_try(pair, search):
    """The name of a try in the store."""
    return f"{pair.key.hex()}.{pair.aim.hex()}.{TURNS.index(pair.turn)}.{hashlib.sha256(repr(search.words).encode()).hexdigest()[:16]}"


def found_in_words(found):
    """What a try found, in one line."""
    if isinstance(found, tuple):
        return " / ".join(["equal", *map(move_text, found)])
    return "nothing" if found is None else in_one_line(found)


def found_in(line):
    """What a try found, by its line: moves, the text of a verdict, or None."""
    if line == "nothing":
        return None
    if line.split(" ")[0] == "equal":
        return tuple(move_of(None, one.split(" ")) for one in line.split(" / ")[1:])
    return in_lines(line)
