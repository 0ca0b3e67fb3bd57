"""Tests of certificates of tables: they are written as docs/FORMATS.md has them, and of 3,000 altered ones each is rejected or true, by the
independent reader, and by the program too where it is built."""
import os
import random
import unittest

import common
import plain_orbits
import reader
from lib.classes.certificate import MOST_BLOCKS, Head, Standing, certificates, head_text, needed, row_text
from lib.classes.standing import Standings
from lib.classes.written import Class
from lib.sorting.apart import cost, numbers_in, seeds_of
from lib.sorting.joins import Joins, KeyNumbers, Pair
from lib.sorting.keys import form_of, grid_of_form
from knot_workbench.diagrams import Braid, Grid, closure
from knot_workbench.moves import back, made, tidied
from knot_workbench.tables.knots import BOTH, MIRRORED as MIRROR, REVERSED, TURNS
from knot_workbench.tables.numbers import Block
from reader.items import read_table
from reader.numbers import numbers_of

BUILT = common.built_program()

ALTERED = int(os.environ.get("ALTERED") or 3000)

TREFOIL = Grid((4, 3, 2, 1, 0), (2, 1, 0, 4, 3))

# The diagrams of the classes, and what they are; the blocks, with what is known of them.
KNOTS = {"3_1": TREFOIL, "3_1 mirrored": TREFOIL.mirror(), "unknot": Grid((0, 1), (1, 0)), "4_1": Grid((0, 1, 3, 2, 5, 4), (2, 5, 0, 4, 3, 1))}
MIRRORED = {"3_1": "3_1 mirrored", "3_1 mirrored": "3_1"}
TEXTS = ["dihedral 3\n", "tetrahedral\n", "dihedral 3\nshadow mochizuki\n"]
BLOCKS = [Block(3, 0, False), Block(4, 0, False), Block(3, 3, True)]


def read_blocks():
    """The blocks as the reader has them."""
    data = f"certificate 4\nblocks {len(TEXTS)}\n" + "".join(f"quandle {text}" for text in TEXTS) + "classes 0\nopen 0\nrows 0\n"
    return read_table(reader.Lines(data.encode()))[0]


def ruling(text):
    """What the reader says of a certificate."""
    return reader.answer([b"check"], text.encode()).text.decode().strip()


def walked(grid, dice):
    """Some moves from a grid, and where they lead."""
    moves = []
    for _ in range(6):
        some = [*plain_orbits.exchanges(grid), [("shift", "rows", 1)], [("shift", "columns", 1)], [("stabilise", dice.randrange(grid.size), dice.choice("xo"),
                dice.choice(("lowleft", "lowright", "highleft", "highright")))]]
        for move in dice.choice(some):
            grid = made(grid, move)
            moves.append(move)
    return tuple(moves), grid


class Table:
    """A table that can be altered: classes, pairs left open, and rows as lists."""

    def __init__(self, dice):
        blocks = read_blocks()
        rows = [[tuple(numbers_of(tuple(grid), *block)) for block in blocks] for grid in KNOTS.values()]
        seeds = [seeds_of(grid) for grid in KNOTS.values()]
        told, places, self.left = needed(rows, [[cost(block, len(some)) for block in BLOCKS] for some in seeds])
        self.blocks = [TEXTS[place] for place in places]
        self.classes = [[name, grid, some, row] for (name, grid), some, row in zip(KNOTS.items(), seeds, told)]
        self.rows = []
        self.known = {}
        for place, (name, grid) in enumerate(KNOTS.items()):
            self.rows.append((name, grid, place, ()))
            for number in range(2):
                moves, end = walked(grid, dice)
                self.rows.append((f"{name}, {number}", end, place, tuple(tidied(end, back(grid, moves)))))
        for _, grid, place, _ in self.rows:
            for turn in TURNS:
                name = list(KNOTS)[place]
                self.known[turn.of(grid)] = MIRRORED.get(name, name) if turn.is_mirrored else name

    def texts(self, most=None):
        """Its certificates."""
        head = head_text(Head(self.blocks, [Standing(*one) for one in self.classes], self.left))
        rows = [row_text(said, grid.text, place, moves) for said, grid, place, moves in self.rows]
        return list(certificates(head, rows, *([most] if most else [])))

    def is_true(self):
        """Whether rows of one class are one knot, and rows of two are two, unless these are left open."""
        left = {*self.left, *((second, first) for first, second in self.left)}
        return all(self.known[one] == self.known[other] if place == also else (place, also) in left or self.known[one] != self.known[other]
                   for _, one, place, _ in self.rows for _, other, also, _ in self.rows)


# ---- what is altered

def alter_move(table, dice):
    """A move of a row is lost, comes twice or is another one."""
    place = dice.choice([place for place, row in enumerate(table.rows) if row[3]])
    said, grid, number, moves = table.rows[place]
    at = dice.randrange(len(moves))
    other = dice.choice([(), (moves[at], moves[at]), (("shift", dice.choice(("rows", "columns")), dice.randrange(1, grid.size)),),
                         (("exchange", dice.choice(("rows", "columns")), dice.randrange(grid.size)),),
                         (tuple(part + dice.choice((-1, 1)) if isinstance(part, int) and part else part for part in moves[at]),)])
    table.rows[place] = said, grid, number, moves[:at] + other + moves[at + 1:]


def alter_number(table, dice):
    """A number of a class is another one, or two classes have each other's."""
    one, other = dice.sample(table.classes, 2)
    if dice.random() < 0.3:
        one[3], other[3] = other[3], one[3]
        return
    at = dice.choice([at for at, entry in enumerate(one[3]) if entry is not None])
    entry = list(one[3][at])
    place = dice.randrange(len(entry))
    entry[place] = dice.choice((entry[place] + 1, 0, 9, 3, max(entry[place] - 1, 0)))
    one[3] = [*one[3][:at], dice.choice((tuple(entry), None)), *one[3][at + 1:]]


def alter_class(table, dice):
    """A row has another class, with its moves or without."""
    place = dice.randrange(len(table.rows))
    said, grid, _, moves = table.rows[place]
    table.rows[place] = said, grid, dice.randrange(len(table.classes)), dice.choice((moves, ()))


def alter_rows(table, dice):
    """A row comes twice, perhaps with another class, or its diagram is turned."""
    said, grid, place, moves = dice.choice(table.rows)
    grid = dice.choice(TURNS).of(grid)
    table.rows.insert(dice.randrange(len(table.rows) + 1), (said, grid, dice.choice((place, dice.randrange(len(table.classes)))), moves))


def alter_standing(table, dice):
    """What stands for a class is turned, and perhaps its rows are too; or it comes twice; or its seeds are others."""
    place = dice.randrange(len(table.classes))
    one = table.classes[place]
    turn, kind = dice.choice(TURNS[1:]), dice.randrange(4)
    if kind == 0:
        one[1] = turn.of(one[1])
    elif kind == 1:
        one[1] = turn.of(one[1])
        table.rows = [(said, turn.of(grid) if at == place and not moves else grid, at, moves) for said, grid, at, moves in table.rows]
    elif kind == 2:
        table.classes.append(list(one))
        table.rows.append((one[0], one[1], len(table.classes) - 1, ()))
    else:
        one[2] = tuple(dice.randrange(one[1].size + 1) for _ in range(dice.randrange(1, 4)))


def alter_left(table, dice):
    """Two classes are left open."""
    table.left = [*table.left, tuple(sorted(dice.sample(range(len(table.classes)), 2)))]


ALTERATIONS = (alter_move, alter_number, alter_class, alter_rows, alter_standing, alter_left)


class CertificateTest(unittest.TestCase):
    def test_a_table_is_accepted(self):
        table = Table(random.Random(1))
        (text, count), = table.texts()
        self.assertEqual((count, ruling(text), table.is_true()), (len(table.rows), "accepted", True))

    def test_a_larger_table_is_several_certificates_with_the_same_classes(self):
        table = Table(random.Random(2))
        whole = table.texts()[0][0]
        most = len(whole) * 2 // 3
        found = table.texts(most)
        self.assertGreater(len(found), 1)
        head = whole[:whole.index("rows ")]
        for text, _ in found:
            self.assertLessEqual(len(text.encode()), most)
            self.assertTrue(text.startswith(head))
            self.assertEqual(ruling(text), "accepted")
        self.assertEqual("".join(text[text.index("\n", text.index("rows ")) + 1:] for text, _ in found), whole[whole.index("\n", whole.index("rows ")) + 1:])
        self.assertRaises(ValueError, table.texts, len(head) + 100)

    def test_a_table_without_rows_is_one_certificate(self):
        (text, count), = certificates(head_text(Head([], [], [])), [])
        self.assertEqual((count, ruling(text)), (0, "accepted"))

    def test_only_what_is_needed_is_told(self):
        told, places, left = needed([[(9,), (4,), None], [(3,), (16,), (1, 2)], [(3,), (4,), (2, 1)]], [[9, 16, 27], [3, 16, 9], [9, 5, None]])
        # The first two differ by the first block at least cost, the last two only by the second, since the third costs too much.
        self.assertEqual((told, places, left), ([[(9,), None], [(3,), (16,)], [(3,), (4,)]], [0, 1], []))
        self.assertEqual(needed([[(9,)], [(9,)], [None]], [[1]] * 3), ([[], [], []], [], [(0, 1), (0, 2), (1, 2)]))
        self.assertRaises(ValueError, head_text, Head(["dihedral 3\n"] * (MOST_BLOCKS + 1), [], []))

    def test_a_verdict_by_numbers_is_taken_apart(self):
        self.assertEqual(numbers_in("certificate 3\ndifferent numbers table 1\n0\nseeds 0 1\nnumbers 9\nseeds 0\nnumbers 3\n"), ("table 1\n0\n", (9,), (3,)))
        self.assertIsNone(numbers_in("certificate 2\ndifferent trivial 2\nlist 0\nlist 1\n0 0\n"))

    def test_a_braid_stands_as_a_diagram(self):
        grid = closure(Braid(2, [1, 1, 1]))[0]
        text = head_text(Head([], [Standing("class 1", grid, seeds_of(grid), [])], [])) + "rows 1\n" + row_text("a braid", "braid 2 1 1 1\n", 0, ())
        self.assertEqual(ruling(text), "accepted")


class AlteredTest(unittest.TestCase):
    def test_altered_tables_are_rejected_or_true(self):
        dice, said = random.Random(3), {}
        asks = knows_tables()
        for number in range(ALTERED):
            table = Table(random.Random(number % 7))
            name = ALTERATIONS[number % len(ALTERATIONS)]
            name(table, dice)
            (text, _), = table.texts()
            answer = ruling(text)
            with self.subTest(number=number, by=name.__name__):
                self.assertTrue(answer == "accepted" or answer.startswith("rejected "), answer)
                self.assertTrue(answer != "accepted" or table.is_true(), text)
                if asks:
                    self.assertEqual(common.call([BUILT, "check"], text=text).stdout.strip(), answer)
            said.setdefault(name, set()).add(answer.split()[0])
        if ALTERED >= 300:
            # Each kind has been refused.
            self.assertTrue(all("rejected" in found for name, found in said.items() if name is not alter_left), said)


class StandingsTest(unittest.TestCase):
    """The classes of certificates, of a class whose mirror image a search distinguished from it, and of whose reverse nothing is known."""

    def test_what_a_search_told_apart_has_numbers_of_its_own_block(self):
        blocks = read_blocks()
        key = form_of(TREFOIL)
        joins = Joins(KeyNumbers({key: (((9,),), ((9,),))}, BLOCKS[:1]), None)
        joins.verdicts = {Pair(key, key, MIRROR): "told", Pair(key, key, BOTH): "told"}
        one = Class(key)
        one.add("a", 3, "", "", REVERSED)
        standings = Standings([one], joins)
        asked = []

        def further(pairs, _):
            for pair in pairs:
                asked.append(pair)
                said = "".join(f"seeds 0 1\nnumbers {' '.join(map(str, numbers_of(tuple(grid), *blocks[2])))}\n" for grid in pair)
                yield f"certificate 3\ndifferent numbers {TEXTS[2]}{said}"

        head = standings.head(joins.numbers, TEXTS[:1], further)
        self.assertEqual(([standing.said for standing in head.classes], head.blocks, head.left),
                         (["class 1", "class 1 mirrored", "class 1 reversed", "class 1 mirrored reversed"], [TEXTS[2]], [(0, 2), (1, 3)]))
        self.assertEqual(len(asked), 4)
        self.assertEqual(head.classes[0].grid, REVERSED.of(grid_of_form(key)))
        (text, count), = certificates(head_text(head), standings.rows_of_turns())
        self.assertEqual((count, ruling(text)), (4, "accepted"))
        self.assertEqual((standings.decide_symmetries(), one.symmetry, one.type), ((1, []), {"mirror": "different", "reverse": "open", "mirror_reverse": "different"}, "open"))


def knows_tables():
    """Whether the program is built, and rules on certificates of tables."""
    return bool(BUILT) and common.call([BUILT, "check"], text="certificate 4\nblocks 0\nclasses 0\nopen 0\nrows 0\n").stdout == "accepted\n"


if __name__ == "__main__":
    unittest.main()
