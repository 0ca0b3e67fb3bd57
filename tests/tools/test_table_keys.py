"""Tests of shadows, diagrams, keys and seeds of tools/tabulate.py, which call no program."""
import os
import random
import sys
import unittest
from unittest import mock

import common
import plain_orbits
import reader
from lib.calls.store import LineForm, Store
from lib.sorting.apart import blocks_in, seeds_of
from lib.sorting.joins import Joins, KeyNumbers, Pair, found_in, found_in_words
from lib.sorting.keys import after, form_of, grid_of_form, shifts_between
from lib.sorting.linear import block_between, block_text
from lib.sorting.lines import in_lines, in_one_line
from lib.sorting.reduced import Reducer, short_place
from lib.sorting.searches import SHORTEST, Seek
from lib.sorting.worker import Worker
from lib.sorting.worker_classes import Named, find_name
from lib.tabulate.choices import choices, diagrams_to, rows_of_choice
from lib.tabulate.shadows import SHADOW_COUNTS, faces, is_one_curve, least_numbering, maps_to, shadows_to
from knot_workbench.codes.planar import components_of_code
from knot_workbench.diagrams import Braid, Grid, closure
from knot_workbench.faults import Fault
from knot_workbench.identifying import components_of_grid
from knot_workbench.moves import made
from knot_workbench.tables.knots import SAME, TURNS
from knot_workbench.tables.numbers import Block
from reader.items import read_table
from reader.numbers import numbers_of

# Quadrangulations of the sphere without parallel edges, of 2 to 7 faces, as they are tabulated up to reflection.
MAPS = {2: 1, 3: 1, 4: 2, 5: 3, 6: 9, 7: 18}
TREFOIL = Grid((4, 3, 2, 1, 0), (2, 1, 0, 4, 3))


def faces_of_code(rows):
    """How many faces the diagram of a code has on the surface that it fills."""
    place = {}
    for crossing, row in enumerate(rows):
        for turn, edge in enumerate(row):
            place.setdefault(edge, []).append((crossing, turn))
    seen, count = set(), 0
    for start in ((crossing, turn) for crossing in range(len(rows)) for turn in range(4)):
        if start not in seen:
            count, here = count + 1, start
            while here not in seen:
                seen.add(here)
                there = next(one for one in place[rows[here[0]][here[1]]] if one != here)
                here = there[0], (there[1] - 1) % 4
    return count


class ShadowsTest(unittest.TestCase):
    def test_maps_and_shadows_are_as_many_as_is_known(self):
        self.assertEqual({count: len(found) for count, found in maps_to(7)}, MAPS)
        self.assertEqual({count: len(found) for count, found in shadows_to(7)}, {count: SHADOW_COUNTS[count] for count in range(3, 8)})

    def test_a_shadow_is_one_curve_in_the_plane(self):
        for count, found in shadows_to(6):
            for ends in found:
                self.assertTrue(is_one_curve(ends))
                self.assertEqual(len(faces(ends)), count + 2)
                self.assertEqual([ends[other] for other in ends], list(range(4 * count)))

    def test_a_map_numbered_in_another_way_is_the_same(self):
        dice = random.Random(1)
        for _, found in shadows_to(6):
            for ends in found:
                names = list(range(len(ends) // 4))
                dice.shuffle(names)
                turn = [dice.randrange(4) for _ in names]

                def other(dart):
                    return 4 * names[dart >> 2] + (-(dart + turn[dart >> 2]) & 3)

                renamed = [0] * len(ends)
                for dart, end in enumerate(ends):
                    renamed[other(dart)] = other(end)
                self.assertEqual(least_numbering(tuple(renamed)), ends)


class DiagramsTest(unittest.TestCase):
    def test_there_are_414_diagrams_to_seven_crossings(self):
        names = [name for name, _ in diagrams_to(7)]
        self.assertEqual((len(names), len(set(names))), (414, 414))

    def test_codes_are_those_of_knots_in_the_plane(self):
        for name, rows in diagrams_to(6):
            with self.subTest(name):
                self.assertEqual(sorted(edge for row in rows for edge in row), sorted(list(range(1, 2 * len(rows) + 1)) * 2))
                self.assertEqual(components_of_code(rows), 1)
                self.assertEqual(faces_of_code(rows), len(rows) + 2)
                self.assertTrue(all((row[2] - row[0]) % (2 * len(rows)) == 1 for row in rows))

    def test_the_alternating_choice_is_made_once(self):
        for _, found in shadows_to(6):
            for ends in found:
                alternating = [choice for choice in choices(ends) if is_alternating(rows_of_choice(ends, choice))]
                self.assertEqual(len(alternating), 1)


def is_alternating(rows):
    """Whether a strand that comes to a crossing below leaves it to one above: each edge has one end below."""
    below = [edge for row in rows for edge in (row[0], row[2])]
    return len(below) == len(set(below))


class KeysTest(unittest.TestCase):
    def grids(self):
        for strands, letters in ((2, [1, 1, 1]), (3, [1, -2, 1, -2]), (2, [1] * 5), (3, [1, 1, 1, -2, 1, -2]), (3, [1, 2]), (4, [1, -2, 3, 2, 2])):
            grid = closure(Braid(strands, letters))[0]
            self.assertEqual(components_of_grid(grid), 1)
            yield grid

    def test_moves_lead_to_the_key(self):
        reducer = plain_reducer()
        for grid in self.grids():
            found = reducer.of_grid(grid)
            self.assertEqual(after(found.turn.of(grid), found.moves), grid_of_form(found.key))

    def test_the_unknot_has_the_least_key(self):
        self.assertEqual(plain_reducer().of_grid(closure(Braid(3, [1, 2]))[0]).key, bytes((0, 1, 1, 0)))

    def test_a_walk_by_shifts_and_exchanges_and_each_turn_keep_the_key(self):
        dice, reducer = random.Random(1), plain_reducer()
        for grid in self.grids():
            # Of a diagram that has a destabilisation another one may be made, which leads to another key.
            key = reducer.of_grid(grid).key
            here = grid_of_form(key)
            for _ in range(5):
                here = plain_orbits.walked(here, dice, 6)
                for turn in TURNS:
                    self.assertEqual(reducer.of_grid(turn.of(here)).key, key)

    def test_a_form_is_the_least_translate(self):
        for grid in (TREFOIL, *self.grids()):
            forms = set()
            for columns in range(grid.size):
                for rows in range(grid.size):
                    moved = made(grid, ("shift", "columns", columns)) if columns else grid
                    moved = made(moved, ("shift", "rows", rows)) if rows else moved
                    forms.add(bytes(moved.xs + moved.os))
            self.assertEqual(form_of(grid), min(forms))

    def test_a_listing_that_is_cut_still_has_a_key(self):
        for grid in self.grids():
            found = Reducer(lambda one: (one, []), lambda one: (grid_of_form(form_of(one)), shifts_between(one, grid_of_form(form_of(one))))).of_grid(grid)
            self.assertEqual(after(found.turn.of(grid), found.moves), grid_of_form(found.key))

    def test_what_is_known_of_a_form_is_not_asked_again(self):
        asked = []
        reducer = Reducer(lambda one: asked.append(one) or plain_orbits.simplified(one), plain_orbits.least)
        for grid in (TREFOIL, made(TREFOIL, ("shift", "rows", 2)), made(made(TREFOIL, ("stabilise", 1, "x", "lowleft")), ("shift", "columns", 1))):
            reducer.of_grid(grid)
        self.assertEqual([grid.size for grid in asked], [5])


    def test_a_component_of_two_columns_stays_and_moves_lead_to_the_short_form_of_a_link(self):
        reducer = plain_reducer()
        for braid in (Braid(2, []), Braid(3, [1, 1, 1]), Braid(2, [1, 1]), Braid(4, [1, 1, 3, 3]), Braid(3, [1, -2, 1, -2, 1, 1])):
            grid = closure(braid)[0]
            form, moves = reducer.short(grid)
            self.assertEqual(after(grid, moves), grid_of_form(form))
            self.assertEqual(components_of_grid(grid_of_form(form)), components_of_grid(grid))
            self.assertIsNone(short_place(form))
        self.assertEqual(len(reducer.short(closure(Braid(2, []))[0])[0]), 8)

    def test_a_key_without_turns_is_that_of_the_diagram_as_it_is(self):
        reducer = Reducer(plain_orbits.simplified, plain_orbits.least, [SAME])
        keys = {reducer.of_grid(turn.of(TREFOIL)).key for turn in TURNS}
        self.assertEqual(len(keys), 4)
        self.assertEqual(min(keys), plain_reducer().of_grid(TREFOIL).key)


def plain_reducer():
    """A reducer that calls no program."""
    return Reducer(plain_orbits.simplified, plain_orbits.least)


class SeedsTest(unittest.TestCase):
    def test_two_columns_settle_the_trefoil_and_one_the_unknot(self):
        self.assertEqual(seeds_of(TREFOIL), (0, 1))
        self.assertEqual(seeds_of(Grid((0, 1), (1, 0))), (0,))

    def test_blocks_are_cut_at_their_names(self):
        text = "# some\nquandle dihedral 3\nshadow mochizuki\n\nquandle table 1\n0\n"
        self.assertEqual(blocks_in(text), ["dihedral 3\nshadow mochizuki\n", "table 1\n0\n"])


class LinearTest(unittest.TestCase):
    """Linear quandles that Alexander polynomials name."""

    def test_the_numbers_of_two_knots_differ(self):
        unknot, eight = Grid((0, 1), (1, 0)), closure(Braid(3, [1, -2, 1, -2]))[0]
        for first, second, due in ((TREFOIL, unknot, "alexander 3 2"), (unknot, eight, "alexander 5 4"), (TREFOIL, eight, "alexander 3 2")):
            block = block_between(first, second)
            self.assertEqual(block, f"{due}\n")
            data = f"certificate 4\nblocks 1\nquandle {block}classes 0\nopen 0\nrows 0\n"
            (read,), _, _, _ = read_table(reader.Lines(data.encode()))
            numbers = [tuple(numbers_of(tuple(grid), *read)) for grid in (first, second)]
            self.assertNotEqual(*numbers)
        self.assertIsNone(block_between(TREFOIL, TREFOIL.mirror()))

    def test_a_quandle_of_more_than_32_colours_has_a_table(self):
        lines = block_text(37, 5).splitlines()
        self.assertEqual((lines[0], len(lines), lines[1 + 3].split()[2]), ("table 37", 38, str((5 * 3 - 4 * 2) % 37)))


def by_rounds(joins, answer, efforts):
    """Tries all pairs by rounds, in each of which every first key has one pair; where none has one, one symmetry."""
    for search in efforts:
        tried = set()
        while True:
            pairs = []
            for bucket in joins.buckets:
                roots = [key for key in bucket if key not in joins.above]
                for place, key in enumerate(roots):
                    pairs += [pair for aim in roots[:place] for pair in joins.pairs(key, aim) if pair not in tried][:1]
            if not pairs:
                for key in joins.roots():
                    pairs += [pair for pair in joins.symmetries(key) if pair not in tried][:1]
            if not pairs:
                break
            tried.update(pairs)
            for pair in pairs:
                found = answer(pair, search)
                if not isinstance(found, Fault):
                    joins.store.put(f"{pair.key.hex()}.{pair.aim.hex()}.{TURNS.index(pair.turn)}.{search.words}", found_in_words(found))
                    joins.take(pair, found, search)


def in_any_order(answer, dice):
    """Answers to the questions of `try_all`, of which a few are under way at once, and any of these ends first."""
    def ask(waiting, left):
        under_way = []
        while waiting or under_way:
            while waiting and len(under_way) < 5:
                under_way.append(waiting.popleft())
            pair, _, _, search = under_way.pop(dice.randrange(len(under_way)))
            yield pair, answer(pair, search)
    return ask


class JoinsTest(unittest.TestCase):
    """Keys of one bucket, joined by answers that the test gives."""

    def joins(self, rows):
        store = Store(os.path.join(common.scratch(self), "tries"), LineForm("tries", "others"))
        self.addCleanup(store.close)
        return Joins(KeyNumbers(rows, [Block(3, 0, False)]), store)

    def test_keys_are_tried_within_their_bucket_alone_and_joined(self):
        small, large, other = bytes((0, 1, 1, 0)), form_of(TREFOIL), form_of(TREFOIL.mirror().reverse())
        joins = self.joins({small: (((9,),) * 2), large: (((9,),) * 2), other: (((3,),) * 2)})
        asked = []

        def answer(pair, _):
            asked.append(pair)
            return (("shift", "rows", 1),) if pair.key != pair.aim and pair.turn == TURNS[1] else None

        joins.try_all(in_any_order(answer, random.Random(1)), [Seek(("words",))], with_symmetries=False)
        self.assertEqual(asked, [Pair(large, small, SAME), Pair(large, small, TURNS[1])])
        self.assertEqual(sorted(joins.roots()), sorted([small, other]))
        self.assertEqual(joins.way(large), (small, TURNS[1], [("shift", "rows", 1)]))
        # All is in the store: a second call asks nothing.
        again = Joins(joins.numbers, joins.store)
        again.try_all(in_any_order(lambda pair, _: self.fail(pair), random.Random(1)), [Seek(("words",))], with_symmetries=False)
        self.assertEqual(again.above, joins.above)

    def test_what_comes_of_tries_is_what_comes_of_rounds_whichever_ends_first(self):
        keys = sorted({form_of(plain_orbits.walked(closure(Braid(3, [1, -2, 1, -2, 1, -2, 1, 2]))[0], random.Random(seed), 20)) for seed in range(20)})
        self.assertGreater(len(keys), 12)
        rows = {key: ((((9, 3)[place % 3 == 0],),) * 2) for place, key in enumerate(keys)}
        for seed in range(20):

            def answer(pair, search):
                dice = random.Random(repr((seed, pair, search)))
                return dice.choice([None] * 12 + [(), "told\n", Fault("none")])

            plain, joins = self.joins(rows), self.joins(rows)
            by_rounds(plain, answer, [Seek(("one",)), Seek(("other",))])
            joins.try_all(in_any_order(answer, random.Random(seed)), [Seek(("one",)), Seek(("other",))])
            same = [{key: turns for key, turns in one.same.items() if len(turns) > 1} for one in (joins, plain)]
            self.assertEqual(*same)
            self.assertEqual((joins.above, joins.verdicts, joins.by, joins.loops, joins.vain, joins.left),
                             (plain.above, plain.verdicts, plain.by, plain.loops, plain.vain, set()))

    def test_what_a_try_found_is_read_as_it_was_written(self):
        for found in (None, (), (("shift", "rows", 1), ("stabilise", 0, "x", "lowleft")), "certificate 3\ndifferent linking\n"):
            self.assertEqual(found_in(found_in_words(found)), found)


class NoSearch(Worker):
    """A worker without programs, whose searches find nothing."""

    def __init__(self, aims):
        self.knot, self.seek, self.reducer, self.table, self.aims = "knot", "seek", plain_reducer(), self, aims

    def answered(self, path, words, text, also=()):
        return 1, ""

    def candidates(self, row):
        return row

    def grid(self, parts):
        return self.aims[parts]


class Answering(Worker):
    """A worker whose programs answer a search by its words with moves, or find nothing."""

    def __init__(self, answers):
        self.knot, self.seek, self.answers, self.asked = "knot", "seek", answers, []

    def answered(self, path, words, text, also=()):
        self.asked.append(words)
        moves = next((moves for mark, moves in self.answers.items() if mark in words), None)
        return (1, "unknown budget 1\n") if moves is None else (0, f"equal {len(moves)}\n" + "".join(f"{move}\n" for move in moves))


class WorkerTest(unittest.TestCase):
    def test_the_shortest_list_is_taken_of_searches_behind_one_that_joined_a_pair(self):
        aim = made(TREFOIL, ("shift", "rows", 1))
        three, one = ["shift rows 3", "shift rows 2", "shift rows 1"], ["shift rows 1"]
        for answers, found, count in (({"--seed=1": three, "--seed=3": one, "decide": three}, (("shift", "rows", 1),), 4),
                                      ({"--seed=1": one, "decide": three}, (("shift", "rows", 1),), 4), ({"--seed=2": one}, None, 1)):
            worker = Answering(answers)
            self.assertEqual(SHORTEST[0].find(worker, TREFOIL, aim), found)
            self.assertEqual(len(worker.asked), count)

    def test_a_class_has_the_name_of_a_diagram_that_leads_to_one_of_its_keys(self):
        eight = (("8_20", TURNS[1]),)
        aim, other = closure(Braid(3, [1, 1, 1, -2, -1, -1, -1, -2]))[0], TREFOIL
        there = plain_reducer().of_grid(aim)
        # As if a search had joined this key, mirrored, to the first.
        first = after(TURNS[1].of(grid_of_form(there.key)), [("stabilise", 2, "x", "lowleft")])
        ways = {there.key: (TURNS[1], [("stabilise", 2, "x", "lowleft")])}
        key = bytes(first.xs + first.os)
        with mock.patch("lib.sorting.worker_classes.table_at", lambda worker: worker):
            for known in (ways, {}):
                found = find_name(NoSearch({eight: aim, (("3_1", SAME),): other}), (key, [(("3_1", SAME),), eight], known))
                if not known:
                    self.assertEqual(found, (key, None))
                    continue
                turn = there.turn.then(TURNS[1])
                self.assertEqual(found, (key, Named((("8_20", TURNS[1].then(turn)),), turn.of(aim), found[1].moves)))
                self.assertEqual(after(first, found[1].moves), turn.of(aim))

    def test_a_signal_behind_the_end_of_a_program_leaves_no_traceback(self):
        script = ("import os, subprocess, sys; sys.path.insert(0, sys.argv[1]); from lib.calls.pools import end_worker\n"
                  "from knot_workbench.programs import CALLER\n"
                  "gone = subprocess.Popen([sys.executable, '-c', '']); os.waitpid(gone.pid, 0); CALLER._running.add(gone); end_worker()")
        done = common.call([sys.executable, "-B", "-c", script, common.TOOLS])
        self.assertEqual((done.returncode, done.stdout, done.stderr), (1, "", ""))


class LinesTest(unittest.TestCase):
    def test_lines_in_one(self):
        self.assertEqual(in_lines(in_one_line("x 0 1\no 1 0\n")), "x 0 1\no 1 0\n")


if __name__ == "__main__":
    unittest.main()
