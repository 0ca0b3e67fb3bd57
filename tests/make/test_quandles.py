"""The tables of connected quandles, the table of knots, and how many of its pairs the lists distinguish."""
import itertools
import os
import re
import subprocess
import tempfile
import unittest

import making
import common
import connected
import extensions
import fields
import groups
import knot_invariants
import quandles
from knot_workbench import colourings, diagrams, quandles as knot_quandles, texts

# Half of each symmetric polynomial up to its middle, as printed in Rolfsen's Knots and Links (1976), with the first coefficient positive.
ALEXANDER = {
    "3_1": "1 -1", "4_1": "1 -3", "5_1": "1 -1 1", "5_2": "2 -3", "6_1": "2 -5", "6_2": "1 -3 3", "6_3": "1 -3 5", "7_1": "1 -1 1 -1",
    "7_2": "3 -5", "7_3": "2 -3 3", "7_4": "4 -7", "7_5": "2 -4 5", "7_6": "1 -5 7", "7_7": "1 -5 9", "8_1": "3 -7", "8_2": "1 -3 3 -3",
    "8_3": "4 -9", "8_4": "2 -5 5", "8_5": "1 -3 4 -5", "8_6": "2 -6 7", "8_7": "1 -3 5 -5", "8_8": "2 -6 9", "8_9": "1 -3 5 -7",
    "8_10": "1 -3 6 -7", "8_11": "2 -7 9", "8_12": "1 -7 13", "8_13": "2 -7 11", "8_14": "2 -8 11", "8_15": "3 -8 11", "8_16": "1 -4 8 -9",
    "8_17": "1 -4 8 -11", "8_18": "1 -5 10 -13", "8_19": "1 -1 0 1", "8_20": "1 -2 3", "8_21": "1 -4 5",
}
DETERMINANTS = [3, 5, 5, 7, 9, 11, 13, 7, 11, 13, 15, 17, 19, 21, 13, 17, 17, 19, 21, 23, 23, 25, 25, 27, 27, 29, 29, 31, 33, 35, 37, 45, 3, 9, 15]
# As tables of knots have them, without their signs, which depend on the mirror image.
SIGNATURES = [2, 0, 4, 2, 0, 2, 0, 6, 2, 4, 2, 4, 2, 0, 0, 4, 0, 2, 4, 2, 2, 0, 0, 2, 2, 0, 0, 2, 4, 2, 0, 0, 6, 0, 2]
NOT_ALTERNATING = ("8_19", "8_20", "8_21")


# How many connected quandles there are, by order from 1 (Vendramin 2012).
HOW_MANY = [1, 0, 1, 1, 3, 2, 5, 3, 8, 1, 9, 10, 11, 0, 7, 9, 15, 12, 17, 10, 9, 0, 21, 42, 34, 0, 65, 13, 27, 24, 29, 17]


def polynomial(name):
    half = [int(entry) for entry in ALEXANDER[name].split()]
    return half + half[-2::-1]


def cycle_type(table, colour):
    """How often each length of cycle is there in a translation, counted by colours."""
    lengths = []
    for start in range(len(table)):
        length, x = 1, table[start][colour]
        while x != start:
            length, x = length + 1, table[x][colour]
        lengths.append(length)
    return sorted(lengths)


def derived_from(table, spanning):
    """The colours that some span as (z, x, y), z = x ▷ y, with x and y before z."""
    known, seen, steps = list(spanning), set(spanning), []
    for y in known:
        for x in list(known):
            for z, step in ((table[x][y], (x, y)), (table[y][x], (y, x))):
                if z not in seen:
                    seen.add(z)
                    known.append(z)
                    steps.append((z, *step))
    return steps


def derivation(table):
    """Colours that span a connected quandle, 0 first, and how the others come from them."""
    spanning, steps = (0,), []
    while len(spanning) + len(steps) < len(table):
        tried = {}
        for y in set(range(len(table))) - set(spanning):
            tried[y] = derived_from(table, (*spanning, y))
            if len(spanning) + 1 + len(tried[y]) == len(table):
                break
        best = max(tried, key=lambda y: len(tried[y]))
        spanning, steps = (*spanning, best), tried[best]
    return spanning, steps


def bijections(table, derived, other):
    """Bijections from a connected quandle to another one that keep the operation and take 0 to 0, by the images of the spanning colours."""
    order, (spanning, steps) = len(table), derived
    for images in itertools.permutations(range(1, order), len(spanning) - 1):
        image = dict(zip(spanning, (0, *images)))
        taken = set(image.values())
        for z, x, y in steps:
            image[z] = other[image[x]][image[y]]
            if image[z] in taken:
                break
            taken.add(image[z])
        else:
            if all(image[table[x][y]] == other[image[x]][image[y]] for x in range(order) for y in range(order)):
                yield image


class Files(unittest.TestCase):
    """The stored tables, by means that are not those of the scripts."""

    @classmethod
    def setUpClass(cls):
        cls.tables, cls.comments, cls.derived = {}, {}, {}
        for order, many in enumerate(HOW_MANY, 1):
            if order > 1 and many:
                text = common.read("quandles", f"connected-{order:02}.txt")
                lines = texts.Lines(text)
                cls.tables[order] = [[list(row) for row in quandle.over] for quandle in texts.read_quandles(lines)]
                lines.done()
                cls.comments[order] = re.findall(r"^# (\d+), number (\d+): .*; (?:its own dual|dual of number (\d+))$", text, re.MULTILINE)
                cls.derived[order] = [derivation(table) for table in cls.tables[order]]

    def alike(self, order, place, other):
        return next(bijections(self.tables[order][place], self.derived[order][place], other), None) is not None

    def test_there_are_as_many_as_are_known(self):
        self.assertEqual(connected.CONNECTED_COUNTS, dict(enumerate(HOW_MANY, 1)))
        self.assertEqual(len(HOW_MANY), connected.LARGEST)
        self.assertEqual({order: len(tables) for order, tables in self.tables.items()},
                         {order: many for order, many in enumerate(HOW_MANY, 1) if order > 1 and many})

    def test_each_is_a_connected_quandle_of_its_order(self):
        for order, tables in self.tables.items():
            for table in tables:
                self.assertEqual(len(table), order)
                self.assertIsNone(knot_quandles.quandle_fault(table))
                reached = {0}
                while not reached >= {z for x in reached for z in table[x]}:
                    reached |= {z for x in reached for z in table[x]}
                self.assertEqual(len(reached), order)

    def test_no_two_of_an_order_are_isomorphic(self):
        for order, tables in self.tables.items():
            types = [cycle_type(table, 0) for table in tables]
            for one, two in itertools.combinations(range(len(tables)), 2):
                if types[one] == types[two]:
                    self.assertFalse(self.alike(order, one, tables[two]), (order, one + 1, two + 1))

    def test_the_comments_name_the_duals(self):
        for order, tables in self.tables.items():
            self.assertEqual([comment[:2] for comment in self.comments[order]], [(str(order), str(place + 1)) for place in range(len(tables))])
            for place, comment in enumerate(self.comments[order]):
                dual = [[0] * order for _ in range(order)]
                for x, y in itertools.product(range(order), repeat=2):
                    dual[tables[place][x][y]][y] = x
                self.assertTrue(self.alike(order, int(comment[2] or place + 1) - 1, dual), (order, place + 1))

    def test_the_program_takes_the_large_ones_and_counts_alike(self):
        program = common.built_program()
        if program is None:
            self.skipTest("no program: set KNOT")
        braid = diagrams.Braid(3, (1, -2, 1, -2))
        for order, tables in self.tables.items():
            if order > 16:
                taken = [knot_quandles.quandle_of(f"table {order}", table) for table in tables[:knot_quandles.MAX_QUANDLES]]
                text = "braid 3 1 -2 1 -2\n" + "".join(map(knot_quandles.quandle_text, taken))
                run = subprocess.run([program, "close"], input=text, capture_output=True, text=True, check=False)
                counted = [int(line.split()[1]) for line in run.stdout.splitlines() if line.startswith("list")]
                self.assertEqual(counted, [quandles.count_of(quandle, braid) for quandle in taken], order)


class Constructions(unittest.TestCase):
    def test_cycles_are_read_as_they_are_written(self):
        for element in groups.group_of([groups.swap(5, (0, 1)), groups.cycle(5, 0, 1, 2, 3, 4)])[1:]:
            self.assertEqual(groups.permutation_of(5, groups.element_name(element)), element)

    def test_orders_of_the_larger_groups(self):
        self.assertEqual([len(groups.group_of(gens)) for _, gens in groups.larger_groups()], [168, 336, 168])

    def test_reflection_groups_have_their_orders_and_reflections(self):
        # G(m, m, n) has m^(n-1) n! elements (Shephard and Todd 1954).
        for copies, axes, order in ((1, 4, 24), (2, 3, 24), (3, 3, 54), (5, 3, 150), (2, 4, 192)):
            gens = groups.reflection_group(copies, axes)
            self.assertEqual(len(groups.group_of(gens)), order)
            self.assertEqual(len(groups.conjugacy_class(gens[0], gens, 99)), copies * axes * (axes - 1) // 2)

    def test_roots_in_fields_are_counted(self):
        # As many polynomials without a factor as Gauss's formula says, less t itself.
        self.assertEqual([len(list(fields.fields(size))) for size in (2, 3, 4, 5, 6, 7, 8, 9, 16, 25, 27, 32)], [1, 2, 1, 4, 0, 6, 2, 3, 3, 10, 8, 6])

    def test_translations_of_spanning_colours_give_the_table_back(self):
        for found in connected.Collection(9).found[9]:
            columns = list(zip(*found.table))
            spanning = connected.generators(found.table)
            self.assertEqual(connected.translation_table({colour: columns[colour] for colour in spanning}), [list(row) for row in found.table])

    def test_stored_translations_are_all_wanted(self):
        stored = connected.by_order(connected.stored_tables())
        self.assertEqual(list(stored), [18, 20, 21, 24, 28, 30])
        for order, every in stored.items():
            text = common.read("quandles", f"connected-{order:02}.txt")
            self.assertEqual(re.findall(r": (by translations of order .*); ", text), [found.comment for found in every])

    def test_twisted_cocycles_make_quandles_and_coboundaries_are_among_them(self):
        collection = connected.Collection(6)
        for order, prime, coefficients in ((3, 2, (1, 1)), (4, 2, (1, 1)), (4, 3, (1,)), (5, 2, (1,)), (6, 3, (1,)), (6, 3, (2,))):
            for found in collection.found[order]:
                spanning = connected.generators(found.table)
                cocycles = extensions.twisted_cocycles(found.table, spanning, prime, coefficients)
                span = extensions.linear.Span(prime)
                for vector in cocycles:
                    table = extensions.extension(found.table, vector, prime, coefficients)
                    self.assertIsNone(knot_quandles.quandle_fault(table))
                    span.put(vector)
                for vector in extensions.twisted_coboundaries(found.table, prime, coefficients):
                    self.assertTrue(span.has(vector))

    def test_a_coboundary_makes_what_no_cocycle_makes(self):
        base = connected.Collection(6).found[6][0].table
        plain = extensions.extension(base, {}, 3, (1,))
        for vector in itertools.islice(extensions.twisted_coboundaries(base, 3, (1,)), 3):
            self.assertTrue(connected.are_isomorphic(plain, extensions.extension(base, vector, 3, (1,))))

    def test_classes_of_twisted_cocycles_with_t_1_are_those_of_cocycles(self):
        collection = connected.Collection(8)
        for order in (4, 6, 8):
            for found in collection.found[order]:
                twisted = extensions.classes_of_twisted_cocycles(found.table, connected.generators(found.table), 2, (1,))
                self.assertEqual(len(twisted), len(connected.classes_of_cocycles(found.table, 2)))


class Tables(unittest.TestCase):
    @classmethod
    def setUpClass(cls):
        cls.collection = connected.Collection()

    def test_all_connected_quandles_are_reached(self):
        self.assertEqual({order: len(found) for order, found in self.collection.found.items()}, connected.CONNECTED_COUNTS)

    def test_none_is_isomorphic_to_another_by_every_bijection_of_small_ones(self):
        for order in range(3, 8):
            for one, two in itertools.combinations(self.collection.found[order], 2):
                for image in itertools.permutations(range(order)):
                    self.assertFalse(all(image[one.table[x][y]] == two.table[image[x]][image[y]] for x in range(order) for y in range(order)))

    def test_a_quandle_with_its_colours_renamed_is_found_to_be_isomorphic(self):
        for found in self.collection.found[12]:
            image = [(5 * colour + 7) % 12 for colour in range(12)]
            other = [[0] * 12 for _ in range(12)]
            for x, y in itertools.product(range(12), repeat=2):
                other[image[x]][image[y]] = image[found.table[x][y]]
            self.assertEqual(connected.invariant(found.table), connected.invariant(other))
            self.assertTrue(connected.are_isomorphic(found.table, other))

    def test_the_names_of_the_program_are_their_tables(self):
        for found in itertools.chain(*self.collection.found.values()):
            if found.short:
                named = texts.read_quandle(texts.Lines(f"quandle {found.short}\n"))
                self.assertEqual([list(row) for row in named.over], [list(row) for row in found.table])

    def test_the_files_are_what_the_script_writes(self):
        with tempfile.TemporaryDirectory() as folder:
            quandles.write_tables(self.collection, folder)
            written = sorted(os.listdir(folder))
            self.assertEqual(written, sorted(name for name in os.listdir(common.LISTS) if name.startswith("connected-")))
            for name in written:
                with open(os.path.join(folder, name), encoding="utf-8") as text:
                    self.assertEqual(text.read(), common.read("quandles", name))

    def test_the_lists_can_be_read_and_hold_at_most_64(self):
        for name in ("list-short.txt", "list-one-of-each-pair.txt", "list-64.txt"):
            lines = texts.Lines(common.read("quandles", name))
            read = texts.read_quandles(lines)
            lines.done()
            self.assertLessEqual(len(read), knot_quandles.MAX_QUANDLES)
            self.assertLessEqual({quandle.over for quandle in knot_quandles.built_in_list()}, {quandle.over for quandle in read})
            self.assertEqual(len({quandle.over for quandle in read}), len(read))
            self.assertEqual([len(quandle.over) for quandle in read], sorted(len(quandle.over) for quandle in read))

    def test_the_program_reads_the_lists_and_counts_alike(self):
        program = common.built_program()
        if program is None:
            self.skipTest("no program: set KNOT")
        for name in ("list-short.txt", "list-one-of-each-pair.txt", "list-64.txt"):
            text = common.read("quandles", name)
            run = subprocess.run([program, "close"], input="braid 3 1 -2 1 -2\n" + text, capture_output=True, text=True, check=False)
            self.assertEqual(run.returncode, 0)
            counted = [int(line.split()[1]) for line in run.stdout.splitlines() if line.startswith("list")]
            braid = diagrams.Braid(3, (1, -2, 1, -2))
            self.assertEqual(counted, [quandles.count_of(quandle, braid) for quandle in texts.read_quandles(texts.Lines(text))])


class Knots(unittest.TestCase):
    def setUp(self):
        self.knots = quandles.read_braids(common.KNOTS)

    def test_the_words_close_to_knots_of_the_printed_polynomials(self):
        self.assertEqual([name for name, _ in self.knots], list(ALEXANDER))
        for (name, braid), determinant in zip(self.knots, DETERMINANTS):
            found = knot_invariants.alexander_polynomial(*braid)
            self.assertEqual(found, polynomial(name), name)
            self.assertEqual(abs(sum(entry * (-1) ** place for place, entry in enumerate(found))), determinant, name)

    def test_the_words_close_to_knots_of_the_printed_signatures(self):
        self.assertEqual(len(self.knots), len(SIGNATURES))
        for (name, braid), wanted in zip(self.knots, SIGNATURES):
            self.assertEqual(knot_invariants.alexander_by_seifert(*braid), polynomial(name), name)
            found = knot_invariants.signature(*braid)
            self.assertEqual(abs(found), wanted, name)
            self.assertEqual(knot_invariants.signature(braid.strands, [-letter for letter in braid.letters]), -found, name)

    def test_the_words_close_to_knots_of_their_crossing_numbers(self):
        # An alternating knot has as many crossings as its Jones polynomial spans, any other prime knot more (Kauffman, Murasugi, Thistlethwaite).
        for name, braid in self.knots:
            jones = knot_invariants.jones_polynomial(*braid)
            span, crossings = max(jones) - min(jones), int(name.split("_")[0])
            if name in NOT_ALTERNATING:
                self.assertLess(span, crossings, name)
                self.assertEqual(len(braid.letters), crossings, name)
            else:
                self.assertEqual(span, crossings, name)

    def test_8_20_and_8_21_are_not_the_sums_of_their_polynomials(self):
        jones = {name: knot_invariants.jones_polynomial(*braid) for name, braid in self.knots}
        for name, parts in (("8_20", ("3_1", "3_1")), ("8_21", ("3_1", "4_1"))):
            for first in (jones[parts[0]], {-power: entry for power, entry in jones[parts[0]].items()}):
                for second in (jones[parts[1]], {-power: entry for power, entry in jones[parts[1]].items()}):
                    self.assertNotEqual(knot_invariants.poly_times(first, second), jones[name])

    def test_pairs_told_apart_are_those_of_the_guide(self):
        lists = [os.path.join(common.LISTS, name) for name in ("list-short.txt", "list-one-of-each-pair.txt", "list-64.txt")]
        status, out, _ = making.run("quandles.py", "pairs", common.KNOTS, *lists)
        self.assertEqual(status, 0)
        told = [line.split(": ")[1] for line in out.splitlines() if "pairs distinguished" in line]
        self.assertEqual(told, ["5 quandles, 26 of 34 neighbours and 511 of 595 pairs distinguished",
                                "18 quandles, 34 of 34 neighbours and 587 of 595 pairs distinguished",
                                "53 quandles, 34 of 34 neighbours and 590 of 595 pairs distinguished",
                                "64 quandles, 34 of 34 neighbours and 590 of 595 pairs distinguished"])

    def test_counts_do_not_depend_on_the_first_colour(self):
        quandle = knot_quandles.quandle_of("", connected.Collection(6).found[6][1].table)
        for name, braid in self.knots[:6]:
            self.assertEqual(quandles.count_of(quandle, braid), len(colourings.fixed_points(braid, quandle)), name)


class Words(unittest.TestCase):
    def test_help_and_bad_input(self):
        self.assertEqual(making.run("quandles.py", "--help")[0], 0)
        self.assertEqual(making.run("quandles.py")[0], 2)
        self.assertEqual(making.run("quandles.py", "tables", "no such folder")[0], 2)
        for text in ("name,word\na,1\n", "name,braid\na,1 2\n", 'name,braid\na,"{1,0}"\n', 'name,braid\na,"{9}"\n'):
            with tempfile.NamedTemporaryFile("w", suffix=".csv") as table:
                table.write(text)
                table.flush()
                status, _, fault = making.run("quandles.py", "pairs", table.name)
            self.assertEqual(status, 1, text)
            self.assertTrue(fault.startswith(f"quandles.py: {table.name}: line "), fault)
        self.assertEqual(making.run("quandles.py", "pairs", "no such file"), (1, "", "quandles.py: no such file: No such file or directory\n"))
        with tempfile.NamedTemporaryFile("w", suffix=".txt") as bad:
            bad.write("quandle table 3\n0 2 0\n2 1 1\n1 0 2\n")
            bad.flush()
            status, _, fault = making.run("quandles.py", "pairs", common.KNOTS, bad.name)
        self.assertEqual(status, 1)
        self.assertTrue(fault.startswith(f"quandles.py: {bad.name}: line 4: "), fault)


    def test_a_table_may_have_other_titles(self):
        text = '\ufeffKnot,Braid Notation\n3_1,"{1,1,1}"\n4_1,"{1,-2,1,-2}"\n'
        with tempfile.NamedTemporaryFile("w", suffix=".csv", encoding="utf-8") as table:
            table.write(text)
            table.flush()
            status, out, fault = making.run("quandles.py", "pairs", table.name, "--name", "Knot", "--braid", "Braid Notation")
            self.assertEqual((status, fault), (0, ""))
            self.assertIn("1 of 1 pairs distinguished", out)
            status, _, fault = making.run("quandles.py", "pairs", table.name, "--name", "Knot")
            self.assertEqual(status, 1)
            self.assertIn(f"{table.name}: line 1: no column 'braid', but 'Knot', 'Braid Notation'; --braid names another one", fault)


if __name__ == "__main__":
    unittest.main()
