"""Tests of python/knot_workbench/codes/planar.py: the PD codes that are made of DT codes and of passages, by invariants that are computed here."""
import importlib
import itertools
import random
import unittest

importlib.import_module("common")  # (it knows where the scripts are)
import knot_invariants
from lib.codes import crossing_codes
from knot_workbench import diagrams
from knot_workbench.codes import BadCode, planar

# DT codes as tables have them, and braid words of these knots and links.
KNOTS = (
    ([[4, 6, 2]], (2, (1, 1, 1))),
    ([[4, 6, 8, 2]], (3, (1, -2, 1, -2))),
    ([[6, 8, 10, 2, 4]], (2, (1, 1, 1, 1, 1))),
    ([[4, 8, 10, 2, 6]], (3, (1, 1, 1, 2, -1, 2))),
    ([[4, 8, -12, 2, -14, -16, -6, -10]], (3, (1, 1, 1, 2, 1, 1, 1, 2))),
    ([[4], [2]], (2, (1, 1))),
)


def code_of(strands, letters):
    grid = diagrams.closure(diagrams.Braid(strands, tuple(letters)))[0]
    return crossing_codes.read_code(knot_invariants.code_of_grid(*map(list, grid)))


def signs_of(rows):
    """Of rows whose edges ascend along the components, the sign of each crossing: the strand above goes to the next edge."""
    after = {}
    for component in strands_of(rows):
        after.update(zip(component, component[1:] + component[:1]))
    return [1 if after[l] == j and (after[j] != l or l < j) else -1 for _, j, _, l in rows]


def strands_of(rows):
    """The edges of each component, in ascending order."""
    joined = {}
    for i, j, k, l in rows:
        for one, other in ((i, k), (j, l)):
            merged = joined.get(one, {one}) | joined.get(other, {other})
            joined.update(dict.fromkeys(merged, merged))
    return [sorted(edges) for edges in {min(edges): edges for edges in joined.values()}.values()]


def faces_of(rows):
    """How many faces the rows have, round each edge from either side."""
    ends, other = {}, {}
    for crossing, row in enumerate(rows):
        for slot, edge in enumerate(row):
            ends.setdefault(edge, []).append((crossing, slot))
    for one, two in ends.values():
        other[one], other[two] = two, one
    left, faces = set(other), 0
    while left:
        faces += 1
        at = next(iter(left))
        while at in left:
            left.remove(at)
            crossing, slot = other[at]
            at = crossing, (slot + 3) % 4
    return faces


def parts_of(code):
    """How many connected parts the crossings of a code have."""
    parts = []
    for passages in code.components:
        met = {crossing for _, crossing, _ in passages}
        parts = [part for part in parts if not part & met] + [met.union(*(part for part in parts if part & met))]
    return len(parts)


def mirrored(polynomial):
    return {-power: coefficient for power, coefficient in polynomial.items()}


class DTCodes(unittest.TestCase):
    def test_knots_of_tables(self):
        for dt, braid in KNOTS:
            with self.subTest(dt):
                made = planar.rows_of_dt(dt)
                found = knot_invariants.jones_of_rows(made.rows, signs_of(made.rows))
                wanted = knot_invariants.jones_polynomial(*braid)
                self.assertIn(found, (wanted, mirrored(wanted)))
                self.assertEqual(made.parts, 1)
                self.assertEqual(planar.components_of_code(made.rows), len(dt))

    def test_a_sum_has_a_part_for_each_summand(self):
        self.assertEqual(planar.rows_of_dt([[4, 6, 2, 10, 12, 8]]).parts, 2)

    def test_what_is_no_code_is_refused(self):
        for components, reason in (([[4, 6]], "each even number from 2 to 4 once"), ([[3, 1, 2]], "each even number from 2 to 6 once"),
                                   ([[4, 6, 8, 10, 2]], "no diagram in the plane has this code")):
            with self.subTest(components):
                self.assertRaisesRegex(BadCode, reason, planar.rows_of_dt, components)

    def test_a_code_is_refused_exactly_where_no_turn_of_its_crossings_lies_in_the_plane(self):
        refused = 0
        for evens in itertools.permutations(range(2, 11, 2)):
            passages = sorted([(2 * crossing + 1, crossing, planar.OVER) for crossing in range(5)]
                              + [(even, crossing, planar.UNDER) for crossing, even in enumerate(evens)])
            edges = {(crossing, way): (place, place % 10 + 1) for place, crossing, way in passages}
            turns = ([[i, l, k, j], [i, j, k, l]] for (i, k), (j, l) in ((edges[c, planar.UNDER], edges[c, planar.OVER]) for c in range(5)))
            lies = any(faces_of(rows) == 7 for rows in itertools.product(*turns))
            try:
                made = planar.rows_of_dt([list(evens)])
                self.assertTrue(lies, evens)
                self.assertEqual(faces_of(made.rows), 7, evens)
            except BadCode:
                self.assertFalse(lies, evens)
                refused += 1
        self.assertEqual(refused, 7)


class Passages(unittest.TestCase):
    def test_random_diagrams_are_embedded_in_the_plane(self):
        dice = random.Random(11)
        for _ in range(60):
            strands = dice.randint(2, 5)
            letters = [dice.choice((-1, 1)) * dice.randint(1, strands - 1) for _ in range(dice.randint(1, 11))]
            code = code_of(strands, letters)
            passages = [[(crossing - 1, planar.OVER if is_over else planar.UNDER) for is_over, crossing, _ in component] for component in code.components]
            made = planar.embedded(passages)
            self.assertEqual(faces_of(made.rows), len(made.rows) + 2 * parts_of(code), letters)
            self.assertGreaterEqual(made.parts, parts_of(code))
            # The passages are those that were given.
            for row, (crossing, below) in zip(made.rows, sorted(self.edges_below(passages).items())):
                self.assertEqual((row[0], row[2]), below, (letters, crossing))

    def edges_below(self, passages):
        """By crossing the edges by which the strand below comes and leaves, numbered along the components from 1."""
        found, base = {}, 0
        for component in passages:
            for place, (crossing, way) in enumerate(component):
                if way == planar.UNDER:
                    found[crossing] = (base + place + 1, base + (place + 1) % len(component) + 1)
            base += len(component)
        return found

    def test_prime_diagrams_come_back_up_to_the_mirror_image(self):
        for strands, letters in ((3, (1, 1, 1, -2, 1, -2)), (3, (1, -2, 1, -2)), (2, (1, 1, 1, 1)), (4, (1, 1, 2, -1, -3, 2, -3))):
            code = code_of(strands, letters)
            made = planar.embedded([[(crossing - 1, int(is_over)) for is_over, crossing, _ in component] for component in code.components])
            wanted = knot_invariants.jones_polynomial(strands, letters)
            self.assertEqual(made.parts, 1)
            self.assertIn(knot_invariants.jones_of_rows(made.rows, signs_of(made.rows)), (wanted, mirrored(wanted)))


class Texts(unittest.TestCase):
    def test_the_text_is_a_code(self):
        self.assertEqual(planar.planar_text([(4, 1, 3, 2), [2, 3, 1, 4]], 1), "crossings 2\nX[4,1,3,2]\nX[2,3,1,4]\nloops 1\n")

    def test_components_are_counted(self):
        self.assertEqual(planar.components_of_code([[5, 3, 6, 2], [1, 5, 2, 4], [3, 1, 4, 6]]), 1)
        self.assertEqual(planar.components_of_code([[4, 1, 3, 2], [2, 3, 1, 4]]), 2)
        self.assertEqual(planar.components_of_code([[1, 1, 2, 2]]), 1)
        self.assertEqual(planar.components_of_code([]), 0)


if __name__ == "__main__":
    unittest.main()
