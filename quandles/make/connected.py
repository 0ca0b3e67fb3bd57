"""Connected quandles up to the largest order: how they are made, and which are isomorphic. quandles.py writes them."""
import itertools
import math
import os
from collections import namedtuple

from extensions import classes_of_twisted_cocycles, extension, twisted_sums
from fields import fields, is_irreducible, polynomial_name, times_t
from groups import conjugacy_class, cycle_lengths, element_name, group_of, groups, inverse, larger_groups, permutation_of, reflection_groups, times
from lib.cocycles import linear
from lib.cocycles.cohomology import classes_of_cocycles, covering
from knot_workbench.quandles import alexander, quandle_fault, quandle_of, tetrahedral
from knot_workbench.weighing import is_connected

# The largest order whose tables are made.
LARGEST = 32

# Up to this order the larger groups, the extensions and the stored translations aren't wanted.
SMALL = 16

# The quandles that nothing else makes, by some of their translations.
TRANSLATIONS = os.path.join(os.path.dirname(os.path.abspath(__file__)), "translations.txt")

# How many connected quandles there are of each order, up to isomorphism (Vendramin 2012; Hulpke, Stanovský and Vojtěchovský 2016).
CONNECTED_COUNTS = {1: 1, 2: 0, 3: 1, 4: 1, 5: 3, 6: 2, 7: 5, 8: 3, 9: 8, 10: 1, 11: 9, 12: 10, 13: 11, 14: 0, 15: 7, 16: 9,
         17: 15, 18: 12, 19: 17, 20: 10, 21: 9, 22: 0, 23: 21, 24: 42, 25: 34, 26: 0, 27: 65, 28: 13, 29: 27, 30: 24, 31: 29, 32: 17}

# A table, and what it is; `short` is a name that the program knows, or None.
Found = namedtuple("Found", "table comment short")


# What a table is like

def colour_marks(table):
    """What a bijection that keeps the operation and colour 0 keeps of each colour: the cycles of both translations' product, and how many both span."""
    columns = list(zip(*table))
    return [(cycle_lengths([column[place] for place in columns[0]]), len(spanned(table, (0, y)))) for y, column in enumerate(columns)]


def invariant(table):
    """Numbers that isomorphic connected quandles share."""
    # In a connected quandle all colours look alike, so what is seen from colour 0 is enough.
    columns = list(zip(*table))
    return len(table), cycle_lengths(columns[0]), len(set(columns)), tuple(sorted(colour_marks(table)))


def spanned(table, colours):
    """The colours that products make of some."""
    found = list(dict.fromkeys(colours))
    known = set(found)
    for x in found:
        for y in list(found):
            for z in (table[x][y], table[y][x]):
                if z not in known:
                    known.add(z)
                    found.append(z)
        if len(found) == len(table):
            break
    return found


def generators(table):
    """Few colours that span all, beginning with 0."""
    chosen = [0]
    while len(spanned(table, chosen)) < len(table):
        chosen.append(max(range(len(table)), key=lambda y: len(spanned(table, chosen + [y]))))
    return chosen


def extended(first, second, images):
    """The bijection from the first table to the second that goes on from some images, or None."""
    image, waiting = dict(images), list(images)
    while waiting:
        x = waiting.pop()
        for y in list(image):
            for a, b in ((x, y), (y, x)):
                z, target = first[a][b], second[image[a]][image[b]]
                if z not in image:
                    image[z] = target
                    waiting.append(z)
                elif image[z] != target:
                    return None
    return image if len(set(image.values())) == len(first) else None


def are_isomorphic(first, second):
    """Whether some bijection of connected quandles keeps the operation. One that does can be had with the image 0 of 0."""
    if len(first) != len(second):
        return False
    chosen, marks, others = generators(first), colour_marks(first), colour_marks(second)
    images = [[y for y, mark in enumerate(others) if mark == marks[colour]] for colour in chosen[1:]]
    return any(extended(first, second, dict(zip(chosen, (0, *rest)))) is not None for rest in itertools.product(*images))


def dual(table):
    """The quandle with ◁ in place of ▷."""
    return [list(row) for row in quandle_of("", table).back]


# Alexander quandles

def alexander_tables(order):
    """Over the integers mod n: x ▷ y = t x + (1 - t) y, connected where t and 1 - t have inverses."""
    for factor in range(2, order):
        quandle = alexander(order, factor)
        if not quandle_fault(quandle.over) and is_connected(quandle.over):
            name = f"dihedral {order}" if factor == order - 1 else f"alexander {order} {factor}"
            yield Found(quandle.over, f"Alexander over the integers mod {order} with t = {factor}", name)


def polynomial_tables(modulus, degree):
    """Over the integers mod n with a root t of a polynomial: a field where n is prime and the polynomial has no factor."""
    vectors = list(itertools.product(range(modulus), repeat=degree))
    index = {vector: place for place, vector in enumerate(vectors)}
    for coefficients in itertools.product(range(modulus), repeat=degree):
        turned = [times_t(vector, coefficients, modulus) for vector in vectors]
        if len(set(turned)) < len(vectors):
            continue
        table = []
        for x, turned_x in zip(vectors, turned):
            row = []
            for y, turned_y in zip(vectors, turned):
                row.append(index[tuple((a + b - c) % modulus for a, b, c in zip(turned_x, y, turned_y))])
            table.append(row)
        if is_connected(table):
            yield Found(table, polynomial_comment(modulus, degree, coefficients), None)


def polynomial_comment(modulus, degree, coefficients):
    name = polynomial_name(coefficients)
    if linear.prime_of(modulus) == modulus and is_irreducible(modulus, coefficients):
        return f"Alexander over the field of {modulus ** degree} elements, t a root of {name} mod {modulus}"
    return f"Alexander over the integers mod {modulus} with a root t of {name}"


# Classes of groups

def class_tables(name, gens, elements=None):
    """The connected quandles among the classes of a group, or of some of its elements: x ▷ y = y^-1 x y."""
    done = set()
    for element in elements or group_of(gens):
        if element in done:
            continue
        found = conjugacy_class(element, gens, LARGEST)
        if found is None:
            continue
        done.update(found)
        index = {x: place for place, x in enumerate(found)}
        table = [[index[times(times(inverse(y), x), y)] for y in found] for x in found]
        if len(table) > 1 and is_connected(table):
            yield Found(table, f"class of {element_name(element)} in {name}", None)


# By translations

def translation_table(translations):
    """The quandle of the translations of colours that span it: that of x ▷ y is the conjugate of that of x by that of y."""
    known = dict(translations)
    waiting = list(known)
    for x in waiting:
        for y in list(known):
            for a, b in ((x, y), (y, x)):
                if known[b][a] not in known:
                    known[known[b][a]] = times(times(inverse(known[b]), known[a]), known[b])
                    waiting.append(known[b][a])
    return [[known[y][x] for y in range(len(known))] for x in range(len(known))]


def stored_tables():
    """The quandles of the file of translations."""
    with open(TRANSLATIONS, encoding="utf-8") as text:
        lines = [line for line in text.read().splitlines() if line and not line.startswith("#")]
    for line in lines:
        head, *parts = line.split("; ")
        order, number, size = (int(word) for word in head.split())
        translations = {}
        for part in parts:
            colour, cycles = part.split(" ", 1)
            translations[int(colour)] = permutation_of(order, cycles)
        comment = f"by translations of order {math.lcm(*cycle_lengths(translations[0]))} in the transitive group {order}T{number} of order {size}"
        yield Found(translation_table(translations), comment, None)


# What is made of smaller ones

def products(first, second):
    """Pairs, side by side."""
    size = len(second.table)
    pairs = list(itertools.product(range(len(first.table)), range(size)))
    table = [[first.table[a][c] * size + second.table[b][d] for c, d in pairs] for a, b in pairs]
    return table


def quaternion_table():
    """The eight quaternion units with their turn f of order 3 (i to j to k to i): x ▷ y = f(x y^-1) y."""
    # A unit is (sign, place) of 1, i, j, k.
    units = [(sign, place) for place in range(4) for sign in (1, -1)]

    def product(a, b):
        sign, x, y = a[0] * b[0], a[1], b[1]
        if 0 in (x, y):
            return sign, x + y
        if x == y:
            return -sign, 0
        return (sign if (y - x) % 3 == 1 else -sign), 6 - x - y

    def inverse_of(a):
        return (a[0], 0) if a[1] == 0 else (-a[0], a[1])

    def turned(a):
        return a[0], a[1] % 3 + 1 if a[1] else 0

    return [[units.index(product(turned(product(x, inverse_of(y))), y)) for y in units] for x in units]


def galkin_table(moduli, shift):
    """Galkin's quandle of a sum of cyclic groups and an element of it (Clark, Elhamdadi, Hou, Saito, Yeatman 2013), of three times their order:
    (x, a) ▷ (y, b) = (2y - x, m b - a + s) with x and y mod 3, where m is 2 for x = y and -1 else, and s is the element for x = y + 2, else 0.
    """
    elements = list(itertools.product(*(range(modulus) for modulus in moduli)))
    pairs = [(x, a) for x in range(3) for a in elements]
    index = {pair: place for place, pair in enumerate(pairs)}

    def product(first, second):
        (x, a), (y, b) = first, second
        factor = 2 if x == y else -1
        moved = shift if (x - y) % 3 == 2 else (0,) * len(moduli)
        return (2 * y - x) % 3, tuple((factor * right - left + by) % modulus for left, right, by, modulus in zip(a, b, moved, moduli))

    return [[index[product(first, second)] for second in pairs] for first in pairs]


def coverings(base, name, modulus):
    """The connected ones among the coverings by sums of the classes of cocycles."""
    classes = classes_of_cocycles(base, modulus)
    for factors in itertools.product(range(modulus), repeat=len(classes)):
        vector = {}
        for factor, cocycle in zip(factors, classes):
            linear.add_multiple(vector, factor, cocycle, modulus)
        table = covering(base, vector, modulus)
        if vector and is_connected(table):
            yield Found(table, f"covering of {name} by a cocycle mod {modulus}", None)


def extensions(base, name, size):
    """The connected ones among the extensions by a field that are not products."""
    spanning = generators(base)
    for prime, coefficients in fields(size):
        comment = f"extension of {name} by the field of {size} elements, t a root of {polynomial_name(coefficients)} mod {prime}"
        if len(coefficients) == 1:
            comment = f"extension of {name} by the integers mod {prime} with t = {-coefficients[0] % prime}"
            if coefficients == (prime - 1,):
                comment = f"covering of {name} by a cocycle mod {prime}"
        classes = classes_of_twisted_cocycles(base, spanning, prime, coefficients)
        for vector in twisted_sums(classes, prime):
            table = extension(base, vector, prime, coefficients)
            if is_connected(table):
                yield Found(table, comment, None)


# All of them

def connected_candidates(order, smaller):
    """Connected quandles of an order, those first whose comment says most; isomorphic ones may come more than once."""
    if order == 1:
        yield Found([[0]], "the only one", "trivial 1")
    yield from alexander_tables(order)
    if order == 4:
        yield Found(tetrahedral().over, "tetrahedral: class of (0 1 2) in the alternating group of 4", "tetrahedral")
    for modulus in (2, 3, 4, 5):
        for degree in (2, 3, 4, 5):
            if modulus ** degree == order:
                yield from polynomial_tables(modulus, degree)
    yield from smaller.classes.get(order, [])
    if order == 8:
        yield Found(quaternion_table(), "the quaternion units with x ▷ y = f(x y^-1) y, f turning i to j to k", None)
    for low in range(3, order):
        if order % low == 0 and low <= order // low:
            for (a, first), (b, second) in itertools.product(enumerate(smaller.found[low], 1), enumerate(smaller.found[order // low], 1)):
                yield Found(products(first, second), f"product of number {a} of order {low} and number {b} of order {order // low}", None)
    for base in range(3, order // 2 + 1):
        if order % base == 0:
            for number, found in enumerate(smaller.found[base], 1):
                if order > SMALL:
                    yield from extensions(found.table, f"number {number} of order {base}", order // base)
                elif order // base <= 5:
                    yield from coverings(found.table, f"number {number} of order {base}", order // base)
    if order == 12:
        yield Found(galkin_table((2, 2), (0, 1)), "Galkin's quandle of the sum of two groups of order 2 and its element (0, 1)", None)
    yield from smaller.stored.get(order, [])


def by_order(every):
    """Lists of what was found, by order."""
    lists = {}
    for found in every:
        lists.setdefault(len(found.table), []).append(found)
    return lists


class Collection:
    """`found[order]`: the connected quandles of an order, no two isomorphic."""

    def __init__(self, largest=LARGEST):
        made = [class_tables(name, gens) for name, gens in groups()]
        stored = []
        if largest > SMALL:
            made += [class_tables(name, gens) for name, gens in larger_groups()]
            made += [class_tables(name, gens, gens[:1]) for name, gens in reflection_groups(SMALL + 1, LARGEST)]
            stored = stored_tables()
        self.classes, self.stored = by_order(itertools.chain(*made)), by_order(stored)
        self.found, self.marks = {}, {}
        for order in range(1, largest + 1):
            self.found[order], self.marks[order] = [], []
            for found in connected_candidates(order, self):
                if self.place_of(found.table) is None:
                    fault = quandle_fault(found.table)
                    assert fault is None, (found.comment, fault)
                    self.marks[order].append(invariant(found.table))
                    self.found[order].append(found)

    def place_of(self, table):
        """The place of the quandle in its order that is isomorphic to a connected one, or None."""
        mark, order = invariant(table), len(table)
        return next((place for place, (other, found) in enumerate(zip(self.marks[order], self.found[order]))
                     if mark == other and are_isomorphic(found.table, table)), None)

    def dual_of(self, order, place):
        """The place of the dual of a quandle in its order."""
        return self.place_of(dual(self.found[order][place].table))
