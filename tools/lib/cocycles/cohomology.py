"""Cocycles of a quandle mod a prime power, up to coboundaries, and the coverings that they make.

A vector is a square of numbers: the place of φ(x, y) is x * q + y, where q is the order.
"""
import itertools

from . import linear


def cocycle_equations(table):
    """The law of 2-cocycles for all three colours, each as a list of pairs (factor, place), the place of φ(x, y) being x * q + y."""
    order = len(table)
    for x, y, z in itertools.product(range(order), repeat=3):
        sums = {}
        for factor, a, b in ((1, x, y), (1, table[x][y], z), (-1, x, z), (-1, table[x][z], table[y][z])):
            if a != b:
                sums[a * order + b] = sums.get(a * order + b, 0) + factor
        equation = [(factor, place) for place, factor in sums.items() if factor]
        if equation:
            yield equation


def cocycles(table, modulus):
    """Vectors that generate all 2-cocycles mod a prime power."""
    order = len(table)
    places = [x * order + y for x in range(order) for y in range(order) if x != y]
    return linear.kernel(places, cocycle_equations(table), modulus)


def coboundaries(table, modulus):
    """Vectors that generate the cocycles f(x) - f(x ▷ y)."""
    order = len(table)
    for colour in range(order):
        vector = {}
        for x in range(order):
            for y in range(order):
                entry = ((x == colour) - (table[x][y] == colour)) % modulus
                if entry:
                    vector[x * order + y] = entry
        yield vector


def classes_of_cocycles(table, modulus):
    """Cocycles that generate all of them together with the coboundaries, none of which is left over."""
    span = linear.Span(modulus)
    for vector in coboundaries(table, modulus):
        span.put(vector)
    chosen = []
    for vector in sorted(cocycles(table, modulus), key=len):
        if not span.has(vector):
            chosen.append(vector)
            span.put(vector)
    return chosen


def covering(table, cocycle, modulus):
    """Pairs with (x, a) ▷ (y, b) = (x ▷ y, a + φ(x, y))."""
    order = len(table)
    pairs = [(x, a) for x in range(order) for a in range(modulus)]
    return [[table[x][y] * modulus + (a + cocycle.get(x * order + y, 0)) % modulus for y, _ in pairs] for x, a in pairs]
