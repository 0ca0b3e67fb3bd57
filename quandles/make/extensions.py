"""Extensions of quandles by a finite field, and the twisted 2-cocycles that make them.

The field is that of the polynomials in t mod a prime and mod one without a factor, t^d + ..., given by its coefficients from the lowest, the leading
1 left out. An element of it is a tuple of d numbers. A vector is a square of elements: the place of part i of θ(x, y) is (x q + y) d + i.
"""
import itertools

from fields import times_t
from lib.cocycles import linear


def rows_of_t(prime, coefficients):
    """The matrix of t: part i of t v is the sum of row[i][j] v[j]."""
    units = [tuple(int(i == j) for i in range(len(coefficients))) for j in range(len(coefficients))]
    return list(zip(*(times_t(unit, coefficients, prime) for unit in units)))


def twisted_sum(pairs, table, prime, coefficients):
    """Each part of the sum of (a + b t) θ(x, y) over some (a, b, x, y), as a dictionary from places to factors."""
    order, degree, rows = len(table), len(coefficients), rows_of_t(prime, coefficients)
    for part in range(degree):
        sums = {}
        for plain, twisted, x, y in pairs:
            if x != y:
                for other in range(degree):
                    place = (x * order + y) * degree + other
                    sums[place] = (sums.get(place, 0) + plain * (part == other) + twisted * rows[part][other]) % prime
        yield {place: factor for place, factor in sums.items() if factor}


def twisted_cocycles(table, spanning, prime, coefficients):
    """Vectors that generate all θ with t θ(x, y) + θ(x ▷ y, z) = t θ(x, z) + (1 - t) θ(y, z) + θ(x ▷ z, y ▷ z) and θ(x, x) = 0.

    The law says that the translations of the extension keep its operation. Where those of some colours do, those of all that they span do too.
    """
    order, degree = len(table), len(coefficients)
    places = [(x * order + y) * degree + part for x in range(order) for y in range(order) if x != y for part in range(degree)]
    equations = []
    for z, x, y in itertools.product(spanning, range(order), range(order)):
        pairs = [(0, 1, x, y), (1, 0, table[x][y], z), (0, -1, x, z), (-1, 1, y, z), (-1, 0, table[x][z], table[y][z])]
        equations += [[(factor, place) for place, factor in sums.items()] for sums in twisted_sum(pairs, table, prime, coefficients) if sums]
    return linear.kernel(places, equations, prime)


def twisted_coboundaries(table, prime, coefficients):
    """Vectors that generate all t f(x) + (1 - t) f(y) - f(x ▷ y)."""
    order, degree, rows = len(table), len(coefficients), rows_of_t(prime, coefficients)
    for colour, part in itertools.product(range(order), range(degree)):
        vector = {}
        for x, y, other in itertools.product(range(order), range(order), range(degree)):
            t_part, plain = rows[other][part], int(other == part)
            entry = (t_part * (x == colour) + (plain - t_part) * (y == colour) - plain * (table[x][y] == colour)) % prime
            if entry:
                vector[(x * order + y) * degree + other] = entry
        yield vector


def vector_times_t(vector, prime, coefficients):
    degree, rows, product = len(coefficients), rows_of_t(prime, coefficients), {}
    for place, entry in vector.items():
        for part in range(degree):
            linear.add_multiple(product, rows[part][place % degree] * entry, {place - place % degree + part: 1}, prime)
    return product


def classes_of_twisted_cocycles(table, spanning, prime, coefficients):
    """A basis over the field of the cocycles up to coboundaries, each with its products by t, t^2, ..."""
    span = linear.Span(prime)
    for vector in twisted_coboundaries(table, prime, coefficients):
        span.put(vector)
    chosen = []
    for vector in sorted(twisted_cocycles(table, spanning, prime, coefficients), key=len):
        if not span.has(vector):
            powers = [vector]
            while len(powers) < len(coefficients):
                powers.append(vector_times_t(powers[-1], prime, coefficients))
            chosen.append(powers)
            for power in powers:
                span.put(power)
    return chosen


def twisted_sums(classes, prime):
    """A cocycle of each line of classes: multiples by elements of the field make isomorphic extensions."""
    for first, powers in enumerate(classes):
        rest = [vector for other in classes[first + 1:] for vector in other]
        for factors in itertools.product(range(prime), repeat=len(rest)):
            vector = dict(powers[0])
            for factor, other in zip(factors, rest):
                linear.add_multiple(vector, factor, other, prime)
            yield vector


def extension(table, cocycle, prime, coefficients):
    """Pairs with (x, a) ▷ (y, b) = (x ▷ y, t a + (1 - t) b + θ(x, y))."""
    order, degree = len(table), len(coefficients)
    elements = list(itertools.product(range(prime), repeat=degree))
    index = {element: place for place, element in enumerate(elements)}
    turned = [times_t(element, coefficients, prime) for element in elements]
    pairs = [(x, a) for x in range(order) for a in range(len(elements))]
    values = [[tuple(cocycle.get((x * order + y) * degree + part, 0) for part in range(degree)) for y in range(order)] for x in range(order)]
    return [[table[x][y] * len(elements) + index[tuple((ta + fb - tb + by) % prime for ta, fb, tb, by in
                                                       zip(turned[a], elements[b], turned[b], values[x][y]))]
             for y, b in pairs] for x, a in pairs]
