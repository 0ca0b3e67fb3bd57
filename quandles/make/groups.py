"""Groups of permutations, by generators. A permutation is a tuple: the images of 0, 1, and so on."""
import itertools

from fields import times_t


# Permutations and what they generate

def cycle_lengths(permutation):
    seen, lengths = set(), []
    for start in range(len(permutation)):
        length = 0
        while start not in seen:
            seen.add(start)
            start = permutation[start]
            length += 1
        if length:
            lengths.append(length)
    return tuple(sorted(lengths))


def times(first, second):
    """The first and then the second."""
    return tuple(second[place] for place in first)


def inverse(element):
    back = [0] * len(element)
    for place, image in enumerate(element):
        back[image] = place
    return tuple(back)


def group_of(gens):
    """All elements, and the order of a group by its generators."""
    one = tuple(range(len(gens[0])))
    seen, waiting = {one}, [one]
    while waiting:
        element = waiting.pop()
        for generator in gens:
            new = times(element, generator)
            if new not in seen:
                seen.add(new)
                waiting.append(new)
    return sorted(seen)


def conjugacy_class(element, gens, most):
    """The class, or None where it has more than `most` elements."""
    found = [element]
    known = {element}
    for x in found:
        for generator in gens:
            new = times(times(inverse(generator), x), generator)
            if new not in known:
                if len(found) == most:
                    return None
                known.add(new)
                found.append(new)
    return found


def element_name(element):
    cycles, seen = [], set()
    for start in range(len(element)):
        cycle = []
        while start not in seen:
            seen.add(start)
            cycle.append(start)
            start = element[start]
        if len(cycle) > 1:
            cycles.append("(" + " ".join(map(str, cycle)) + ")")
    return "".join(cycles) or "1"


def permutation_of(size, cycles):
    """The permutation of some points by its cycles, as element_name writes them."""
    image = list(range(size))
    for part in cycles.strip("()").split(")("):
        places = [int(word) for word in part.split()]
        for a, b in zip(places, places[1:] + places[:1]):
            image[a] = b
    return tuple(image)


# Groups with names

def swap(size, *pairs):
    image = list(range(size))
    for a, b in pairs:
        image[a], image[b] = image[b], image[a]
    return tuple(image)


def cycle(size, *places):
    image = list(range(size))
    for a, b in zip(places, places[1:] + places[:1]):
        image[a] = b
    return tuple(image)


def matrix_group(prime, matrices, shifts=()):
    """Generators that act on the vectors of the plane mod a prime: matrices (a, b, c, d), and translations."""
    vectors = list(itertools.product(range(prime), repeat=2))
    index = {vector: place for place, vector in enumerate(vectors)}
    gens = [tuple(index[(a * x + b * y) % prime, (c * x + d * y) % prime] for x, y in vectors) for a, b, c, d in matrices]
    return gens + [tuple(index[(x + a) % prime, (y + b) % prime] for x, y in vectors) for a, b in shifts]


def field_group(prime, degree):
    """The maps x to a x + b of the field of p^d elements, and its size."""
    size = prime ** degree
    for coefficients in itertools.product(range(prime), repeat=degree):
        vectors = list(itertools.product(range(prime), repeat=degree))
        index = {vector: place for place, vector in enumerate(vectors)}
        if degree == 1:
            turn = [tuple(a * x % prime for x in range(prime)) for a in range(1, prime)]
            return [cycle(size, *range(size)), *turn[1:]]
        turned = tuple(index[times_t(vector, coefficients, prime)] for vector in vectors)
        # t generates the field's units where its powers lead from each vector but 0 to each other one.
        if coefficients[0] and cycle_lengths(turned) == (1, size - 1):
            shift = tuple(index[((vector[0] + 1) % prime, *vector[1:])] for vector in vectors)
            return [turned, shift]
    raise AssertionError("each finite field has such a t")


def prism_group(copies):
    """Permutations of three axes with turns of their products 1, on 3 m points: the reflection group G(m, m, 3)."""
    def point(axis, turn):
        return axis * copies + turn % copies
    turned = tuple(point(axis, turn + (1, -1, 0)[axis]) for axis in range(3) for turn in range(copies))
    shifted = tuple(point(axis + 1 if axis < 2 else 0, turn) for axis in range(3) for turn in range(copies))
    swapped = tuple(point((1, 0, 2)[axis], turn) for axis in range(3) for turn in range(copies))
    return [turned, shifted, swapped]


def signed_group():
    """Permutations of four axes with evenly many signs: the Weyl group of type D4, on 8 points."""
    def point(axis, sign):
        return 2 * axis + sign
    swaps = [swap(8, (point(a, 0), point(a + 1, 0)), (point(a, 1), point(a + 1, 1))) for a in range(3)]
    return swaps + [swap(8, (point(2, 0), point(3, 1)), (point(2, 1), point(3, 0)))]


def reflection_group(copies, axes):
    """Permutations of n axes with turns of their products 1, on m n points: the reflection group G(m, m, n), by reflections."""
    def reflection(first, second, turn):
        return swap(copies * axes, *((first * copies + place, second * copies + (place + turn) % copies) for place in range(copies)))
    return [reflection(axis, axis + 1, 0) for axis in range(axes - 1)] + [reflection(0, 1, 1)]


def projective_group(prime, factor):
    """Generators of maps x to (a x + b) / (c x + d) mod a prime, which itself means infinity: all where the factor makes all units."""
    inverted = (prime, *(-pow(x, -1, prime) % prime for x in range(1, prime)), 0)
    return [(*((x + 1) % prime for x in range(prime)), prime), inverted, (*(factor * x % prime for x in range(prime)), prime)]


def semilinear_group():
    """The maps x to a x^k + b of the field of 8 elements, k = 1, 2 or 4."""
    turned, shift = field_group(2, 3)
    powers = [shift[0]]
    while len(powers) < 7:
        powers.append(turned[powers[-1]])
    squares = [0] * 8
    for place, power in enumerate(powers):
        squares[power] = powers[2 * place % 7]
    return [turned, shift, tuple(squares)]


def larger_groups():
    """Names of groups whose classes are too large for small quandles, and generators."""
    yield "PSL(2,7) on the line mod 7 with 7 as infinity", projective_group(7, 2)
    yield "PGL(2,7) on the line mod 7 with 7 as infinity", projective_group(7, 3)
    yield "the affine group with automorphisms of the line over the field of 8", semilinear_group()


def reflection_groups(least, most):
    """Names of groups with so many reflections, and generators, the first of which is a reflection."""
    for axes in range(3, most):
        for copies in range(1, most):
            if least <= copies * axes * (axes - 1) // 2 <= most:
                reflected = f"the reflection group G({copies},{copies},{axes}) on {copies * axes} points"
                yield reflected if copies > 1 else f"the symmetric group of {axes}", reflection_group(copies, axes)


def groups():
    """Names of groups, and generators."""
    for size in range(3, 7):
        yield f"the symmetric group of {size}", [swap(size, (0, 1)), cycle(size, *range(size))]
    for size in range(4, 7):
        yield f"the alternating group of {size}", [cycle(size, 0, 1, place) for place in range(2, size)]
    for size in range(3, 17):
        mirrored = tuple(-place % size for place in range(size))
        yield f"the dihedral group of the {size}-gon", [cycle(size, *range(size)), mirrored]
    yield "SL(2,3) on the plane mod 3", matrix_group(3, [(1, 1, 0, 1), (1, 0, 1, 1)])
    for prime, degree in ((2, 2), (5, 1), (7, 1), (2, 3), (3, 2), (11, 1), (13, 1), (2, 4)):
        yield f"the affine group of the line over the field of {prime ** degree}", field_group(prime, degree)
    yield "GL(2,3) on the plane mod 3", matrix_group(3, [(1, 1, 0, 1), (1, 0, 1, 1), (2, 0, 0, 1)])
    yield "the affine group with SL(2,3) of the plane mod 3", matrix_group(3, [(1, 1, 0, 1), (1, 0, 1, 1)], [(1, 0), (0, 1)])
    yield "the Weyl group of type D4 on the 8 ends of its axes", signed_group()
    for copies in range(3, 6):
        yield f"the reflection group G({copies},{copies},3) on {3 * copies} points", prism_group(copies)
