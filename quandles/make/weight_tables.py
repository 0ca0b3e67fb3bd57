#!/usr/bin/env python3
"""Makes the ready tables of quandles/weights/, quandles with cocycles that distinguish many knots from their mirror images or reverses.

    quandles/make/weight_tables.py [FOLDER]             writes the tables of at most 32 colours, T5 to A28, and the list that seek tries
    quandles/make/weight_tables.py --larger FOLDER      writes those of more colours, M42a to S120, which only numbers, seek --weights and check take
    quandles/make/weight_tables.py --rows FOLDER        writes the shorter list by which rows of tables of knots are counted

FOLDER is quandles/weights/ if none is given. Append a table to two diagrams for the job weights:

    cat problem.txt quandles/weights/T5.txt | ./knot weights

The colours are the conjugates of a matrix x0 by the matrices of determinant 1 over a field of q elements, with x ▷ y = y⁻¹ x y. For each
colour x take s(x) of determinant 1 with s(x)⁻¹ x0 s(x) = x. Then x0⁻¹ s(x) y s(x ▷ y)⁻¹ has determinant 1 and commutes with x0; those
that do make a cyclic group, the torus of x0, and φ(x, y) is the logarithm to one of its generators. It is a 2-cocycle: the pairs of a
colour and an element of the torus are a covering of the quandle (Eisermann 2014), and such coverings are those by 2-cocycles (Carter,
Jelsovsky, Kamada, Langford and Saito 2003). Another choice of s changes it by a coboundary, which no weight sees.

T and a prime p: x0 is the transvection (1 1 / 0 1). A conjugate of it is a vector v of the plane mod p up to sign, that of
w ↦ w + det(w, v) v, and x ▷ y = x + det(x, y) y; the torus is that of the powers of x0, up to sign. M and the number of colours: x0 is
another matrix, with two eigenvalues in the field or with none.

F and the number of colours, p³: the colours are the field, x ▷ y = t x + (1 − t) y, and a shadow cocycle mod p is the coefficient of 1 of
(w − x) (x − y)^p y^(p²). Powers of p are sums' powers too, so both sides of its law differ by the factor 1 − t^(1 + p + p²) alone, and here
t to this power is 1 (Mochizuki 2005). For F27b it is the determinant of the coefficients of w − x, x − y and y, which t keeps.

The other names have a letter of a group, and the number of colours. These are the conjugates of a permutation x0, and s(x) is a product of
quotients x0⁻¹ y of colours. Then x0⁻¹ s(x) y s(x ▷ y)⁻¹ is such a product too and commutes with x0. A homomorphism from these to the numbers
mod k makes it a cocycle as above. A are the affine maps x ↦ a x + b of a field with Frobenius, and G those of a projective line: it is the place
to which 0 goes, or whether the places 0, 1 and infinity are permuted evenly. S is the symmetric group of six points. P and Z are those of pairs of
elements of the field of 8 with the product (v, w) (a, b) = (v + a, w + b + v a^k), by right translations, by (v, w) ↦ (t v, t^(k + 1) w), and by
x0, which squares both. H has pairs (a, b) mod 3 and a third number, to which a product adds 2 (a d − b c), and x0 has the order 8 on the pairs.
"""
import argparse
import itertools
import os
from collections import namedtuple

from places import QUANDLES
from fields import Field
from groups import conjugacy_class, cycle, swap, times
from groups import inverse as backwards
from large_quandles import FIELD_OF_8
from large_quandles import affine_semilinear, classes, power, projective_semilinear, with_infinity
from large_quandles import class_table
from lib.calls import calls
from knot_workbench.quandles import quandle_of, quandle_text

IDENTITY = ((1, 0), (0, 1))
FOUR = (2, (1, 1))
EIGHT = (2, (1, 1, 0))

# What is in the list: quandles of no cocycle, and then those with one, the fewest colours first. A number is the order of a dihedral
# quandle with Mochizuki's shadow cocycle, a name one of the tables. After them come quandles of more than 32 colours, those first that
# distinguish most a millisecond.
LIST_NAME = "list"
PLAIN = ("dihedral 3", "tetrahedral", "alexander 5 2", "alexander 7 2", "alexander 11 3", "alexander 17 10")
WEIGHED = (3, 5, 7, "F8", 11, "T5", 13, 17, 19, "M20a", "M20b", 23, "T7", "F27", "F27b", "H27", "A28", 29, "M30", 31)
LAST = ("PGammaL2_8_84_a", "M42a", "AGammaL1_16_120_a", "M42c", "M56c", "T11", "M72")
# What isn't among those by which rows of tables of knots are counted.
NOT_IN_ROWS = ("F8", "F27", "F27b", "H27", "A28", *LAST)

# The colours as matrices, the first of them x0; s(x) by colour; the logarithm of each element of the torus, and its order.
Conjugates = namedtuple("Conjugates", "field colours sections logarithms modulus said")


# Matrices of two rows

def product(field, *factors):
    def entry(first, second, row, column):
        return field.plus[field.times[first[row][0]][second[0][column]]][field.times[first[row][1]][second[1][column]]]

    found = IDENTITY
    for factor in factors:
        found = tuple(tuple(entry(found, factor, row, column) for column in (0, 1)) for row in (0, 1))
    return found


def field_determinant(field, matrix):
    (a, b), (c, d) = matrix
    return field.plus[field.times[a][d]][field.minus[field.times[b][c]]]


def inverse_matrix(field, matrix):
    (a, b), (c, d) = matrix
    by = field.inverse(field_determinant(field, matrix))
    return tuple(tuple(field.times[by][entry] for entry in row) for row in ((d, field.minus[b]), (field.minus[c], a)))


def matrices_of_determinant_1(field):
    for a, b, c, d in itertools.product(range(field.size), repeat=4):
        if field_determinant(field, ((a, b), (c, d))) == 1:
            yield (a, b), (c, d)


def powers(field, matrix):
    """All powers of a matrix, from the identity."""
    found = [IDENTITY]
    while len(found) == 1 or found[-1] != IDENTITY:
        found.append(product(field, found[-1], matrix))
    return found[:-1]


# Conjugates

def transvections(prime):
    """The conjugates of (1 1 / 0 1) mod an odd prime, by the vectors (a, b) up to sign of which the first number but 0 is at most (p − 1) / 2."""
    field = Field(prime)
    vectors = [vector for vector in itertools.product(range(prime), repeat=2) if 0 < (vector[0] or vector[1]) <= prime // 2]
    colours, sections = [], {}
    for a, b in vectors:
        colour = ((1 + b * a) % prime, b * b % prime), (-a * a % prime, (1 - a * b) % prime)
        colours.append(colour)
        # A matrix of determinant 1 with the vector as its second row takes x0 to the vector's transvection.
        sections[colour] = ((pow(b, -1, prime), 0) if b else (0, -pow(a, -1, prime) % prime), (a, b))
    logarithms = {}
    for exponent, matrix in enumerate(powers(field, colours[0])):
        logarithms[matrix] = logarithms[tuple(tuple(field.minus[entry] for entry in row) for row in matrix)] = exponent
    return Conjugates(field, colours, sections, logarithms, prime, f"vectors of the plane mod {prime} up to sign, x ▷ y = x + det(x, y) y")


def conjugates(field, start):
    """The conjugates of a matrix whose torus is cyclic, itself first and the others in order."""
    sections = {start: IDENTITY}
    torus = []
    for matrix in matrices_of_determinant_1(field):
        sections.setdefault(product(field, inverse_matrix(field, matrix), start, matrix), matrix)
        if product(field, matrix, start) == product(field, start, matrix):
            torus.append(matrix)
    generator = max(torus, key=lambda matrix: len(powers(field, matrix)))
    logarithms = {power: exponent for exponent, power in enumerate(powers(field, generator))}
    if len(logarithms) != len(torus):
        raise ValueError(f"the torus of {start} is not cyclic")
    (a, b), (c, d) = start
    named = {4: "over the field of 4, whose elements are 0, 1, t = 2 and t + 1 = 3",
             8: "over the field of 8, t^3 = t + 1, where 2 is t and a + 2 b + 4 c is a + b t + c t^2"}.get(field.size, f"mod {field.size}")
    said = f"the class of the matrix ({a} {b} / {c} {d}) {named}, under the matrices of determinant 1"
    return Conjugates(field, [start] + sorted(set(sections) - {start}), sections, logarithms, len(torus), said)


def operation(found):
    """The table of x ▷ y = y⁻¹ x y."""
    index = {colour: place for place, colour in enumerate(found.colours)}
    return [[index[product(found.field, inverse_matrix(found.field, y), x, y)] for y in found.colours] for x in found.colours]


def cocycle_logarithms(found, table):
    """The logarithms of x0⁻¹ s(x) y s(x ▷ y)⁻¹, line by line."""
    field, colours, sections = found.field, found.colours, found.sections
    first = inverse_matrix(field, colours[0])
    back = {colour: inverse_matrix(field, sections[colour]) for colour in colours}
    return [[found.logarithms[product(field, first, sections[x], y, back[colours[table[place][other]]])] for other, y in enumerate(colours)]
            for place, x in enumerate(colours)]


# Shadow cocycles of fields

def shadow(prime, coefficients, said, form):
    """What the field of p³ elements is that t^3 + ... makes, and the lines of its quandle and of the shadow cocycle that a form of three makes."""
    field = Field(prime, coefficients)
    size, plus, minus, times = field.size, field.plus, field.minus, field.times
    table = [[plus[times[prime][x]][times[plus[1][minus[prime]]][y]] for y in range(size)] for x in range(size)]
    value = form(field, prime)
    lines = [[value(plus[w][minus[x]], plus[x][minus[y]], y) for y in range(size)] for w in range(size) for x in range(size)]
    about = f"the field of {size}, {said}, x ▷ y = t x + (1 - t) y; a shadow cocycle mod {prime}"
    rows = "".join(" ".join(map(str, row)) + "\n" for row in lines)
    return about, quandle_text(quandle_of(f"table {size}", table)) + f"shadow {prime}\n{rows}"


def by_powers(field, prime):
    """The coefficient of 1 of u v^p w^(p²)."""
    raised = [power_of(field, x, prime) for x in range(field.size)]
    return lambda u, v, w: field.times[field.times[u][raised[v]]][raised[raised[w]]] % prime


def by_determinant(_, prime):
    """The determinant of the coefficients of three elements."""
    def value(*elements):
        rows = [[element // prime ** power % prime for power in range(3)] for element in elements]
        return sum(rows[0][a] * (rows[1][b] * rows[2][c] - rows[1][c] * rows[2][b]) for a, b, c in ((0, 1, 2), (1, 2, 0), (2, 0, 1))) % prime

    return value


def power_of(field, element, exponent):
    """A power of an element of a field."""
    found = 1
    for _ in range(exponent):
        found = field.times[found][element]
    return found


# Classes of permutations

def class_lines(said, generators, element, modulus=0, logarithm=None):
    """What a class is, and the lines of its quandle and of the cocycle that a logarithm of what commutes with the element makes."""
    colours = sorted(conjugacy_class(element, generators, 128))
    table = class_table(generators, element)
    about, lines = f"the class of {said}", quandle_text(quandle_of(f"table {len(table)}", table))
    if not modulus:
        return about, lines
    first, sections = backwards(element), quotients(colours, element)
    back = [backwards(sections[colour]) for colour in colours]
    rows = [[logarithm(times(times(times(first, sections[x]), y), back[table[place][other]])) for other, y in enumerate(colours)]
            for place, x in enumerate(colours)]
    return f"{about}; a cocycle mod {modulus}", lines + f"weight {modulus}\n" + "".join(" ".join(map(str, row)) + "\n" for row in rows)


def quotients(colours, element):
    """For each colour x a product s of quotients of two colours such that s⁻¹ x0 s = x, where x0 is the element."""
    found, waiting = {element: tuple(range(len(element)))}, [element]
    steps = [times(backwards(element), colour) for colour in colours]
    for x in waiting:
        for step in steps:
            image = times(times(backwards(step), x), step)
            if image not in found:
                found[image] = times(found[x], step)
                waiting.append(image)
    return found


def affine_27():
    """Generators of the maps x ↦ a x + b of the field of 27 elements, where a to the 13 is 1, with Frobenius, which is the last."""
    field = Field(3, (2, 2, 2))
    shifts = [tuple(field.plus[x][step] for x in range(field.size)) for step in (1, 3, 9)]
    return [*shifts, tuple(field.times[3]), power(field, 3)]


def pairs_of_8(exponent):
    """Generators of the group of pairs with this exponent, as permutations of the places v + 8 w; the last is x0."""
    field, places = FIELD_OF_8, range(64)
    plus, by = field.plus, field.times
    powers = [power_of(field, a, exponent) for a in range(8)]

    def right(a, b):
        return tuple(plus[v][a] + 8 * plus[plus[w][b]][by[v][powers[a]]] for w, v in (divmod(place, 8) for place in places))

    def scaled(one, other):
        return tuple(one[v] + 8 * other[w] for w, v in (divmod(place, 8) for place in places))

    squares = power(field, 2)
    return [*(right(1 << place, 0) for place in range(3)), *(right(0, 1 << place) for place in range(3)),
            scaled(by[2], by[power_of(field, 2, exponent + 1)]), scaled(squares, squares)]


def triples_of_3():
    """Generators of the group of triples mod 3, as permutations of the places a + 3 b + 9 c; the last is x0, (a, b) ↦ (b, a + b)."""
    triples = [(place % 3, place // 3 % 3, place // 9) for place in range(27)]

    def place(a, b, c):
        return a % 3 + 3 * (b % 3) + 9 * (c % 3)

    return [*(tuple(place(a + d, b + e, c + 2 * (a * e - b * d)) for a, b, c in triples) for d, e in ((1, 0), (0, 1))),
            tuple(place(b, a + b, -c) for a, b, c in triples)]


def parity(permutation):
    """Whether the places 0, 1 and infinity of the line over the field of 8 are permuted oddly."""
    images = [permutation[place] for place in (0, 1, 8)]
    return sum(one > other for one, other in itertools.combinations(images, 2)) % 2


def pair_log(permutation):
    """v + 2 w, where (v, w) is the image of (0, 0)."""
    return permutation[0] % 8 + 2 * (permutation[0] // 8)


def last_of(said, generators, *cocycle):
    """What the class of the last generator is, and its lines."""
    return class_lines(said, generators, generators[-1], *cocycle)


# Tables

SHADOWS = {
    "F8": lambda: shadow(2, (1, 1, 0), "t^3 = t + 1", by_powers),
    "F27": lambda: shadow(3, (2, 2, 2), "t^3 = t^2 + t + 1", by_powers),
    "F27b": lambda: shadow(3, (2, 2, 0), "t^3 = t + 1", by_determinant),
}
SIX = [swap(6, (0, 1)), cycle(6, *range(6))]
CLASSES = {
    "H27": lambda: last_of("(a, b, c) ↦ (b, a + b, -c) with triples mod 3", triples_of_3()),
    "A28": lambda: last_of("x ↦ x^2 in AΓL(1,8)", affine_semilinear(FIELD_OF_8), 2, lambda image: image[0]),
}
LARGER_CLASSES = {
    "G84": lambda: class_lines("x ↦ x^2 in PΓL(2,8)", projective_semilinear(FIELD_OF_8), with_infinity(power(FIELD_OF_8, 2)), 2, parity),
    "P112": lambda: last_of("squaring with pairs over the field of 8 whose product has k = 2", pairs_of_8(2), 4, pair_log),
    "Z112": lambda: last_of("squaring with pairs over the field of 8 whose product has k = 1", pairs_of_8(1), 4, pair_log),
    "A117": lambda: last_of("x ↦ x^3 among the maps x ↦ a x^(3^k) + b of the field of 27, a to the 13 being 1", affine_27(), 3, lambda image: image[0]),
    "S120": lambda: last_of("(0 1 2 3 4 5) in the symmetric group of 6", SIX, 3, lambda image: image[0] // 2),
}
READY = {
    "T5": lambda: transvections(5),
    "T7": lambda: transvections(7),
    "M20a": lambda: conjugates(Field(*FOUR), ((1, 0), (0, 2))),
    # The roots of X² − X + 2 are not in the field of 5.
    "M20b": lambda: conjugates(Field(5), ((0, 1), (3, 1))),
    "M30": lambda: conjugates(Field(5), ((1, 0), (0, 2))),
}
LARGER = {
    "M42a": lambda: conjugates(Field(7), ((0, 1), (4, 1))),
    "M42b": lambda: conjugates(Field(7), ((0, 1), (3, 1))),
    "M42c": lambda: conjugates(Field(7), ((0, 1), (1, 1))),
    "M56b": lambda: conjugates(Field(7), ((1, 0), (0, 2))),
    # X² + X + 1 has no root in the field of 8.
    "M56c": lambda: conjugates(Field(*EIGHT), ((0, 1), (1, 1))),
    "M72": lambda: conjugates(Field(*EIGHT), ((1, 0), (0, 2))),
    # X² − X + t + 1 has no root in it, and its matrix has the order 9.
    "M56d": lambda: conjugates(Field(*EIGHT), ((0, 1), (3, 1))),
    "T11": lambda: transvections(11),
    "T13": lambda: transvections(13),
    # X² − X − 5 has no root mod 11.
    "M110": lambda: conjugates(Field(11), ((0, 1), (5, 1))),
}


def parts_of(name):
    """What one of the names in READY, SHADOWS, LARGER and of classes is, and the lines of its quandle and its cocycle."""
    others = {**SHADOWS, **CLASSES, **LARGER_CLASSES}
    if name in others:
        about, lines = others[name]()
        return f"# {name}: {about}.\n", lines
    found = {**READY, **LARGER}[name]()
    table = operation(found)
    squares = "".join(" ".join(map(str, row)) + "\n" for row in cocycle_logarithms(found, table))
    lines = quandle_text(quandle_of(f"table {len(table)}", table)) + f"weight {found.modulus}\n" + squares
    return f"# {name}: {found.said}; a cocycle mod {found.modulus}.\n", lines


def text_of_file(name):
    """The whole file of one of these names."""
    said, lines = parts_of(name)
    is_for_seek = name in (*LARGER, *LARGER_CLASSES) or not ("\nweight " in lines or "\nshadow " in lines)
    use = "seek takes it by --weights." if is_for_seek else f"Append it to two diagrams: cat problem.txt quandles/weights/{name}.txt | ./knot weights"
    return f"{said}# Made by quandles/make/weight_tables.py. {use}\n{lines}"


def seek_list_text():
    """The list that seek tries where its words name no other."""
    head = ("# Quandles, and quandles with a cocycle, by which seek counts colourings where its words name no file of --weights.\n"
            "# Made by quandles/make/weight_tables.py.\n")
    return head + "".join(f"quandle {name}\n" for name in PLAIN) + "".join(map(listed_text, (*WEIGHED, *LAST)))


def rows_list_text():
    """The list by which rows of tables of knots are counted."""
    head = ("# Quandles, and quandles with a cocycle, by which the rows of numbers of these tables were counted.\n"
            "# Made by quandles/make/weight_tables.py --rows.\n")
    kept = (one for one in (*WEIGHED, *LAST) if one not in NOT_IN_ROWS)
    return head + "".join(f"quandle {name}\n" for name in PLAIN) + "".join(map(listed_text, kept))


def listed_text(one):
    """A quandle, mostly with a cocycle, as it is in a list."""
    if isinstance(one, int):
        return f"quandle dihedral {one}\nshadow mochizuki\n"
    for name, said, generators, element in classes() if one in LAST else ():
        if name == one:
            table = class_table(generators, element)
            return f"# {name}: {said}.\n" + quandle_text(quandle_of(f"table {len(table)}", table))
    return "".join(parts_of(one))


def main():
    parser = argparse.ArgumentParser(description=__doc__, formatter_class=argparse.RawDescriptionHelpFormatter)
    parser.add_argument("folder", nargs="?", metavar="FOLDER", help="where the files NAME.txt are written")
    others = parser.add_mutually_exclusive_group()
    others.add_argument("--larger", action="store_true", help="the tables of more than 32 colours; FOLDER has to be given")
    others.add_argument("--rows", action="store_true", help="the list by which rows of tables of knots are counted; FOLDER has to be given")
    words = parser.parse_args()
    if (words.larger or words.rows) and words.folder is None:
        parser.error("a FOLDER is due")
    folder = os.path.join(QUANDLES, "weights") if words.folder is None else words.folder
    if not os.path.isdir(folder):
        parser.error(f"there is no folder {folder}")
    for name in (*LARGER, *LARGER_CLASSES) if words.larger else () if words.rows else (*READY, *SHADOWS, *CLASSES):
        calls.put(os.path.join(folder, f"{name}.txt"), text_of_file(name))
    if not words.larger:
        calls.put(os.path.join(folder, f"{LIST_NAME}.txt"), rows_list_text() if words.rows else seek_list_text())


if __name__ == "__main__":
    calls.run("weight_tables.py", main)
