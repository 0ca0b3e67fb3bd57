"""Cocycles of a quandle as squares of numbers, and the weights of colourings by which two diagrams differ."""
import argparse
import itertools

from . import linear
from .cohomology import classes_of_cocycles

MODULI = (2, 3, 4, 5)


def square_of(order, vector):
    """A vector as lines of numbers."""
    return [[vector.get(x * order + y, 0) for y in range(order)] for x in range(order)]


def cocycles_of(quandle, moduli):
    """(modulus, squares) for each modulus with a cocycle that is no coboundary."""
    for modulus in moduli:
        vectors = classes_of_cocycles(quandle.over, modulus)
        if vectors:
            yield modulus, [square_of(len(quandle.over), vector) for vector in vectors]


def weights_line(counted, factors, modulus):
    """The numbers of colourings of weight 0 to k - 1 by a sum of multiples of the cocycles."""
    numbers = [0] * modulus
    for values, count in counted.items():
        numbers[sum(factor * value for factor, value in zip(factors, values)) % modulus] += count
    return numbers


def first_difference(first, second, cocycles, modulus):
    """Factors for the cocycles by which two counts differ, those of fewest cocycles first, or None."""
    if first == second:
        return None
    every = itertools.product(range(modulus), repeat=len(cocycles))
    for factors in sorted(every, key=lambda factors: (sum(map(bool, factors)), factors)):
        if weights_line(first, factors, modulus) != weights_line(second, factors, modulus):
            return factors
    return None


def moduli_of(text):
    try:
        moduli = [int(part) for part in text.split(",")]
        for modulus in moduli:
            linear.prime_of(modulus)
    except ValueError as fault:
        raise argparse.ArgumentTypeError(f"moduli are powers of primes, as 2,3,4,5: {fault}") from None
    return moduli


def add_moduli(parser):
    """The word of the moduli."""
    parser.add_argument("--moduli", type=moduli_of, default=list(MODULI), help="powers of primes, separated by commas; 2,3,4,5 if none are given")
