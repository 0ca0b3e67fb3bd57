"""Polynomials mod a number, and the finite fields that they make. One is given by its coefficients from the lowest, the leading 1 left out."""
import itertools


def polynomial_name(coefficients):
    """Of t^d + ... by the coefficients from the lowest, the leading 1 left out."""
    degree = len(coefficients)
    terms = [f"t^{degree}"]
    for power in range(degree - 1, -1, -1):
        entry = coefficients[power]
        if entry:
            symbol = {0: "", 1: "t"}.get(power, f"t^{power}")
            terms.append((str(entry) if entry > 1 or not power else "") + symbol)
    return " + ".join(terms)


def times_t(vector, coefficients, modulus):
    """t times a polynomial below the degree, by t^d = -(c0 + c1 t + ...)."""
    top = vector[-1]
    return tuple(((vector[power - 1] if power else 0) - top * coefficients[power]) % modulus for power in range(len(vector)))


def is_irreducible(prime, coefficients):
    """Whether no polynomial of at most half the degree divides t^d + ... mod a prime."""
    degree = len(coefficients)
    for low in range(1, degree // 2 + 1):
        for divisor in itertools.product(range(prime), repeat=low):
            rest = list(coefficients) + [1]
            while len(rest) > low:
                lead = rest.pop()
                for place, entry in enumerate(divisor):
                    rest[len(rest) - low + place] = (rest[len(rest) - low + place] - lead * entry) % prime
            if not any(rest):
                return False
    return True


def fields(size):
    """Primes and polynomials without a factor, one for each root t but 0 of a field of the size that lies in no smaller one, up to conjugates."""
    for prime in range(2, size + 1):
        degree = next((degree for degree in range(1, 6) if prime ** degree == size), None)
        if degree and all(prime % low for low in range(2, prime)):
            for coefficients in itertools.product(range(prime), repeat=degree):
                if coefficients[0] and is_irreducible(prime, coefficients):
                    yield prime, coefficients


class Field:
    """The field of p^d elements that t^d + ... makes, a polynomial without a factor. An element is a number from 0 to p^d - 1, whose digits
    to the base p are its coefficients, that of 1 the lowest."""

    def __init__(self, prime, coefficients=(0,)):
        degree = len(coefficients)
        self.size = prime ** degree
        vectors = [tuple(element // prime ** power % prime for power in range(degree)) for element in range(self.size)]
        index = {vector: element for element, vector in enumerate(vectors)}
        self.plus = [[index[tuple((a + b) % prime for a, b in zip(first, second))] for second in vectors] for first in vectors]
        self.minus = [index[tuple(-a % prime for a in vector)] for vector in vectors]
        self.times = [[0] * self.size for _ in vectors]
        for element, vector in enumerate(vectors):
            for other, factors in enumerate(vectors):
                # The powers of t times the one, each as often as the other has it.
                power, total = vector, (0,) * degree
                for factor in factors:
                    total = tuple((a + factor * b) % prime for a, b in zip(total, power))
                    power = times_t(power, coefficients, prime)
                self.times[element][other] = index[total]

    def inverse(self, element):
        """The element times which it is 1. Raises ValueError for 0."""
        return self.times[element].index(1)
