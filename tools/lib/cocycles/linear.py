"""Linear algebra over the integers mod a prime power, on sparse vectors: a vector is a dictionary from places to numbers 1 to k - 1."""


def prime_of(modulus):
    """The prime whose power the modulus is. Raises ValueError where there is none."""
    prime = next((p for p in range(2, modulus + 1) if modulus % p == 0), None)
    power = prime
    while power is not None and power < modulus:
        power *= prime
    if power != modulus:
        raise ValueError(f"{modulus} is no power of a prime")
    return prime


def valuation(number, prime):
    """How often the prime divides a number that is not 0."""
    count = 0
    while number % prime == 0:
        number //= prime
        count += 1
    return count


def quotient(number, by, prime, modulus):
    """A q with q * by = number mod modulus, where the prime divides `by` no more often than `number`."""
    power = prime ** valuation(by, prime)
    return number // power * pow(by // power, -1, modulus) % modulus


def add_multiple(vector, factor, other, modulus):
    """Adds a multiple of another vector in place."""
    for place, entry in other.items():
        new = (vector.get(place, 0) + factor * entry) % modulus
        if new:
            vector[place] = new
        else:
            vector.pop(place, None)


def scaled(vector, factor, modulus):
    return {place: entry * factor % modulus for place, entry in vector.items() if entry * factor % modulus}


def kernel(places, equations, modulus):
    """Vectors that generate all v on the places with sum of c * v[place] = 0 for each equation, a list of pairs (c, place)."""
    prime = prime_of(modulus)
    vectors = [{place: 1} for place in places]
    holders = {place: {index} for index, place in enumerate(places)}
    for equation in equations:
        touched = set().union(*(holders[place] for _, place in equation))
        values = {}
        for index in touched:
            value = sum(factor * vectors[index].get(place, 0) for factor, place in equation) % modulus
            if value:
                values[index] = value
        if not values:
            continue
        pivot = min(values, key=lambda index: (valuation(values[index], prime), len(vectors[index])))
        for index, value in values.items():
            if index != pivot:
                factor = quotient(value, values[pivot], prime, modulus)
                add_multiple(vectors[index], -factor, vectors[pivot], modulus)
                for place in vectors[pivot]:
                    if place in vectors[index]:
                        holders[place].add(index)
                    else:
                        holders[place].discard(index)
        # What is left of the pivot's vector is the multiple that meets the equation.
        old = vectors[pivot]
        vectors[pivot] = scaled(old, modulus // prime ** valuation(values[pivot], prime), modulus)
        for place in old:
            if place not in vectors[pivot]:
                holders[place].discard(pivot)
    return [vector for vector in vectors if vector]


class Span:
    """All sums of multiples of the vectors put in: a reduced one for each first place, and with each its multiples that lose it."""

    def __init__(self, modulus):
        self.modulus = modulus
        self.prime = prime_of(modulus)
        self.rows = {}

    def rest(self, vector):
        """What is left of a vector after the rows; nothing exactly where the span has it."""
        vector = dict(vector)
        left = {}
        while vector:
            place = min(vector)
            row = self.rows.get(place)
            if row is not None and valuation(row[place], self.prime) <= valuation(vector[place], self.prime):
                add_multiple(vector, -quotient(vector[place], row[place], self.prime, self.modulus), row, self.modulus)
            else:
                left[place] = vector.pop(place)
        return left

    def has(self, vector):
        return not self.rest(vector)

    def put(self, vector):
        waiting = [dict(vector)]
        while waiting:
            vector = waiting.pop()
            while vector:
                place = min(vector)
                row = self.rows.get(place)
                if row is not None and valuation(row[place], self.prime) <= valuation(vector[place], self.prime):
                    add_multiple(vector, -quotient(vector[place], row[place], self.prime, self.modulus), row, self.modulus)
                    continue
                self.rows[place] = vector
                depth = valuation(vector[place], self.prime)
                if depth:
                    waiting.append(scaled(vector, self.modulus // self.prime ** depth, self.modulus))
                if row is None:
                    break
                vector = dict(row)
