"""Alexander and Jones polynomials and signatures of closed braids, by nothing that the scripts under test use."""
from fractions import Fraction


def poly_add(a, b):
    c = dict(a)
    for power, entry in b.items():
        c[power] = c.get(power, 0) + entry
        if not c[power]:
            del c[power]
    return c


def poly_times(a, b):
    c = {}
    for p, x in a.items():
        for q, y in b.items():
            c[p + q] = c.get(p + q, 0) + x * y
    return {power: entry for power, entry in c.items() if entry}


def determinant(matrix):
    """Of a matrix of Laurent polynomials, by expansion along the first row."""
    if not matrix:
        return {0: 1}
    total = {}
    for column, entry in enumerate(matrix[0]):
        if entry:
            minor = [row[:column] + row[column + 1:] for row in matrix[1:]]
            term = poly_times(entry, determinant(minor))
            total = poly_add(total, term if column % 2 == 0 else poly_times({0: -1}, term))
    return total


def burau(strands, letters):
    """The unreduced Burau matrix."""
    product = [[{0: 1} if i == j else {} for j in range(strands)] for i in range(strands)]
    for letter in letters:
        place = abs(letter) - 1
        step = [[{0: 1} if i == j else {} for j in range(strands)] for i in range(strands)]
        if letter > 0:
            block = [[{0: 1, 1: -1}, {1: 1}], [{0: 1}, {}]]
        else:
            block = [[{}, {0: 1}], [{-1: 1}, {0: 1, -1: -1}]]
        for i in range(2):
            for j in range(2):
                step[place + i][place + j] = block[i][j]
        product = [[sum_of(poly_times(product[i][k], step[k][j]) for k in range(strands)) for j in range(strands)] for i in range(strands)]
    return product


def sum_of(polynomials):
    total = {}
    for polynomial in polynomials:
        total = poly_add(total, polynomial)
    return total


def alexander_polynomial(strands, letters):
    """The coefficients from the lowest, with the first one positive: a minor of 1 minus the unreduced Burau matrix."""
    matrix = burau(strands, letters)
    minor = [[poly_add({0: 1} if i == j else {}, poly_times({0: -1}, matrix[i][j])) for j in range(strands - 1)] for i in range(strands - 1)]
    found = determinant(minor)
    low = min(found)
    dense = [found.get(power, 0) for power in range(low, max(found) + 1)]
    return dense if dense[0] > 0 else [-entry for entry in dense]


def bracket(strands, letters):
    """Kauffman's bracket of the closed braid in A, a sum over all states, with the unknot 1."""
    total = {}
    for state in range(2 ** len(letters)):
        exponent, joined = 0, list(range(strands * (len(letters) + 1)))

        def root(x):
            while joined[x] != x:
                x = joined[x]
            return x

        def join(x, y):
            joined[root(x)] = root(y)

        for level, letter in enumerate(letters):
            below, above, place = level * strands, (level + 1) * strands, abs(letter) - 1
            for position in range(strands):
                if position not in (place, place + 1):
                    join(below + position, above + position)
            upright = bool(state >> level & 1)
            if upright:
                join(below + place, above + place)
                join(below + place + 1, above + place + 1)
            else:
                join(below + place, below + place + 1)
                join(above + place, above + place + 1)
            exponent += 1 if upright == (letter > 0) else -1
        for position in range(strands):
            join(position, len(letters) * strands + position)
        circles = len({root(x) for x in range(len(joined))})
        term = {exponent: 1}
        for _ in range(circles - 1):
            term = poly_times(term, {2: -1, -2: -1})
        total = poly_add(total, term)
    return total


def bracket_of_rows(rows):
    """Kauffman's bracket of a planar diagram code: X[i,j,k,l] is A times (i j)(k l) and 1/A times (i l)(j k)."""
    total = {}
    for state in range(2 ** len(rows)):
        joined = {edge: edge for row in rows for edge in row}

        def root(x):
            while joined[x] != x:
                x = joined[x]
            return x

        exponent = 0
        for place, (i, j, k, l) in enumerate(rows):
            first = bool(state >> place & 1)
            exponent += 1 if first else -1
            for a, b in ((i, j), (k, l)) if first else ((i, l), (j, k)):
                joined[root(a)] = root(b)
        term = {exponent: 1}
        for _ in range(len({root(x) for x in joined}) - 1):
            term = poly_times(term, {2: -1, -2: -1})
        total = poly_add(total, term)
    return total


def jones_of_rows(rows, signs):
    writhe = sum(signs)
    turned = poly_times({-3 * writhe: -1 if writhe % 2 else 1}, bracket_of_rows(rows))
    return {Fraction(-power, 4): entry for power, entry in turned.items()}


def code_of_grid(xs, os_):
    """The crossing code of a grid as the program prints it, written for the tests by the rules of docs/FORMATS.md."""
    size = len(xs)
    x_at, o_at = [xs.index(row) for row in range(size)], [os_.index(row) for row in range(size)]
    found = [(row, column) for row in range(size) for column in range(size)
             if min(x_at[row], o_at[row]) < column < max(x_at[row], o_at[row]) and min(xs[column], os_[column]) < row < max(xs[column], os_[column])]
    number = {crossing: place for place, crossing in enumerate(found, 1)}
    sign = {(row, column): 1 if (xs[column] < os_[column]) != (o_at[row] < x_at[row]) else -1 for row, column in found}
    seen, loops, gauss, passed, edge = set(), 0, [], {}, 1
    for start in range(size):
        if start in seen:
            continue
        passages, column = [], start
        while column not in seen:
            seen.add(column)
            up = xs[column] < os_[column]
            passages += [("O", (row, column)) for row in (range(xs[column], os_[column]) if up else range(xs[column], os_[column], -1))
                         if (row, column) in number]
            row = os_[column]
            columns = range(column, x_at[row], 1 if x_at[row] > column else -1)
            passages += [("U", (row, over)) for over in columns if (row, over) in number]
            column = x_at[row]
        if not passages:
            loops += 1
            continue
        for place, passage in enumerate(passages):
            passed[passage] = (edge + place, edge + (place + 1) % len(passages))
        edge += len(passages)
        gauss.append("gauss " + " ".join(f"{kind}{number[at]}{'+' if sign[at] > 0 else '-'}" for kind, at in passages))
    rows = []
    for crossing in found:
        (i, k), (enter, leave) = passed["U", crossing], passed["O", crossing]
        j, l = (leave, enter) if sign[crossing] > 0 else (enter, leave)
        rows.append(f"X[{i},{j},{k},{l}]")
    return "\n".join([f"crossings {len(found)}", *rows, f"loops {loops}", *gauss, ""])


def jones_polynomial(strands, letters):
    """Powers of t as fractions, with their coefficients."""
    writhe = sum(1 if letter > 0 else -1 for letter in letters)
    turned = poly_times({-3 * writhe: -1 if writhe % 2 else 1}, bracket(strands, letters))
    return {Fraction(-power, 4): entry for power, entry in turned.items()}


def seifert_matrix(strands, letters):
    """A Seifert matrix of the closed braid: the surface has a disc for each strand and a band for each letter, and a loop goes through two bands
    that follow each other in one place."""
    loops, last = [], {}
    for level, letter in enumerate(letters):
        place = abs(letter)
        if place in last:
            loops.append((place, last[place], level))
        last[place] = level
    signs = [1 if letter > 0 else -1 for letter in letters]
    matrix = [[0] * len(loops) for _ in loops]
    for one, (place, low, high) in enumerate(loops):
        matrix[one][one] = -(signs[low] + signs[high]) // 2
        for two, (other, bottom, top) in enumerate(loops):
            if other == place and bottom == high:
                if signs[high] > 0:
                    matrix[two][one] = 1
                else:
                    matrix[one][two] = -1
            elif other == place + 1 and low < bottom < high < top:
                matrix[two][one] = 1
            elif other == place + 1 and bottom < low < top < high:
                matrix[two][one] = -1
    return matrix


def alexander_by_seifert(strands, letters):
    """The coefficients as `alexander_polynomial` has them, by the Seifert matrix."""
    matrix = seifert_matrix(strands, letters)
    places = range(len(matrix))
    found = determinant([[poly_add({0: matrix[i][j]} if matrix[i][j] else {}, {1: -matrix[j][i]} if matrix[j][i] else {}) for j in places] for i in places])
    dense = [found.get(power, 0) for power in range(min(found), max(found) + 1)]
    return dense if dense[0] > 0 else [-entry for entry in dense]


def signature(strands, letters):
    """The signature of the closed braid, that of the Seifert matrix and its transpose; -2 for the right trefoil."""
    matrix = seifert_matrix(strands, letters)
    places = range(len(matrix))
    form = [[Fraction(matrix[i][j] + matrix[j][i]) for j in places] for i in places]
    total, left = 0, list(places)
    while left:
        pivot = next((i for i in left if form[i][i]), None)
        if pivot is None:
            pair = next(((i, j) for i in left for j in left if form[i][j]), None)
            if pair is None:
                break
            pivot, other = pair
            form[pivot] = [a + b for a, b in zip(form[pivot], form[other])]
            for row in form:
                row[pivot] += row[other]
        total += 1 if form[pivot][pivot] > 0 else -1
        left.remove(pivot)
        for i in left:
            by = form[i][pivot] / form[pivot][pivot]
            form[i] = [a - by * b for a, b in zip(form[i], form[pivot])]
    return total
