"""Cocycles, and the weights of colourings."""
from collections import Counter

from .codes import sign
from .diagrams import is_up, rows_of


def is_cocycle(quandle, modulus, values):
    """Both laws of a cocycle, tried for all colours."""
    table, colours = quandle.table, range(quandle.order)
    return (all(values[x][x] == 0 for x in colours)
            and all((values[x][y] + values[table[x][y]][z] - values[x][z] - values[table[x][z]][table[y][z]]) % modulus == 0
                    for x in colours for y in colours for z in colours))


def weight(grid, quandle, modulus, values, colours):
    """The weight of one colouring: the signed sum over its crossings."""
    total = 0
    for row, (left, _, between) in enumerate(rows_of(grid)):
        colour = colours[left]
        for column in between:
            beside, up = colours[column], is_up(grid, column)
            behind = (quandle.back if up else quandle.table)[colour][beside]
            value = values[behind if up else colour][beside]
            total += value if sign(grid, column, row) == "+" else -value
            colour = behind
    return total % modulus


def is_shadow_cocycle(quandle, modulus, values):
    """Both laws of a shadow cocycle, tried for all colours."""
    table, colours = quandle.table, range(quandle.order)

    def differ(a, b, c, d):
        one = values[a][c][d] + values[table[a][c]][table[b][c]][d] + values[a][b][c]
        other = values[table[a][b]][c][d] + values[a][b][d] + values[table[a][d]][table[b][d]][table[c][d]]
        return (one - other) % modulus

    return (all(values[w][x][x] == 0 for w in colours for x in colours)
            and not any(differ(a, b, c, d) for a in colours for b in colours for c in colours for d in colours))


def is_dihedral_of_prime_order(quandle):
    """Whether a quandle has the table of a dihedral one, of prime order."""
    order = quandle.order
    return (order >= 2 and all(order % divisor for divisor in range(2, order))
            and all(quandle.table[x][y] == (2 * y - x) % order for x in range(order) for y in range(order)))


def by_formula(order):
    """Mochizuki's shadow cocycle of the dihedral quandle of a prime order, mod this order."""
    numbers = range(order)
    return [[[(x - y) * (((2 * z - y) ** order + y ** order - 2 * z ** order) // order) % order for z in numbers] for y in numbers] for x in numbers]


def region(grid, quandle, colours, outer, height, columns):
    """The colour of the region between rows height - 1 and height, after so many columns."""
    for column in range(columns):
        low, high = sorted((grid[0][column], grid[1][column]))
        if low < height <= high:
            outer = (quandle.back if is_up(grid, column) else quandle.table)[outer][colours[column]]
    return outer


def shadow_weight(grid, quandle, modulus, values, colours, outer):
    """The weight of one colouring with a colour of the outer region: the signed sum over its crossings."""
    total = 0
    for row, (left, _, between) in enumerate(rows_of(grid)):
        colour = colours[left]
        height = row if grid[1][left] == row else row + 1
        for column in between:
            beside, up = colours[column], is_up(grid, column)
            behind = (quandle.back if up else quandle.table)[colour][beside]
            across = region(grid, quandle, colours, outer, height, column + 1 if up else column)
            value = values[across][behind if up else colour][beside]
            total += value if sign(grid, column, row) == "+" else -value
            colour = behind
    return total % modulus


def counts_by_weight(grid, quandle, modulus, values, found):
    """How many of these colourings have each weight; by a shadow cocycle, how many pairs with a colour of the outer region."""
    if isinstance(values[0][0], list):
        weights = (shadow_weight(grid, quandle, modulus, values, colours, outer) for colours in found for outer in range(quandle.order))
    else:
        weights = (weight(grid, quandle, modulus, values, colours) for colours in found)
    counts = Counter(weights)
    return [counts[value] for value in range(modulus)]


def choices(cocycle, seeds):
    """How many colours are chosen for so many seeds: by a shadow cocycle that of the outer region too."""
    return seeds + (1 if cocycle and isinstance(cocycle[1][0][0], list) else 0)
