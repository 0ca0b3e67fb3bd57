"""Crossing codes and linking numbers, read off a grid."""
from .diagrams import is_up, rows_of, size_of, turned


def passages(grid):
    """Of each component, by its least column, the crossings as they are met: ("O" or "U", column, row)."""
    xs = turned(grid)[0]
    seen, components = set(), []
    for start in range(size_of(grid)):
        if start in seen:
            continue
        met, column = [], start
        while column not in seen:
            seen.add(column)
            begin, end = grid[0][column], grid[1][column]
            step = 1 if begin < end else -1
            met += [("O", column, row) for row in range(begin + step, end, step) if column in rows_of(grid)[row][2]]
            left, right, between = rows_of(grid)[end]
            following = xs[end]
            met += [("U", over, end) for over in (between if following == right else reversed(between))]
            column = following
        components.append(met)
    return components


def sign(grid, column, row):
    """Positive where the column runs up and the row to the left, or the column down and the row to the right."""
    xs, os = turned(grid)
    to_the_right = os[row] < xs[row]
    return "-" if is_up(grid, column) == to_the_right else "+"


def print_code(grid):
    """The planar diagram code, the loops, and the signed Gauss codes."""
    numbers = {}
    for row, (_, _, between) in enumerate(rows_of(grid)):
        for column in between:
            numbers[column, row] = len(numbers) + 1
    edges, base, loops, gauss = {}, 0, 0, []
    for met in passages(grid):
        loops += not met
        for place, (way, column, row) in enumerate(met):
            edges[way, column, row] = (base + place + 1, base + (place + 1) % len(met) + 1)
        if met:
            gauss.append("gauss " + " ".join(f"{way}{numbers[column, row]}{sign(grid, column, row)}" for way, column, row in met))
        base += len(met)
    code = [f"crossings {len(numbers)}"]
    for column, row in numbers:
        over, under = edges["O", column, row], edges["U", column, row]
        j, l = (over[1], over[0]) if sign(grid, column, row) == "+" else over
        code.append(f"X[{under[0]},{j},{under[1]},{l}]")
    return "\n".join([*code, f"loops {loops}", *gauss]) + "\n"


def components_of(grid):
    """For each column a column of its component, the same for all of them."""
    components = {}
    xs = turned(grid)[0]
    for start in range(size_of(grid)):
        column = start
        while column not in components:
            components[column] = start
            column = xs[grid[1][column]]
    return components


def component_count(grid):
    """How many components the link has."""
    return len(set(components_of(grid).values()))


def linking_numbers(grid):
    """The linking numbers of all ordered pairs of components, in ascending order."""
    components = components_of(grid)
    sums = {(i, j): 0 for i in set(components.values()) for j in set(components.values()) if i != j}
    for row, (left, _, between) in enumerate(rows_of(grid)):
        for column in between:
            pair = components[column], components[left]
            if pair in sums:
                sums[pair] += 1 if sign(grid, column, row) == "+" else -1
    return sorted(sums.values())
