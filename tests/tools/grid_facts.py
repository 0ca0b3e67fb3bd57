"""Facts of grids that tests compare with, computed from the definitions and by nothing of tools/."""
import collections


def grid_of(text):
    """The rows of the Xs and of the Os that a text of a diagram has; comments are left out."""
    lines = [line.split() for line in text.splitlines() if line.strip() and not line.startswith("#")]
    (x, *xs), (o, *os_) = lines
    assert (x, o) == ("x", "o")
    return [int(row) for row in xs], [int(row) for row in os_]


def closure(strands, letters):
    """The grid of a closed braid, drawn letter by letter from below as docs/GUIDE.md tells it."""
    # Columns are tokens in a list from the left; every one gets its place when all are there.
    order = [("foot", position) for position in range(1, strands + 1)]
    opened = {column: position for position, column in enumerate(order)}
    open_at = dict(enumerate(order, 1))
    closed = {}
    row = strands
    for number, letter in enumerate(letters):
        k = abs(letter)
        new = ("letter", number)
        if letter > 0:
            # Strand k + 1 passes to the left under strand k.
            closed[open_at[k + 1]] = row
            order.insert(order.index(open_at[k]), new)
            open_at[k + 1], open_at[k] = open_at[k], new
        else:
            closed[open_at[k]] = row
            order.insert(order.index(open_at[k + 1]) + 1, new)
            open_at[k], open_at[k + 1] = open_at[k + 1], new
        opened[new] = row
        row += 1
    for position in range(strands, 0, -1):
        closed[open_at[position]] = row
        back = ("back", position)
        order.append(back)
        # It comes down: from the top row to the row of the foot.
        opened[back] = row
        closed[back] = position - 1
        row += 1
    return [opened[column] for column in order], [closed[column] for column in order]


def passages(xs, os_):
    """For each component its passages in order: 'O' or 'U', the crossing (column, row), its sign. Columns run X to O, rows O to X."""
    size = len(xs)
    of_x = {row: column for column, row in enumerate(xs)}
    of_o = {row: column for column, row in enumerate(os_)}

    def crosses(column, row):
        low, high = sorted((xs[column], os_[column]))
        left, right = sorted((of_x[row], of_o[row]))
        return low < row < high and left < column < right

    def sign(column, row):
        over = 1 if xs[column] < os_[column] else -1
        under = 1 if of_o[row] < of_x[row] else -1
        # ox uy - oy ux with the column over and the row under.
        return -over * under

    seen = set()
    components = []
    for start in range(size):
        if start in seen:
            continue
        found = []
        column = start
        while column not in seen:
            seen.add(column)
            step = 1 if os_[column] > xs[column] else -1
            found += [("O", (column, row), sign(column, row)) for row in range(xs[column], os_[column], step) if crosses(column, row)]
            row = os_[column]
            step = 1 if of_x[row] > column else -1
            found += [("U", (under, row), sign(under, row)) for under in range(column, of_x[row], step) if crosses(under, row)]
            column = of_x[row]
        components.append(found)
    return components


def writhe(xs, os_):
    return sum(sign for found in passages(xs, os_) for side, _, sign in found if side == "O")


def gauss(xs, os_, swap=False, backwards=False):
    """The signed Gauss code of a knot, written so that neither numbering nor starting place matters."""
    found, = passages(xs, os_)
    if backwards:
        found = found[::-1]
    if swap:
        found = [({"O": "U", "U": "O"}[side], crossing, sign) for side, crossing, sign in found]
    codes = []
    for start in range(len(found)):
        numbers = {}
        turned = found[start:] + found[:start]
        codes.append(tuple((side, numbers.setdefault(crossing, len(numbers)), sign) for side, crossing, sign in turned))
    return min(codes)


def jones(xs, os_):
    """The Jones polynomial of a knot or link in A = t^(-1/4), as a table from powers of A to coefficients."""
    components = passages(xs, os_)
    edge = 0
    ends = collections.defaultdict(dict)
    signs = {}
    loops = 0
    for found in components:
        first = edge
        for place, (side, crossing, sign) in enumerate(found):
            ends[crossing][side] = (first + place, first + (place + 1) % len(found))
            signs[crossing] = sign
        edge += len(found)
        loops += not found
    # Counterclockwise from the edge on which the strand under comes.
    rows = []
    for crossing, sides in ends.items():
        (under_in, under_out), (over_in, over_out) = sides["U"], sides["O"]
        j, l = (over_out, over_in) if signs[crossing] > 0 else (over_in, over_out)
        rows.append((under_in, j, under_out, l))
    # Crossing by crossing: for each way in which the open edges are joined so far, the polynomial of what is smoothed.
    states = {(): {0: 1}}
    for i, j, k, l in rows:
        further = collections.defaultdict(collections.Counter)
        for joined, poly in states.items():
            for power, pairs in ((1, ((i, j), (k, l))), (-1, ((i, l), (j, k)))):
                pairing = dict(joined)
                circles = sum(join(pairing, *pair) for pair in pairs)
                further[tuple(sorted(pairing.items()))].update(times_circles({p + power: c for p, c in poly.items()}, circles))
        states = further
    (rest, total), = states.items()
    assert rest == ()
    w = sum(signs.values())
    factor = -1 if w % 2 else 1
    # The bracket of one circle is 1.
    normal = over_circle(times_circles(total, loops))
    return {p - 3 * w: factor * c for p, c in sorted(normal.items()) if c}


def join(pairing, one, other):
    """Joins two ends of edges in a pairing of open ends; whether a circle is closed by that."""
    if one == other:
        return True
    if pairing.get(one) == other:
        del pairing[one], pairing[other]
        return True
    ends = []
    for end in (one, other):
        far = pairing.pop(end, None)
        if far is not None:
            del pairing[far]
        ends.append(end if far is None else far)
    pairing[ends[0]], pairing[ends[1]] = ends[1], ends[0]
    return False


def times_circles(poly, circles):
    """The polynomial times (-A^2 - A^-2) for each circle."""
    for _ in range(circles):
        further = collections.Counter()
        for power, factor in poly.items():
            further[power + 2] -= factor
            further[power - 2] -= factor
        poly = further
    return poly


def over_circle(poly):
    """The polynomial divided by -A^2 - A^-2, which divides it."""
    left = {power: factor for power, factor in poly.items() if factor}
    found = {}
    while left:
        power = max(left)
        factor = -left[power]
        found[power - 2] = factor
        for at in (power, power - 4):
            left[at] = left.get(at, 0) + factor
            if not left[at]:
                del left[at]
    return found
