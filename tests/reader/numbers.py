"""Numbers of colourings, by blocks of a quandle and perhaps a cocycle."""
from itertools import combinations

from .answers import Answer
from .codes import component_count, linking_numbers
from .diagrams import bottoms, colourings, is_up, rows_of, size_of
from .lines import DONE, MAX_CANDIDATES
from .weights import choices, counts_by_weight


def settled(rows, columns):
    """The columns that these settle, row by row."""
    known = set(columns)
    while True:
        more = {end for left, right, between in rows if known.issuperset(between) and (left in known or right in known)
                for end in (left, right)} - known
        if not more:
            return known
        known |= more


def seeds_of(grid):
    """As many seeds as the program finds: the least number, up to four, and else those among the columns from the left."""
    rows, size = rows_of(grid), size_of(grid)
    for count in range(1, 5):
        for columns in combinations(range(size), count):
            if len(settled(rows, columns)) == size:
                return columns
    seeds = []
    for column in range(size):
        if column not in settled(rows, seeds):
            seeds.append(column)
    return seeds


# Many texts say the same, and what they say may take seconds.
KEPT_NUMBERS = {}


def kept(make):
    """Makes numbers of a diagram, a quandle, perhaps a cocycle and more once for all calls."""
    def numbers(grid, quandle, cocycle, *more):
        key = make, grid, quandle.key, str(cocycle), *map(tuple, more)
        if key not in KEPT_NUMBERS:
            if len(KEPT_NUMBERS) > 20_000:
                KEPT_NUMBERS.clear()
            KEPT_NUMBERS[key] = make(grid, quandle, cocycle, *more)
        return KEPT_NUMBERS[key]

    return numbers


# A sweep that begins with more lists than this would take much memory.
MOST_BEGUN = 300_000


@kept
def numbers_of(grid, quandle, cocycle):
    """How many colourings a diagram has by a quandle; by a cocycle, how many of each weight. They are listed, or made one by one from seeds."""
    if quandle.order ** bottoms(grid) > MOST_BEGUN:
        return numbers_from(grid, quandle, cocycle, seeds_of(grid))
    found = colourings(grid, quandle)
    return counts_by_weight(grid, quandle, *cocycle, found) if cocycle else [len(found)]


def is_connected(quandle):
    """Whether the translations lead from the colour 0 to each other one."""
    reached, waiting = {0}, [0]
    while waiting:
        colour = waiting.pop()
        for further in set(quandle.table[colour]) - reached:
            reached.add(further)
            waiting.append(further)
    return len(reached) == quandle.order


def plan_of(grid, seeds):
    """The steps by which seeds give all colours: a seed takes each colour, a row gives the colour of one end or is tried."""
    rows, known, steps, waiting = rows_of(grid), set(), [], list(range(size_of(grid)))
    for seed in seeds:
        if seed in known:
            continue
        known.add(seed)
        steps.append((seed, None, None))
        ready = True
        while ready:
            ready = [row for row in waiting if known.issuperset(rows[row][2]) and not known.isdisjoint(rows[row][:2])]
            for row in ready:
                left, right, between = rows[row]
                from_left = left in known
                walk = [(column, is_up(grid, column) == from_left) for column in (between if from_left else reversed(between))]
                start, end = (left, right) if from_left else (right, left)
                steps.append((start, walk, end if end in known else end + size_of(grid)))
                known.add(end)
                waiting.remove(row)
    return steps


def colourings_from(grid, quandle, seeds, first):
    """The colourings of which the first seed has one of these colours."""
    steps, size = plan_of(grid, seeds), size_of(grid)
    colours = [0] * size

    def found_from(place):
        while place < len(steps):
            start, walk, end = steps[place]
            place += 1
            if walk is None:
                for colour in first if place == 1 else range(quandle.order):
                    colours[start] = colour
                    yield from found_from(place)
                return
            colour = colours[start]
            for column, is_back in walk:
                colour = (quandle.back if is_back else quandle.table)[colour][colours[column]]
            if end >= size:
                colours[end - size] = colour
            elif colours[end] != colour:
                return
        yield tuple(colours)

    return found_from(0)


@kept
def numbers_from(grid, quandle, cocycle, seeds):
    """The same as numbers_of, from seeds that settle all columns. By a connected quandle as many colourings have each colour in one place."""
    if not cocycle:
        alike = is_connected(quandle)
        count = sum(1 for _ in colourings_from(grid, quandle, seeds, (0,) if alike else range(quandle.order)))
        return [quandle.order * count if alike else count]
    return counts_by_weight(grid, quandle, *cocycle, colourings_from(grid, quandle, seeds, range(quandle.order)))


def first_difference(given, own):
    """The first place at which two lists differ, or one of them has ended; None where they are equal."""
    if given == own:
        return None
    return next((place for place, pair in enumerate(zip(given, own)) if pair[0] != pair[1]), min(len(given), len(own)))


def cause_of_numbers(first, second, quandle, cocycle, said):
    """Why numbers of colourings do not distinguish two diagrams, or None."""
    for which, (grid, (seeds, numbers)) in enumerate(zip((first, second), said), 1):
        outside = [seed for seed in seeds if seed >= size_of(grid)]
        if outside:
            return f"outside {which} {min(outside[0], 255)}"
        known = settled(rows_of(grid), seeds)
        unsettled = [column for column in range(size_of(grid)) if column not in known]
        if unsettled:
            return f"unsettled {which} {unsettled[0]}"
        if quandle.order ** choices(cocycle, len(seeds)) > MAX_CANDIDATES:
            return f"wide {which} {len(seeds)}"
        place = first_difference(numbers, numbers_from(grid, quandle, cocycle, seeds))
        if place is not None:
            return f"number {which} {place}"
    return "samenumbers" if said[0][1] == said[1][1] else None


def cause_of_linking(first, second, said):
    """Why linking numbers do not distinguish two links, or None."""
    for which, (grid, (components, numbers)) in enumerate(zip((first, second), said), 1):
        if components != component_count(grid):
            return f"components {which}"
        place = first_difference(numbers, linking_numbers(grid))
        if place is not None:
            return f"number {which} {place}"
    return "samenumbers" if said[0] == said[1] else None


def answer_numbers(_options, grid, blocks):
    text, seeds = "", len(seeds_of(grid))
    for quandle, cocycle in blocks:
        text += f"quandle {quandle.printed}"
        if quandle.order ** choices(cocycle, seeds) > MAX_CANDIDATES:
            text += f"wide {seeds}\n"
            continue
        text += " ".join(["numbers", *map(str, numbers_of(grid, quandle, cocycle))]) + "\n"
    return Answer(DONE, text)
