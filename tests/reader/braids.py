"""Braids: their closures, words of diagrams, fixed points, and steps from one braid to another."""
from itertools import product

from .diagrams import is_up, low, size_of, turned
from .lines import MAX_SIZE, MAX_STRANDS


def closure(strands, letters):
    """From the lowest row to the highest; a column is [row of its X, row of its O]."""
    columns = [[row, None] for row in range(strands)]
    row = strands

    def place_of(position):
        return [place for place, column in enumerate(columns) if column[1] is None][position - 1]

    for letter in letters:
        k = abs(letter)
        here, beyond = place_of(k), place_of(k + 1)
        if letter > 0:
            columns[beyond][1] = row
            columns.insert(here, [row, None])
        else:
            columns[here][1] = row
            columns.insert(beyond + 1, [row, None])
        row += 1
    size = row + strands
    for position in range(strands, 0, -1):
        columns[place_of(position)][1] = size - position
        columns.append([size - position, position - 1])
    # The columns that close are ended already, so the last open one is always that of the position in turn.
    return tuple(column[0] for column in columns), tuple(column[1] for column in columns)


def feet_of_closure(grid, strands):
    """The columns in which the strands of a closure begin."""
    return [grid[0].index(row) for row in range(strands)]


def fixed_points(strands, letters, quandle):
    """All colours of the strands that a braid leaves as they are."""
    return [colours for colours in product(range(quandle.order), repeat=strands) if acted(letters, quandle, colours) == colours]


def acted(letters, quandle, colours):
    """The colours after a braid."""
    colours = list(colours)
    for letter in letters:
        k = abs(letter) - 1
        first, second = colours[k], colours[k + 1]
        colours[k:k + 2] = [quandle.table[second][first], first] if letter > 0 else [second, quandle.back[first][second]]
    return tuple(colours)


def strands_at(grid, height):
    """The up columns that are cut at a height, and the down columns that are not."""
    def is_cut(column):
        return low(grid, column) < height <= max(grid[0][column], grid[1][column])
    return [column for column in range(size_of(grid)) if is_cut(column) == is_up(grid, column)]


def word_of(grid):
    """The number of strands, and the letters, row by row."""
    xs, os = turned(grid)
    letters = []
    for row in range(size_of(grid)):
        below = strands_at(grid, row)
        left, right = sorted((xs[row], os[row]))
        before = sum(column < os[row] for column in below)
        between = sum(left < column < right for column in below)
        if xs[row] < os[row]:
            letters += [before - step for step in range(between)]
        else:
            letters += [-(before + 1 + step) for step in range(between)]
    return len(strands_at(grid, 0)), letters


def at_feet(grid, quandle, colours):
    """The colours at the feet of a word: those of the down columns, each of which changes all columns to its right."""
    colours = list(colours)
    down = [column for column in range(size_of(grid)) if not is_up(grid, column)]
    for column in down:
        for right in range(column + 1, size_of(grid)):
            colours[right] = quandle.back[colours[right]][colours[column]]
    return tuple(colours[column] for column in down)


def range_of_step(step, strands, letters):
    """Whether the letters that a step names are there."""
    word, length = step[0], len(letters)
    if word in ("far", "cancel"):
        return step[1] + 1 < length
    if word == "triple":
        return step[1] + 2 < length
    if word == "insert":
        return step[1] <= length and 1 <= abs(step[2]) < strands
    return word != "turn" or 1 <= step[1] < length


def shape_of_step(step, strands, letters):
    """Whether letters and strands are as the step wants them."""
    word, sizes = step[0], [abs(letter) for letter in letters]
    if word == "far":
        return abs(sizes[step[1]] - sizes[step[1] + 1]) >= 2
    if word == "cancel":
        return letters[step[1]] + letters[step[1] + 1] == 0
    if word == "triple":
        first, second, third = letters[step[1]:step[1] + 3]
        return first == third and abs(first - second) == 1 and first * second > 0
    return word != "shrink" or (strands >= 2 and sizes.count(strands - 1) == 1 and sizes[-1] == strands - 1)


def room_for_step(step, strands, letters):
    """Whether the closure after a step is within the limits."""
    word, size = step[0], len(letters) + 2 * strands
    return size + {"insert": 2, "grow": 3}.get(word, 0) <= MAX_SIZE and (word != "grow" or strands < MAX_STRANDS)


def after_step(step, strands, letters):
    """The strands and letters after a legal step."""
    word, place = step[0], step[1] if len(step) > 1 else None
    if word == "grow":
        return strands + 1, [*letters, strands if place == b"plus" else -strands]
    if word == "shrink":
        return strands - 1, letters[:-1]
    if word == "turn":
        return strands, letters[place:] + letters[:place]
    if word == "insert":
        return strands, [*letters[:place], step[2], -step[2], *letters[place:]]
    taken = {"far": 2, "cancel": 2, "triple": 3}[word]
    first, second = letters[place:place + 2]
    put = {"far": [second, first], "cancel": [], "triple": [second, first, second]}[word]
    return strands, letters[:place] + put + letters[place + taken:]
