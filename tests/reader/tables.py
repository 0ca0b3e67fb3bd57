"""Tables of knots: why one does not hold."""
from .diagrams import play, rows_of, size_of
from .lines import MAX_CANDIDATES
from .numbers import first_difference, numbers_from, settled
from .weights import choices


def cause_of_class(blocks, grid, seeds, counts):
    """Why what is said of a class is not shown, or None."""
    outside = [seed for seed in seeds if seed >= size_of(grid)]
    if outside:
        return f"outside {min(outside[0], 255)}"
    known = settled(rows_of(grid), seeds)
    unsettled = [column for column in range(size_of(grid)) if column not in known]
    if unsettled:
        return f"unsettled {unsettled[0]}"
    for at, ((quandle, cocycle), numbers) in enumerate(zip(blocks, counts)):
        if numbers is None:
            continue
        if quandle.order ** choices(cocycle, len(seeds)) > MAX_CANDIDATES:
            return f"wide {at}"
        place = first_difference(numbers, numbers_from(grid, quandle, cocycle, seeds))
        if place is not None:
            return f"numbers {at} {place}"
    return None


def are_told_apart(one, two):
    """Whether some block has numbers of both classes that differ."""
    return any(first is not None and second is not None and first != second for first, second in zip(one[2], two[2]))


def cause_of_table(blocks, classes, left, rows):
    """Why a table does not hold, or None."""
    for at, one in enumerate(classes):
        cause = cause_of_class(blocks, *one)
        if cause:
            return f"class {at} {cause}"
    for first, one in enumerate(classes):
        for second in range(first + 1, len(classes)):
            if (first, second) not in left and not are_told_apart(one, classes[second]):
                return f"classes {first} {second} same"
    for at, (grid, number, moves) in enumerate(rows):
        last, stop, _ = play(grid, moves)
        if stop or last != classes[number][0]:
            return f"row {at} {stop or 'otherend'}"
    return None
