"""Diagrams of a shadow: which strand passes over at each crossing, each choice once up to the shadow's symmetries and mirror image.

A choice is a number: its bit v says whether the strand of the darts 4 v and 4 v + 2 passes over at crossing v.
"""
from typing import Iterator, List, Tuple

from lib.tabulate.shadows import Map, shadows_to, symmetries

# How many diagrams there are in all, of 3 to so many crossings.
DIAGRAM_COUNTS = {7: 414, 8: 2770, 9: 22119, 10: 184739}


def images(ends: Map) -> List[List[int]]:
    """What each symmetry makes of each choice: for each a list of choices by choices."""
    count, found = len(ends) // 4, []
    for symmetry in symmetries(ends):
        swapped, to = 0, []
        for crossing in range(count):
            image = symmetry[4 * crossing]
            to.append(1 << (image >> 2))
            swapped |= to[-1] * (image & 1)
        made = [swapped]
        for bit in to:
            made += [choice ^ bit for choice in made]
        found.append(made)
    return found


def choices(ends: Map) -> List[int]:
    """The choices of which each other one is an image, or has all strands the other way round than an image, the least of each."""
    size = 1 << (len(ends) // 4)
    by, seen, found = images(ends), bytearray(size), []
    for choice in range(size):
        if not seen[choice]:
            found.append(choice)
            for made in by:
                seen[made[choice]] = seen[size - 1 - made[choice]] = 1
    return found


def rows_of_choice(ends: Map, choice: int) -> List[List[int]]:
    """The planar diagram code: for each crossing its four edges counterclockwise, from the one on which the strand below comes."""
    edge, comes, here, number = [0] * len(ends), [False] * len(ends), 0, 0
    while not number or here:
        number += 1
        there = ends[here]
        edge[here] = edge[there] = number
        comes[there] = True
        here = there ^ 2
    rows = []
    for crossing in range(len(ends) // 4):
        under = 4 * crossing + (choice >> crossing & 1)
        begin = under if comes[under] else under + 2
        rows.append([edge[4 * crossing + ((begin + place) & 3)] for place in range(4)])
    return rows


def diagrams_to(most: int) -> Iterator[Tuple[str, List[List[int]]]]:
    """All prime reduced knot diagrams with 3 to so many crossings: a name, as 7.10.45 for the 45th choice of the tenth shadow of seven, and
    the rows of a planar diagram code."""
    for count, shadows in shadows_to(most):
        for place, ends in enumerate(shadows, 1):
            for number, choice in enumerate(choices(ends), 1):
                yield f"{count}.{place}.{number}", rows_of_choice(ends, choice)
