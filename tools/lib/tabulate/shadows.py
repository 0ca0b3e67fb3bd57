"""Shadows of prime reduced knot diagrams: each curve on the sphere once, up to the symmetries of the sphere and reflections.

A map has its darts as numbers: 4 v + k is the k-th end, counterclockwise, of an edge at crossing v. It is a tuple that names for each dart
the other end of its edge. All prime maps of n crossings come from those of n - 1: two sides of a face are pinched to a crossing, such that
they cut off a face of two sides or of three. (The dual maps are the quadrangulations without parallel edges, of which each is made so.) A
map is the shadow of a knot where one curve goes straight on through all crossings.
"""
from typing import Dict, Iterator, List, Tuple

Map = Tuple[int, ...]

# Two crossings, joined by four edges.
FIRST: Map = (4, 7, 6, 5, 0, 3, 2, 1)

# How many shadows there are of so many crossings.
SHADOW_COUNTS = {3: 1, 4: 1, 5: 2, 6: 3, 7: 10, 8: 27, 9: 101, 10: 364, 11: 1610}


def face_of(ends: Map, dart: int) -> List[int]:
    """The darts along the face on the left of one."""
    found: List[int] = []
    here = dart
    while not found or here != dart:
        found.append(here)
        back = ends[here]
        here = (back & ~3) | ((back - 1) & 3)
    return found


def faces(ends: Map) -> List[List[int]]:
    """All faces, each by the darts along it."""
    seen, found = set(), []
    for dart in range(len(ends)):
        if dart not in seen:
            found.append(face_of(ends, dart))
            seen.update(found[-1])
    return found


def pinched(ends: Map, one: int, other: int) -> Map:
    """The map with a new crossing of two edges, by darts along one face."""
    grown, new = [*ends, 0, 0, 0, 0], len(ends)
    for place, dart in enumerate((ends[one], other, ends[other], one)):
        grown[new + place], grown[dart] = dart, new + place
    return tuple(grown)


def larger(ends: Map) -> Iterator[Map]:
    """Maps of one crossing more, each perhaps several times."""
    for face in faces(ends):
        size = len(face)
        for apart in (1, 2):
            if size < 2 * apart:
                continue
            for place in range(size if size > 2 * apart else apart):
                yield pinched(ends, face[place], face[(place + apart) % size])


def code_from(ends: Map, root: int, step: int) -> Tuple[bytes, List[int]]:
    """The map with its darts numbered from a root on, counterclockwise where the step is 1 and clockwise where it is 3; and the darts by
    which its crossings are first met."""
    number, first, found = [-1] * (len(ends) // 4), [root], []
    number[root >> 2] = 0
    for dart in first:
        base, turn = dart & ~3, dart & 3
        for place in range(4):
            end = ends[base | ((turn + step * place) & 3)]
            crossing = end >> 2
            if number[crossing] < 0:
                number[crossing] = len(first)
                first.append(end)
            found.append(4 * number[crossing] + (((end - first[number[crossing]]) * step) & 3))
    return bytes(found), first


def roots(ends: Map) -> List[Tuple[int, int]]:
    """Darts with a step, of which the least numbering takes one: those that see faces of least sizes, which a symmetry leaves so."""
    size = {dart: len(face) for face in faces(ends) for dart in face}
    seen: Dict[Tuple[int, ...], List[Tuple[int, int]]] = {}
    for dart in range(len(ends)):
        base, turn = dart & ~3, dart & 3
        around = [size[base | ((turn + place) & 3)] for place in range(4)]
        seen.setdefault(tuple(around), []).append((dart, 1))
        # Clockwise, the face after the next dart is the one on its right.
        seen.setdefault(tuple(around[place] for place in (3, 2, 1, 0)), []).append((dart, 3))
    return min((len(found), sight, found) for sight, found in seen.items())[2]


def least_numbering(ends: Map) -> Map:
    """The least numbering of a map, the same for all that symmetries of the sphere and reflections make of it."""
    return tuple(min(code_from(ends, root, step)[0] for root, step in roots(ends)))


def symmetries(ends: Map) -> List[List[int]]:
    """All symmetries of a map that is numbered as `code_from` does, reflections among them: for each the images of all darts."""
    found, own = [], bytes(ends)
    for root in range(len(ends)):
        for step in (1, 3):
            code, first = code_from(ends, root, step)
            if code == own:
                found.append([(dart & ~3) | ((dart + step * place) & 3) for dart in first for place in range(4)])
    return found


def is_one_curve(ends: Map) -> bool:
    """Whether one curve goes through all crossings."""
    here, count = 0, 0
    while True:
        here, count = ends[here] ^ 2, count + 1
        if here == 0:
            return count == len(ends) // 2


def maps_to(most: int) -> Iterator[Tuple[int, List[Map]]]:
    """The prime maps of 2 to so many crossings, of each number all, in the order of their numberings."""
    found = [least_numbering(FIRST)]
    yield 2, found
    for count in range(3, most + 1):
        found = sorted({least_numbering(grown) for ends in found for grown in larger(ends)})
        yield count, found


def shadows_to(most: int) -> Iterator[Tuple[int, List[Map]]]:
    """The shadows of prime reduced knot diagrams with 3 to so many crossings, as `maps_to`."""
    for count, found in maps_to(most):
        if count > 2:
            yield count, [ends for ends in found if is_one_curve(ends)]
