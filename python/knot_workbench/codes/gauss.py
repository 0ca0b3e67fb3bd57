"""Gauss codes of other programs: rows of a planar diagram code made of them.

A Gauss code numbers the crossings, and lists for each component those that it passes, in order. A negative number is a passage under, as
KnotInfo, KnotTheory and Regina have it. Such a code is also that of the mirror image, so it doesn't matter whether a minus is a passage
under or over. It matters if the code also has the sign of each crossing, as Sage and the job `code` of knot write it.
"""
from typing import Dict, List, Sequence, Tuple

from ..faults import BadCode
from .planar import OVER, UNDER, Embedded, Passed, embedded


def passages_of(components: Sequence[Sequence[int]]) -> List[List[Passed]]:
    """Passages of signed numbers of crossings. Raises BadCode where a crossing isn't passed once over and once under."""
    seen: Dict[int, List[int]] = {}
    for number in (number for component in components for number in component):
        if not number:
            raise BadCode("a Gauss code numbers crossings from 1, and it has 0")
        seen.setdefault(abs(number), []).append(number)
    for crossing, numbers in sorted(seen.items()):
        if len(numbers) != 2:
            raise BadCode(f"the crossing {crossing} is passed {'once' if len(numbers) == 1 else f'{len(numbers)} times'}, and not twice")
        if sum(numbers):
            raise BadCode(f"the crossing {crossing} is passed twice {'over' if numbers[0] > 0 else 'under'}: of the two passages one is negative")
    return [[(abs(number), OVER if number > 0 else UNDER) for number in component] for component in components]


def rows_of_gauss(components: Sequence[Sequence[int]]) -> Embedded:
    """A PD code of a Gauss code without signs of crossings. Components without a crossing are left out. Raises BadCode."""
    return embedded([passed for passed in passages_of(components) if passed])


def rows_of_signed(components: Sequence[Sequence[int]], signs: Dict[int, int]) -> List[List[int]]:
    """A PD code of a Gauss code with the sign of each crossing, 1 or -1. Whether a diagram in the plane has it, `knot grid` says.
    Raises BadCode."""
    passages = passages_of(components)
    ends: Dict[Passed, Tuple[int, int]] = {}
    base = 1
    for component in passages:
        for place, passed in enumerate(component):
            ends[passed] = (base + place, base + (place + 1) % len(component))
        base += len(component)
    rows = []
    for crossing in sorted({crossing for crossing, _ in ends}):
        sign = signs.get(crossing)
        if sign not in (1, -1):
            raise BadCode(f"the sign of the crossing {crossing} is {'missing' if sign is None else f'{sign}, and not 1 or -1'}")
        (under_in, under_out), (over_in, over_out) = ends[crossing, UNDER], ends[crossing, OVER]
        rows.append([under_in, over_out, under_out, over_in] if sign > 0 else [under_in, over_in, under_out, over_out])
    more = sorted(set(signs) - {crossing for crossing, _ in ends})
    if more:
        raise BadCode(f"the crossing {more[0]} has a sign, and no passage")
    return rows
