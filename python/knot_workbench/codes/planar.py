"""Planar diagram codes as lists of numbers, and such codes of DT codes and of passages.

A planar diagram (PD) code has a row [i, j, k, l] for each crossing: its four edges counterclockwise, from the one on which the lower
strand comes in. KnotTheory, KnotInfo, SnapPy and Regina list them so; Sage lists them clockwise, [i, l, k, j].

A DT code numbers the passages of a diagram 1, 2, 3 and so on along its components, such that each crossing has an odd number and an even
one. It lists the even numbers by their odd ones, with a minus where the strands lie otherwise than in an alternating diagram. It is
also that of the mirror image. To find its PD code, all crossings are smoothed so that one closed curve is left, which touches itself where the
crossings were (Dehn's method). Two touches that interlace along the curve are on different sides of it, one inside and one outside.
"""
from typing import Dict, Iterator, List, NamedTuple, Sequence, Set, Tuple

from ..faults import BadCode

UNDER, OVER = 0, 1

# A crossing, and UNDER or OVER; a strand's end there, "in" or "out"; and two ends between which a curve turns at a crossing.
Passed = Tuple[int, int]
End = Tuple[int, int, str]
EndPair = Tuple[End, End]


class Embedded(NamedTuple):
    """A code with its crossings as rows; and of how many parts each may be replaced by its mirror image, with the same DT or Gauss code."""

    rows: List[List[int]]
    parts: int


def planar_text(rows: Sequence[Sequence[int]], loops: int = 0) -> str:
    """The text of a code as `knot grid` reads it."""
    return "".join([f"crossings {len(rows)}\n", *(f"X[{i},{j},{k},{l}]\n" for i, j, k, l in rows), f"loops {loops}\n"])


def components_of_code(rows: Sequence[Sequence[int]]) -> int:
    """How many components pass through the crossings of a PD code: its edges, joined where a strand goes on."""
    above: Dict[int, int] = {}

    def first(edge: int) -> int:
        while above.setdefault(edge, edge) != edge:
            edge = above[edge]
        return edge

    for i, j, k, l in rows:
        above[first(i)] = first(k)
        above[first(j)] = first(l)
    return sum(edge == first(edge) for edge in list(above))


def rows_of_dt(components: Sequence[Sequence[int]]) -> Embedded:
    """A PD code of a DT code, which is a list of even numbers for each component: an Embedded."""
    evens = [even for component in components for even in component]
    count = len(evens)
    if sorted(abs(even) for even in evens) != list(range(2, 2 * count + 1, 2)):
        raise BadCode(f"a DT code of {count} crossings has each even number from 2 to {2 * count} once")
    passages: List[Passed] = [(0, UNDER)] * (2 * count)
    for crossing, even in enumerate(evens):
        odd_way, even_way = (OVER, UNDER) if even > 0 else (UNDER, OVER)
        passages[2 * crossing] = (crossing, odd_way)
        passages[abs(even) - 1] = (crossing, even_way)
    found, place = [], 0
    for component in components:
        found.append(passages[place:place + 2 * len(component)])
        place += 2 * len(component)
    return embedded([component for component in found if component])


def embedded(components: Sequence[Sequence[Passed]]) -> Embedded:
    """A PD code of components, each a list of passages (crossing, UNDER or OVER); edges are numbered along them, from 1."""
    follows: Dict[End, End] = {}
    edge_of: Dict[End, int] = {}
    base = 0
    for component in components:
        for place, (crossing, way) in enumerate(component):
            following = component[(place + 1) % len(component)]
            follows[crossing, way, "out"] = (*following, "in")
            follows[(*following, "in")] = (crossing, way, "out")
            edge_of[crossing, way, "out"] = base + (place + 1) % len(component) + 1
            edge_of[crossing, way, "in"] = base + place + 1
        base += len(component)
    crossings = sorted({crossing for component in components for crossing, _ in component})
    turns = smoothed(crossings, follows)
    around: Dict[int, List[End]] = {}
    parts = 0
    for curve in curves(turns, follows):
        found, count = sides(curve)
        parts += count
        around.update(found)
    rows = []
    for crossing in crossings:
        ends = around[crossing]
        begin = ends.index((crossing, UNDER, "in"))
        rows.append([edge_of[end] for end in ends[begin:] + ends[:begin]])
    return Embedded(rows, parts)


def opposite_end(end: End) -> End:
    """The other end of the strand at its crossing."""
    crossing, way, side = end
    return crossing, way, "in" if side == "out" else "out"


def curve_from(end: End, turns: Dict[End, End], follows: Dict[End, End]) -> List[EndPair]:
    """The closed curve that comes into a crossing by an end, as its turns there: where it comes, and where it leaves."""
    curve: List[EndPair] = []
    here = end
    while not curve or here != end:
        curve.append((here, turns[here]))
        here = follows[turns[here]]
    return curve


def curves(turns: Dict[End, End], follows: Dict[End, End]) -> Iterator[List[EndPair]]:
    """All closed curves, each once, in one of its directions."""
    seen: Set[End] = set()
    for end in sorted(turns):
        if end not in seen:
            curve = curve_from(end, turns, follows)
            seen.update(place for turn in curve for place in turn)
            yield curve


def smoothed(crossings: Sequence[int], follows: Dict[End, End]) -> Dict[End, End]:
    """Where a curve turns at each crossing, such that one closed curve is left of each connected part."""
    turns = {end: opposite_end(end) for end in follows}
    for crossing in crossings:
        begin = (crossing, UNDER, "in")
        again = next((turn for turn in curve_from(begin, turns, follows)[1:] if turn[0][0] == crossing), None)
        # Two curves become one whichever ends are joined; of one curve the ends by which it comes are.
        come, leave = again or ((crossing, OVER, "in"), (crossing, OVER, "out"))
        for one, other in ((begin, come), (opposite_end(begin), leave)):
            turns[one], turns[other] = other, one
    return turns


def sides(curve: Sequence[EndPair]) -> Tuple[Dict[int, List[End]], int]:
    """Of one closed curve the ends around each crossing, counterclockwise, and in how many parts the interlaced touches fall."""
    places: Dict[int, List[Tuple[int, End, End]]] = {}
    for place, (come, leave) in enumerate(curve):
        places.setdefault(come[0], []).append((place, come, leave))
    for (_, come, leave), (_, come_again, leave_again) in places.values():
        if (opposite_end(come), opposite_end(leave)) != (come_again, leave_again):
            raise BadCode("no diagram in the plane has this code")
    spans = {crossing: (first[0], second[0]) for crossing, (first, second) in places.items()}
    inside: Dict[int, bool] = {}
    parts = 0
    for start in spans:
        if start in inside:
            continue
        parts += 1
        inside[start], ahead = True, [start]
        while ahead:
            one = ahead.pop()
            for other in (other for other in spans if interlace(spans[one], spans[other])):
                if other not in inside:
                    inside[other] = not inside[one]
                    ahead.append(other)
                elif inside[other] == inside[one]:
                    raise BadCode("no diagram in the plane has this code")
    around = {}
    for crossing, ((_, come, leave), (_, come_again, leave_again)) in places.items():
        around[crossing] = [come, leave, come_again, leave_again] if inside[crossing] else [come, leave_again, come_again, leave]
    return around, parts


def interlace(one: Tuple[int, int], other: Tuple[int, int]) -> bool:
    """Whether two chords of a circle cross."""
    return one[0] < other[0] < one[1] < other[1] or other[0] < one[0] < other[1] < one[1]
