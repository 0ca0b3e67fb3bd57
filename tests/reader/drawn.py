"""Diagrams of planar diagram codes: what `grid` may answer to one."""
import re

from .answers import Answer, first_line
from .codes import print_code
from .diagrams import print_grid
from .items import code_text, read_grid
from .lines import DONE, Fault, LIMIT, Lines, MAX_SIZE, REJECTED


def ends_of(rows):
    """By edge its ends, each a crossing and a slot; edges by name."""
    ends = {}
    for crossing, row in enumerate(rows):
        for slot, edge in enumerate(row):
            ends.setdefault(edge, []).append((crossing, slot))
    return dict(sorted(ends.items()))


def others_of(rows):
    """By end the other end of its edge."""
    others = {}
    for one, other in ends_of(rows).values():
        others[one], others[other] = other, one
    return others


def across(end):
    return end[0], (end[1] + 2) % 4


def cycles(steps):
    """How many cycles a permutation has."""
    left, count = set(steps), 0
    while left:
        at = left.pop()
        while steps[at] in left:
            at = steps[at]
            left.remove(at)
        count += 1
    return count


def parts_of(rows):
    """The crossings of each connected part."""
    others, left, parts = others_of(rows), set(range(len(rows))), []
    while left:
        part, new = set(), [min(left)]
        while new:
            crossing = new.pop()
            if crossing not in part:
                part.add(crossing)
                new += [others[crossing, slot][0] for slot in range(4)]
        left -= part
        parts.append(sorted(part))
    return parts


def is_plane(rows):
    others = others_of(rows)
    faces = cycles({end: (other[0], (other[1] + 3) % 4) for end, other in others.items()})
    return faces == len(rows) + 2 * len(parts_of(rows))


def signs_of(rows):
    """The sign of each crossing: strands go as they pass under. One that only passes over goes from its least edge to the lesser of
    the next two, and where these are one, through the earlier end of the least edge. None where strands run against each other."""
    others, signs = others_of(rows), [None] * len(rows)

    def follow(end):
        while True:
            crossing, slot = other = others[end]
            if slot % 2 == 0:
                return slot == 0
            if signs[crossing] is not None:
                return signs[crossing] == (slot == 3)
            signs[crossing] = slot == 3
            end = across(other)

    if not all([follow((crossing, 2)) for crossing in range(len(rows))]):
        return None
    for one, other in ends_of(rows).values():
        if signs[one[0]] is None and one[1] % 2 == 1:
            begin = min((one, other), key=lambda end: (rows[end[0]][across(end)[1]], end))
            signs[begin[0]] = begin[1] == 3
            if not follow(across(begin)):
                return None
    return signs if all(leads(rows, signs, one) != leads(rows, signs, other) for one, other in ends_of(rows).values()) else None


def leads(rows, signs, end):
    """Whether the strand leaves its crossing by this end."""
    crossing, slot = end
    return slot == 2 if slot % 2 == 0 else (slot == 1) == signs[crossing]


def strand(end):
    """The crossing whose sign says whether the strand leaves by this end, None for a strand under, and whether the other way round."""
    crossing, slot = end
    return (None if slot % 2 == 0 else crossing), slot in (0, 3)


def fits(edges):
    """Whether there are signs with which the strand of each edge leaves by one of its ends alone."""
    near, values = {}, {}
    for ends in edges:
        (one, turned), (other, too) = map(strand, ends)
        near.setdefault(one, []).append((other, turned == too))
        near.setdefault(other, []).append((one, turned == too))
    for begin in near:
        new = [] if begin in values else [begin]
        values.setdefault(begin, True)
        while new:
            at = new.pop()
            for to, differ in near[at]:
                if to not in values:
                    values[to] = values[at] != differ
                    new.append(to)
                elif values[to] != (values[at] != differ):
                    return False
    return True


def clash_of(rows):
    """The least edge up to which no signs fit; None where there are signs that fit all."""
    edges = ends_of(rows)
    return next((edge for count, edge in enumerate(edges, 1) if not fits(list(edges.values())[:count])), None)


def signs_by(rows, walks):
    """The signs that the Gauss lines have; None where these lines aren't those of the rows."""
    passages = [passage for walk in walks for passage in walk]
    signs = {crossing: positive for _, crossing, positive in passages}
    each = sorted((over, crossing) for over, crossing, _ in passages)
    if each != sorted((over, 1 + crossing) for over in (False, True) for crossing in range(len(rows))):
        return None
    if any(signs[crossing] != positive for _, crossing, positive in passages):
        return None
    for walk in walks:
        for (over, one, _), (next_over, two, _) in zip(walk, walk[1:] + walk[:1]):
            leaving = rows[one - 1][(1 if signs[one] else 3) if over else 2]
            if leaving != rows[two - 1][(3 if signs[two] else 1) if next_over else 0]:
                return None
    return [signs[1 + crossing] for crossing in range(len(rows))]


def code_of(grid):
    """The rows of a grid, their signs, and its loops."""
    lines = Lines(print_code(grid).encode())
    rows, loops, walks = code_text(lines)
    return rows, signs_by(rows, walks), loops


def as_part(one, part, two, at):
    """What the crossings of a part become where its first becomes this one; None where it can't."""
    (rows, signs), (their_rows, their_signs) = one, two
    others, theirs = others_of(rows), others_of(their_rows)
    becomes, new = {part[0]: at}, [part[0]]
    while new:
        crossing = new.pop()
        if signs[crossing] != their_signs[becomes[crossing]]:
            return None
        for slot in range(4):
            (other, other_slot), (their, their_slot) = others[crossing, slot], theirs[becomes[crossing], slot]
            if other_slot != their_slot or becomes.get(other, their) != their:
                return None
            if other not in becomes:
                becomes[other] = their
                new.append(other)
    return becomes if len(set(becomes.values())) == len(becomes) else None


def are_renamed(one, two):
    """Whether two codes, each of rows and signs, differ in names alone. Parts that are alike may be exchanged."""
    left = set(range(len(two[0])))
    for part in parts_of(one[0]):
        found = next((becomes for at in sorted(left) if (becomes := as_part(one, part, two, at)) and left.issuperset(becomes.values())), None)
        if found is None:
            return False
        left -= set(found.values())
    return not left


class Drawn:
    """The answer of `grid` to a code of a diagram: one of several."""

    kind = "searched"

    def __init__(self, rows, signs, loops):
        self.rows, self.signs, self.loops = rows, signs, loops

    def problem_with(self, status, text):
        if status == LIMIT:
            match = re.fullmatch(rb"limit columns ([0-9]+)\n", text)
            return None if match and int(match[1]) > MAX_SIZE else f"limit, and {first_line(text)!r}"
        if status != DONE:
            return f"status {status}, and 0 is due"
        try:
            lines = Lines(text)
            grid = read_grid(lines)
            lines.end()
        except Fault as fault:
            return f"no grid at line {fault.line}: {first_line(text)!r}"
        if text.decode() != print_grid(grid):
            return f"not as a grid is printed: {first_line(text)!r}"
        rows, signs, loops = code_of(grid)
        if len(rows) != len(self.rows) or loops != self.loops:
            return f"{len(rows)} crossings and {loops} loops, and {len(self.rows)} and {self.loops} are due"
        return None if are_renamed((self.rows, self.signs), (rows, signs)) else "its code is another"


def answer_grid(_options, rows, loops, walks):
    if not rows and not loops:
        return Answer(REJECTED, "rejected empty\n")
    for edge, ends in ends_of(rows).items():
        if len(ends) != 2:
            return Answer(REJECTED, f"rejected edge {edge}\n")
    signs = signs_of(rows)
    if signs is None:
        return Answer(REJECTED, f"rejected direction {clash_of(rows)}\n")
    if not is_plane(rows):
        return Answer(REJECTED, "rejected plane\n")
    if walks:
        signs = signs_by(rows, walks)
        if signs is None:
            return Answer(REJECTED, "rejected gauss\n")
    return Drawn(rows, signs, loops)
