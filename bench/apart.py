#!/usr/bin/env python3
"""How many knots of a table are distinguished from each other, from their mirror images and from their reverses, by rows of numbers.

    python3 bench/apart.py                   by the rows that are beside the table to 12 crossings, without a program
    python3 bench/apart.py --list FILE       then what is left by this list of quandles; it may be given several times
    python3 bench/apart.py --book FILE       keeps what is found there; called again, it goes on
    python3 bench/apart.py --table TABLE     another table
    python3 bench/apart.py --only pairs      asks further lists of pairs of knots alone, or of `mirrors` or `reverses`
    python3 bench/apart.py --each            also names what is left at the end, a line each
    python3 bench/apart.py --order FILE      the blocks of a list in the order of how much they distinguish in a millisecond, and no more
    python3 bench/apart.py --processes 2     so many counts at once

Two knots are distinguished where rows differ for each turn of the second: as it is, mirrored, reversed, or both. The rows of a knot and of its
mirror image are compared, both at once. An entry that is too wide says nothing. What the table's symmetries join is the same knot, and isn't
asked of further lists. Their rows are counted by `knot numbers`, the program of KNOT, or that which is built.

With --order the next block is the one that distinguishes the most per millisecond of the processor of what is left by those before it: pairs of knots,
knots and their mirror images, and knots and their reverses. The cost is the mean of `knot numbers` over twelve knots, less that for the unknot, which is
nearly all for reading the list. An entry that is too wide counts here as one of its own. Blocks of more than 32 colours come last, as `seek`
tries them. They are counted only for some two hundred things that the others leave, and not for symmetries of which the table knows nothing.
"""
import argparse
import collections
import os
import resource
import sys
import time

sys.path.insert(0, os.path.join(os.path.dirname(os.path.dirname(os.path.abspath(__file__))), "tools"))
from lib.calls.pools import threads
from lib.calls.store import Store
from lib.tables.blocks import split_blocks as plan_blocks
from lib.tables.further import BOOK, rows_by
from knot_workbench import use
from knot_workbench.programs import end_calls
from knot_workbench.quandles import MAX_ORDER
from knot_workbench.tables.knots import BOTH, MIRRORED, REVERSED, SAME, TURNS, UNKNOT, KnotTable, default_table, text_in
from knot_workbench.tables.numbers import blocks_of, may_be_one, opposite, row_of, text_of_row
from measure import PROGRAM, processor_seconds

# Two knots that aren't distinguished, the second after a turn; or a knot and itself after one.
Left = collections.namedtuple("Left", "one other turn")


class KnotRows:
    """The rows of knots and of their mirror images by some blocks."""

    def __init__(self, blocks, rows):
        self.blocks, self.rows = blocks, rows

    def turned(self, name, turn):
        """The rows of a knot after a turn and of the mirror image of that."""
        row, mirrored = self.rows[name]
        if turn.is_mirrored != turn.is_reversed:
            row, mirrored = mirrored, row
        return (opposite(row, self.blocks), opposite(mirrored, self.blocks)) if turn.is_reversed else (row, mirrored)

    def may_be(self, left):
        """Whether no number distinguishes what is left."""
        return all(map(may_be_one, self.turned(left.one, SAME), self.turned(left.other, left.turn)))

    def key(self, name, turn):
        """The same as a text."""
        return "|".join(text_of_row(row, self.blocks) for row in self.turned(name, turn))

    def is_wide(self, name):
        """Whether some entry says nothing."""
        return any(None in row for row in self.rows[name])


def left_by(rows):
    """All that some rows leave, by the order of the knots."""
    names = list(rows.rows)
    order = {name: place for place, name in enumerate(names)}
    wide = [name for name in names if rows.is_wide(name)]
    by_key = collections.defaultdict(list)
    for name in names:
        for turn in TURNS:
            by_key[rows.key(name, turn)].append((name, turn))
    found = {Left(name, other, turn) for name in names for other, turn in by_key[rows.key(name, SAME)]}
    for name in wide:
        # A turn of both changes nothing, and each turn undoes itself.
        near = (Left(*sorted((name, other), key=order.get), turn) for other in names for turn in TURNS)
        found.update(left for left in near if rows.may_be(left))
    kept = [left for left in found if order[left.one] < order[left.other] or (left.one == left.other and left.turn != SAME)]
    return sorted(kept, key=lambda left: (order[left.one], order[left.other], left.turn))


def left_by_list(known, left, path, each, store):
    """What a further list leaves of what is left."""
    listed = text_in(path)
    due = sorted({name for one in left for name in one[:2]}, key=list(known.knots).index)
    rows = KnotRows(blocks_of(listed), rows_by(known, due, listed, each, store))
    return [one for one in left if rows.may_be(one)]


def undistinguished(names, left):
    """How many classes knots fall into that aren't distinguished, and how many of these have one knot."""
    head = {name: name for name in names}

    def top(name):
        while head[name] != name:
            name = head[name]
        return name

    for one in left:
        head[top(one.other)] = top(one.one)
    sizes = collections.Counter(map(top, names))
    return len(sizes), sum(size == 1 for size in sizes.values())


def is_joined(known, one):
    """Whether what is left is one knot by the table's symmetries."""
    return one.one == one.other and one.turn in known.knots[one.one].same


def is_open(known, one):
    """Whether what is left is a symmetry of which the table knows nothing."""
    return one.one == one.other and one.turn not in (*known.knots[one.one].same, *known.knots[one.one].different)


def own(some, *turns):
    """The knots that some things left have with themselves after one of these turns."""
    return {one.one for one in some if one.one == one.other and one.turn in turns}


LEFT_KINDS = ("pairs", "mirrors", "reverses")


def kind_of(one):
    """Of which of the kinds a thing left is."""
    return LEFT_KINDS[0 if one.one != one.other else 1 if one.turn.is_mirrored else 2]


def pairs_in(left):
    """How many pairs of two knots are left."""
    return len({(one.one, one.other) for one in left if one.one != one.other})


def report_left(said, names, left, joined, clock):
    """A line on what is left, and on what is joined."""
    count, alone = undistinguished(names, left)
    mirrored, reverse = own(joined, MIRRORED, BOTH), own(joined, REVERSED)
    print(f"{said}: {pairs_in(left)} of {len(names) * (len(names) - 1) // 2} pairs aren't distinguished, {count} classes, {alone} of one knot; neither joined "
          f"to nor distinguished from the mirror image {len(own(left, MIRRORED, BOTH) - mirrored)}, the reverse {len(own(left, REVERSED))} of {len(names)}; joined to "
          f"it {len(mirrored)} and {len(reverse)}; {clock}", flush=True)


class Clock:
    """Seconds since it was made, as a text: by the clock, and of the processor."""

    def __init__(self):
        self.began, self.spent = time.perf_counter(), processor_seconds()

    def __str__(self):
        return f"{time.perf_counter() - self.began:.0f} s ({processor_seconds() - self.spent:.0f} of the processor)"


# The order of blocks

# The cost of a block is measured over so many knots by a list of so many copies, and that of reading it is the least of so many calls. Larger blocks
# are asked of at most so many things.
KNOTS, COPIES, CALLS, THINGS = 12, 20, 3, 200

# A block of a list: what it is called, its text, and what it is.
NamedBlock = collections.namedtuple("NamedBlock", "label text block")


def named_blocks(listed):
    """The blocks of a list, each called by the comment `# NAME: ..` above it, where there is one."""
    labels, name = [], None
    for line in listed.splitlines():
        word, _, rest = line.partition(" ")
        if word == "#":
            name = rest.partition(": ")[0]
        elif word == "quandle":
            labels.append(name if rest.startswith("table") and name else rest)
        elif word in ("weight", "shadow"):
            labels[-1] += " with a cocycle"
    return list(map(NamedBlock, labels, [block.text for block in plan_blocks(listed)[1]], blocks_of(listed)))


def rows_of_blocks(known, names, some, each, store):
    """The rows of knots and of their mirror images by some blocks: those of the table's list as they are beside it, and others counted."""
    standing = {block.text: place for place, block in enumerate(plan_blocks(known.listed)[1])}
    others = "".join(one.text for one in some if one.text not in standing)
    further = rows_by(known, names, others, each, store) if others else dict.fromkeys(names, ((), ()))

    def row(there, counted):
        entries = iter(counted)
        return tuple(there[standing[one.text]] if one.text in standing else next(entries) for one in some)

    return {name: tuple(map(row, known_rows(known, [name])[name], further[name])) for name in names}


def cost_of(known, names, listed):
    """The milliseconds of the processor in which `knot numbers` counts for a knot by a block, which it has read."""
    some = names[::max(1, len(names) // KNOTS)]
    mean = sum(spent_on(known.knots[name].grid, listed * COPIES) for name in some) / len(some)
    least = min(spent_on(UNKNOT, listed * COPIES) for _ in range(CALLS))
    return max(1_000 * (mean - least) / COPIES, 0.001)


def spent_on(grid, listed):
    """Seconds of the processor that a call of `knot numbers` takes."""
    before = processor_seconds_of_programs()
    row_of(grid, listed)
    return processor_seconds_of_programs() - before


def processor_seconds_of_programs():
    """Seconds of the processor that the programs that were called have taken."""
    used = resource.getrusage(resource.RUSAGE_CHILDREN)
    return used.ru_utime + used.ru_stime


def marks_of(rows):
    """For each knot and turn a number for each block, which two share where their entries and those of their mirror images agree."""
    numbers = {}
    return {name: [[numbers.setdefault(entries, len(numbers)) for entries in enumerate(zip(*rows.turned(name, turn)))] for turn in TURNS]
            for name in rows.rows}


def untold_by(marks, chosen):
    """How many pairs of knots, of a knot and its mirror image, and of a knot and its reverse some blocks don't distinguish."""
    classes, mirrored, reverse = collections.Counter(), 0, 0
    for turns in marks.values():
        same, other, back, both = (tuple(turn[block] for block in chosen) for turn in turns)
        classes[min(same, other, back, both)] += 1
        mirrored += same in (other, both)
        reverse += same == back
    return sum(count * (count - 1) // 2 for count in classes.values()), mirrored, reverse


def say_order_of(known, names, some, untold):
    """Names blocks, those first that distinguish most a millisecond. `untold` says how many pairs, mirror images and reverses places of blocks leave."""
    costs, chosen, left = [cost_of(known, names, one.text) for one in some], [], untold([])
    while len(chosen) < len(some):
        after = {place: untold([*chosen, place]) for place in range(len(some)) if place not in chosen}
        best = max(after, key=lambda place: ((sum(left) - sum(after[place])) / costs[place], -costs[place]))
        chosen.append(best)
        left = after[best]
        print(f"{some[best].label}: {costs[best]:.3f} ms; left are {left[0]} pairs, {left[1]} mirror images, {left[2]} reverses", flush=True)


def say_order(known, listed, each, store):
    """Names the blocks of a list in their order, those of at most MAX_ORDER colours first."""
    every, names = named_blocks(listed), list(known.knots)
    small, larger = ([one for one in every if (one.block.order > MAX_ORDER) == is_larger] for is_larger in (False, True))
    rows = KnotRows([one.block for one in small], rows_of_blocks(known, names, small, each, store))
    marks = marks_of(rows)
    say_order_of(known, names, small, lambda chosen: untold_by(marks, chosen))
    every = [one for one in left_by(rows) if not is_joined(known, one) and not is_open(known, one)]
    left = every[::len(every) // THINGS + 1]
    due = [name for name in names if name in {name for one in left for name in one[:2]}]
    if not larger or not due:
        return
    counted = rows_of_blocks(known, due, larger, each, store)
    by_block = [KnotRows([one.block], {name: tuple(row[place:place + 1] for row in counted[name]) for name in due}) for place, one in enumerate(larger)]
    stays = [[by.may_be(one) for one in left] for by in by_block]

    def untold(chosen):
        still = [one for place, one in enumerate(left) if all(stays[block][place] for block in chosen)]
        return pairs_in(still), len(own(still, MIRRORED, BOTH)), len(own(still, REVERSED))

    print(f"one in {len(every) // THINGS + 1} of what is left is asked of the others, of {len(due)} knots: {', '.join(map(str, untold([])))}", flush=True)
    say_order_of(known, due, larger, untold)


def known_rows(known, names):
    """The rows that are beside the table, of knots and of their mirror images."""
    return {name: (known.row(name), known.row(name, MIRRORED)) for name in names}


def main():
    words = argparse.ArgumentParser(description=__doc__, formatter_class=argparse.RawDescriptionHelpFormatter)
    words.add_argument("--table", default=default_table())
    words.add_argument("--list", action="append", default=[], dest="lists", metavar="FILE")
    words.add_argument("--book", metavar="FILE")
    words.add_argument("--only", choices=sorted(LEFT_KINDS))
    words.add_argument("--each", action="store_true")
    words.add_argument("--order", metavar="FILE")
    words.add_argument("--processes", type=int, default=os.cpu_count() or 1)
    asked = words.parse_args()
    use(knot=os.environ.get("KNOT") or PROGRAM)
    with threads(asked.processes, end_calls) as pool:
        report_all(asked, pool.in_order)


def report_all(asked, each):
    """Does what the words ask for; `each` maps a function over items, several at once."""
    clock = Clock()
    known, store = KnotTable(asked.table), Store(asked.book, BOOK) if asked.book else None
    if asked.order:
        say_order(known, text_in(asked.order), each, store)
        print(clock)
        return
    names = list(known.knots)
    every = left_by(KnotRows(known.blocks, known_rows(known, names)))
    joined = [one for one in every if is_joined(known, one)]
    left = [one for one in every if not is_joined(known, one)]
    report_left("the rows of the table", names, left, joined, clock)
    left = [one for one in left if asked.only in (None, kind_of(one))]
    for path in asked.lists:
        clock = Clock()
        left = left_by_list(known, left, path, each, store)
        report_left(path, names, left, joined, clock)
    if asked.each:
        for one in left:
            print(f"{one.one}: {one.other}{one.turn.words}")


if __name__ == "__main__":
    main()
