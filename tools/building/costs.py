"""How long the proof of each crate takes, on the machine of tools/build_seconds.txt and on this one."""
import collections
import os

TABLE = os.path.join(os.path.dirname(os.path.dirname(os.path.realpath(__file__))), "build_seconds.txt")
# A crate that took less by the clock than this part of its processor seconds had several processors.
SEVERAL = 0.9

Cost = collections.namedtuple("Cost", "processor clock")
Cost.__doc__ = "What a crate takes: seconds of the processor, and by the clock where it has several processors."


def costs(tree):
    """The cost of each crate: as measured, else by its lines."""
    found = {}
    with open(TABLE, encoding="utf-8") as file:
        for line in file:
            words = line.partition("#")[0].split()
            if words:
                found[words[0]] = Cost(float(words[1]), float(words[-1]))
    return {name: found.get(name) or by_lines(tree, name) for name in tree.named}


def by_lines(tree, name):
    """Eighteen seconds a crate, nine a hundred lines of code, and two a hundred lines of definitions and proofs."""
    seconds = 18.0
    for path in tree.sources(name):
        with open(path, "rb") as file:
            seconds += sum(1 for _ in file) * (0.09 if path.endswith(".rt") else 0.02)
    return Cost(seconds, seconds)


def seconds_on(cost, jobs):
    """About how long a crate takes by the clock on so many processors."""
    return cost.processor if jobs == 1 else max(cost.clock, cost.processor / jobs)


class Pace:
    """How fast this machine proves: its processor seconds against the table's, by the crates that have ended here."""

    def __init__(self):
        self.here = self.there = 0.0

    def is_known(self):
        return self.there > 0

    def note(self, cost, jobs, seconds):
        """Notes what a crate took. One on several processors takes more of them, so it tells nothing where it had one in the table."""
        if (jobs > 1) == (cost.clock < SEVERAL * cost.processor):
            self.here += seconds
            self.there += cost.processor

    def factor(self):
        """How many seconds here are one of the table; within bounds, since a short crate may have been disturbed."""
        return min(max(self.here / self.there, 0.1), 10.0) if self.is_known() else 1.0
