"""Which crates are left, in which order they are begun, and how long that takes."""
import copy
import time

from building.costs import Pace, seconds_on

# A crate of fewer seconds may be begun first, since its end tells how fast the machine is.
SHORT_BUILD = 30
# So many processors at least for the crate that all wait for.
AWAITED = 3
# Of a crate that takes longer than foreseen, so much is taken to be left.
LEAST_LEFT = 0.25


class Plan:
    """What is left of a build, for a number of processors and of places, in each of which one crate is built at a time."""

    def __init__(self, tree, names, costs, processors, places):
        self.tree, self.names, self.costs, self.processors, self.places = tree, names, costs, processors, places
        self.left = {name for name in names if not tree.is_built(name)}
        self.left |= {name for name in names if tree.below[name] & self.left}
        self.done = set(names) - self.left
        self.pace = Pace()
        self.chains = self.longest()
        self.whole = self.ahead()

    def longest(self):
        """For each crate the seconds of the longest chain of crates that are left and begins with it."""
        chains = {}
        for name in reversed(self.names):
            above = [chains[other] for other in self.names if name in self.tree.below[other]]
            chains[name] = self.clock(name, self.processors) * (name in self.left) + max(above, default=0.0)
        return chains

    def clock(self, name, jobs):
        """The seconds of a crate by the clock, on the machine of the table."""
        return seconds_on(self.costs[name], jobs)

    def processor(self, names):
        """The processor seconds of crates, on the machine of the table."""
        return sum(self.costs[name].processor for name in names)

    def count(self):
        """How many crates of those that were left are done."""
        return len(self.done & self.left)

    def is_done(self):
        return len(self.done) == len(self.names)

    def ready(self, running):
        """The crates that can be begun, those with the longest chain above them first; before them a short one that tells the pace."""
        found = [name for name in self.names
                 if name not in self.done and name not in running and self.tree.below[name] <= self.done]
        found.sort(key=lambda name: -self.chains[name])
        short = min(found, key=lambda name: self.costs[name].processor, default=None)
        if len(found) > 1 and not running and not self.pace.is_known() and self.costs[short].processor < SHORT_BUILD:
            found.remove(short)
            found.insert(0, short)
        return found

    def next(self, running):
        """The crate to begin, beside those that run on so many processors each, and its own number of them; or None."""
        ready = self.ready(running)
        if not ready or len(running) >= self.places:
            return None
        return ready[0], self.jobs(ready[0], len(running))

    def jobs(self, name, busy):
        """How many processors a crate gets beside so many crates that are being built: one; or, where the whole build waits for the chain
        of crates that begins with it, all that are free, and AWAITED at least, which it shares with the others then."""
        if not self.is_awaited(name):
            return 1
        return max(self.processors - busy, min(AWAITED, self.processors))

    def is_awaited(self, name):
        """Whether no chain of crates is longer than this one's, and the other crates are done before it is."""
        left = [other for other in self.names if other not in self.done]
        return (self.chains[name] >= max(self.chains[other] for other in left)
                and self.chains[name] > self.processor(left) / self.processors)

    def end(self, name, jobs, seconds):
        """A crate has ended, after so many seconds of the processor."""
        self.done.add(name)
        self.pace.note(self.costs[name], jobs, seconds)

    def ahead(self, running=None):
        """How many seconds are left, beside the crates that run (name, and an object with `jobs` and `begun`): the rest of the plan is
        gone through with the seconds of the table, at the pace of this machine."""
        rest, factor = copy.copy(self), self.pace.factor()
        rest.done = set(self.done)
        jobs = {name: run.jobs for name, run in (running or {}).items()}
        ends = {name: self.rest_of(name, run, factor) for name, run in (running or {}).items()}
        now = 0.0
        while not rest.is_done():
            while (found := rest.next(jobs)) is not None:
                jobs[found[0]] = found[1]
                ends[found[0]] = now + self.clock(*found)
            first = min(ends, key=ends.get)
            now = ends.pop(first)
            del jobs[first]
            rest.done.add(first)
        return now * factor

    def rest_of(self, name, run, factor):
        """How many of the table's seconds are left of a crate that is being built."""
        whole = self.clock(name, run.jobs)
        return max(whole - (time.monotonic() - run.begun) / factor, whole * LEAST_LEFT)
