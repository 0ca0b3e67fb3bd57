"""Searches between two grids: what joins or distinguishes them, by `knot decide`, by `seek`, or by several of these."""
import contextlib
import tempfile
from dataclasses import dataclass
from typing import Tuple

from knot_workbench.certificates import Equal, read_verdict
from knot_workbench.faults import Fault
from knot_workbench.texts import Lines
from lib.sorting.linear import block_between

# The status of a search that finds nothing.
NOTHING = 1


@contextlib.contextmanager
def as_due(program):
    """What can't be read is a fault of what the program wrote."""
    try:
        yield
    except (Fault, ValueError, IndexError):
        raise Fault(f"{program} wrote a text of another form than was due") from None


class Search:
    """A search between two grids. `words` name it in stores; `is_walk` says whether it can't distinguish knots, but join them at best."""

    is_walk = True

    def find(self, worker, first, second):
        """What it finds by the programs of a worker: moves from the first grid to the second, the text of what distinguishes them, or None. Raises
        Fault where a program has no answer."""
        return () if first == second else self.found(worker, first, second)

    def found(self, worker, first, second):
        """As `find`, of two grids that aren't the same."""
        raise NotImplementedError


@dataclass(frozen=True)
class Decide(Search):
    """A search in order by `knot decide`, with these options."""

    options: Tuple[str, ...]

    @property
    def words(self):
        """As the program gets them."""
        return ("decide", *self.options)

    def found(self, worker, first, second):
        # Numbers are compared before, so one quandle that distinguishes nothing is in place of the built-in list.
        status, said = worker.answered(worker.knot, self.words, first.text + second.text + "quandle trivial 1\n", also=(NOTHING,))
        return None if status == NOTHING else evidence_in(said, "decide", first, second)


@dataclass(frozen=True)
class Seek(Search):
    """Numbers and random walks by `seek`, with these words."""

    words: Tuple[str, ...]

    @property
    def is_walk(self):
        """Whether nothing is counted."""
        return "--no-weights" in self.words

    def found(self, worker, first, second):
        status, said = worker.answered(worker.seek, ["--quiet", *self.words, "-"], first.text + second.text, also=(NOTHING,))
        return None if status == NOTHING else evidence_in(said, "seek", first, second)


@dataclass(frozen=True)
class Shortest(Search):
    """Several searches, of which the others are tried where the first finds moves: the shortest list of moves is taken."""

    searches: Tuple[Search, ...]

    @property
    def words(self):
        """Those of the searches, each in brackets of its own."""
        return ("shortest", *(one.words for one in self.searches))

    def found(self, worker, first, second):
        found = self.searches[0].find(worker, first, second)
        if not isinstance(found, tuple):
            return found
        others = [one.find(worker, first, second) for one in self.searches[1:]]
        return min([found, *(other for other in others if isinstance(other, tuple))], key=len)


@dataclass(frozen=True)
class Linear(Search):
    """Numbers of colourings by a linear quandle that the Alexander polynomials name; it finds nothing where these are the same."""

    words, is_walk = ("linear",), False

    def found(self, worker, first, second):
        block = block_between(first, second)
        if block is None:
            return None
        with tempfile.NamedTemporaryFile("w", suffix=".txt", encoding="utf-8") as file:
            file.write(f"quandle {block}")
            file.flush()
            status, said = worker.answered(worker.seek, ["--quiet", f"--weights={file.name}", "--steps=0", "-"], first.text + second.text, also=(NOTHING,))
        return None if status == NOTHING else said


def evidence_in(said, program, first, second):
    """The moves of a verdict on two grids, or the text of one that distinguishes them."""
    with as_due(program):
        verdict, _ = read_verdict(Lines(said), first, second)
    return tuple(verdict.moves) if isinstance(verdict, Equal) else said


# Searches, the cheapest first: one in order, and walks of `seek` alone, since numbers are compared before.
DECIDE = Decide(("--spare=1", "--budget=20000"))
SEEK_WALKS = tuple(Seek(("--no-weights", f"--seed={seed}", f"--steps={steps}")) for seed, steps in ((1, 100_000), (2, 1_000_000)))

# Short walks of other seeds and a search in order after a walk that has joined a pair.
SHORTEST = tuple(Shortest((*(Seek(("--no-weights", f"--seed={seed}", f"--steps={steps}")) for seed in (1, 2, 3)), DECIDE)) for steps in (20_000, 100_000))

LINEAR = Linear()

# How far `seek` goes from a large grid to the closure of a shorter braid word.
SHORTER = Seek(("--no-weights", "--steps=4000000"))
