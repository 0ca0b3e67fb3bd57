"""How a call may end: by one text, or as a search may that has several lawful answers."""
from functools import lru_cache

from .diagrams import CORNERS, Illegal, apply, play, print_grid, print_list, print_move, size_of
from .items import read_grid, read_moves, read_verdict
from .lines import DONE, Fault, Lines, MAX_SIZE, UNKNOWN


class Answer:
    """A status and the whole text."""

    def __init__(self, status, text):
        self.status = status
        self.text = text.encode() if isinstance(text, str) else text

    # What a report calls it: how much of the answer is computed.
    kind = "whole"

    def problem_with(self, status, text):
        """What is wrong with an ending, or None."""
        if status != self.status:
            return f"status {status}, and {self.status} is due"
        if text != self.text:
            return f"text {first_line(text)!r} of {len(text)} bytes, and {first_line(self.text)!r} of {len(self.text)} bytes is due"
        return None


def first_line(text):
    """The beginning of a text, for a report."""
    return text.split(b"\n", 1)[0][:200]


class Searched:
    """The answer of a search: one of several."""

    kind = "searched"
    # Of so few diagrams, of at most so many columns, another search is made.
    TRIED_AGAIN = 8
    COLUMNS_TRIED_AGAIN = 6

    def __init__(self, first, second, budget, spare):
        self.first, self.second, self.budget = first, second, budget
        self.cap = min(MAX_SIZE, max(size_of(first), size_of(second)) + spare)

    def problem_with(self, status, text):
        """What is wrong with an ending, or None."""
        if status not in (DONE, UNKNOWN):
            return f"status {status}, and 0 or 1 is due"
        try:
            lines = Lines(text)
            verdict = read_verdict(lines, self.first, self.second)
            lines.end()
        except Fault as fault:
            return f"not a verdict at line {fault.line}: {first_line(text)!r}"
        if text != print_verdict(verdict):
            return f"not as verdicts are printed: {first_line(text)!r}"
        if verdict[0] == "equal":
            return self.problem_with_moves(verdict[1]) if status == DONE else "an `equal` with status 1"
        if verdict[0] == "different":
            return "`different`, and no quandle separates them"
        if status != UNKNOWN:
            return "an `unknown` with status 0"
        if verdict[1] == "budget":
            return self.problem_with_budget(verdict[2])
        return self.problem_with_exhausted(*verdict[2:])

    def problem_with_moves(self, moves):
        """What is wrong with an `equal`."""
        last, stop, largest = play(self.first, moves)
        if stop:
            return f"its moves stop: {stop}"
        if last != self.second:
            return "its moves lead elsewhere"
        return f"its moves lead through {largest} columns, over {self.cap}" if largest > self.cap else None

    def problem_with_budget(self, budget):
        """What is wrong with an `unknown budget`."""
        if budget != self.budget:
            return f"budget {budget}, and it was {self.budget}"
        if budget > self.TRIED_AGAIN or self.cap > self.COLUMNS_TRIED_AGAIN:
            return None
        counted = len(frozenset.union(*self.reached()))
        return f"the budget of {budget} is spent, and {counted} are reached" if counted <= budget else None

    def problem_with_exhausted(self, cap, number):
        """What is wrong with an `unknown exhausted`."""
        if cap != self.cap:
            return f"exhausted within {cap}, and {self.cap} columns are allowed"
        if not 2 <= number <= self.budget:
            return f"{number} diagrams, of a budget of {self.budget}"
        if number > self.TRIED_AGAIN or self.cap > self.COLUMNS_TRIED_AGAIN:
            return None
        first, second = self.reached()
        if first & second:
            return "moves join them"
        counted = len(first | second)
        return f"{number} diagrams, and {counted} are reached" if counted != number else None

    def reached(self):
        """From either diagram, the canonical diagrams that moves within the cap reach."""
        return [reach(grid, self.cap, self.TRIED_AGAIN) for grid in (self.first, self.second)]


class Led:
    """The answer of a job that leads to a diagram by moves: one of several."""

    kind = "searched"
    # Of so many members, of at most so many columns, the class is listed again.
    LISTED_AGAIN = 40
    COLUMNS_LISTED_AGAIN = 6
    job, ways = None, ()

    def __init__(self, grid, budget):
        self.grid, self.budget = grid, budget

    def problem_with(self, status, text):
        """What is wrong with an ending, or None."""
        if status != DONE:
            return f"status {status}, and 0 is due"
        try:
            lines = Lines(text)
            grid = read_grid(lines)
            moves = read_moves(lines)
        except Fault as fault:
            return f"no grid and moves at line {fault.line}: {first_line(text)!r}"
        end = [line for line in text.decode().split("\n") if line][-1]
        if text.decode() != print_grid(grid) + "\n".join([f"moves {len(moves)}", *map(print_move, moves), end]) + "\n":
            return f"not as `{self.job}` prints: {first_line(text)!r}"
        last, stop, largest = play(self.grid, moves)
        if stop or last != grid:
            return f"its moves stop: {stop}" if stop else "its moves lead elsewhere"
        if largest > size_of(self.grid):
            return f"its moves lead through {largest} columns"
        if any(move[0] not in self.ways for move in moves):
            return f"it makes other moves than {' and '.join(self.ways)}"
        return self.problem_with_moves(moves) or self.problem_with_end(grid, end)

    def problem_with_moves(self, _moves):
        """What is wrong with moves that lead to the diagram, or None."""
        return None


class Simplified(Led):
    """The answer of `simplify`."""

    job, ways = "simplify", ("shift", "exchange", "destabilise")

    def problem_with_moves(self, moves):
        """What is wrong with moves that lead to the diagram, or None."""
        if moves and all(move[0] != "destabilise" for move in moves):
            return "it moves, and makes nothing smaller"
        return None

    def problem_with_end(self, grid, end):
        """What is wrong with the last line of `simplify`."""
        if end not in ("irreducible", f"spent {self.budget}"):
            return f"it ends with {end!r}"
        if size_of(grid) > self.COLUMNS_LISTED_AGAIN or end != "irreducible" and self.budget > self.LISTED_AGAIN:
            return None
        listed = exchange_class(grid, self.LISTED_AGAIN)
        if end != "irreducible":
            return None if len(listed) > self.budget else f"spent, and {len(listed)} are reached"
        if len(listed) > self.LISTED_AGAIN:
            return None
        if len(listed) > self.budget:
            return f"irreducible, and {len(listed)} are reached, more than the budget"
        return "it may be made smaller" if any(may_destabilise(turn) for member in listed for turn in translates(member)) else None


class Least(Led):
    """The answer of `least`."""

    job, ways = "least", ("shift", "exchange")

    def problem_with_end(self, grid, end):
        """What is wrong with the diagram and with the last line of `least`."""
        if end not in ("whole", f"spent {self.budget}"):
            return f"it ends with {end!r}"
        if grid != canonical(grid):
            return "it has a lesser translate"
        if size_of(grid) > self.COLUMNS_LISTED_AGAIN or end != "whole" and self.budget > self.LISTED_AGAIN:
            return None
        listed = exchange_class(self.grid, self.LISTED_AGAIN)
        if end != "whole":
            return None if len(listed) > self.budget else f"spent, and {len(listed)} are reached"
        if len(listed) > self.LISTED_AGAIN:
            return None
        if len(listed) > self.budget:
            return f"whole, and {len(listed)} are reached, more than the budget"
        return None if grid == min(listed) else "a lesser diagram is reached"


def exchange_class(grid, enough):
    """The canonical diagrams that shifts and exchanges reach, or some more than enough of them."""
    seen = {canonical(grid)}
    waiting = list(seen)
    while waiting and len(seen) <= enough:
        for turn in translates(waiting.pop()):
            for way in ("columns", "rows"):
                for place in range(size_of(turn) - 1):
                    try:
                        other = canonical(apply(turn, ("exchange", way, place)))
                    except Illegal:
                        continue
                    if other not in seen:
                        seen.add(other)
                        waiting.append(other)
    return seen


def may_destabilise(grid):
    """Whether a grid has a block of three marks."""
    for column in range(size_of(grid) - 1):
        for row in range(size_of(grid) - 1):
            try:
                apply(grid, ("destabilise", column, row))
                return True
            except Illegal:
                pass
    return False


def translates(grid):
    """All that shifts make of a grid."""
    xs, os = grid
    size = size_of(grid)
    for up in range(size):
        higher = tuple(tuple((row - up) % size for row in marks) for marks in (xs, os))
        for by in range(size):
            yield tuple(marks[by:] + marks[:by] for marks in higher)


def canonical(grid):
    """The least of the translates."""
    return min(translates(grid))


@lru_cache(maxsize=4096)
def neighbours(grid, cap):
    """The canonical forms of what one move makes of a grid that was shifted in some way."""
    found = set()
    corners = [corner.decode() for corner in CORNERS]
    for turn in translates(grid):
        size = size_of(turn)
        moves = [(name, way, place) for name in ("exchange", "slide") for way in ("columns", "rows") for place in range(size - 1)]
        moves += [("destabilise", column, row) for column in range(size - 1) for row in range(size - 1)]
        if size < cap:
            moves += [("stabilise", column, kind, corner) for column in range(size) for kind in "xo" for corner in corners]
        for move in moves:
            try:
                found.add(apply(turn, move))
            except Illegal:
                pass
    return frozenset(canonical(other) for other in found)


def reach(grid, cap, enough):
    """The canonical diagrams that moves within a cap reach, or some more than enough of them."""
    seen = {canonical(grid)}
    waiting = list(seen)
    while waiting and len(seen) <= enough:
        for other in neighbours(waiting.pop(), cap):
            if other not in seen:
                seen.add(other)
                waiting.append(other)
    return frozenset(seen)


def print_verdict(verdict):
    """The text of version 2."""
    if verdict[0] == "equal":
        text = "\n".join([f"equal {len(verdict[1])}", *map(print_move, verdict[1])]) + "\n"
    elif verdict[0] == "different":
        _, quandle, lists = verdict
        text = f"different {quandle.printed}" + "".join(map(print_list, lists))
    else:
        text = " ".join(map(str, verdict)) + "\n"
    return b"certificate 2\n" + text.encode()
