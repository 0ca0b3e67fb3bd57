"""Crossing codes, as the job `code` of knot writes them: planar diagram code, and signed Gauss codes."""
import re
from typing import List, NamedTuple, Tuple

from ..faults import BadCode

# Whether it passes over, the crossing, counted from 1, and the sign.
Passage = Tuple[bool, int, int]


class Code(NamedTuple):
    """A crossing code: `rows` has the crossings as [i, j, k, l], `loops` counts the components without a crossing, and `components` has for
    each other one its passages as (is_over, crossing, sign), crossings counted from 1."""

    rows: List[List[int]]
    loops: int
    components: List[List[Passage]]

    @property
    def text(self) -> str:
        """The code as knot writes it."""
        lines = [f"crossings {len(self.rows)}", *(f"X[{i},{j},{k},{l}]" for i, j, k, l in self.rows), f"loops {self.loops}"]
        for passages in self.components:
            lines.append("gauss " + " ".join(f"{'O' if is_over else 'U'}{crossing}{'+' if sign > 0 else '-'}" for is_over, crossing, sign in passages))
        return "\n".join(lines) + "\n"

    def signs(self) -> List[int]:
        """The sign of each crossing, 1 or -1, in the order of the rows."""
        return signs(self)

    def writhe(self) -> int:
        """The sum of the signs."""
        return sum(signs(self))

    def kinked(self) -> "Code":
        """The code with a positive kink at each component that passes over everywhere, and for each loop: its rows hold the whole link."""
        return kinked(self)


def read_code(text: str) -> Code:
    """The code of a text. Lines that begin with `#`, as tools/batch.py puts before it, are skipped. Raises BadCode."""
    if not isinstance(text, str):
        raise BadCode(f"{text!r:.30} is no text")
    rows: List[List[int]] = []
    loops = None
    components: List[List[Passage]] = []
    lines = [(number, line) for number, line in enumerate(text.splitlines(), 1) if not line.startswith("#")]
    number, line = lines[0] if lines else (len(text.splitlines()) + 1, "")
    head = re.fullmatch(r"crossings (\d+)", line)
    if not head:
        raise BadCode(f"line {number}: 'crossings N' is due, as ./knot code prints it{f', and not {line!r}' if line else ''}")
    for number, line in lines[1:]:
        row = re.fullmatch(r"X\[(\d+),(\d+),(\d+),(\d+)\]", line)
        circles = re.fullmatch(r"loops (\d+)", line)
        if row and loops is None:
            rows.append([int(edge) for edge in row.groups()])
        elif circles and loops is None:
            loops = int(circles[1])
        elif loops is not None and re.fullmatch(r"gauss( [OU]\d+[+-])+", line):
            components.append([(token[0] == "O", int(token[1:-1]), 1 if token[-1] == "+" else -1) for token in line.split()[1:]])
        else:
            raise BadCode(f"line {number}: '{line}' is no line of a crossing code in its place")
    if loops is None:
        raise BadCode("the line 'loops' is missing")
    passed = sorted((crossing, is_over) for passages in components for is_over, crossing, _ in passages)
    edges = sorted(edge for row in rows for edge in row)
    size = len(rows)
    if size != int(head[1]) or passed != [(c, o) for c in range(1, size + 1) for o in (False, True)] or edges != [e // 2 + 1 for e in range(4 * size)]:
        raise BadCode("the crossings, the rows and the lines 'gauss' don't go together")
    return Code(rows, loops, components)


def signs(code: Code) -> List[int]:
    """The sign of each crossing, in the order of the rows."""
    found = {crossing: sign for passages in code.components for _, crossing, sign in passages}
    return [found[crossing] for crossing in range(1, len(code.rows) + 1)]


def all_over(code: Code) -> List[int]:
    """The places, from 0, of the components that pass over at each of their crossings."""
    return [place for place, passages in enumerate(code.components) if all(is_over for is_over, _, _ in passages)]


def kinked(code: Code) -> Code:
    """The code with a positive kink at the first edge of each component that passes over everywhere, and for each loop."""
    rows = [list(row) for row in code.rows]
    components = [list(passages) for passages in code.components]
    edge = 1
    for place, passages in enumerate(components):
        if place in all_over(code):
            over_row = rows[passages[0][1] - 1]
            entering = 3 if passages[0][2] > 0 else 1
            # The edge runs over to the next number and under that one to the one after it; all later edges move on by two.
            rows = [[old + 2 if old > edge else old for old in row] for row in rows]
            rows[passages[0][1] - 1][entering] = edge + 2
            assert over_row[entering] == edge
            rows.append([edge + 1, edge + 1, edge + 2, edge])
            passages[:0] = [(True, len(rows), 1), (False, len(rows), 1)]
        edge += len(passages)
    for _ in range(code.loops):
        rows.append([edge + 1, edge + 1, edge, edge])
        components.append([(True, len(rows), 1), (False, len(rows), 1)])
        edge += 2
    return Code(rows, 0, components)
