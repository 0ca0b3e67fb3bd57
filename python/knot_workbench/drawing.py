"""Pictures of grids as SVG: of a diagram, of moves frame by frame, and of two diagrams that differ.

Verticals pass over horizontals, and a horizontal has a gap where it passes under. Arrows lead from X to O along the columns and from O to X
along the rows. tools/draw.py is the command.
"""
import os
from typing import Any, List, Optional, Union
from xml.sax.saxutils import escape

from . import certificates
from .colourings import is_colouring, walk
from .diagrams import covers, ends, grid_of
from .faults import BadText
from .moves import Illegal, carried, made
from .texts import Lines, move_text, number_of, read_diagram, read_moves, read_quandle, read_quandles

# Sixteen colours that stay apart on white. Of more colours the next sixteen have them again; the numbers below the columns say which.
PALETTE = ("#1f5fbf", "#d62728", "#1a8a34", "#e08a00", "#7b3fb0", "#00949e", "#c2388f", "#6b4a2b",
           "#77a31a", "#5b6770", "#0b2e66", "#8c1218", "#0d5c2e", "#b5a100", "#4c6ef5", "#e36b54")
INK = "#222222"


class Frame:
    """What one picture shows: a grid, its colours or None, the quandle or None, and what is above it."""

    def __init__(self, grid, colours=None, quandle=None, caption=""):
        self.grid, self.colours, self.quandle, self.caption = grid, colours, quandle, caption


def read_frames(text):
    """The frames of a text: one, one for each move, or those of two diagrams that differ; and whether they are such two."""
    lines = Lines(text)
    grid = grid_of(read_diagram(lines))
    moves = []
    if lines.peek() in ("x", "braid"):
        second = grid_of(read_diagram(lines))
        read_quandles(lines)
        if lines.peek() == "certificate":
            line, tokens = lines.take("the line 'certificate'")
            if tokens[1:] == ["3"]:
                return read_third_pair(lines, grid, second), True
            if tokens[1:] != ["2"]:
                raise BadText("the line 'certificate 2' or 'certificate 3' is due", line)
        if lines.peek() == "different":
            return read_different(lines, grid, second), True
        if lines.peek() != "equal":
            raise BadText("after two diagrams and quandles a verdict 'equal' or 'different' is due", lines.take("a verdict")[0])
    if lines.peek() in ("moves", "equal"):
        moves = read_moves(lines)
    quandle = colours = None
    if lines.peek() == "quandle":
        quandle = read_quandle(lines)
        colours = read_colours(lines, grid, quandle)
    if lines.peek() == "colours" and not quandle:
        raise BadText("a quandle is due before the colours", lines.take("a quandle")[0])
    lines.done()
    return along(grid, moves, quandle, colours), False


def along(grid, moves, quandle, colours):
    """A frame for the grid and one after each move, with the carried colours."""
    frames = [Frame(grid, colours, quandle)]
    for place, move in enumerate(moves):
        try:
            after = made(grid, move)
        except Illegal as fault:
            raise BadText(f"move {place}, '{move_text(move)}', is not legal: {fault}") from None
        if quandle:
            colours = carried(grid, quandle, colours, move)
        grid = after
        frames.append(Frame(grid, colours, quandle, move_text(move)))
    return frames


def read_different(lines, first, second):
    """Both diagrams of a verdict `different`, each in one of the colourings listed, with how many there are."""
    quandle = read_quandle(lines, "different")
    frames = []
    for grid in (first, second):
        line, tokens = lines.take("the line 'list'")
        if tokens[0] != "list" or len(tokens) != 2:
            raise BadText("a line 'list' with a number is due", line)
        listed = [read_colours(lines, grid, quandle, head=False) for _ in range(number_of(tokens[1], line))]
        # One with as many colours as any has shows most.
        shown = max(listed, key=lambda colours: len(set(colours)), default=None)
        frames.append(Frame(grid, shown, quandle if listed else None, f"{len(listed)} colourings"))
    lines.done()
    return frames


def read_third_pair(lines, first, second):
    """Both diagrams of a verdict of version 3, with their numbers of colourings, weights or linking numbers."""
    verdict = certificates.read_third(lines)
    lines.done()
    captions = []
    for part in (verdict.first, verdict.second):
        if isinstance(verdict, certificates.DifferentLinking):
            captions.append(f"linking numbers {' '.join(map(str, part.numbers)) or 'none'}")
        else:
            captions.append(f"weights {' '.join(map(str, part.numbers))}" if verdict.cocycle else f"{part.numbers[0]} colourings")
    return [Frame(grid, caption=caption) for grid, caption in zip((first, second), captions)]


def read_colours(lines, grid, quandle, head=True):
    """The colours of a line `colours`, or without a head of a line in a list."""
    line, tokens = lines.take("the line 'colours'" if head else "a line of colours")
    if head and tokens[0] != "colours":
        raise BadText("the line 'colours' is due", line)
    colours = [number_of(token, line) for token in tokens[head:]]
    if len(colours) != len(grid.xs):
        raise BadText(f"the diagram has {len(grid.xs)} columns, and {len(colours)} colours are given", line)
    if any(colour >= len(quandle.over) for colour in colours):
        raise BadText(f"a colour is not below the order {len(quandle.over)}", line)
    if not is_colouring(grid, quandle, colours):
        raise BadText("the colours are no colouring", line)
    return colours


def arrow(x, y, direction, size, ink):
    """A triangle with its middle at a point; the direction is (1, 0), (-1, 0), (0, 1) or (0, -1) on the page."""
    dx, dy = direction
    corners = [(x + dx * size, y + dy * size), (x - dx * size - dy * size, y - dy * size + dx * size), (x - dx * size + dy * size, y - dy * size - dx * size)]
    return f'<path d="M{" L".join(f"{number(a)} {number(b)}" for a, b in corners)} Z" fill="{ink}"/>'


def number(value):
    return f"{value:.2f}".rstrip("0").rstrip(".")


def segment(x1, y1, x2, y2, ink):
    return f'<path d="M{number(x1)} {number(y1)} L{number(x2)} {number(y2)}" stroke="{ink}"/>'


class Drawing:
    """One frame, its left lower corner at a place of the page."""

    def __init__(self, frame, cell, left, foot, marks):
        self.grid, self.colours, self.quandle, self.cell, self.marks = frame.grid, frame.colours, frame.quandle, cell, marks
        self.left, self.foot = left, foot

    def x(self, column):
        return self.left + (column + 0.5) * self.cell

    def y(self, row):
        return self.foot - (row + 0.5) * self.cell

    def ink(self, colour):
        return INK if colour is None else PALETTE[colour % len(PALETTE)]

    def column_ink(self, column):
        return self.ink(self.colours[column] if self.colours else None)

    def pieces(self, row):
        """A row cut where it passes under, with the colour of each piece."""
        if self.colours:
            return walk(self.grid, self.quandle, self.colours, row)
        left, right = ends(self.grid, row)
        cuts = [left, *(column for column in range(left + 1, right) if covers(self.grid, column, row)), right]
        return [(a, b, None) for a, b in zip(cuts, cuts[1:])]

    def drawn(self):
        lines, arrows, words = [], [], []
        gap = 0.2 * self.cell
        for row in range(len(self.grid.xs)):
            left, right = ends(self.grid, row)
            pieces = self.pieces(row)
            for start, end, colour in pieces:
                lines.append(segment(self.x(start) + (gap if start != left else 0), self.y(row),
                                     self.x(end) - (gap if end != right else 0), self.y(row), self.ink(colour)))
            # Halfway between two columns no strand crosses.
            middle = (left + right) // 2
            colour = next(colour for start, end, colour in pieces if start <= middle < end)
            to_the_right = self.grid.os[left] == row
            arrows.append(arrow(self.x(middle + 0.5), self.y(row), (1 if to_the_right else -1, 0), 0.13 * self.cell, self.ink(colour)))
        for column, (x_row, o_row) in enumerate(zip(*self.grid)):
            ink = self.column_ink(column)
            lines.append(segment(self.x(column), self.y(x_row), self.x(column), self.y(o_row), ink))
            middle = (x_row + o_row) // 2
            arrows.append(arrow(self.x(column), self.y(middle + 0.5), (0, -1 if x_row < o_row else 1), 0.13 * self.cell, ink))
            if self.colours:
                words.append(f'<text x="{number(self.x(column))}" y="{number(self.foot + 0.55 * self.cell)}" fill="{ink}">{self.colours[column]}</text>')
            if self.marks:
                for letter, row in (("X", x_row), ("O", o_row)):
                    x, y = self.x(column), self.y(row)
                    words.append(f'<circle cx="{number(x)}" cy="{number(y)}" r="{number(0.24 * self.cell)}" fill="#ffffff"/>'
                                 f'<text x="{number(x)}" y="{number(y + 0.17 * self.cell)}" fill="{ink}">{letter}</text>')
        return lines, arrows, words


# What is drawn, and the words for it

def places_of(text, count):
    """The frames that `--frames` names, of so many: places and runs `a..b`, parted by commas. Two places and then `..` go on by the same step,
    and `..` alone goes on by one; both end with the last frame. Raises ValueError."""
    places = []
    for part in text.split(","):
        if part == "..":
            step = places[-1] - places[-2] if len(places) > 1 else 1
            if not places or step < 1:
                raise ValueError("before '..' come one place or two that grow")
            places += [*range(places[-1] + step, count, step), count - 1]
        elif ".." in part:
            first, last = map(int, part.split(".."))
            places += range(first, last + 1)
        else:
            places.append(int(part))
    # Places after the last frame are left aside, as a step that doesn't meet it is.
    return sorted({place for place in places if 0 <= place < count})


def chosen(frames, asked, no_shifts):
    """Places and frames to be drawn. Where moves in between are left out, three points are in the caption."""
    places = places_of(asked, len(frames)) if asked else list(range(len(frames)))
    if no_shifts:
        places = [place for place in places if not frames[place].caption.startswith("shift") or place == len(frames) - 1]
    kept = []
    for before, place in zip([-1, *places], places):
        frame = frames[place]
        caption = frame.caption if place == before + 1 or not frame.caption else f"... {frame.caption}"
        kept.append((place, Frame(frame.grid, frame.colours, frame.quandle, caption)))
    return kept


def said_of(kept, is_pair):
    """A title and a text for those who don't see the picture."""
    grids = [frame.grid for _, frame in kept]
    least, most = min(len(grid.xs) for grid in grids), max(len(grid.xs) for grid in grids)
    sizes = f"{least} columns" if least == most else f"{least} to {most} columns"
    if is_pair:
        title = f"Two grid diagrams that differ: {' and '.join(frame.caption for _, frame in kept)}"
    elif len(grids) == 1:
        title = f"A grid diagram of {sizes}"
    else:
        title = f"{len(grids)} grid diagrams of {sizes}, along moves"
    texts = []
    for place, frame in kept if len(kept) < 3 else [kept[0], kept[-1]]:
        number = f"Frame {place}" + (f", {frame.caption}" if frame.caption else "") + ": " if len(kept) > 1 else ""
        colours = f"; colours {' '.join(map(str, frame.colours))} by {frame.quandle.name}" if frame.colours else ""
        texts.append(f"{number}Xs in rows {' '.join(map(str, frame.grid.xs))}, Os in rows {' '.join(map(str, frame.grid.os))}{colours}.")
    return title, " ".join(texts)


def picture(kept, is_pair, cell, across, marks, title=None):
    """The text of the SVG file: frames from left to right, `across` of them in a line."""
    across = min(across, len(kept))
    size = max(len(frame.grid.xs) for _, frame in kept)
    are_coloured = any(frame.quandle for _, frame in kept)
    wide, high = (size + 1) * cell, (size + (1.2 if are_coloured else 0.6)) * cell + (0.9 * cell if len(kept) > 1 else 0)
    total_wide, total_high = wide * across, high * -(-len(kept) // across)
    lines, arrows, words = [], [], []
    for number_drawn, (place, frame) in enumerate(kept):
        left = number_drawn % across * wide + (size + 1 - len(frame.grid.xs)) * cell / 2
        top = number_drawn // across * high
        if len(kept) > 1:
            label = frame.caption if is_pair else f"{place}. {frame.caption}".strip()
            words.append(f'<text x="{number(number_drawn % across * wide + wide / 2)}" y="{number(top + 0.75 * cell)}" fill="{INK}">{escape(label)}</text>')
            top += 0.9 * cell
        drawing = Drawing(frame, cell, left, top + 0.3 * cell + (size + len(frame.grid.xs)) * cell / 2, marks)
        for all_of, more in zip((lines, arrows, words), drawing.drawn()):
            all_of += more
    said, text = said_of(kept, is_pair)
    head = (f'<svg xmlns="http://www.w3.org/2000/svg" role="img" viewBox="0 0 {number(total_wide)} {number(total_high)}" '
            f'width="{number(total_wide)}" height="{number(total_high)}">')
    return "\n".join([head, f"<title>{escape(title or said)}</title>", f"<desc>{escape(text)}</desc>", '<rect width="100%" height="100%" fill="#ffffff"/>',
                      f'<g fill="none" stroke-width="{number(0.11 * cell)}" stroke-linecap="round">', *lines, "</g>", *arrows,
                      f'<g font-family="sans-serif" font-size="{number(0.45 * cell)}" text-anchor="middle">', *words, "</g>", "</svg>", ""])


def draw(what: Any, path: Union[str, "os.PathLike[str]", None] = None, *, marks: bool = False, cell: int = 24, across: int = 4, no_shifts: bool = False,
         colours: Optional[List[int]] = None, by: Any = None) -> str:
    """An SVG picture of a diagram, or of a Certificate: of `equal` a frame for each move, else both diagrams. What other calls take for a
    diagram is taken here too. With a quandle `by` and `colours` each strand of a diagram has its colour, along the moves too. `marks` writes the
    marks X and O, `cell` is the side of a cell, 8 to 200, `across` how many frames are in a line, and `no_shifts` leaves out the frames
    after shifts. Where a path is given the picture is written there, whole or not at all. Raises NoFile, and BadText where the colours are
    no colouring."""
    from .given import diagram
    from .jobs import quandle
    if not isinstance(cell, int) or not isinstance(across, int) or not 8 <= cell <= 200 or across < 1:
        raise BadText("a cell is 8 to 200, and at least one frame is in a line")
    if (by is None) != (colours is None):
        raise BadText("a quandle and colours go together")
    if isinstance(what, certificates.Certificate) and not what.is_equal:
        frames, is_pair = read_frames(what.text)
    else:
        is_certificate = isinstance(what, certificates.Certificate)
        grid = grid_of(what.first if is_certificate else diagram(what))
        coloured = None if by is None else quandle(by)
        text = "" if colours is None else "colours " + " ".join(map(str, colours)) + "\n"
        given = None if colours is None else read_colours(Lines(text), grid, coloured)
        frames, is_pair = along(grid, what.moves if is_certificate else (), coloured, given), False
    text = picture(chosen(frames, None, no_shifts), is_pair, cell, across, marks)
    if path is not None:
        certificates.put_whole(path, text)
    return text
