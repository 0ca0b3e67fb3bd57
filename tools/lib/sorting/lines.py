"""Texts, grids and moves in one line each, as stores keep them."""
from knot_workbench.diagrams import Grid
from knot_workbench.texts import move_of, move_text


def in_one_line(text):
    """The lines of a text in one, with ' / ' between, as tools/pieces.py reads them."""
    return text.rstrip("\n").replace("\n", " / ")


def in_lines(line):
    """The text of such a line."""
    return line.replace(" / ", "\n") + "\n"


def grid_in(line):
    """The grid whose text such a line has."""
    return Grid(*([int(word) for word in lines.split(" ")[1:]] for lines in line.split(" / ")))


def line_of(moves):
    """Moves in one line."""
    return " / ".join(map(move_text, moves))


def moves_in(line):
    """The moves of such a line."""
    return [move_of(None, one.split(" ")) for one in line.split(" / ") if one]
