"""The page of a table: one HTML file that needs no other, with a row and a picture for each class."""
from html import escape

from lib.classes.page import whole_page
from lib.codes.entries import braid_text

HEADS = ("class", "name", "crossings", "diagrams", "symmetry", "mirror image", "codes")


def picture_of(number, one):
    """The picture of the diagram that represents a class, an SVG element."""
    # draw.py is a program beside lib.
    from draw import Frame, picture
    return picture([(0, Frame(one.grid()))], False, 16, 1, False, f"The diagram that represents class {number}{', ' + one.name if one.name else ''}")


def standing_row(number, one):
    """The row of a class."""
    def counted(value):
        return f'<td class="number" data-key="{value}">{value}</td>'
    codes = "".join(f"<li>{escape(text)}</li>" for text in (one.code, braid_text(one.braid)) if text)
    return (f'<tr data-names="{escape(f"{number} {one.name} {one.first}")}"><td>{picture_of(number, one)}</td>{counted(number)}<td>{escape(one.name)}</td>'
            f'{counted(one.crossings)}{counted(one.rows)}<td>{escape(one.type)}</td><td>{escape(one.partner(number))}</td>'
            f'<td><details><summary>{escape(one.first)}</summary><ul>{codes}</ul></details></td></tr>')


def table_page(standings, said):
    """The whole page."""
    body = "\n".join(standing_row(number, one) for number, one in enumerate(standings.classes, 1))
    return whole_page("A table of knots", said, "Find a class", "diagram", HEADS, body)
