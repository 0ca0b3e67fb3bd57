"""The page of a census: one HTML file that needs no other, with a row and a picture for each class."""
from html import escape

from knot_workbench.identifying import components_of_grid
from lib.classes.page import whole_page

CENSUS_HEADS = ("class", "diagrams", "columns", "components", "undecided")


def class_picture(name, grid):
    """The picture of the least diagram of a class, an SVG element."""
    # draw.py is a program beside lib.
    from draw import Frame, picture
    return picture([(0, Frame(grid))], False, 16, 1, False, f"The least diagram of the class of {name}")


def members_of(name, rows):
    """The members of a class as a list, each with how it is known."""
    items = []
    for row in rows:
        how = escape(f"{row[0]}{', as its ' + row[2] if row[2] else ''}: {row[4]}" + (f", {row[6]}" if row[6] else ""))
        items.append(f'<li><a href="{escape(row[5])}">{how}</a></li>' if row[5] else f"<li>{how}</li>")
    return f"<details><summary>{escape(name)}</summary><ul>{''.join(items)}</ul></details>"


def class_row(name, grid, rows, doubts):
    """The row of a class."""
    numbers = "".join(f'<td class="number" data-key="{number}">{number}</td>' for number in (len(rows), grid.size, components_of_grid(grid)))
    doubtful = "".join(f"<li>{escape(text)}</li>" for text in doubts)
    return (f'<tr data-names="{escape(" ".join(row[0] for row in rows))}"><td>{class_picture(name, grid)}</td><td>{members_of(name, rows)}</td>{numbers}'
            f'<td data-key="{len(doubts)}">{f"<ul>{doubtful}</ul>" if doubts else "none"}</td></tr>')


def census_page(results):
    """The whole page."""
    rows, doubts = {}, {}
    for row in results.rows:
        rows.setdefault(row[1], []).append(row)
    for first, second, said, tried in results.undecided:
        for one, other in ((first, second), (second, first)):
            doubts.setdefault(one, []).append(f"{other}{', ' + said if said else ''}: {tried}")
    body = "\n".join(class_row(one.first, one.grid(), rows[one.first], doubts.get(one.first, [])) for one in results.classes)
    return whole_page("A census", results.count_line(), "Find a diagram", "least diagram", CENSUS_HEADS, body)
