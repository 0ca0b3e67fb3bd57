"""The grid of each code, drawn and made smaller."""
from knot_workbench.code_grids import Grids
from knot_workbench.diagrams import grid_of
from knot_workbench.identifying import smaller
from knot_workbench.tables.entries import Conventions, diagram_of
from knot_workbench.tables.knots import read_knots, records, text_in
from knot_workbench.texts import Lines, read_diagram
from lib.calls.whole_files import write_whole
from lib.knot_table.work import columns_text

# How many diagrams `knot simplify` lists.
BUDGET = 20_000


def arcs_text(grid):
    """A grid as an arc presentation: for each column the rows of its X and its O, from 1."""
    return "{" + ",".join(f"{{{x + 1},{o + 1}}}" for x, o in zip(grid.xs, grid.os)) + "}"


def grid_of_code(code):
    """A small grid of a planar diagram code."""
    grid = grid_of(read_diagram(Lines(diagram_of(code, None, Conventions("columns", False, False, "PD", Grids())).text)))
    return smaller(grid, BUDGET)[0]


def redraw_grids(path, asked, work):
    """Draws each code anew, and compares the sizes of the grids: other programs may find other grids, and a smaller one alone is news."""
    text = text_in(path)
    rows = [row for _, row in records(path, text, ("name", "pd_notation", "arc_notation"))]
    knots = read_knots(path)
    for row, grid in zip(rows, work.each(lambda row: grid_of_code(row["pd_notation"]), rows)):
        if arcs_text(grid) != row["arc_notation"]:
            old = knots[row["name"]].grid
            work.differs(f"{path}: {row['name']}: the grid that is drawn has {grid.size} columns, and that of the table {old.size}"
                         + ("" if grid.size != old.size else ", and isn't the same"))
            row["arc_notation"] = arcs_text(grid)
    if asked.write and work.differing:
        write_whole(path, columns_text(list(rows[0]), rows).encode())
