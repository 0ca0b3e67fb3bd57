"""What a worker is asked of the rows of a table: grids, their short forms, and the keys of these."""
import json

from knot_workbench import code_grids
from knot_workbench.codes.planar import planar_text
from knot_workbench.diagrams import Grid, crossings, grid_of
from knot_workbench.faults import Fault, NoProgram
from knot_workbench.identifying import components_of_grid
from lib.sorting.lines import in_one_line, line_of
from lib.tables.given import had


def find_row(worker, given):
    """Of a name and a diagram what a store of rows has of it."""
    name, entry = given
    try:
        grid, count = drawn_grid(worker, entry) if isinstance(entry, str) else grid_given(worker, entry)
        if worker.table and components_of_grid(grid) > 1:
            raise Fault(f"it is a link of {components_of_grid(grid)} components, and a table of knots has none")
        form, moves = worker.reducer.short(grid)
        return name, count, entry if isinstance(entry, str) else "", in_one_line(grid.text), form.hex(), line_of(moves)
    except NoProgram:
        raise
    except Fault as fault:
        return name, "!", str(fault)


def drawn_grid(worker, code):
    """The grid of a planar diagram code as tables have it, and how many crossings it has."""
    rows = json.loads(code.removeprefix("PD"))
    _, said = worker.answered(worker.knot, ["grid"], planar_text(rows))
    found = code_grids.GRID.fullmatch(said)
    if not found:
        raise Fault(f"knot grid wrote '{said.strip()[:60]}'")
    return Grid(*([int(word) for word in marks.split()] for marks in found.groups())), len(rows)


def grid_given(worker, given):
    """The grid of what a folder or a table gives, and how many crossings it has."""
    grid = grid_of(had(given, worker.conventions).diagram)
    return grid, len(crossings(grid))


def find_key(worker, form):
    """Of a short form what `step` of a Reducer finds. Or why there is nothing."""
    try:
        return form, worker.reducer.step(form)
    except NoProgram:
        raise
    except Fault as fault:
        return form, str(fault)
