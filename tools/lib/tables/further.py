"""What further lists of quandles show of knots of a table: rows of numbers, as they are in a store, or counted."""
import os

from knot_workbench.diagrams import diagram_text
from knot_workbench.tables.knots import text_digest
from knot_workbench.tables.numbers import blocks_of, row_in, row_of, text_of_row
from lib.calls.store import LineForm
from lib.tables.blocks import split_blocks as plan_blocks

# The form of what --book names: rows, and what was found of symmetries. The keys say all that decides an answer.
BOOK = LineForm("tables of knots 1", "it was begun by another version")


def rows_by(known, names, listed, each, store=None):
    """The rows of these knots and of their mirror images by a list's text, by names. `each` maps a function over items, several at once. What is
    counted is added to the store, and what is there isn't counted again."""
    blocks, mark = blocks_of(listed), text_digest(listed)
    places = {name: f"{mark} {text_digest(diagram_text(known.knots[name].grid))}" for name in names}

    def counted(name):
        grid = known.knots[name].grid
        return [text_of_row(row_of(one, listed), blocks) for one in (grid, grid.mirror())]

    found = {name: store.answers[places[name]] for name in names if store and places[name] in store.answers}
    due = [name for name in names if name not in found]
    for name, texts in zip(due, each(counted, due)):
        found[name] = texts
        if store:
            store.put(places[name], *texts)
    return {name: tuple(row_in(text, blocks) for text in found[name]) for name in names}


def labels_of(listed, path=None):
    """What each block of a list is called: by the file's name where the file has one block alone."""
    named = [block.quandle.partition("\n")[0].removeprefix("quandle ") + (f" with a cocycle mod {read.weights}" if read.weights else "")
             for block, read in zip(plan_blocks(listed)[1], blocks_of(listed))]
    return [os.path.splitext(os.path.basename(path))[0]] if path and len(named) == 1 else named
