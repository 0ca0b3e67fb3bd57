"""The rows of numbers, counted anew."""
import os

from knot_workbench.diagrams import diagram_text
from knot_workbench.faults import Fault
from knot_workbench.tables.knots import beside, read_knots, rows_text, text_digest, text_in
from knot_workbench.tables.numbers import blocks_of, row_of, text_of_row
from knot_workbench.texts import Lines, read_quandle
from knot_workbench.weighing import is_connected
from lib.calls.whole_files import write_whole
from lib.tables.blocks import split_blocks as plan_blocks


def check_list(text, path):
    """Refuses a list in which a quandle isn't connected: then the numbers of a sum aren't known by those of its parts."""
    for block in plan_blocks(text)[1]:
        found = read_quandle(Lines(block.quandle))
        if not is_connected(found.over):
            raise Fault(f"{path}: {block.quandle.splitlines()[0]} isn't connected")


def recount_rows(path, asked, work):
    """Counts each row anew, and compares."""
    listed, target = text_in(asked.list), beside(path, ".numbers.txt")
    check_list(listed, asked.list)
    blocks, knots = blocks_of(listed), list(read_knots(path).values())
    old = old_numbers(target, listed)
    wanted = [knot for knot in knots if asked.all or text_digest(diagram_text(knot.grid)) not in old]

    def counted(knot):
        return [text_of_row(row_of(grid, listed), blocks) for grid in (knot.grid, knot.grid.mirror())]

    rows = {knot.name: texts for knot, texts in zip(wanted, work.each(counted, wanted))}
    found = [(knot, *(rows.get(knot.name) or old[text_digest(diagram_text(knot.grid))])) for knot in knots]
    for knot, *texts in found:
        if old.get(text_digest(diagram_text(knot.grid))) != texts:
            work.differs(f"{target}: {knot.name}: the numbers differ from those in the file")
    text = rows_text(listed, found)
    if not work.differing and text != text_or_none(target):
        work.differs(f"{target}: it is not the file that is due")
    if asked.write and work.differing:
        write_whole(target, text.encode())


def old_numbers(path, listed):
    """The two rows that are in a file, by the digests of diagrams; none where it was counted by another list."""
    text = text_or_none(path) or ""
    if not text.startswith(f"list {text_digest(listed)}\n"):
        return {}
    lines = [line.split(",") for line in text.splitlines()]
    return {fields[1]: fields[2:] for fields in lines if len(fields) == 4}


def text_or_none(path):
    """The text of a file, or None where there is none."""
    return text_in(path) if os.path.exists(path) else None
