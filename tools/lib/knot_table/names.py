"""The word of each knot, joined to its grid."""
from knot_workbench import seek
from knot_workbench.tables.entries import Conventions, diagram_of
from knot_workbench.tables.knots import larger_quandles, read_knots, records, text_in
from knot_workbench.texts import Lines, read_diagram
from lib.knot_table.work import keep_certificate

# The steps of walks that join a word to a grid: before larger quandles are tried, and after them.
SHORT_WALK, LONG_WALK = 300_000, 8_000_000


def evidence_of(first, second, asked):
    """What `seek` finds of two diagrams by the list, by larger quandles and by walks: a certificate that the checker accepted, or None."""
    for steps, files in ((SHORT_WALK, ()), (0, larger_quandles()), (LONG_WALK, ())):
        found = seek(first, second, weights=[asked.list, *files], steps=steps)
        if found is not None:
            found.check()
            return found
    return None


def join_names(path, asked, work):
    """Joins the word of each knot to its grid."""
    knots = read_knots(path)
    rows = [row for _, row in records(path, text_in(path), ("name", "braid_notation")) if row["braid_notation"]]

    def joined(row):
        word = read_diagram(Lines(diagram_of(row["braid_notation"], None, Conventions("columns", False, False, "braid", None)).text))
        found = evidence_of(word, knots[row["name"]].grid, asked)
        keep_certificate(asked, row["name"], found)
        return found

    for row, found in zip(rows, work.each(joined, rows)):
        if found is None or not found.is_equal:
            work.differs(f"{path}: {row['name']}: the braid word is " + ("not joined to the grid" if found is None else f"another knot: {found}"))
