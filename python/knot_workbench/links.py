"""Links of Sage, Regina and SnapPy: the rows of their planar diagram codes, and how many components have no crossing."""
from typing import Any, Callable, List, Optional, Tuple

from .faults import BadCode
from .codes.planar import components_of_code

# Rows of crossings, and how many components have none.
RowsAndLoops = Tuple[List[List[int]], int]


def with_loops(rows: List[List[int]], components: int) -> RowsAndLoops:
    """Rows, and as many loops as the link has components beside those of the rows. Raises BadCode where it has fewer."""
    loops = components - components_of_code(rows)
    if loops < 0:
        raise BadCode(f"the code has {components - loops} components, and the link {components}")
    return rows, loops


def rows_by_call(program: str, link: Any, call: str) -> List[List[int]]:
    """The rows that a call of a link answers. Raises BadCode where it is no link of that program, or has no code."""
    if not callable(getattr(link, call, None)):
        raise BadCode(f"{link!r:.40} is no link of {program}: it has no `{call}`")
    try:
        rows = [[int(edge) for edge in row] for row in getattr(link, call)()]
    except Exception as error:  # (whatever the other program raises)
        raise BadCode(f"the link of {program} has no planar diagram code: {type(error).__name__}: {error}") from None
    if any(len(row) != 4 for row in rows):
        raise BadCode(f"the link of {program} has a row that hasn't four edges")
    return rows


def count_by(program: str, link: Any, call: str) -> int:
    """How many components a link has, by a call of that program. Raises BadCode."""
    try:
        return int(getattr(link, call)())
    except Exception as error:  # (whatever the other program raises)
        raise BadCode(f"the link of {program} doesn't give its components: {type(error).__name__}: {error}") from None


def code_of_sage(link: Any) -> RowsAndLoops:
    """The rows and loops of one of Sage's links. Sage lists the edges of a crossing the other way round, which is undone here."""
    return with_loops([[i, j, k, l] for i, l, k, j in rows_by_call("Sage", link, "pd_code")], count_by("Sage", link, "number_of_components"))


def code_of_regina(link: Any) -> RowsAndLoops:
    """The rows and loops of one of Regina's links."""
    return with_loops(rows_by_call("Regina", link, "pdData"), count_by("Regina", link, "countComponents"))


def code_of_snappy(link: Any) -> RowsAndLoops:
    """The rows and loops of one of SnapPy's links. It is written by SnapPy's documentation, and wasn't run with SnapPy."""
    return rows_by_call("SnapPy", link, "PD_code"), int(getattr(link, "unlinked_unknot_components", 0))


# What a link has by which its program is known.
LINK_CALLS: Tuple[Tuple[str, Callable[[Any], RowsAndLoops]], ...] = (("pdData", code_of_regina), ("PD_code", code_of_snappy), ("pd_code", code_of_sage))


def code_of_link(link: Any) -> Optional[RowsAndLoops]:
    """The rows and loops of a link of one of the three programs, or None where it is none."""
    for call, code_of in LINK_CALLS:
        if callable(getattr(link, call, None)):
            return code_of(link)
    return None
