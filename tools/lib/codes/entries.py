"""Codes and braids in one entry, as tables have them."""


def code_text(rows):
    """A planar diagram code in one entry, as tables have it."""
    return f"PD[{','.join('[' + ','.join(map(str, row)) + ']' for row in rows)}]"


def braid_text(braid):
    """A braid word in one entry, with its strands, or nothing."""
    return "" if braid is None else f"{{{braid.strands},{{{','.join(map(str, braid.letters))}}}}}"
