"""What is said of the name that a row should have, and as what a row counts."""
from knot_workbench.tables.knots import SAME, Turn, name_of
from lib.identify.answers import WITHOUT_CERTIFICATE


def ruling_on(known, given, first, found, parts, unsigned):
    """What is to be said of the name that a row should have, whose parts are `first`, and remarks on it."""
    if given.expected is None:
        return "", []
    if not given.expected:
        return "no name", []
    remarks = [] if first is not None else [f"no knot of the table is called '{given.expected}'"]
    if found.parts is None:
        return ruling_without_name(found, first), remarks
    expected = without_mirrors(first) if unsigned and first else first
    if parts == expected:
        return "right", remarks
    turn = turn_between(known, expected, parts) if parts and expected is not None else None
    if turn is None:
        return f"wrong: it is {name_of(parts)}", remarks
    if len(parts) == 1 and turn not in known.knots[parts[0][0]].different:
        remarks.append("it isn't known whether that is another knot")
    return turn.words.strip(), remarks


def turn_between(known, one, other):
    """The turn that makes the other parts of these, or None."""
    for turn in (Turn(True), Turn(False, True), Turn(True, True)):
        turned = [(name, known.first_turn(name, turn.then(old))) for name, old in one]
        if sorted(turned) == sorted(other):
            return turn
    return None


def ruling_without_name(found, first):
    """What is to be said of an expected name where the diagram has none."""
    if found.components > 1:
        return f"wrong: it is a {found.answer}"
    if not found.candidates:
        return "wrong: it is none of the table"
    if first is None or first in found.candidates:
        return "open"
    return f"wrong: it may be {' or '.join(map(name_of, found.candidates))}"


def without_mirrors(parts):
    """Parts as they are known by a code that the mirror image has too."""
    return tuple((name, SAME if turn == Turn(True) else turn) for name, turn in parts)


def is_well(row, options):
    """Whether the exit status may be 0 as far as this row goes."""
    if options.expect:
        return row.ruling == "right"
    return row.answer not in ("open", "refused", "failed") and not row.answer.startswith("link of ")


def kind_of_answer(row):
    """What a row counts as."""
    if row.ruling:
        return row.ruling.partition(":")[0]
    if row.answer.startswith("link of "):
        return "links"
    return row.answer if row.answer in WITHOUT_CERTIFICATE else "named"
