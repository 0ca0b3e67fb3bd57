"""What is made of the rows of a table: diagrams and problems, each with the names that the table has."""
import collections

from knot_workbench.diagrams import grid_of
from knot_workbench.faults import Failed
from knot_workbench.identifying import components_of_grid
from knot_workbench.tables.entries import Conventions, EntryError, diagram_of
from knot_workbench.texts import Lines, read_diagram
from lib.calls.calls import note
from lib.tables.files import file_name, refusal_of


class Item:
    """A row whose diagrams could be had: its name and line, and the texts of its one or two diagrams."""

    def __init__(self, name, line, first, second):
        self.name = name
        self.line = line
        self.first = first
        self.second = second


class Faults:
    """What can't be had or isn't written, said on standard error at once, and counted."""

    def __init__(self):
        self.count = 0

    def say(self, path, line, name, why):
        """Names a row and says what is to be known of it."""
        name = name if len(name) <= 60 else name[:40] + "... (" + str(len(name)) + " letters)"
        name = name if name.isprintable() else repr(name)
        note(f"{path}:{line}: {name or '(no name)'}: {why}")

    def add(self, path, line, name, why):
        """As `say`, and counts it."""
        self.count += 1
        self.say(path, line, name, why)


# --- rows


def conventions_of(table, options, which):
    """How the entries of the column `diagram` or `second` are read."""
    column = table.diagram if which == "diagram" else table.second
    return Conventions(options.arcs, options.mirror in (which, "both"), options.reverse in (which, "both"), table.reads[column], options.grids)


def lines_of_entry(table, fields, column, conventions):
    """The diagram of one entry, with a comment for each remark; and the warnings."""
    entry = fields[column]
    if not entry.strip():
        raise EntryError("the entry is empty")
    read = diagram_of(entry, table.strands_of(fields), conventions)
    table.seen.setdefault(column, []).append((table.name_of(fields), kind_in_words(read), components_of_grid(grid_of(read_diagram(Lines(read.text))))))
    return "".join(f"# {remark}\n" for remark in [*read.remarks, *read.warnings]) + read.text, read.warnings


def kind_in_words(read):
    """What an entry was, in words for one and for several."""
    if read.code:
        return f"{read.code.kind} code"
    return "braid word" if read.text.startswith("braid") else "arc presentation"


def tell_odd(table):
    """Says on standard error where a column has entries of several kinds, or links among knots: a wrong column may be the cause."""
    for column, seen in sorted(table.seen.items()):
        title = table.header[column].strip()
        kinds = collections.Counter(kind for _, kind, _ in seen)
        if len(kinds) > 1:
            counts = " and ".join(f"{count} {kind}{'s' * (count > 1)}" for kind, count in kinds.most_common())
            rare = kinds.most_common()[-1][0]
            note(f"{table.path}: the column '{title}' has {counts}, as {next(name for name, kind, _ in seen if kind == rare)}")
        links = [(name, count) for name, _, count in seen if count > 1]
        if links and 2 * len(links) < len(seen):
            shown = ", ".join(f"{name} of {count} components" for name, count in links[:5])
            note(f"{table.path}: the column '{title}' has {len(links)} link{'s' * (len(links) > 1)} among knots: {shown}{', ..' * (len(links) > 5)}")


def in_column(table, fields, column, conventions):
    """As `diagram_text`; where two columns are read, an error or a warning says in which the entry is."""
    where = f"column {column + 1}: " if table.second is not None else ""
    try:
        text, warnings = lines_of_entry(table, fields, column, conventions)
    except EntryError as error:
        raise EntryError(f"{where}{error}") from None
    return text, [f"{where}{warning}" for warning in warnings]


def item_of(table, fields, line, options, faults):
    """The item of a row; its warnings are said."""
    name = table.name_of(fields)
    first, warnings = in_column(table, fields, table.diagram, conventions_of(table, options, "diagram"))
    second = None
    if table.second is not None:
        second, more = in_column(table, fields, table.second, conventions_of(table, options, "second"))
        warnings = warnings + more
    for warning in warnings:
        faults.say(table.path, line, name, f"warning: {warning}")
    return Item(name, line, first, second)


def check_name(name, lines):
    """Refuses a name that no file can have, or that a row before has; `lines` has the lines of those before."""
    if not name:
        raise EntryError("the row has no name")
    if not name.isprintable():
        raise EntryError("the name has a line break or another character that can't be printed")
    if refusal_of(file_name(name)):
        raise EntryError(refusal_of(file_name(name)))
    if name in lines:
        raise EntryError(f"line {lines[name]} has the same name")


def items_of(table, wanted, options, faults):
    """For each wanted row in order its item, or None where it can't be had; such a row is named."""
    items = []
    lines = {}
    for line, fields in table.rows:
        name = table.name_of(fields)
        if wanted is not None and name not in wanted:
            continue
        try:
            table.check_width(fields)
            check_name(name, lines)
            lines[name] = line
            items.append(item_of(table, fields, line, options, faults))
        except (EntryError, Failed) as error:
            faults.add(table.path, line, name, error)
            items.append(None)
            lines.setdefault(name, line)
    return items


def absent_names(table, wanted, faults):
    """How many of the wanted names no row has; each is named."""
    names = {table.name_of(fields) for _, fields in table.rows}
    absent = [name for name in wanted or [] if name not in names]
    for name in absent:
        faults.add(table.path, 1, name, "no row has this name")
    return len(absent)


# --- inputs


def pair_of(one, other, quandles):
    """The problem of two rows."""
    return f"# first: {one.name}\n{one.first}# second: {other.name}\n{other.first}{quandles}"


def outputs_of(items, options, quandles):
    """For each diagram or problem that is asked for the item it begins with, its name and its text."""
    had = [item for item in items if item is not None]
    if options.second:
        columns = [" ".join(title.split()) for title in (options.diagram, options.second)]
        for item in had:
            yield item, item.name, (f"# first: {item.name}\n# column: {columns[0]}\n{item.first}"
                                    f"# second: {item.name}\n# column: {columns[1]}\n{item.second}{quandles}")
    elif options.all_pairs:
        for place, one in enumerate(had):
            for other in had[place + 1:]:
                yield one, f"{one.name}__{other.name}", pair_of(one, other, quandles)
    elif options.neighbours:
        for one, other in zip(items, items[1:]):
            if one is not None and other is not None:
                yield one, f"{one.name}__{other.name}", pair_of(one, other, quandles)
    else:
        for item in had:
            yield item, item.name, f"# name: {item.name}\n{item.first}{quandles}"


def lost_inputs(items, options):
    """How many of the inputs that were asked for can't be made, since a row of theirs can't be had."""
    lost = sum(item is None for item in items)
    if options.all_pairs:
        had = len(items) - lost
        return (len(items) * (len(items) - 1) - had * (had - 1)) // 2
    if options.neighbours:
        return sum(one is None or other is None for one, other in zip(items, items[1:]))
    return lost
