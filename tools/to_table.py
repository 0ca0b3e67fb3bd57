#!/usr/bin/env python3
"""Puts results back into the table that inputs were made of: its columns as they are, followed by those of the results.

    tools/to_table.py examples/table/knots.csv table/answers/summary.csv > answered.csv     verdict, evidence, stage, check
    tools/to_table.py knots.csv census/classes.csv --out sorted.csv                         class, as, known, check
    tools/to_table.py knots.csv rulings.csv --columns answer,ruling                         any others

TABLE is the one that tools/from_table.py read, and RESULTS what tools/batch.py, census.py or identify.py wrote of its rows. A result belongs to
the row whose name made its file's name, or to the row of its own name. Rows without a result have empty fields, and are counted on standard
error. Lines that aren't rows of the table, as empty ones, are left out. A result that belongs to no row is named, and the status is 1.
"""
import argparse
import csv
import io

from lib.calls import calls
from lib.tables.files import file_name, free_name, read_bytes
from knot_workbench.tables.rows import TableError, column_of, delimiter_of, decoded, numbered_rows

# The columns of results that are taken where no words name others, as far as they are there.
TAKEN = ("class", "as", "known", "verdict", "evidence", "stage", "answer", "ruling", "check")


def header_and_rows(path, delimiter=None):
    """The header and the rows of a table, and what parts its fields."""
    data = read_bytes(path)
    parted = delimiter or delimiter_of(path, decoded(path, data).split("\n", 1)[0])
    rows = [fields for _, fields in numbered_rows(path, data, parted)]
    if not rows:
        raise TableError(f"{path}: the table is empty")
    return rows[0], rows[1:], parted


def keys_of(names):
    """For each name of the table's rows in order the name that its file had, without its ending; None where a row has no name of its own."""
    taken, seen, found = set(), set(), []
    for name in names:
        if not name or name in seen:
            found.append(None)
            continue
        seen.add(name)
        base = free_name(file_name(name), taken)
        taken.add(base.casefold())
        found.append(base[:-len(".txt")])
    return found


def columns_of(path, header, asked):
    """The places of the columns of results that are taken."""
    if asked:
        return [column_of(path, header, name.strip()) for name in asked.split(",")]
    found = [place for place, title in enumerate(header) if title.strip() in TAKEN]
    if not found:
        raise TableError(f"{path}: none of its columns is taken unasked: --columns names some of {', '.join(header)}")
    return found


def joined_table(options):
    """The lines of the table with its results; how many rows have none; and the names of results that belong to no row."""
    header, rows, parted = header_and_rows(options.table, "\t" if options.delimiter == "\\t" else options.delimiter)
    head, results, _ = header_and_rows(options.results)
    name, taken = column_of(options.table, header, options.name), columns_of(options.results, head, options.columns)
    own = column_of(options.results, head, options.result_name)
    by_name = {fields[own]: fields for fields in results if own < len(fields)}
    names = [fields[name].strip() if name < len(fields) else "" for fields in rows]
    out, used, without = [[*header, *(head[place] for place in taken)]], set(), 0
    for fields, said, key in zip(rows, names, keys_of(names)):
        found = next((one for one in (key, said) if one in by_name), None) if said else None
        used.add(found)
        without += found is None
        result = by_name.get(found, [])
        out.append([*fields, *[""] * (len(header) - len(fields)), *(result[place] if place < len(result) else "" for place in taken)])
    text = io.StringIO()
    csv.writer(text, delimiter=parted, lineterminator="\n").writerows(out)
    return text.getvalue(), without, [one for one in by_name if one not in used]


def main():
    parser = argparse.ArgumentParser(prog="to_table.py", description=__doc__, formatter_class=argparse.RawDescriptionHelpFormatter)
    parser.add_argument("table", metavar="TABLE", help="the table that inputs were made of")
    parser.add_argument("results", metavar="RESULTS", help="summary.csv, classes.csv, or another table with the rows' names")
    parser.add_argument("--name", default="name", metavar="COLUMN", help="the table's column of names (default: name)")
    parser.add_argument("--result-name", default="name", metavar="COLUMN", help="the results' column of names (default: name)")
    parser.add_argument("--columns", metavar="NAMES", help=f"the columns of RESULTS that are taken, separated by commas (default: those of {', '.join(TAKEN)})")
    parser.add_argument("--delimiter", metavar="MARK", help="what separates the fields of TABLE (default: by its name and first line)")
    parser.add_argument("--out", metavar="FILE", help="where the table goes; standard output if none is given")
    options = parser.parse_args()
    text, without, strange = joined_table(options)
    calls.put(options.out, text)
    if without:
        calls.note(f"to_table.py: {without} rows have no result")
    for one in strange[:20]:
        calls.note(f"to_table.py: {options.results}: '{one}' belongs to no row of {options.table}")
    if strange:
        raise SystemExit(1)


if __name__ == "__main__":
    calls.run("to_table.py", main)
