#!/bin/sh
# Makes the table of all diagrams to nine crossings, or to another number, and compares it with what is known.
#   tests/table.sh [CROSSINGS [FOLDER]]
# Without a folder a new one is made. KNOT and SEEK name built programs, else those of the tree are taken. It isn't in the gate. With 9 there
# are 22,119 diagrams and 88 classes: the unknot, 84 prime knots and three sums; with 10 there are 258, of them 249 prime knots and eight sums.
set -u

cd "$(dirname -- "$0")/.." || exit 1
most=${1-9}
folder=${2-$(mktemp -d "${TMPDIR:-/tmp}/table.XXXXXX")} || exit 1
echo "table.sh: the table is made in $folder"
tools/tabulate.py "$most" "$folder"
status=$?
[ "$status" -le 1 ] || exit "$status"
exec python3 -B - "$most" "$folder" <<'END'
import collections
import csv
import json
import os
import sys


def is_alternating(row):
    """Whether each edge of the first diagram of a class has one end below. The diagrams of fewest crossings of an alternating knot alternate."""
    code = json.loads(row["pd_notation"].removeprefix("PD"))
    return len({edge for crossing in code for edge in crossing[::2]}) == 2 * len(code)


most, folder = int(sys.argv[1]), sys.argv[2]
diagrams = {3: 2, 4: 6, 5: 19, 6: 75, 7: 414, 8: 2770, 9: 22119, 10: 184739}
primes = {3: 1, 4: 1, 5: 2, 6: 3, 7: 7, 8: 21, 9: 49, 10: 165}
alternating = {3: 1, 4: 1, 5: 2, 6: 3, 7: 7, 8: 18, 9: 41, 10: 123}
classes = {7: 15, 8: 38, 9: 88, 10: 258}
with open(os.path.join(folder, "table.csv"), encoding="utf-8", newline="") as source:
    rows = list(csv.DictReader(source))
found = {row["class"]: int(row["name"].partition("_")[0]) for row in rows if row["name"].partition("_")[0].isdigit() and "#" not in row["name"]}
counts, some = (collections.Counter(found[row["class"]] for row in rows if row["class"] in found and (is_any or is_alternating(row))) for is_any in (True, False))
facts = [("diagrams", sum(int(row["diagrams"]) for row in rows), diagrams.get(most)), ("classes", len(rows), classes.get(most, len(rows))),
         *((what, dict(sorted(one.items())), {count: due[count] for count in range(3, most + 1) if count in due})
           for what, one, due in (("prime knots by crossings", counts, primes), ("alternating ones", some, alternating)))]
for what, found, due in facts:
    print(f"table.sh: {'ok' if found == due else 'FAILED'}: {what}: {found}" + ("" if found == due else f", and not {due}"))
sys.exit(any(found != due for _, found, due in facts))
END
