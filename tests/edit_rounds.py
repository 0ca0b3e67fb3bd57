"""Parts of edits.py: what an edit changes, and how many edits of a crate are tried in one check.

An edit in the body of one function changes no contract, so no other function's proof depends on it but where functions share one proof.
One check with such edits in place, each in another function, therefore says of each whether it is refused: where rt doesn't prove its
function, and names an error in that function itself. What the function calls counts by its contract there, also where it isn't proved.
Whatever else a check says settles nothing, and the edit is tried alone."""
import collections
import contextlib
import os
import re
import shutil
import sys

TOP = os.path.dirname(os.path.dirname(os.path.abspath(__file__)))
sys.path.insert(0, os.path.join(TOP, "upkeep"))
import house_crates  # noqa: E402

PARTS = ("src", "specs", "proofs")
# An edit of one body: its file, the rows that it changes, by number, the first and the last row of its function, and rt's name of that.
Place = collections.namedtuple("Place", "path rows first last function")
AT_ROW = re.compile(r"(?:note: )?(?:\./)?((?:src|proofs)/\S+?):(\d+):\d+: ")


def applied(edit, folder):
    """The texts of the files that an edit names in a crate's folder, by path, before and after it, and why it can't be applied, by rt's rules, or None."""
    path, old, was, texts = None, None, {}, {}
    for line in edit.split("\n"):
        kind, _, text = line.partition(":")
        text = text[1:]
        if kind == "file":
            path = text.strip()
            if not path.startswith(tuple(f"{part}/" for part in PARTS)) or os.path.normpath(path) != path or not os.path.isfile(f"{folder}/{path}"):
                return was, texts, f"there is no file {path} in src/, specs/ or proofs/"
            if path not in texts:
                with open(f"{folder}/{path}", encoding="utf-8") as file:
                    texts[path] = was[path] = file.read()
        elif kind == "old":
            old = text
        elif kind == "new":
            if not path or not old:
                return was, texts, "a line `new:` comes before a line `file:` or `old:`"
            if texts[path].count(old) != 1:
                return was, texts, f"{path} has this {texts[path].count(old)} times, and not once: {old}"
            texts[path], old = texts[path].replace(old, text), None
    return was, texts, "it changes nothing" if texts == was else None


def words_above(rows, first):
    """The attributes and comments right above a function whose first row has this number."""
    start = first - 1
    while start and rows[start - 1].strip() and not rows[start - 1].rstrip().endswith(("}", "{", ";")):
        start -= 1
    return "\n".join(rows[start : first - 1])


def owner_of(rows, first):
    """The type of the impl in which a function is, as rt names it, and whether that goes on, for the arguments of a trait; None where it is in another item."""
    if not rows[first - 1].startswith(" "):
        return "", False
    start = next((at for at in range(first - 2, -1, -1) if rows[at] and not rows[at].startswith((" ", "}", "{", ")", "where", "/", "#"))), 0)
    head = " ".join(rows[start : first - 1]).partition("{")[0].replace("->", "")
    while re.search("<[^<>]*>", head):
        head = re.sub("<[^<>]*>", "", head)
    found = re.match(r"(?:unsafe )?impl\s+(?:([\w:]+)\s+for\s+)?([\w:]+)\s*(?:where\b|$)", head)
    if not found:
        return None, False
    trait, name = ((it or "").rpartition("::")[2] for it in found.groups())
    return name + trait, bool(trait)


def function_at(path, rows, first, name, crate, functions):
    """Which of these functions, by rt's names, is the one of this name at this row of a file of the crate, or None where that isn't sure.

    rt names a method by the module that declares its type, and any other function by its own."""
    owner, goes_on = owner_of(rows, first)
    if owner == "":
        module = [it for it in path[len("src/") : -len(".rt")].split("/") if it not in ("lib", "main", "mod")]
        found = [it for it in functions if it == "::".join([crate, *module, name])]
    else:
        inside = {it: it.split("::")[-2] for it in functions if owner and it.endswith(f"::{name}")}
        found = [it for it in inside if inside[it] == owner or goes_on and inside[it].startswith(owner)]
    return found[0] if len(found) == 1 else None


def place_of(edit, folder, crate, functions):
    """Where an edit is if it changes the body of one function that has a proof of its own, one of these, by rt's names; else None."""
    was, texts, why = applied(edit, folder)
    paths = [path for path in texts if texts[path] != was[path]]
    if why or len(paths) != 1 or not paths[0].startswith("src/"):
        return None
    old, new = was[paths[0]].split("\n"), texts[paths[0]].split("\n")
    rows = {number: after for number, (before, after) in enumerate(zip(old, new), 1) if before != after}
    around = [it for it in house_crates.functions_of(old) if it[1] <= max(rows) and min(rows) <= it[3]]
    if len(around) != 1 or list(house_crates.functions_of(new)) != list(house_crates.functions_of(old)):
        return None
    name, first, opens, last = around[0]
    if not opens < min(rows) <= max(rows) < last or re.search(r"\bconst fn\b", old[first - 1]) or "cycle(" in words_above(old, first):
        return None
    function = function_at(paths[0], old, first, name, crate, functions)
    return function and Place(paths[0], rows, first, last, function)


REFUSED, WAITS, UNSURE = "refused", "waits", "unsure"
# Of a function in which nothing is wrong rt says no more than that others, which it calls, aren't proved.
CALLS = re.compile("it calls|it passes|a call of")
CALLS_ALONE = re.compile(f"(?:not proved|no proof):? (?:{CALLS.pattern}) [^;]*$")
# What rt says of code that it could not read: such an edit is a bad one. And of proof files that name what an edit took away.
UNREAD = re.compile(r"error(?:\[[\w-]+\])?: (?!`[^`]*`: )|is not in scope|has no field|is no name|operand is missing|expected the end|cannot continue")
MISSED = re.compile(r"has no field|is not in scope|has no `|was not admitted")


def said_of(place, lines):
    """What these lines of a check say of the code of the edit's function, and what they say of its proof files."""
    files, code, proofs = "/".join(["proofs", *place.function.split("::")[1:], ""]), [], []
    for line in lines:
        found = AT_ROW.match(line) if line.startswith("note: ") or ": error" in line else None
        if found and found[1] == place.path and place.first <= int(found[2]) <= place.last:
            code.append(line)
        elif found and found[1].startswith(files):
            proofs.append(line)
    return code, proofs


def judged(place, lines):
    """What a check of the edit's function comes to, and the line that says why.

    It is refused where rt says that the function itself isn't proved, and at which goal. Where rt only says that a function that it calls isn't
    proved, the edit waits for a check in which that one has no edit."""
    told = next((line for line in lines if line.startswith(f"fn {place.function}: ")), "")
    words = told.partition(": ")[2]
    code, proofs = said_of(place, lines)
    why = code + [line for line in proofs if not MISSED.search(line)]
    if not words.startswith(("not proved", "no proof")) or any(map(UNREAD.search, code)):
        return UNSURE, told
    if why and not CALLS_ALONE.match(words):
        return REFUSED, why[0]
    return WAITS if CALLS.search(words) else UNSURE, told


def split_by_function(names, places):
    """The first of these edits in each function, and the others."""
    now, later, taken = [], [], set()
    for name in names:
        (later if places[name].function in taken else now).append(name)
        taken.add(places[name].function)
    return now, later


def tried_together(places, check):
    """The names of those of these edits that are refused, each with the line that says why. `check` gives what rt says with the named edits in place."""
    waiting, rounds = list(places), []
    while waiting or rounds:
        if not rounds:
            now, waiting = split_by_function(waiting, places)
            rounds.append(now)
        now = rounds.pop()
        lines = check(now)
        if not any(line.startswith(("only=", "rattle: no verdict")) for line in lines):
            # The code can't be read: the edits that rt points at are left, or one half at a time is tried.
            wrong = [name for name in now if any(said_of(places[name], lines))]
            rest = [name for name in now if name not in wrong]
            if wrong:
                rounds += [rest] if rest else []
            elif len(now) > 1:
                rounds += [now[len(now) // 2 :], now[: len(now) // 2]]
            continue
        found = {name: judged(places[name], lines) for name in now}
        yield from ((name, why) for name, (kind, why) in found.items() if kind == REFUSED)
        waits = [name for name in now if found[name][0] == WAITS]
        # Where all wait, none of them is what the others wait for.
        waiting = waits + waiting if len(waits) < len(now) else waiting


def link_or_copy(one, other):
    try:
        os.link(one, other)
    except OSError:
        shutil.copy2(one, other)


def crates_at_or_below(top, crate):
    """The lines of crates.txt for a crate and for those that it uses, by name."""
    with open(f"{top}/crates.txt", encoding="utf-8") as file:
        lines = {line.split(":")[0].split()[0]: line for line in (row.partition("#")[0] for row in file) if ":" in line}
    found, left = {}, [crate]
    while left:
        name = left.pop()
        if name in lines and name not in found:
            found[name] = lines[name]
            left += lines[name].partition(":")[2].split()
    return found


def move_made(source, target):
    """Moves what rt has made of a crate from one of its folders to another."""
    for part in ("incremental", "rlib"):
        if os.path.isdir(f"{source}/out/{part}"):
            os.makedirs(f"{target}/out", exist_ok=True)
            shutil.rmtree(f"{target}/out/{part}", ignore_errors=True)
            os.rename(f"{source}/out/{part}", f"{target}/out/{part}")


@contextlib.contextmanager
def tree_for(copy, crate, kept=("out/incremental",)):
    """A tree of its own for a crate: links to the files and libraries below it, and copies of its own files and of what was kept of it, so that nothing
    of the copy changes."""
    top = f"{copy}/crates/{crate}/out/edits"
    shutil.rmtree(top, ignore_errors=True)
    os.makedirs(top)
    try:
        found = crates_at_or_below(copy, crate)
        with open(f"{top}/crates.txt", "w", encoding="utf-8") as file:
            file.writelines(found.values())
        shutil.copy2(f"{copy}/HANDLES", f"{top}/HANDLES")
        for name in found:
            for part in (*PARTS, *(kept if name == crate else ("out/rlib",))):
                if os.path.isdir(f"{copy}/crates/{name}/{part}"):
                    how = shutil.copy2 if name == crate else link_or_copy
                    shutil.copytree(f"{copy}/crates/{name}/{part}", f"{top}/crates/{name}/{part}", copy_function=how)
        yield f"{top}/crates/{crate}"
    finally:
        shutil.rmtree(top, ignore_errors=True)


def put_in_place(names, places, folder, base):
    """Makes the files of a crate's folder those of another folder, with these edits."""
    rows = {}
    for path in {place.path for place in places.values()}:
        with open(f"{base}/{path}", encoding="utf-8") as file:
            rows[path] = file.read().split("\n")
    for name in names:
        for number, row in places[name].rows.items():
            rows[places[name].path][number - 1] = row
    for path, found in rows.items():
        with open(f"{folder}/{path}", "w", encoding="utf-8") as file:
            file.write("\n".join(found))
