"""Parts of house.py that look at crates: the floors on which they are by the names in their files, and how large they are.

    python3 upkeep/house.py floors    floors by names, what crates.txt says otherwise, and what it lists that no file names
    python3 upkeep/house.py sizes     functions and lines of code by crate, against the most that the kit advises
"""
import os
import re

TOP = os.path.dirname(os.path.dirname(os.path.abspath(__file__)))
MOST_FUNCTIONS = 100
MOST_CRATE_LINES = 1500
FUNCTION = re.compile(r"( *)(?:pub(?:\([a-z]+\))? )?(?:const )?(?:unsafe )?fn (\w+)")


def listed(top=TOP):
    """What crates.txt says: by crate its floor, or None, and what it uses, in the order of the file."""
    floor, found = None, {}
    with open(os.path.join(top, "crates.txt"), encoding="utf-8") as file:
        for line in file:
            head = re.match(r"# --- floor (\d+)", line)
            floor = int(head.group(1)) if head else floor
            name, colon, named = line.partition("#")[0].partition(":")
            if colon:
                found[name.split()[0]] = (floor, named.split())
    return found


def texts(crate, top=TOP):
    """The files of a crate that are proved: path, folder and text."""
    for part, ending in (("src", ".rt"), ("specs", ".antt"), ("proofs", ".antt")):
        for folder, _, names in sorted(os.walk(os.path.join(top, "crates", crate, part))):
            for name in sorted(names):
                if name.endswith(ending):
                    path = os.path.join(folder, name)
                    with open(path, encoding="utf-8") as file:
                        yield path, part, file.read()


def code_without_comments(text, part):
    return re.sub(r"//.*" if part == "src" else r"--.*", "", text)


def named_in(text):
    """The libraries that a text may name: what is before `::`, after `use`, or in a path of definitions."""
    return set(re.findall(r"\b([a-z]\w*)::", text)) | set(re.findall(r"\buse ([a-z]\w*)", text)) | set(re.findall(r"\bRattle\.(\w+)\.", text))


def names_by_crate(crates, top=TOP):
    """By crate the libraries of crates.txt, of the tree and of the kit, that its files name."""
    known = set(crates).union(*(named for _, named in crates.values()))
    return {crate: {name for _, part, text in texts(crate, top) for name in named_in(code_without_comments(text, part))} & known - {crate} for crate in crates}


def floors_by(named):
    """By crate its floor: the length of the longest chain of crates below it, by what each of them names."""
    found = {}

    def floor(crate, above=()):
        if crate in above:
            raise ValueError(f"crates name one another: {' '.join((*above, crate))}")
        if crate not in found:
            found[crate] = max((floor(other, (*above, crate)) + 1 for other in named[crate] if other in named), default=0)
        return found[crate]

    for crate in named:
        floor(crate)
    return found


def floors(top=TOP):
    """Prints the crates by floor, and where crates.txt says something else."""
    crates = listed(top)
    named = names_by_crate(crates, top)
    by_names = floors_by(named)
    for floor in sorted(set(by_names.values())):
        print(f"floor {floor}: {' '.join(crate for crate in crates if by_names[crate] == floor)}")
    others = [crate for crate in crates if crates[crate][0] not in (None, by_names[crate])]
    for crate in others:
        print(f"{crate} is on floor {crates[crate][0]} in crates.txt, and on {by_names[crate]} by the names in its files")
    count = 0
    for crate, (_, stands_on) in crates.items():
        idle = [name for name in stands_on if name not in named[crate]]
        count += len(idle)
        if idle:
            print(f"{crate}: crates.txt lists what no file names: {' '.join(idle)}")
    print(f"{len(others)} crates are on a floor other than crates.txt says; it lists {count} libraries that no file of their crate names")


def functions_of(rows):
    """The functions of a file in rt fmt's layout: name, and the numbers of the first line, of the one in which the body opens, and of the last.

    The body opens with a brace alone, after a contract, or with one at the end of the signature, where there is none. A function of a
    trait without a body has that line for its last too."""
    for number, row in enumerate(rows, 1):
        found = FUNCTION.match(row)
        if found:
            indent, name = found.groups()
            for at, line in enumerate(rows[number - 1:], number):
                is_signature = at == number or line.startswith(indent + ")") or line.startswith(indent + "where")
                own = line.rstrip()
                if own in (indent + "{}", indent + "{") or is_signature and own.endswith(("{", "}")):
                    is_open = own.endswith("{")
                    last = next((place for place, later in enumerate(rows[at:], at + 1) if later.rstrip() == indent + "}"), at) if is_open else at
                    yield name, number, at, last
                    break
                if own.endswith(";"):
                    yield name, number, at, at
                    break


def code_without_tests(crate, top=TOP):
    """The lines of code of a crate, file by file, without its tests: modules that only tests have."""
    files = {os.path.relpath(path, os.path.join(top, "crates", crate, "src")): text for path, part, text in texts(crate, top) if part == "src"}
    tests = {name for text in files.values() for name in re.findall(r"^#\[cfg\(test\)\]\nmod (\w+);$", text, re.M)}
    for inside, text in files.items():
        if not tests & set(inside[: -len(".rt")].split(os.sep)):
            yield os.path.join(top, "crates", crate, "src", inside), re.split(r"^#\[cfg\(test\)\]\nmod \w+ \{$", text, maxsplit=1, flags=re.M)[0].splitlines()


def size_of(crate, top=TOP):
    """How many functions a crate has, and how many lines of code, tests left out."""
    files = [rows for _, rows in code_without_tests(crate, top)]
    return sum(len(list(functions_of(rows))) for rows in files), sum(len(rows) for rows in files)


def sizes(top=TOP):
    """Prints the crates that are over the advised size, and the largest of the others."""
    found = sorted(((*size_of(crate, top), crate) for crate in listed(top)), reverse=True)
    over = [row for row in found if row[0] > MOST_FUNCTIONS or row[1] > MOST_CRATE_LINES]
    for functions, lines, crate in over:
        print(f"{crate}: {functions} functions, {lines} lines of code")
    near = [f"{crate} {functions} / {lines}" for functions, lines, crate in found if (functions, lines, crate) not in over][:8]
    print(f"{len(over)} of {len(found)} crates have over {MOST_FUNCTIONS} functions or {MOST_CRATE_LINES} lines of code; the largest others: {', '.join(near)}")


PARTS_OF_CRATES = {"floors": (floors,), "sizes": (sizes,)}
