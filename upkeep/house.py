#!/usr/bin/env python3
"""What the tree shows of its own order: statements that come twice, names with several meanings, wide proof lines, long files and
functions, long sentences.

    python3 upkeep/house.py          all of it
    python3 upkeep/house.py twice    one part: twice, library, meanings, wide, long, names, pages, sentences, stated

A finding is a place to look. Statements are compared by their text, with the names that they bind distinguished by place alone. `meanings`
counts the names that several files of specs/ define, the types that several files of code declare, and the functions, classes and constants
that several modules of Python define at their top, but for those that CONTRIBUTING.md gives a reason for.

`pages` counts the words of every page `*.md` of the tree between white space, as `wc -w` does, and beside them the words of prose: those
with a letter or a digit that are in no block of commands or texts, where all between two backticks is one word. `sentences` reads the
prose by the same rule. A sentence ends at a full stop or at the end of its paragraph, list item or cell of a table. `stated` finds the
links of pages that lead nowhere, the files that docs/DEFINITIONS.md names and that aren't there, and the names that it says are stated in a
file, or are laws of its crate or of a crate of laws, and aren't.
"""
import os
import re
import shutil
import subprocess
import sys

import house_crates
import house_python

TOP = os.path.dirname(os.path.dirname(os.path.abspath(__file__)))
WIDE = 160
LONG_FILE = 500
LONG_FUNCTION = 40
LONG_SENTENCE = 25
HARD_SENTENCE = 30


def files(kind, ending):
    """The files of one folder of every crate, in order."""
    crates = os.path.join(TOP, "crates")
    for crate in sorted(os.listdir(crates)):
        root = os.path.join(crates, crate, kind)
        for folder, _, names in sorted(os.walk(root)):
            for name in sorted(names):
                if name.endswith(ending):
                    yield crate, os.path.join(folder, name)


def lines_of(path):
    with open(path, encoding="utf-8") as file:
        return file.read().splitlines()


def place(path, number):
    return f"{os.path.relpath(path, TOP)}:{number}"


def alike(statement):
    """The statement with each bound name written as its number."""
    words = re.findall(r"[^\W\d][\w'\-]*|\d+|\S", statement)
    bound = {}
    for group in re.findall(r"\(((?:[^\W\d][\w']* )+):", statement) + re.findall(r"λ ([^.]*)\.", statement):
        for word in re.findall(r"[^\W\d][\w']*", group):
            bound.setdefault(word, f"#{len(bound)}")
    return " ".join(bound.get(word, word) for word in words)


def statements(path):
    """Lemmas with their types: name, line, type, which goes on over the lines that are set in. What is defined by `abbrev` has a
    meaning beside its type, so it is none."""
    rows = lines_of(path)
    for number, line in enumerate(rows, 1):
        found = re.match(r"(?:unfoldable |recursive )*(?:pub )?([^\W\d][\w'\-]*) : (.+)$", line)
        if found:
            statement = [found.group(2)]
            for row in rows[number:]:
                if not row.startswith(" "):
                    break
                statement.append(row.strip())
            yield found.group(1), number, " ".join(statement)


def twice():
    """Lemmas with one statement, of at least two premises or forty characters."""
    seen = {}
    for crate, path in files("proofs", ".antt"):
        if os.path.basename(path) in ("Answers.antt", "Invariants.antt", "Proof.antt"):
            continue
        for name, number, statement in statements(path):
            if len(statement) >= 40 and "→" in statement and "Type" not in statement:
                seen.setdefault(alike(statement), []).append((crate, path, number, name))
    count = 0
    for places in seen.values():
        if len(places) > 1:
            count += 1
            print("; ".join(f"{place(path, number)} {name}" for _, path, number, name in places))
    print(f"{count} statements come more than once")
    return count


def plain(statement):
    """The statement without its type variables and with one binder for neighbours of one type, as the library's pages may write it."""
    text = statement
    for short, long in (("ltb", "nat_lt"), ("leb", "nat_le"), ("eqb", "nat_eq"), ("slice_index_or", "get_or")):
        text = re.sub(rf"\b{short}\b", long, text)
    text = re.sub(r"\{[^{}]*: *Type 0 *\}", "", text).strip().removeprefix("→").strip()
    text = re.sub(r"(\([^()]*:[^()]*\)) →(?= *\()", r"\1", text)
    before = None
    while before != text:
        before = text
        text = re.sub(r"\(([\w' ]+?) : ([^():]+)\) \(([\w' ]+?) : \2\)", r"(\1 \3 : \2)", text)
    kinds = {}
    return re.sub(r"\b[A-Z]\b", lambda kind: kinds.setdefault(kind.group(0), f"T{len(kinds)}"), alike(text))


def library():
    """Lemmas that the pages of the kit's library state too, where the kit is on PATH."""
    told = subprocess.run(["rt", "doc"], capture_output=True, text=True).stdout if shutil.which("rt") else ""
    pages = os.path.join(os.path.dirname(told.strip()), "rattle", "std", "lemmas")
    known = {}
    for folder, _, names_of in sorted(os.walk(pages)):
        for name in sorted(names_of):
            if name.endswith(".md"):
                path = os.path.join(folder, name)
                for lemma, _, statement in statements(path):
                    known.setdefault(plain(statement), f"{os.path.relpath(path, pages)[:-3]} {lemma}")
    count = 0
    for _, path in files("proofs", ".antt"):
        for name, number, statement in statements(path):
            found = known.get(plain(statement)) if "→" in statement else None
            if found:
                count += 1
                print(f"{place(path, number)} {name} is {found}")
    print(f"{count} statements of {len(known)} of the library are here too")


def defined_twice():
    """Definitions of specs with one text after their names."""
    seen = {}
    for crate, path in files("specs", ".antt"):
        rows = lines_of(path)
        for number, line in enumerate(rows, 1):
            found = re.match(r"abbrev pub ([^\W\d][\w'\-]*) : (.+)$", line)
            if not found:
                continue
            name, body = found.group(1), []
            for row in rows[number:]:
                if not row.strip() or row.startswith("--"):
                    break
                body.append(re.sub(rf"\b{re.escape(name)}\b", "@", row))
            text = found.group(2) + " | " + " ".join(" ".join(body).split())
            if len(text) >= 50:
                seen.setdefault(text, []).append((path, number, name))
    count = 0
    for places in seen.values():
        if len(places) > 1:
            count += 1
            print("; ".join(f"{place(path, number)} {name}" for path, number, name in places))
    print(f"{count} definitions come more than once")
    return count


def declared(kind, ending, pattern):
    """The names that the lines of a kind of files declare, tests apart, each with its path and line."""
    for _, path in files(kind, ending):
        for number, line in enumerate(lines_of(path), 1):
            found = re.match(pattern, line)
            if found and not re.search(r"(?:^|/)tests(?:/|\.rt)", os.path.relpath(path, TOP)):
                yield found.group(1), path, number


def several(declarations, shared=()):
    """Prints the names that two or more files declare, each with its places, and which of `shared` aren't such: the count of these and of all names."""
    places = {}
    for name, path, number in declarations:
        places.setdefault(name, []).append((path, number))
    count = 0
    for name, held in sorted(places.items(), key=lambda item: (-len(item[1]), item[0])):
        if len({path for path, _ in held}) > 1 and name not in shared:
            count += 1
            print(f"{name}: {', '.join(place(path, number) for path, number in held)}")
    for name in sorted(shared):
        if len({path for path, _ in places.get(name, ())}) < 2:
            count += 1
            print(f"{name}: CONTRIBUTING.md says that several modules define it")
    return count, len(places)


def meanings():
    """Names of definitions, types of the code, and names of Python, that have several meanings."""
    count, names_of = several(declared(
        "specs", ".antt", r"(?:(?:abbrev|data|opaque|pub|record|recursive|unfoldable) )+(?!mod\b|use\b)([^\W\d][\w'\-]*)(?=\s)"))
    types, types_of = several(declared("src", ".rt", r"pub(?:\(crate\))? (?:enum|struct|trait|type) (\w+)"))
    scripts, scripts_of = several(house_python.python_names(TOP), house_python.shared_names(TOP))
    print(f"{count} of {names_of} names of definitions have several meanings, {types} of {types_of} types of the code, and {scripts} of {scripts_of} "
          "names of Python")
    return count, types, scripts


def wide():
    """Proof lines over the width, and the files with most of them."""
    total, rows = 0, {}
    for _, path in files("proofs", ".antt"):
        for line in lines_of(path):
            total += 1
            if len(line) > WIDE:
                rows[path] = rows.get(path, 0) + 1
    for path, count in sorted(rows.items(), key=lambda row: -row[1])[:12]:
        print(f"{count} {os.path.relpath(path, TOP)}")
    found = sum(rows.values())
    print(f"{found} of {total} proof lines are over {WIDE} characters, {100 * found / max(total, 1):.1f} in 100")


def long():
    """Files and functions that are too long; long tests, which are mostly tables, are only counted."""
    tests = 0
    for kind, ending in (("src", ".rt"), ("specs", ".antt"), ("proofs", ".antt")):
        for _, path in files(kind, ending):
            rows = lines_of(path)
            if len(rows) > LONG_FILE:
                print(f"{os.path.relpath(path, TOP)}: {len(rows)} lines")
            for name, number, opens, last in house_crates.functions_of(rows) if ending == ".rt" else ():
                length = last - opens
                if length > LONG_FUNCTION and re.search(r"tests(?:/\w+)?\.rt$", path):
                    tests += 1
                elif length > LONG_FUNCTION:
                    print(f"{place(path, number)}: {length} lines, {name}")
    print(f"{tests} tests are over {LONG_FUNCTION} lines")


def names():
    """Files of definitions without a file of code of that name."""
    specs, code = {}, {}
    for crate, path in files("specs", ".antt"):
        specs.setdefault(crate, set()).add(os.path.basename(path)[:-5])
    for crate, path in files("src", ".rt"):
        code.setdefault(crate, set()).add(os.path.basename(path)[:-3])
    for crate in sorted(specs):
        left = sorted(s for s in specs[crate] if s != "Lib" and re.sub(r"(?<!^)(?=[A-Z])", "_", s).lower() not in code.get(crate, set()))
        if left:
            print(f"{crate}: {', '.join(left)}; code: {', '.join(sorted(code.get(crate, set()) - {'lib', 'tests', 'laws'}))}")


def pages_of_prose():
    """The pages of the tree, as paths from its top, in order."""
    for folder, folders, names_of in sorted(os.walk(TOP)):
        folders[:] = [name for name in folders if name not in (".git", "out")]
        for name in sorted(names_of):
            if name.endswith(".md"):
                yield os.path.relpath(os.path.join(folder, name), TOP)


def prose_lines(path):
    """The lines of a page that are in no block of commands or texts, with their numbers; a code in backticks is made one word."""
    fenced = indented = False
    before = ""
    for number, line in enumerate(lines_of(os.path.join(TOP, path)), 1):
        if line.lstrip().startswith("```"):
            fenced = not fenced
        elif not fenced:
            if line.startswith("    ") and (indented or not before.strip()):
                indented = True
            elif line.strip():
                indented = False
            if not indented:
                yield number, re.sub(r"`[^`]*`", lambda code: re.sub(r"[ .|]", "_", code.group(0)), line)
        before = line


def words_of(text):
    """The words of a line of prose: what has a letter or a digit."""
    return [word for word in text.split() if re.search(r"\w", word)]


def pages():
    """The pages by their words, the longest first, and the words of all."""
    rows = []
    for path in pages_of_prose():
        whole = sum(len(line.split()) for line in lines_of(os.path.join(TOP, path)))
        rows.append((whole, sum(len(words_of(line)) for _, line in prose_lines(path)), path))
    for whole, prose, path in sorted(rows, key=lambda row: (-row[0], row[2])):
        print(f"{whole} words, {prose} of prose: {path}")
    print(f"{len(rows)} pages have {sum(row[0] for row in rows)} words, {sum(row[1] for row in rows)} of prose")


def sentences_of(path):
    """The sentences of a page, each with the number of its first line and as a list of words."""
    for number, line in prose_lines(path):
        text = re.sub(r"!?\[([^\]]*)\]\([^)]*\)", r"\1", line)
        text = re.sub(r"^\s*(?:[-*>] |#+ |\d+\. )", "", text)
        for piece in text.split("|") if text.startswith("|") else [text]:
            for sentence in re.split(r"(?<=[.?!])[*)]*\s+(?=\S)", piece):
                words = words_of(sentence)
                if words:
                    yield number, words


def sentences():
    """Long sentences, and those that begin with *That*."""
    count = long_ones = hard = that = 0
    for path in pages_of_prose():
        for number, words in sentences_of(path):
            count += 1
            long_ones += len(words) > LONG_SENTENCE
            hard += len(words) > HARD_SENTENCE
            begins = words[0].strip("*(") == "That"
            that += begins
            if len(words) > LONG_SENTENCE or begins:
                print(f"{path}:{number}: {len(words)} words: {' '.join(words)[:100]}")
    print(f"of {count} sentences {long_ones} have over {LONG_SENTENCE} words, {hard} over {HARD_SENTENCE}; {that} begin with That")


def headings(path):
    """The names by which links find the headings of a page."""
    with open(path, encoding="utf-8") as file:
        found = re.findall(r"^#+ (.*)$", file.read(), re.M)
    return {re.sub(r"[^\w\- ]", "", heading.lower()).replace(" ", "-") for heading in found}


def links():
    """Links from page to page whose file or heading isn't there."""
    count = 0
    for path in pages_of_prose():
        for number, line in prose_lines(path):
            for target in re.findall(r"\]\(([^)]+)\)", line):
                name, _, heading = target.partition("#")
                if "://" in target:
                    continue
                file = os.path.normpath(os.path.join(TOP, os.path.dirname(path), name)) if name else os.path.join(TOP, path)
                if not os.path.exists(file) or heading and heading not in headings(file):
                    count += 1
                    print(f"{path}:{number}: {target}")
    print(f"{count} links lead nowhere")


def crate_code(crate):
    """The text of all code of a crate."""
    return "".join("\n".join(lines_of(path)) for name, path in files("src", ".rt") if name == crate)


def stated():
    """Names that are in no file where docs/DEFINITIONS.md says that they are, and are no laws of its crate or of a crate of laws."""
    count = names_of = 0
    laws = "".join("\n".join(lines_of(path)) for name, path in files("src", ".rt") if name.endswith("_laws"))
    for number, line in enumerate(lines_of(os.path.join(TOP, "docs", "DEFINITIONS.md")), 1):
        crate = folder = text = ""
        for code in re.findall(r"`([^`]+)`", line.partition("*Stated in*")[2].partition("Source")[0]):
            if code.endswith((".antt", ".rt")):
                if code.startswith("crates/"):
                    crate, folder = code.split("/")[1:3]
                file = os.path.join(TOP, "crates", crate, folder, code.split(f"{folder}/", 1)[-1])
                if not os.path.exists(file):
                    print(f"docs/DEFINITIONS.md:{number}: no file {os.path.relpath(file, TOP)}")
                text = "\n".join(lines_of(file)) if os.path.exists(file) else ""
            elif re.fullmatch(r"[^\W\d][\w']*", code):
                names_of += 1
                name = rf"(?<![\w']){re.escape(code)}(?![\w'])"
                if not any(re.search(name, held) for held in (text, crate_code(crate), laws)):
                    count += 1
                    print(f"docs/DEFINITIONS.md:{number}: {code}")
    print(f"{count} of {names_of} names are stated elsewhere")


PARTS = {"twice": (twice, defined_twice), "library": (library,), "meanings": (meanings,), "wide": (wide,), "long": (long,), "names": (names,),
         "pages": (pages,), "sentences": (sentences,), "stated": (links, stated)}

if __name__ == "__main__":
    parts = {**PARTS, **house_crates.PARTS_OF_CRATES}
    for part in sys.argv[1:] or list(parts):
        if part not in parts:
            sys.exit(f"house.py: no part {part}; there are {', '.join(parts)}")
        for run in parts[part]:
            run()
