#!/usr/bin/env python3
"""Who cites each lemma, definition and law of the tree, by crate, and which of them are too low.

    python3 upkeep/cited.py                 what is too low, in lines by crate
    python3 upkeep/cited.py low [CRATE..]   the same item by item, and what it serves
    python3 upkeep/cited.py who [CRATE..]   each item, and the crates that cite it

A lemma is in proofs/, a definition in specs/. A law is a function of src/laws.rt, or of a public module of a crate of laws,
NAME_laws. A program needs the code of the crates that it uses, with contracts and answers. From there the script follows what is cited: definitions, lemmas, laws and their
proofs. An item that it doesn't come to is too low: the program waits for its proof, and doesn't need it. Such an item serves
the first of these that leads to it:

    laws     a law that no code calls, with which it could be higher; the law itself counts here too
    leaves   a crate that no program needs
    tests    tests of a crate
    nobody   nothing, as worked rows do

A name is found by its word. So a bound variable with the name of a lemma at hand counts as a citation. An imported name that no line
mentions counts as cited by its whole file, since a tactic may use it.
"""
import argparse
import os
import re
import signal
import sys
from collections import Counter, defaultdict

TOP = os.path.dirname(os.path.dirname(os.path.abspath(__file__)))
# Files of proofs/ that are the answers of one function. Every other file there has lemmas.
ANSWERS = ("Answers.antt", "Invariants.antt", "Proof.antt")
SERVES = ("laws", "leaves", "tests", "nobody")
DECLARATION = re.compile(r"((?:(?:pub|abbrev|unfoldable|recursive|private) )*)(?:(record|data) )?(◌\S*◌|[^\s({:=]+)(.*)$")
BLANK = re.compile(r"\s*(--.*)?$")
USE = re.compile(r"^\s*(?:pub )?use ([\w.]+?)(?:\.\{(.*)\})?(?: as ([^\s;]+))?$")
PATH = re.compile(r"\bRattle\.(\w+)\.(specs|proofs)\.([\w.]+)")
CODE_PATH = re.compile(r"\b(\w+)::(specs|proofs)::([\w:]+)")


def text_at(path):
    with open(path, encoding="utf-8") as file:
        return file.read()


def words(text):
    """The words of a piece of a definition or proof, comments and fields after a dot left out."""
    text = re.sub(r"--.*", "", text)
    text = re.sub(r"(?<=[\w')\]])\.[\w'\-]+", " ", text)
    return set(re.split(r"[\s(){}\[\],.;:|@\\]+", text))


class CitedItem:
    """A lemma, a definition or a law; or the code, or the tests, of one crate."""

    def __init__(self, crate, kind, name, place=""):
        self.crate, self.kind, self.name, self.place = crate, kind, name, place
        self.lines = 0
        self.cites = set()

    def __repr__(self):
        return f"{self.crate} {self.kind} {self.place} {self.name}"


class File:
    """A file of specs/ or of lemmas: its items by name, and what it imports."""

    def __init__(self, crate, kind, path):
        self.crate, self.kind, self.path = crate, kind, path
        self.items, self.inner = {}, {}
        self.texts = defaultdict(list)
        self.uses = []
        self.split(text_at(path).splitlines())

    def split(self, rows):
        """Each line goes to the item that it belongs to. Comments and lines `unfolding` go to the one after them, and the head of a
        module, which binds variables for what is set in below it, to all of those."""
        now, ahead, modules, record, head_open = None, [], [], False, False
        for row in rows:
            indent = len(row) - len(row.lstrip())
            if BLANK.match(row):
                ahead.append(row)
                continue
            while modules and indent < modules[-1][0]:
                modules.pop()
            base = modules[-1][0] if modules else 0
            if head_open or indent == base and row.lstrip().startswith("module "):
                if not head_open:
                    modules.append((indent + 2, []))
                modules[-1][1].append(row)
                head_open = not row.endswith(" where")
                now, ahead = None, []
                continue
            if indent == base and row.lstrip().startswith("unfolding "):
                ahead.append(row)
                continue
            used = USE.match(row) if indent == 0 else None
            if used:
                self.uses.append(used.groups() + (row.startswith("pub "),))
                ahead = []
                continue
            found = DECLARATION.match(row[base:]) if indent == base and not re.match(r"\s*(?:pub )?mod ", row) else None
            if found:
                marks, group, name, rest = found.groups()
                if group or name not in self.items and (marks or re.match(r"\s*:|[^=]*\s:\s", rest)):
                    kind = "definition" if self.kind == "specs" else "lemma"
                    now = self.items[name] = CitedItem(self.crate, kind, name, self.path)
                    self.texts[name] += [line for _, head in modules for line in head]
                    record = bool(group)
                elif name in self.items:
                    now = self.items[name]
            elif record and indent == base + 2:
                field = re.match(r"\s*(?:pub )?([^\s({:=]+) :", row)
                if field:
                    self.inner[field.group(1)] = now
            if now:
                self.texts[now.name] += ahead + [row]
                now.lines += sum(1 for line in ahead if line.strip()) + 1
            ahead = []


class CitedTree:
    """The items of a tree, and their citations."""

    def __init__(self, top, programs):
        self.top = top
        self.named = {}
        for line in text_at(os.path.join(top, "crates.txt")).splitlines():
            name, colon, named = line.partition("#")[0].partition(":")
            if colon:
                self.named[name.split()[0]] = named.split()
        self.needed = set()
        ahead = [name for name in programs if name in self.named]
        while ahead:
            name = ahead.pop()
            if name not in self.needed:
                self.needed.add(name)
                ahead += [other for other in self.named[name] if other in self.named]
        self.files, self.laws, self.code, self.tests = {}, {}, {}, {}
        for crate in self.named:
            self.code[crate] = CitedItem(crate, "code", "code")
            self.tests[crate] = CitedItem(crate, "tests", "tests")
            self.find_files(crate)
            self.find_laws(crate)
        for file in self.files.values():
            self.cite_items(file)
        for crate in self.named:
            self.cite_code(crate)
            self.cite_answers(crate)
        self.sort_items()

    def walk(self, crate, part, ending):
        root = os.path.join(self.top, "crates", crate, part)
        for folder, _, names in sorted(os.walk(root)):
            for name in sorted(names):
                if name.endswith(ending):
                    path = os.path.join(folder, name)
                    yield path, os.path.relpath(path, root)[: -len(ending)]

    def find_files(self, crate):
        for part in ("specs", "proofs"):
            for path, inside in self.walk(crate, part, ".antt"):
                if os.path.basename(path) != "Lib.antt" and (part == "specs" or os.path.basename(path) not in ANSWERS):
                    self.files[crate, part, inside.replace("/", ".")] = File(crate, part, path)

    def law_modules(self, crate):
        """The modules of a crate that have its laws."""
        root = os.path.join(self.top, "crates", crate, "src", "lib.rt")
        public = re.findall(r"^pub mod (\w+);$", text_at(root), re.M) if crate.endswith("_laws") and os.path.isfile(root) else []
        return {"laws", *public}

    def find_laws(self, crate):
        """The functions of each module of laws, with their comments and attributes."""
        for module in sorted(self.law_modules(crate)):
            path = os.path.join(self.top, "crates", crate, "src", f"{module}.rt")
            if os.path.isfile(path):
                self.find_laws_of(crate, module, path)

    def find_laws_of(self, crate, module, path):
        ahead, law, open_text = [], None, False
        for row in text_at(path).splitlines():
            found = re.match(r"(?:pub(?:\([a-z]+\))? )?fn (\w+)", row)
            if found:
                law = self.laws[crate, module, found.group(1)] = CitedItem(crate, "law", found.group(1), path)
                law.text = ahead
                open_text = True
            if open_text:
                law.text.append(row)
                open_text = not re.match(r"(\{?\}|\{.*\})$", row)
                law.lines = sum(1 for line in law.text if line.strip())
                ahead = []
            elif row.startswith(("///", "#[")):
                ahead.append(row)
            else:
                ahead = []

    def found(self, crate, part, module, name, seen=()):
        """The item of a name in a file, perhaps the one around it, perhaps of a file that it takes in and shows."""
        file = self.files.get((crate, part, module))
        if not file or (crate, part, module) in seen:
            return None
        if name in file.items or name in file.inner:
            return file.items.get(name) or file.inner[name]
        for path, _, _, is_shown in file.uses:
            parts = path.split(".")
            if is_shown and parts[0] == "Rattle" and len(parts) > 3:
                item = self.found(parts[1], parts[2], ".".join(parts[3:]), name, (*seen, (crate, part, module)))
                if item:
                    return item
        return None

    def imported(self, uses):
        """What a file imports: items by the word that it has for them, and files by theirs."""
        items, files = {}, {}
        for path, names, alias, *_ in uses:
            parts = path.split(".")
            if parts[0] != "Rattle" or len(parts) < 4 or parts[1] not in self.named or parts[2] not in ("specs", "proofs"):
                continue
            crate, part, module = parts[1], parts[2], ".".join(parts[3:])
            if names is None:
                files[alias or parts[-1]] = (crate, part, module)
                continue
            for name in names.split(","):
                name, _, other = name.strip().partition(" as ")
                item = self.found(crate, part, module, name)
                if item:
                    items[other.strip() or name] = item
        return items, files

    def by_paths(self, text, files):
        """The items that a text names by a path, or after the word of a file."""
        cited = set()
        for crate, part, path in PATH.findall(text):
            module, _, name = path.rpartition(".")
            cited.add(self.found(crate, part, module, name))
        for alias, place in files.items():
            for name in re.findall(rf"(?<![\w'.]){re.escape(alias)}\.([^\s(){{}}\[\],.;]+)", text):
                cited.add(self.found(*place, name))
        return cited - {None}

    def cite_items(self, file):
        items, files = self.imported(file.uses)
        mentioned = set()
        for name, rows in file.texts.items():
            text, item = "\n".join(rows), file.items[name]
            inside = words(text)
            mentioned |= inside
            item.cites |= {items[word] for word in inside if word in items} | self.by_paths(text, files)
            own = {file.items.get(word) or file.inner.get(word) for word in inside}
            item.cites |= own - {None, item}
        silent = {item for word, item in items.items() if word not in mentioned}
        for item in file.items.values():
            item.cites |= silent

    def cited_in_rust(self, crate, text, uses):
        """The items that a text of Rust cites: by imports, whose words it mentions, and by paths."""
        items, files = self.imported(uses)
        inside = words(re.sub(r"\bghost use [^;]*;|//.*", "", text))
        cited = {item for word, item in items.items() if word in inside or "◌" in word} | self.by_paths(text, files)
        for first, part, path in CODE_PATH.findall(text):
            module, _, name = path.replace("::", ".").rpartition(".")
            cited.add(self.found(crate if first == "crate" else first, part, module, name))
        return cited - {None}

    def cited_laws(self, crate, text, around):
        """The laws that a text calls, by the imports and paths of the file around it."""
        known = {}
        for path in rust_uses(around):
            parts = [crate if part == "crate" else part for part in path.partition(" as ")[0].split("::")]
            law = self.laws.get((parts[0], parts[-2] if len(parts) > 2 else "laws", parts[-1])) if len(parts) > 1 else None
            if law:
                known[path.partition(" as ")[2] or parts[-1]] = law
        cited = {law for word, law in known.items() if re.search(rf"(?<![\w:]){word}\(", text)}
        for first, module, name in re.findall(r"\b(\w+)::(?:(\w+)::)?(\w+)\(", text):
            cited.add(self.laws.get((crate if first in ("crate", "laws") else first, module or "laws", name)))
        return cited - {None}

    def cite_code(self, crate):
        modules = self.law_modules(crate)
        files = [(inside, text_at(path)) for path, inside in self.walk(crate, "src", ".rt")]
        tests = {name for _, whole in files for name in re.findall(r"^#\[cfg\(test\)\]\nmod (\w+);$", whole, re.M)}
        for inside, whole in files:
            uses = [match for match in (USE.match(f"use {it}") for it in re.findall(r"\bghost use ([^;]*);", " ".join(whole.split()))) if match]
            uses = [match.groups() for match in uses]
            if inside in modules:
                for (other, module, _), law in self.laws.items():
                    if (other, module) == (crate, inside):
                        text = "\n".join(law.text)
                        law.cites |= self.cited_in_rust(crate, text, uses) | self.cited_laws(crate, text, whole)
                        called = set(re.findall(r"(?<![\w:])(\w+)\(", text)) - {law.name}
                        law.cites |= {self.laws[crate, module, name] for name in called if (crate, module, name) in self.laws}
                continue
            owner, text = self.code[crate], whole
            if tests & set(inside.split("/")):
                owner = self.tests[crate]
            else:
                text, _, behind = whole.partition("#[cfg(test)]\nmod tests {")
                self.tests[crate].cites |= self.cited_in_rust(crate, behind, uses) | self.cited_laws(crate, behind, whole)
            owner.cites |= self.cited_in_rust(crate, text, uses) | self.cited_laws(crate, text, whole)

    def cite_answers(self, crate):
        """The answers of a function belong to the code, those of a law to it, and those of a test to the tests."""
        for path, inside in self.walk(crate, "proofs", ".antt"):
            if os.path.basename(path) not in ANSWERS:
                continue
            parts = inside.split("/")
            owner = self.code[crate]
            if parts[0] == "tests" or "tests" in parts[:-1]:
                owner = self.tests[crate]
            elif (crate, parts[0], parts[1]) in self.laws:
                owner = self.laws[crate, parts[0], parts[1]]
            text = text_at(path)
            uses = [match.groups() for match in map(USE.match, text.splitlines()) if match]
            items, files = self.imported(uses)
            owner.cites |= set(items.values()) | self.by_paths(text, files)
            if owner.kind == "law":
                owner.lines += sum(1 for line in text.splitlines() if line.strip())

    def sort_items(self):
        """Finds what the programs' code leads to, and for all else what it serves."""
        leaves = [it for it in self.named if it not in self.needed]
        self.reached = reached_from(self.code[it] for it in self.needed)
        laws = [law for law in self.laws.values() if law.crate in self.needed and law not in self.reached]
        self.serves = {}
        for label, roots in (("laws", laws), ("leaves", [self.code[it] for it in leaves] + [law for law in self.laws.values() if law.crate in leaves]),
                             ("tests", self.tests.values()), ("nobody", self.items())):
            for item in reached_from(roots):
                if item not in self.reached:
                    self.serves.setdefault(item, label)

    def items(self):
        """All lemmas, definitions and laws."""
        for file in self.files.values():
            yield from file.items.values()
        yield from self.laws.values()

    def too_low(self):
        """The items that no program needs, of crates that one does."""
        return [item for item in self.items() if item.crate in self.needed and item not in self.reached]


def reached_from(roots):
    """All that some items lead to, with themselves."""
    found, ahead = set(), list(roots)
    while ahead:
        item = ahead.pop()
        if item not in found:
            found.add(item)
            ahead += item.cites
    return found


def rust_uses(text):
    """The paths that the imports of a file name, its groups taken apart; re-exports are left out."""
    for tree in re.findall(r"^\s*use ([^;]*);", re.sub(r"\bghost use [^;]*;", "", text), re.M):
        yield from taken_apart(" ".join(tree.split()))


def taken_apart(tree):
    """The paths of one import."""
    front, brace, rest = tree.partition("{")
    if not brace:
        yield tree.strip()
        return
    depth, part = 0, ""
    for letter in rest[: rest.rindex("}")]:
        depth += {"{": 1, "}": -1}.get(letter, 0)
        if letter == "," and depth == 0:
            yield from (front.strip() + path for path in taken_apart(part.strip()) if part.strip())
            part = ""
        else:
            part += letter
    if part.strip():
        yield from (front.strip() + path for path in taken_apart(part.strip()))


def totals(tree):
    """The table of lines by crate."""
    rows = []
    for crate in tree.named:
        if crate not in tree.needed:
            continue
        own = [item for item in tree.items() if item.crate == crate]
        low = [item for item in own if item not in tree.reached]
        lines = Counter()
        for item in low:
            lines[tree.serves[item]] += item.lines
            lines[item.kind] += item.lines
        rows.append((crate, sum(item.lines for item in own), sum(item.lines for item in low), lines))
    rows.sort(key=lambda row: (-row[2], row[0]))
    print("| crate | lines | too low | lemmas | laws | definitions | for laws | for leaves | for tests | for nobody |")
    print("|---|---|---|---|---|---|---|---|---|---|")
    every = Counter()
    for crate, whole, low, lines in rows:
        cells = [whole, low, *(lines[kind] for kind in ("lemma", "law", "definition")), *(lines[label] for label in SERVES)]
        every.update(dict(enumerate(cells)))
        if low:
            print(f"| {crate} | {' | '.join(map(str, cells))} |")
    print(f"| all {len(rows)} | {' | '.join(str(every[number]) for number in range(9))} |")


def low(tree, crates):
    """Each item that is too low, by file."""
    for crate in crates:
        items = [item for item in tree.too_low() if item.crate == crate]
        if not items:
            continue
        print(f"{crate}: {sum(item.lines for item in items)} lines in {len(items)} items")
        by_file = defaultdict(list)
        for item in items:
            by_file[item.place, tree.serves[item]].append(item)
        for (place, label), found in sorted(by_file.items()):
            lines = sum(item.lines for item in found)
            print(f"  {os.path.relpath(place, tree.top)}, for {label}, {lines} lines: {', '.join(item.name for item in found)}")


def who(tree, crates):
    """Each item of some crates with the crates that cite it, its own by the part that does."""
    citing = defaultdict(set)
    for item in [*tree.items(), *tree.code.values(), *tree.tests.values()]:
        for cited in item.cites:
            part = {"lemma": "lemmas", "definition": "definitions", "law": "laws"}.get(item.kind, item.kind)
            citing[cited].add(f"own {part}" if item.crate == cited.crate else item.crate if item.kind != "tests" else f"tests of {item.crate}")
    for crate in crates:
        for item in tree.items():
            if item.crate == crate:
                print(f"{crate} {item.kind} {item.name} ({item.lines} lines): {', '.join(sorted(citing[item])) or 'nobody'}")


def main():
    about, _, epilog = __doc__.partition("\n\n")
    parser = argparse.ArgumentParser(description=about, epilog=epilog, formatter_class=argparse.RawDescriptionHelpFormatter)
    parser.add_argument("part", nargs="?", choices=("totals", "low", "who"), default="totals", help="what is listed")
    parser.add_argument("crates", nargs="*", metavar="CRATE", help="of these crates alone")
    parser.add_argument("--top", default=TOP, metavar="DIR", help="another tree")
    parser.add_argument("--programs", default="knot,seek", metavar="A,B", help="the programs, in place of knot and seek")
    asked = parser.parse_args()
    tree = CitedTree(asked.top, asked.programs.split(","))
    for name in asked.crates:
        if name not in tree.named:
            parser.error(f"there is no crate {name}")
    crates = asked.crates or list(tree.named)
    if asked.part == "totals":
        totals(tree)
    else:
        {"low": low, "who": who}[asked.part](tree, crates)
    return 0


if __name__ == "__main__":
    # (a reader that leaves, as `head` does, ends it without a word)
    signal.signal(signal.SIGPIPE, signal.SIG_DFL)
    sys.exit(main())
