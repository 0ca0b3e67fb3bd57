#!/usr/bin/env python3
"""How the public contracts of this tree differ from those of an earlier commit.

    python3 upkeep/contracts.py COMMIT            the differences, by function
    python3 upkeep/contracts.py COMMIT --counts   their numbers alone
    python3 upkeep/contracts.py COMMIT --specs    the definitions of specs/ whose text isn't the earlier one, too

A function is known by its file, type and name; where that file has it no more, by type and name in its crate, and else in any one crate. Of
several the one with the same clauses is taken. Clauses are compared by their text, without comments and with one blank for any space. A `requires` that is new asks for more, an `ensures` that went promises less:
both are listed first, under `to be read`. A clause with another text may say more or less: it is shown with both texts.
"""
import re
import subprocess
import sys
import os

TOP = os.path.dirname(os.path.dirname(os.path.abspath(__file__)))
PUBLIC_FUNCTION = re.compile(r"^( *)pub (?:const )?(?:unsafe )?fn (\w+)", re.M)
CLAUSE = re.compile(r"^ *(requires|ensures)(?: (\w+))? *\{", re.M)
OWNER = re.compile(r"^(?:impl\b(?:<[^{]*?>)? *(?:[\w:<>', ]+ for )?|(?:pub )?trait )(\w+)", re.M)


def git(*words):
    return subprocess.run(["git", "-C", TOP, *words], check=True, capture_output=True, text=True).stdout


def files_of_commit(commit, part):
    """The files crates/NAME/PART/.. of a commit, or of the tree where there is none, by path, with the crate."""
    if commit:
        names = git("ls-tree", "-r", "--name-only", commit, "crates").split("\n")
        names = [name for name in names if wanted_file(name, part)]
        texts = subprocess.run(["git", "-C", TOP, "cat-file", "--batch"], input="".join(f"{commit}:{name}\n" for name in names).encode(),
                               check=True, capture_output=True).stdout
        for name in names:
            head, _, texts = texts.partition(b"\n")
            size = int(head.split()[2])
            yield name.split("/")[1], name, texts[:size].decode()
            texts = texts[size + 1:]
    else:
        for name in git("ls-files", "crates").split("\n"):
            if wanted_file(name, part) and os.path.isfile(os.path.join(TOP, name)):
                with open(os.path.join(TOP, name), encoding="utf-8") as file:
                    yield name.split("/")[1], name, file.read()


def wanted_file(name, part):
    words = name.split("/")
    if len(words) < 4 or words[2] != part or words[1].startswith("trial_"):
        return False
    return name.endswith(".rt" if part == "src" else ".antt") and "tests" not in name


def closed(text, at):
    """The place after the brace that closes the one at `at`."""
    depth = 0
    for place in range(at, len(text)):
        depth += {"{": 1, "}": -1}.get(text[place], 0)
        if depth == 0:
            return place + 1
    return len(text)


def contracts(commit):
    """By crate, file and name the public functions, each with its clauses: kind and name, and text."""
    found = {}
    for crate, path, text in files_of_commit(commit, "src"):
        text = re.sub(r"//.*", "", text)
        for head in PUBLIC_FUNCTION.finditer(text):
            owner = ""
            if head.group(1):
                for outer in OWNER.finditer(text, 0, head.start()):
                    owner = outer.group(1) + "::"
            clauses, at = {}, head.end()
            body = re.compile(r"^" + head.group(1) + r"(\{|\})|;\n|\{\n", re.M)
            while True:
                clause = CLAUSE.search(text, at)
                end = body.search(text, at)
                if clause and (not end or clause.start() <= end.start()):
                    stop = closed(text, clause.end() - 1)
                    key = (clause.group(1), clause.group(2) or str(sum(kind == clause.group(1) for kind, _ in clauses)))
                    clauses[key] = " ".join(text[clause.end():stop - 1].split())
                    at = stop
                else:
                    break
            found[crate, path.split("/", 3)[3], owner + head.group(2)] = clauses
    return found


def definitions(commit):
    """By crate, file and name the text of definitions, without comments."""
    found = {}
    for crate, path, text in files_of_commit(commit, "specs"):
        text = re.sub(r"--.*", "", text)
        parts = re.split(r"\n(?=\S)", text)
        for part in parts:
            name = re.match(r"(?:pub )?(?:record|data|syntax|opaque|open)? *(\S+)", part.strip())
            if part.strip() and name and not part.strip().startswith(("use ", "pub use ", "pub mod ", "mod ", "import", "}", ")")):
                found.setdefault((crate, path.split("/", 3)[3], name.group(1)), " ".join(part.split()))
    return found


def paired(old, new):
    """Each old key with its new one, or none: by crate, file and name, else by crate and name, by file and name, by name."""
    pairs = {key: key for key in old if key in new}
    for same in (lambda key: (key[0], key[2]), lambda key: key[1:], lambda key: key[2]):
        taken = set(pairs.values())
        fresh = {}
        for key in new:
            if key not in taken:
                fresh.setdefault(same(key), []).append(key)
        for key in [key for key in old if key not in pairs]:
            others = [other for other in fresh.get(same(key), []) if other not in taken]
            alike = [other for other in others if new[other] == old[key]]
            rivals = [other for other in old if other not in pairs and same(other) == same(key)]
            if len(alike) == 1 or len(others) == 1 == len(rivals):
                pairs[key] = (alike or others)[0]
                taken.add(pairs[key])
    return {key: pairs.get(key) for key in old}


def main():
    if len(sys.argv) < 2 or sys.argv[1].startswith("-"):
        sys.exit(__doc__)
    commit, only_counts = sys.argv[1], "--counts" in sys.argv
    old, new = contracts(commit), contracts("")
    pairs = paired(old, new)
    numbers = dict(same=0, moved=0, gone=0, asked=0, lost=0, other=0, more=0)
    gone, serious, others = [], [], []
    for key, now in sorted(pairs.items()):
        name = f"{key[0]}::{key[2]}"
        if now is None:
            numbers["gone"] += 1
            gone.append(name)
            continue
        numbers["moved"] += now[0] != key[0]
        before, after = old[key], new[now]
        texts_before, texts_after = sorted(before.values()), sorted(after.values())
        same = True
        for clause in sorted(set(before) | set(after)):
            label = f"{now[0]}::{now[2]} {' '.join(clause)}"
            if clause not in after and before[clause] not in texts_after:
                same = False
                if clause[0] == "ensures":
                    numbers["lost"] += 1
                    serious.append(f"{label}: went\n    was {before[clause]}")
            elif clause not in before and after[clause] not in texts_before:
                same = False
                if clause[0] == "requires":
                    numbers["asked"] += 1
                    serious.append(f"{label}: new\n    now {after[clause]}")
                else:
                    numbers["more"] += 1
            elif clause in before and clause in after and before[clause] != after[clause]:
                same = False
                numbers["other"] += 1
                others.append(f"{label}\n    was {before[clause]}\n    now {after[clause]}")
        numbers["same"] += same
    if not only_counts:
        print("## To be read: promises that went, demands that are new\n")
        print("\n".join(serious) or "none")
        print("\n## Other texts\n")
        print("\n".join(others) or "none")
        print("\n## Functions that went\n")
        print("\n".join(gone) or "none")
    if "--specs" in sys.argv:
        before, after = definitions(commit), definitions("")
        moved = paired(before, after)
        print("\n## Definitions with another text\n")
        for key, now in sorted(moved.items()):
            if now is None:
                print(f"{key[0]}.{key[2]}: went")
            elif before[key] != after[now]:
                print(f"{now[0]}.{now[2]}\n    was {before[key]}\n    now {after[now]}")
    fresh = len(new) - sum(now is not None for now in pairs.values())
    print(f"\n{len(old)} public functions then, {len(new)} now: {numbers['same']} with the same clauses ({numbers['moved']} in another crate), "
          f"{fresh} new, {numbers['gone']} gone; clauses: {numbers['other']} with another text, {numbers['more']} new promises, "
          f"{numbers['lost']} promises that went, {numbers['asked']} new demands")


if __name__ == "__main__":
    main()
