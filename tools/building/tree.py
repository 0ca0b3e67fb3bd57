"""The crates of a tree: what each is made from, and what is built of it."""
import hashlib
import os

CRATE_PARTS = ("src", "specs", "proofs")


class Tree:
    """The crates of a tree, as crates.txt lists them, lowest first, and what a kit has built of them.

    `named` has the libraries that a crate's line names, those of the kit too, and `below` all crates of the tree that it stands on.
    """

    def __init__(self, root, programs, kit):
        self.root, self.programs, self.kit = root, programs, kit
        self.named, self.below, self.sums, self.stamps = {}, {}, {}, {}
        with open(os.path.join(root, "crates.txt"), encoding="utf-8") as file:
            for line in file:
                name, colon, named = line.partition("#")[0].partition(":")
                if colon:
                    self.named[name.split()[0]] = named.split()
        for name, named in self.named.items():
            own = [other for other in named if other in self.below]
            self.below[name] = set(own).union(*(self.below[other] for other in own))

    def is_program(self, name):
        return name in self.programs

    def in_order(self, names):
        """Crates, lowest first."""
        return [name for name in self.named if name in names]

    def needed(self, programs):
        """The crates that programs need, with themselves, lowest first."""
        return self.in_order(set(programs).union(*(self.below[name] for name in programs)))

    def folder(self, name):
        return os.path.join(self.root, "crates", name)

    def statements(self, name):
        """The folder for what the crates above a library read of it."""
        return os.path.join(self.folder(name), "out", "statements")

    def program(self, name):
        return os.path.join(self.folder(name), "out", name)

    def made(self, name):
        """Where a program is made, before it takes the old one's place."""
        return f"{self.program(name)}.new"

    def sources(self, name):
        """The files that a crate is made from."""
        for part in CRATE_PARTS:
            for folder, _, files in os.walk(os.path.join(self.folder(name), part)):
                yield from (os.path.join(folder, file) for file in files)

    def sum_of(self, name):
        """A sum of a crate's files, as they are now."""
        made = hashlib.sha256()
        for path in sorted(self.sources(name)):
            with open(path, "rb") as file:
                made.update(repr((os.path.relpath(path, self.root), file.read())).encode())
        return made.hexdigest()

    def stamp(self, name):
        """A sum of all that a crate is made from, as it was at the first call: its files, its line in crates.txt, the crates below, the kit."""
        if name not in self.stamps:
            self.sums[name] = self.sum_of(name)
            below = [self.stamp(other) for other in self.in_order(self.below[name])]
            self.stamps[name] = hashlib.sha256(repr((self.kit.said, self.named[name], self.sums[name], below)).encode()).hexdigest()
        return self.stamps[name]

    def is_built(self, name):
        """Whether what is built of a crate was made from what its stamp says, and a program is still the file that was made."""
        stamp = self.stamp(name)
        try:
            with open(self.stamp_file(name), encoding="utf-8") as file:
                return file.read() == stamp + self.ending(name)
        except OSError:
            return False

    def stamp_file(self, name):
        return os.path.join(self.statements(name), "stamp")

    def ending(self, name):
        """What a program's stamp has after that of its sources: a sum of the program."""
        if not self.is_program(name):
            return ""
        with open(self.program(name), "rb") as file:
            return f" {hashlib.sha256(file.read()).hexdigest()}"

    def forget(self, name):
        """Removes the stamp of a crate and of those above it: what these were made from is about to be made anew."""
        for other in self.named:
            if other == name or name in self.below[other]:
                try:
                    os.remove(self.stamp_file(other))
                except FileNotFoundError:
                    pass

    def keep(self, name):
        """Writes the stamp of a crate that was built, unless its files have changed since the stamp was made."""
        if self.sum_of(name) != self.sums[name]:
            return
        new = f"{self.stamp_file(name)}.new"
        with open(new, "w", encoding="utf-8") as file:
            file.write(self.stamp(name) + self.ending(name))
        os.replace(new, self.stamp_file(name))
