"""The Rattle kit: where it is, what it says of itself, and how its prover is called.

A crate is proved over the statements of the libraries below it, by the words that rt gives the prover. What rt ci refuses besides, such as
macros that write impls, handles beyond those of HANDLES, and contracts that no call can meet, is for the gate to refuse.
"""
import os
import shutil
import subprocess

from building.messages import BuildFailed

UNKNOWN_KIT = "an unknown kit"
# What the prover is told of each crate; the files that a program is linked with.
LOGIC = ("--antt-project", "rattle/logic/antt-project.json", "--logic-built", "logic_built")
LINKED = ("c/libos_c.a", "c/liblibc_c.a")
TARGET = "x86_64-unknown-linux-gnu"


def answer_of(*words):
    """What a command writes, or nothing where it can't be run."""
    try:
        said = subprocess.run(words, stdin=subprocess.DEVNULL, stdout=subprocess.PIPE, stderr=subprocess.DEVNULL, timeout=60, check=False)
    except (OSError, subprocess.TimeoutExpired):
        return ""
    return said.stdout.decode(errors="replace").strip()


def folder_of(rt):
    """The folder of the kit that an rt belongs to: above its own, or, where another command calls it, where it says that its pages are."""
    above = os.path.dirname(os.path.dirname(os.path.realpath(rt)))
    for folder in (above, os.path.dirname(answer_of(rt, "doc"))):
        if os.access(os.path.join(folder, "bin", "rattle"), os.X_OK):
            return folder
    raise BuildFailed(f"{rt} leads to {above}, which has no bin/rattle: the prover of its kit isn't found")


class Kit:
    """The kit whose rt is on PATH. `said` is its identity, `name` the first word of that. Failed, where there is none."""

    def __init__(self):
        rt = shutil.which("rt")
        if not rt:
            raise BuildFailed("rt, which proves and builds, is not on PATH")
        self.folder = folder_of(rt)
        self.said = answer_of(rt, "version") or UNKNOWN_KIT
        self.name = self.said if self.said == UNKNOWN_KIT else self.said.split()[0]

    def path(self, *parts):
        """The path of a file of the kit."""
        return os.path.join(self.folder, *parts)

    def commands(self, tree, name, jobs):
        """The commands that prove and build a crate, from its folder: of a library one, and of a program a second one, which links it."""
        prover, words = self.path("bin", "rattle"), self.words(tree, name, jobs)
        if not tree.is_program(name):
            return [[prover, "build", *words, "--statements", "-o", os.path.join(tree.statements(name), f"{name}.rlib")]]
        made, toolchain = tree.made(name), ["--toolchain", self.path("toolchain")]
        return [[prover, "build", *words, *toolchain, "--backend", "llvm", "-o", f"{made}.o"],
                [self.path("bin", "rattle-link"), "--target", TARGET, *toolchain, "-o", made, f"{made}.o", *map(self.path, LINKED)]]

    def words(self, tree, name, jobs):
        """What the prover is told of a crate, as rt tells it."""
        words = ["--crate-name", name, "src/main.rt" if tree.is_program(name) else "src/lib.rt", "-L", f"dependency={self.path('rlibs')}"]
        for other in ("std", *tree.named[name]):
            folder = tree.statements(other) if other in tree.named else self.path("rlibs")
            words += ["--extern", f"{other}={os.path.join(folder, f'{other}.rlib')}"]
        for other in tree.in_order(tree.below[name]):
            words += ["-L", f"dependency={tree.statements(other)}"]
        words += [word if word.startswith("--") else self.path(word) for word in LOGIC]
        return words + ["--links", f"{name}=", "--jobs", str(jobs)]
