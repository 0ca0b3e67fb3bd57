"""Diagrams sorted into classes, each of one link, by the script tools/census.py."""
import csv
import os
import re
import subprocess
import sys
from typing import Any, Dict, List, Mapping, NamedTuple, Optional, Tuple, Union

from .certificates import put_whole
from .diagrams import diagram_text
from .faults import BadDiagram, Failed, NoFile, NoJob
from .given import diagram as diagram_given
from .programs import path_of
from .tables.knots import data_folder

# What the script says of how far it is.
PROGRESS = re.compile(r"part [0-9]+ of [0-9]+, ")

# The statuses of the script with which it has written what it found: all told, some pairs left open, some faults.
TOLD, FAULTS = (0, 1, 3), 3


class Census(NamedTuple):
    """Diagrams in classes.

    `classes`    by the name of a class, which is that of its first diagram, its diagrams by their names: how each is there, as "mirrored",
                 or "" where it is the same as the first
    `undecided`  pairs of classes that no evidence distinguishes
    `faults`     of diagrams that can't be read, and of answers that didn't come, a line each
    `folder`     where the certificates and classes.html are
    """

    classes: Dict[str, Dict[str, str]]
    undecided: Tuple[Tuple[str, str], ...]
    faults: Tuple[str, ...]
    folder: str


def census(diagrams: Union[Mapping[str, Any], str, "os.PathLike[str]"], folder: Union[str, "os.PathLike[str]"], *, mirror: bool = False,
           reverse: bool = False, processes: Optional[int] = None, plan: Optional[str] = None) -> Census:
    """Sorts diagrams into classes, with a certificate for all that is said, which are in `folder`: called again, it goes on where it stopped.

    `diagrams`   a folder of files NAME.txt with one diagram each; or diagrams by their names, which are put into `folder`/given
    `mirror`     a diagram and its mirror image are in one class, and with `reverse` one that is run through backwards
    `processes`  how many at once; None: as many as there are processors
    `plan`       a file of steps, in place of the script's own

    What it says on standard error isn't shown. Raises NoJob where a folder or the plan can't be used, NoProgram, Failed.
    """
    place = os.path.abspath(folder)
    if isinstance(diagrams, Mapping):
        diagrams = put_diagrams(diagrams, os.path.join(place, "given"))
    words = ["--mirror"] * mirror + ["--reverse"] * reverse
    words += [] if processes is None else [f"--processes={processes}"]
    words += [] if plan is None else [f"--plan={os.fspath(plan)}"]
    named = {name.upper(): path_of(name) for name in ("knot", "seek")}
    try:
        done = subprocess.run([sys.executable, script(), "sort", *words, "--", os.path.abspath(diagrams), place], env={**os.environ, **named},
                              stdin=subprocess.DEVNULL, stdout=subprocess.DEVNULL, stderr=subprocess.PIPE, check=False)
    except OSError as error:
        raise Failed(f"census.py: {error.strerror}", 127) from None
    lines = [line.replace("census.py: ", "", 1) for line in done.stderr.decode("utf-8", "replace").splitlines()]
    said = tuple(line for line in lines if not PROGRESS.match(line))
    if done.returncode == 2:
        raise NoJob(said[-1] if said else "census.py refuses its words")
    if done.returncode not in TOLD:
        raise Failed(f"census.py ended with status {done.returncode}" + (f": {said[-1]}" if said else ""), done.returncode)
    return Census(classes_in(place), undecided_in(place), said if done.returncode == FAULTS else (), place)


def script() -> str:
    """The path of the script, which lies beside the quandles, in the tree as in an installation."""
    folder = data_folder("quandles")
    path = os.path.join(os.path.dirname(folder), "tools", "census.py") if folder else ""
    if not os.path.isfile(path):
        raise NoFile("there is no tools/census.py beside this module, nor in its installation")
    return path


def put_diagrams(diagrams: Mapping[str, Any], folder: str) -> str:
    """Puts diagrams into a folder of their own, in which no others are left."""
    texts = {}
    for name, given in diagrams.items():
        if not isinstance(name, str) or not name or name.startswith(".") or "/" in name or "\0" in name or len(name.encode()) > 200:
            raise BadDiagram(f"{name!r:.40} can't be the name of a diagram: it would be that of a file")
        texts[f"{name}.txt"] = diagram_text(diagram_given(given))
    try:
        os.makedirs(folder, exist_ok=True)
        for name in set(os.listdir(folder)) - set(texts):
            os.unlink(os.path.join(folder, name))
    except OSError as error:
        raise NoFile(f"{error.filename}: {error.strerror}") from None
    for name, text in texts.items():
        put_whole(os.path.join(folder, name), text)
    return folder


def rows_in(path: str) -> List[Dict[str, str]]:
    """The rows of a table by their titles."""
    try:
        with open(path, encoding="utf-8", errors="surrogateescape", newline="") as source:
            return list(csv.DictReader(source))
    except OSError as error:
        raise NoFile(f"{path}: {error.strerror}") from None


def classes_in(folder: str) -> Dict[str, Dict[str, str]]:
    found: Dict[str, Dict[str, str]] = {}
    for row in rows_in(os.path.join(folder, "classes.csv")):
        found.setdefault(row["class"], {})[row["name"]] = row["as"]
    return found


def undecided_in(folder: str) -> Tuple[Tuple[str, str], ...]:
    return tuple((row["first"], row["second"]) for row in rows_in(os.path.join(folder, "undecided.csv")))
