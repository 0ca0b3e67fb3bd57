"""Quandles with cocycles that are ready to be used by name: those of the files quandles/weights/NAME.txt and quandles/larger/NAME.txt."""
import os
import re
from typing import Any, Optional, Tuple

from .faults import BadText
from .quandles import MAX_LARGE_ORDER, Quandle
from .tables.knots import data_folder
from .texts import Lines, quandle_named

NAME_FORM = re.compile("[A-Za-z][A-Za-z0-9_]*")
MOCHIZUKI = re.compile(r"mochizuki ([0-9]{1,2})")


def ready_file(name: str) -> Optional[str]:
    """The path of the file of this name, or None."""
    folder = data_folder("quandles")
    if folder is None or not NAME_FORM.fullmatch(name):
        return None
    paths = (os.path.join(folder, below, f"{name}.txt") for below in ("weights", "larger"))
    return next((path for path in paths if name != "list" and os.path.isfile(path)), None)


def ready_names() -> list:
    """All names, those of pairs of knots left out."""
    folder = data_folder("quandles")
    found = []
    for below in ("weights", "larger") if folder else ():
        found += [name[:-4] for name in sorted(os.listdir(os.path.join(folder or "", below))) if NAME_FORM.fullmatch(name[:-4]) and name != "list.txt"]
    return found


def ready(name: str) -> Tuple[Quandle, Any]:
    """The quandle and the cocycle of a file, or None in its place. Raises BadText."""
    from .certificates import perhaps_cocycle
    path = ready_file(name)
    if path is None:
        raise BadText(f"'{name}' is no ready quandle; there are {', '.join(ready_names())}")
    with open(path, encoding="utf-8") as source:
        lines = Lines(source.read())
    line, tokens = lines.take("a quandle")
    if tokens[0] != "quandle":
        raise BadText(f"{path}: a line 'quandle' is due", line)
    by = quandle_named(lines, line, tokens[1:], MAX_LARGE_ORDER)
    return by, perhaps_cocycle(lines, by)
