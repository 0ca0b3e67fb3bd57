"""The problems of a folder: their names, and which part of them is asked for."""
import os
import re

from lib.batch.stages import BatchError


def natural(name):
    """A key by which 3_1 comes before 10_1."""
    return [(0, int(part), "") if part.isdecimal() else (1, 0, part) for part in re.split("([0-9]+)", name) if part]


def names_in(folder):
    """The names of the files NAME.txt of a folder, but for hidden ones."""
    return [name[:-len(".txt")] for name in os.listdir(folder) if name.endswith(".txt") and not name.startswith(".")]


def problem_names(folder):
    """The names of the problems, and those that can't be read, each with the reason."""
    try:
        names = sorted(names_in(folder), key=natural)
    except OSError as error:
        raise BatchError(f"{folder}: {error.strerror}") from None
    if not names:
        raise BatchError(f"{folder}: no file NAME.txt is there")
    reasons = {name: why_unread(os.path.join(folder, name + ".txt")) for name in names}
    return names, {name: reason for name, reason in reasons.items() if reason}


def why_unread(path):
    """Why a path can't be read as a problem, or None."""
    if os.path.isdir(path):
        return "it is a folder"
    if os.path.islink(path) and not os.path.exists(path):
        return f"it is a link to {os.readlink(path)}, where nothing is"
    if not os.path.isfile(path):
        return "it is no file"
    return None if os.access(path, os.R_OK) else "it may not be read"


def part_of(names, part):
    """The names of part K of N: each N-th one, from the K-th."""
    if part is None:
        return names
    numbers = re.fullmatch("([0-9]{1,9})/([0-9]{1,9})", part)
    if not numbers or not 1 <= int(numbers[1]) <= int(numbers[2]):
        raise BatchError(f"--part takes K/N with K from 1 to N, not '{part}'")
    return names[int(numbers[1]) - 1::int(numbers[2])]
