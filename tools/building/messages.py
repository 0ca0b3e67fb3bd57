"""How a build words what it says."""
import os


class BuildFailed(Exception):
    """The build can't go on: the sentence says why."""


def programs_in_words(programs, checker):
    """What is built, as it is reported, where `checker` is the name of the separate checker."""
    if programs == [checker]:
        return "the separate checker"
    return "the program" if len(programs) == 1 else f"each of the {('two', 'three')[len(programs) - 2]} programs"


def count_in_words(number, one, many):
    """A number of things in words: `one` is the whole phrase of a single one."""
    return one if number == 1 else f"{number} {many}"


def in_words(seconds):
    """A time in round words."""
    if seconds < 50:
        return "less than a minute"
    minutes = max(round(seconds / 60), 1)
    return "about a minute" if minutes == 1 else f"about {minutes} minutes"


def relative(path):
    """A path as it is reported: from the folder of the call, where that is shorter."""
    try:
        return min(path, os.path.relpath(path), key=len)
    except (OSError, ValueError):
        return path
