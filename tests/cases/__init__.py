"""The cases of hostile.py but for random changes, by section.

inputs   a case, and an input that each job answers
stored   the examples, the table of small bad inputs, and cuts of the examples
words    words of the command line
texts    odd forms of texts, and long lines
limits   both sides of the limits of docs/FORMATS.md
streams  streams that are closed, full, slow or busy
wanting  limits of the system: memory, stack and the size of files; `seek` under these
"""
from .inputs import Case
from .limits import limits
from .stored import cuts, examples, table
from .streams import streams
from .texts import texts
from .wanting import file_size, memory, seek, stack
from .words import random_words, words

__all__ = ("Case", "sections")


def sections(bases, seed, page):
    """Every section but the random changes, in order."""
    return {
        "examples": lambda: examples(bases),
        "table": lambda: table(page),
        "words": lambda: (case for part in (words(), random_words(seed, 3000)) for case in part),
        "streams": lambda: streams(bases),
        "memory": memory,
        "stack": stack,
        "file size": file_size,
        "seek": seek,
        "texts": lambda: texts(bases),
        "limits": limits,
        "cuts": lambda: cuts(bases, seed),
    }
