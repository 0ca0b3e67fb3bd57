"""An independent reader of the program's texts, written from docs/FORMATS.md (and docs/DEFINITIONS.md for what it points to).

It shares nothing with the program. `answer(words, data)` says how a call must end:

    answer([b"check"], data).problem_with(status, text)    None where this status and text are lawful, else what is wrong

Most answers are computed whole. Of a search of `decide` there may be several lawful ones: an `equal` is taken where the moves that
it brings are legal, lead to the second diagram and stay within the columns allowed; an `unknown` where its numbers are possible,
and for a few diagrams where another search, without any cunning, counts as many.

    lines.py      lines, tokens, numbers, limits, statuses
    items.py      what is in the texts, and the shape of each input
    diagrams.py   grids, moves, colourings
    braids.py     closures, words of diagrams, steps between braids
    codes.py      crossing codes, linking numbers
    weights.py    cocycles and weights
    numbers.py    numbers of colourings, by blocks
    tables.py     tables of knots
    drawn.py      diagrams of codes
    answers.py    how a call may end
    jobs.py       what each job answers, and the words that ask for it

A new job is a line in the table of jobs.py: its shape, its answer, and its limit of bytes.
"""
from .answers import Answer, Searched, Simplified
from .braids import at_feet, closure, fixed_points, word_of
from .codes import linking_numbers, print_code, sign
from .diagrams import CORNERS, Illegal, apply, carried, colourings, is_up, plain_colourings, play, print_grid
from .items import BUILT_IN, Quandle, may_follow, read_grid
from .jobs import JOBS, MEBIBYTE, OPTIONS, Refused, answer, read_words
from .lines import DONE, LIMIT, MALFORMED, NOT_UTF8, OUT_OF_MEMORY, READ_FAULT, REJECTED, UNKNOWN, USAGE, WRITE_FAULT, Fault, Lines

__all__ = ("Answer", "BUILT_IN", "CORNERS", "DONE", "Fault", "Illegal", "JOBS", "LIMIT", "Lines", "MALFORMED", "MEBIBYTE", "NOT_UTF8", "OPTIONS",
           "OUT_OF_MEMORY", "Quandle", "READ_FAULT", "REJECTED", "Refused", "Searched", "Simplified", "UNKNOWN", "USAGE", "WRITE_FAULT",
           "answer", "apply", "at_feet", "carried", "closure", "colourings", "fixed_points", "is_up", "linking_numbers", "may_follow",
           "plain_colourings", "play", "print_code", "print_grid", "read_grid", "read_words", "sign", "word_of")
