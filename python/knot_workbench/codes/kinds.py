"""Which code of crossings a text or a list is, "PD", "DT" or "Gauss": its first word says it, else its numbers do.

A list of numbers alone may also be a braid word. Where one may be, as in a table, it is doubtful if its numbers are those of a code and hardly
those of a word:

- of a DT code: 2, 4, .. 2n, each once, with either sign, and n at least 3. As a word that is an unlink, since no two of its crossings share a
  strand. It isn't enough that all numbers are even: {2,2,2} on four strands or three is the trefoil with strands beside it.
- of a Gauss code: 1, 2, .. n, each once with each sign, and n at least 3. A word may be so: each generator comes once, and its inverse once.
  But in a table a code is far more likely.

With n below 3 there are words in use, as {1,-1}, {2} and {1,2,-1,-2}, and as codes these would be unknots. A Gauss code without minus signs,
as {1,2,3,1,2,3}, is no code here, since words are often so: this one is the torus link T(2,4). Lists in a list can be no word.
"""
import re
from typing import Any, List, Optional, Sequence, Tuple

from .brackets import are_numbers, components_in, unwrapped

KINDS = ("PD", "DT", "Gauss")

# The least number of crossings for which a list of numbers is doubtful.
LEAST_IN_DOUBT = 3

# The word that a text begins with, by the kind. A crossing, as X[1,5,2,4] or X1524, begins a PD code.
WORDS = (("PD", re.compile(r"\s*(?:PD(?:[ _]?code)?\b\s*[:=]?|(?=X[pm]?\s*[\[({]|(?-i:X[pm]?_?\{?[0-9])))", re.I)),
         ("DT", re.compile(r"\s*(?:DT(?:[ _]?code)?|Dowker(?:Code)?)\b\s*[:=]?", re.I)),
         ("Gauss", re.compile(r"\s*(?:(?:oriented|signed)[ _]?)?Gauss(?:[ _]?code)?\b\s*[:=]?", re.I)))

# A Gauss code with the signs of the crossings, as O1+U2+.
PASSAGES = re.compile(r"(?:[][\s,;(){}]|gauss)*(?:[OU][0-9]{1,9}[+-](?:[][\s,;(){}]|gauss)*)+")

# A line that only `knot code` writes, or what `knot grid` reads so.
OF_KNOT = re.compile(r"^[ \t]*(?:(?:crossings|loops)[ \t]+[0-9]+[ \t\r]*$|X[ \t]+[0-9]|gauss[ \t]+[OU][0-9])", re.M)


def is_of_knot(text: str) -> bool:
    """Whether a text is a PD code in the lines of knot, which has words of its own for loops and directions."""
    return bool(OF_KNOT.search(text)) and not PASSAGES.fullmatch(text)


def kind_of_text(text: str) -> Tuple[Optional[str], str]:
    """What a text says that it is, or None, and what is behind the word that says so."""
    if is_of_knot(text):
        return "PD", text
    for kind, word in WORDS:
        found = word.match(text)
        if found:
            return kind, text[found.end():]
    return "Gauss" if PASSAGES.fullmatch(text) else None, text


def kind_of_numbers(numbers: Sequence[int]) -> Optional[str]:
    """Whether numbers are 2, 4, .. each once with either sign, "DT"; or of any crossings each once with each sign, "Gauss"; or None."""
    count = len(numbers)
    if count and sorted(abs(number) for number in numbers) == list(range(2, 2 * count + 1, 2)):
        return "DT"
    is_gauss = count and len(set(numbers)) == count and sorted(numbers) == sorted(-number for number in numbers)
    return "Gauss" if is_gauss else None


def kind_of_lists(items: List[Any]) -> Optional[str]:
    """The code that lists are by their numbers, or None."""
    items = without_flips(unwrapped(items))
    if is_signed(items):
        return "Gauss"
    rows = [items] if are_numbers(items) else items
    if not all(isinstance(row, list) and are_numbers(row) for row in rows):
        return None
    kind = kind_of_numbers([number for row in rows for number in row])
    return kind or ("PD" if is_row(items) or rows is items and len(rows[0]) == 4 else None)


def is_row(items: List[Any]) -> bool:
    """Whether numbers are the edges of one crossing alone, each twice."""
    return len(items) == 4 and are_numbers(items) and min(items) >= 0 and sorted(items)[::2] == sorted(items)[1::2]


def is_signed(items: List[Any]) -> bool:
    """Whether lists are those of a Gauss code and the signs of its crossings, as Sage writes them."""
    if len(items) != 2 or not isinstance(items[0], list) or not is_list_of(items[1], (1, -1)):
        return False
    # Two lists of numbers may also be components.
    is_nested = not are_numbers(items[0])
    return sum(map(len, components_in(items[0]))) == 2 * len(items[1]) and (is_nested or kind_of_numbers(items[0]) == "Gauss")


def without_flips(items: List[Any]) -> List[Any]:
    """The components of a DT code without the list of flips that SnapPy puts after them."""
    may_have = len(items) == 2 and isinstance(items[0], list) and is_list_of(items[1], (0, 1)) and items[1]
    return unwrapped(items[:1]) if may_have and kind_of_lists(items[:1]) == "DT" else items


def is_list_of(item: Any, numbers: Sequence[int]) -> bool:
    """Whether this is a list of these numbers alone."""
    return isinstance(item, list) and are_numbers(item) and set(item) <= set(numbers)


def in_doubt(numbers: Sequence[int]) -> Optional[str]:
    """The code that a list of numbers most likely is, though it may be a braid word: "DT", "Gauss", or None."""
    kind = kind_of_numbers(numbers)
    crossings = len(numbers) if kind == "DT" else len(numbers) // 2
    if crossings < LEAST_IN_DOUBT or kind == "Gauss" and max(numbers) != crossings:
        return None
    return kind
