"""Numbers in brackets, as codes, braid words and arc presentations are written: one reader of them all."""
import re
from typing import Any, List, Optional, Sequence, Union

from ..faults import BadCode

MAX_DIGITS, MAX_DEPTH = 9, 5

OPENING = {"{": "}", "[": "]", "(": ")"}
CLOSING = tuple(OPENING.values())
COMMAS = (",", ";")
TOKEN = re.compile(r"\s*(?:(?P<number>[+-]?[0-9]+)|(?P<mark>[][{}(),;]))")

Token = Union[int, str]


def tokens_of(text: str) -> List[Token]:
    """The numbers and marks of a text, in order. Raises BadCode."""
    found: List[Token] = []
    place, end = 0, len(text.rstrip())
    while place < end:
        token = TOKEN.match(text, place)
        if not token:
            raise BadCode(f"'{text[place:].lstrip()[:10]}' is neither a number, a comma nor a bracket")
        place, number = token.end(), token["number"]
        if number and len(number.lstrip("+-")) > MAX_DIGITS:
            raise BadCode(f"the number {number[:MAX_DIGITS]}... has too many digits")
        found.append(int(number) if number else token["mark"])
    return found


def lists_of(tokens: Sequence[Token]) -> List[Any]:
    """The numbers and lists that tokens are, one in the other as the brackets say; commas count for nothing. Raises BadCode."""
    open_lists: List[List[Any]] = [[]]
    closing: List[str] = []
    for token in tokens:
        if isinstance(token, int):
            open_lists[-1].append(token)
        elif token in OPENING:
            if len(closing) == MAX_DEPTH:
                raise BadCode("there are too many brackets within brackets")
            closing.append(OPENING[token])
            open_lists.append([])
            open_lists[-2].append(open_lists[-1])
        elif token in CLOSING:
            if not closing or closing.pop() != token:
                raise BadCode(f"the bracket '{token}' closes none")
            open_lists.pop()
    if closing:
        raise BadCode(f"the bracket '{closing[-1]}' is missing at the end")
    return open_lists[0]


def lists_in(text: str) -> List[Any]:
    """The numbers and lists of a code, with brackets of any kind, and commas or blanks between. Raises BadCode."""
    return lists_of(tokens_of(text))


def nested(text: str) -> List[Any]:
    """The one list that an entry is, where it has commas between its numbers: of a braid word a lost letter would make another word. Between
    lists commas may be left out. Raises BadCode."""
    tokens = tokens_of(text)
    if not tokens:
        raise BadCode("the entry is empty")
    found, slip = lists_of(tokens), slip_in(tokens)
    if slip:
        raise BadCode(slip)
    return found[0]


def slip_in(tokens: Sequence[Token]) -> Optional[str]:
    """Where tokens first are no list in brackets with commas between its numbers, or None."""
    if tokens[0] not in OPENING:
        return "the entry does not begin with a bracket"
    depth = 1
    for before, token in zip(tokens, tokens[1:]):
        if depth == 0:
            hint = "; only the crossings of a PD code need no brackets around them" if token in (*COMMAS, *OPENING) else ""
            return f"'{token}' comes after the last bracket{hint}"
        slip = slip_between(before, token)
        if slip:
            return slip
        depth += (token in OPENING) - (token in CLOSING)
    return None


def slip_between(before: Token, token: Token) -> Optional[str]:
    """What is wrong with a token inside of brackets after another one, or None."""
    if before in COMMAS or before in OPENING:
        if before in COMMAS and token in CLOSING:
            return "there is a comma before a closing bracket"
        return f"a number or a bracket is due, and not '{token}'" if token in COMMAS else None
    if token in COMMAS or token in CLOSING or before in CLOSING and token in OPENING:
        return None
    return f"a comma is due, and not '{token}'"


def are_numbers(items: Sequence[Any]) -> bool:
    """Whether all are numbers, none of them a list."""
    return all(isinstance(item, int) for item in items)


def unwrapped(items: List[Any]) -> List[Any]:
    """A list without the brackets that hold one list alone."""
    while len(items) == 1 and isinstance(items[0], list):
        items = items[0]
    return items


def components_in(items: List[Any]) -> List[Any]:
    """A list of components, of one alone too."""
    return [items] if are_numbers(items) else [item if isinstance(item, list) else [item] for item in items]


def plain_lists(value: Any) -> Any:
    """Lists of whole numbers, of any lists, tuples and numbers that count. Raises BadCode."""
    if isinstance(value, str):
        raise BadCode(f"a number is due, and not '{value[:20]}'")
    if hasattr(value, "__index__"):
        return int(value.__index__())
    try:
        return [plain_lists(item) for item in value]
    except TypeError:
        raise BadCode(f"{value!r:.30} is neither a whole number nor a list of such") from None
