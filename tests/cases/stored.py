"""Cases of what is stored: the examples, cuts of them, and the table of small bad inputs."""
import random
import re

import reader

from .inputs import Case


def examples(bases):
    for name, job, further, text in bases:
        yield Case("examples", name, [job, *further], text)


def input_of(cell):
    """The bytes that a cell of the table says."""
    if cell == "(no bytes)":
        return b""
    if match := re.fullmatch(r"`([^`]*)` and (\d+) lines `([^`]*)`", cell):
        return input_of(f"`{match[1]}`") + f"\n{match[3]}".encode() * int(match[2])
    match = re.fullmatch(r"`([^`]*)`", cell)
    if not match:
        raise ValueError(f"an input of the table that can't be read: {cell}")
    return re.sub(r" /( |$)", "\n", match[1]).encode()


def table(page):
    """Each row of the table of small bad inputs on this page, which states its answer."""
    with open(page) as file:
        text = file.read()
    for line in text.splitlines():
        cells = [cell.strip() for cell in line.strip("|").split(" | ")]
        if len(cells) == 4 and re.fullmatch(r"`[a-z]+`", cells[0]) and cells[0].strip("`").encode() in reader.JOBS:
            due = cells[2].strip("`").encode() + b"\n"
            yield Case("table", cells[1][:60], [cells[0].strip("`").encode()], input_of(cells[1]), due=due)


def cuts(bases, seed):
    """Each example cut at each byte, and with each byte altered, once by chance and once in its last bit."""
    dice = random.Random(f"{seed} cuts")
    for name, job, further, text in bases:
        if len(text) > 1500:
            continue
        for place in range(len(text) + 1):
            yield Case("cuts", f"{name}: the first {place} bytes", [job, *further], text[:place])
        for place in range(len(text)):
            for byte in (dice.randrange(256), text[place] ^ 1):
                yield Case("cuts", f"{name}: byte {place} as {byte}", [job, *further], text[:place] + bytes([byte]) + text[place + 1:])
