"""The quandles and cocycles of a list, each as its lines."""
import collections

from lib.batch.stages import digest

# A quandle, with its cocycle, of either kind, where one is after it. quandle: the lines of the quandle alone. text: all lines. key: their digest.
# source: the name of the file it came from.
ListedBlock = collections.namedtuple("ListedBlock", "quandle text has_weight key source")


def block_label(block):
    """What a quandle or cocycle is called: as in its line, and a table with the name of its file."""
    name = block.quandle.partition("\n")[0].removeprefix("quandle ")
    named = f"{name} of {block.source}" if name.startswith("table") and block.source else name
    return f"weights by {named}" if block.has_weight else named


def block_of(lines, source=""):
    """The quandle of these lines, with a cocycle where one is among them."""
    place = next((place for place, line in enumerate(lines) if line.split()[0] in ("weight", "shadow")), len(lines))
    text = "".join(line + "\n" for line in lines)
    return ListedBlock("".join(line + "\n" for line in lines[:place]), text, place < len(lines), digest(text.encode()), source)


def split_blocks(text, source=""):
    """The lines before the first quandle, as they are, and the quandles after them. Comments and blanks after it are left out."""
    lines = text.split("\n")
    first = next((place for place, line in enumerate(lines) if line.split()[:1] == ["quandle"]), None)
    if first is None:
        return text, []
    found = []
    for line in lines[first:]:
        words = line.split()
        if not words or words[0].startswith("#"):
            continue
        if words[0] == "quandle":
            found.append([])
        found[-1].append(" ".join(words))
    return "".join(line + "\n" for line in lines[:first]), [block_of(block, source) for block in found]
