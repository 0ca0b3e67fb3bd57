"""The plan of a census: its steps, and the quandles and cocycles that the steps count by."""
import collections
import os

from knot_workbench.quandles import MAX_QUANDLES
from lib.batch.stages import BatchError, named_lines
from lib.tables.blocks import split_blocks

# kind: linking, numbers, linear, decide or seek. words: the options of decide and seek. blocks: what `numbers` counts by.
Step = collections.namedtuple("Step", "name kind words blocks")

STEP_KINDS = ("linking", "numbers", "linear", "decide", "seek")
WITH_OPTIONS = ("decide", "seek")
TAKES = {"numbers": "words +FILE, and one at least", "linking": "no words", "linear": "no words"}


def read_blocks(path, line, names):
    """The quandles of some files, each once."""
    blocks = {}
    for name in names:
        full = os.path.join(os.path.dirname(path), name)
        try:
            with open(full, encoding="utf-8") as file:
                read = split_blocks(file.read(), os.path.basename(name))[1]
        except (OSError, UnicodeDecodeError) as error:
            raise BatchError(f"{path}:{line}: {full}: {getattr(error, 'strerror', None) or 'not UTF-8'}") from None
        if not read:
            raise BatchError(f"{path}:{line}: {full}: no quandle")
        for block in read:
            blocks.setdefault(block.key, block)
    return list(blocks.values())


def read_plan(path):
    """The steps of a file, in order. A step of more quandles than an input takes becomes several."""
    steps = []
    for line, (name, *words) in named_lines(path):
        if any(step.name == name for step in steps):
            raise BatchError(f"{path}:{line}: a step before has the name '{name}'")
        if not words or words[0] not in STEP_KINDS:
            raise BatchError(f"{path}:{line}: one of {', '.join(STEP_KINDS)} is due after the name '{name}'")
        kind, words = words[0], words[1:]
        files = [word[1:] for word in words if word.startswith("+")]
        if kind in WITH_OPTIONS and files or kind == "numbers" and (not files or len(files) < len(words)) or kind in ("linking", "linear") and words:
            raise BatchError(f"{path}:{line}: the step {kind} takes {TAKES.get(kind, 'options and no +FILE')}")
        blocks = read_blocks(path, line, files)
        if len(blocks) <= MAX_QUANDLES:
            steps.append(Step(name, kind, tuple(words) if kind in WITH_OPTIONS else (), tuple(blocks)))
            continue
        for part in range(0, len(blocks), MAX_QUANDLES):
            steps.append(Step(f"{name}-{part // MAX_QUANDLES + 1}", kind, (), tuple(blocks[part:part + MAX_QUANDLES])))
    if not steps:
        raise BatchError(f"{path}: no step")
    return steps
