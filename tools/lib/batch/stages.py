"""The stages of a batch: what each asks, with which words, and what it puts after a problem."""
import collections
import hashlib
import os
import re

# The spare of a search where no option says another.
SPARE_DEFAULT = 1

# A stage may name one of these programs' questions in place of the batch's own job, where that is one of these too.
ASKS = ("decide", "seek")


class BatchError(Exception):
    """The call can't be done; nothing was done."""


# job: the job of knot, `seek` for the program of this name, or "" for a program that takes no name of a job.
# words: the options, where a file of quandles that seek reads is written as `--weights=LABEL`. lists: these files, each once.
# added: the files that are after each problem.
Stage = collections.namedtuple("Stage", "name job words added lists", defaults=((), ()))

# A file of quandles that a stage uses: what it is called, its whole path, its SHA-256 and, where it is after the problem, its bytes.
Listed = collections.namedtuple("Listed", "label path sha data", defaults=(None,))

# The options of seek that name a file of quandles.
LIST_OPTIONS = ("--weights", "--quandles")


def digest(data):
    """The SHA-256 of some bytes, in hexadecimal digits."""
    return hashlib.sha256(data).hexdigest()


def words_by(stage, field):
    """The words of a stage, where each file of quandles that they name is written as this field of it."""
    by_label = {one.label: getattr(one, field) for one in stage.lists}
    parts = [(word, *word.partition("=")[::2]) for word in stage.words]
    return [f"{option}={by_label[label]}" if option in LIST_OPTIONS and label in by_label else word for word, option, label in parts]


def call_words(stage):
    """The words with which the program is called."""
    return words_by(stage, "path")


def stage_key(stage):
    """What an answer was tried with: `seek` where it was asked, the words, and the SHA-256 of each file of quandles in place of its name."""
    return [*(["seek"] if stage.job == "seek" else []), *words_by(stage, "sha"), *("+" + one.sha for one in stage.added)]


def stage_text(stage):
    """The stage as its line has it, without its name, and with the list that its program counts by where the line names none."""
    return " ".join([*(["seek"] if stage.job == "seek" else []), *stage.words, *("+" + one.label for one in stage.added)])


def listed_file(label, path, where):
    """A file of quandles, by what it is called and its path; `where` comes before what is wrong with it."""
    try:
        with open(path, "rb") as file:
            data = file.read()
    except OSError as error:
        raise BatchError(f"{where}{path}: {error.strerror}") from None
    return Listed(label, os.path.abspath(path), digest(data), data)


def spare_of(stage):
    """How many columns more a search of this stage may use; None for walks of seek, which have no such bound."""
    if stage.job == "seek":
        return None
    given = re.search(r"(?:^| )--spare[ =]\+?([0-9]+)(?: |$)", " ".join(stage.words))
    return int(given[1]) if given else SPARE_DEFAULT


def read_stages(path, job):
    """The stages of a file, in order. A stage that names no program asks for this job."""
    stages = []
    for line, row in named_lines(path):
        if row[0].startswith(("-", "+")):
            raise BatchError(f"{path}:{line}: the name of the stage is due before '{row[0]}'")
        if any(stage.name == row[0] for stage in stages):
            raise BatchError(f"{path}:{line}: a stage before has the name '{row[0]}'")
        asked, words = job, row[1:]
        if words and words[0] in ASKS:
            if job not in (*ASKS, ""):
                raise BatchError(f"{path}:{line}: '{words[0]}' has no place in a batch of the job {job}")
            asked, words = words[0], words[1:]
        where, folder = f"{path}:{line}: ", os.path.dirname(path)
        added = tuple(listed_file(word[1:], os.path.join(folder, word[1:]), where) for word in words if word.startswith("+"))
        words = tuple(word for word in words if not word.startswith("+"))
        stages.append(with_lists(Stage(row[0], asked, words, added), where))
    if not stages:
        raise BatchError(f"{path}: no stage")
    return stages


def named_lines(path):
    """The lines of a file of stages that say something, each as its number and its words."""
    try:
        with open(path, encoding="utf-8") as lines:
            rows = [(line, row.split()) for line, row in enumerate(lines, 1)]
    except (OSError, UnicodeDecodeError) as error:
        raise BatchError(f"{path}: {getattr(error, 'strerror', None) or 'not UTF-8'}") from None
    return [(line, row) for line, row in rows if row and not row[0].startswith("#")]


def with_lists(stage, where):
    """The stage with the files of quandles that its own words name, which are looked for from here as seek itself would."""
    if stage.job not in ("seek", ""):
        return stage
    words = []
    for word in stage.words:
        if words and words[-1] in LIST_OPTIONS:
            words[-1] += "=" + word
        else:
            words.append(word)
    labels = [word.partition("=")[2] for word in words if word.partition("=")[0] in LIST_OPTIONS]
    # A program that takes no name of a job may give these words another meaning.
    labels = [label for label in dict.fromkeys(labels) if label and (stage.job == "seek" or os.path.isfile(label))]
    lists = tuple(listed_file(label, label, where)._replace(data=None) for label in labels)
    return stage._replace(words=tuple(words), lists=lists)
