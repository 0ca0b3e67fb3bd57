"""A table of problems, a line each, cut into the pieces of a run."""
import os
import re
import shutil
from array import array

from knot_workbench.programs import Caller, default_cocycles
from lib import TOP
from lib.batch.programs import Programs, behind_launcher
from lib.calls.whole_files import PART, host_name, is_alive
from lib.pieces.run import Piece, PieceError, Run, Summed, read_run, sha256_of, tell_by_name, whole_file

# Words of seek that name a file to be read, and those by which it would not read its problem from standard input, or not write to standard output.
FILE_WORDS = ("--weights", "--quandles")
NO_WORDS = ("--out", "--braid", "--pd")

LINE = re.compile(rb"([^\x00-\x1f\x7f#][^\x00-\x1f\x7f]*)\t([^\x00-\x1f\x7f]*[^\x00-\x20\x7f][^\x00-\x1f\x7f]*)\n?")
# Names are compared by their hashes, in so many parts.
HASH_PARTS = 256
# How many faults of a table are reported.
MOST_FAULTS = 20


# ---- programs and words

def program_named(name):
    """The program `knot` or `seek`: what the variable KNOT or SEEK names, or that of the tree."""
    return os.environ.get(name.upper()) or os.path.join(TOP, name)


def found_programs(uses):
    """The programs of these uses, `knot`, `seek` or `check`; a launcher builds its program first where that is due."""
    knot, seek = program_named("knot"), program_named("seek")
    programs = Programs(Caller(), knot, seek, knot)
    programs.prepare(uses)
    return programs


def found_again(run):
    """The program of a run: the one that the variable KNOT or SEEK names, or that which `cut` wrote down. Raises PieceError where it is
    another one."""
    given = os.environ.get("SEEK" if run.job == "seek" else "KNOT")
    path = shutil.which(given) if given else run.program
    if not path or not os.access(path, os.X_OK):
        raise PieceError(f"{given or run.program}: there is no such program here")
    path = behind_launcher(path) or path
    if sha256_of(path) != run.program_sum:
        raise PieceError(f"{path}: this is another program than the one that `cut` found; its SHA-256 is not that of {run.folder}/job")
    return os.path.abspath(path)


def added_bytes(run):
    """What is put after each problem. Raises PieceError where a file of the run is not as `cut` copied it."""
    for name, due in run.files:
        path = os.path.join(run.folder, name)
        if sha256_of(path) != due:
            raise PieceError(f"{path}: it is not as `cut` copied it")
    found = b""
    for name in run.added:
        with open(os.path.join(run.folder, name), "rb") as file:
            found += file.read()
        found += b"" if found.endswith(b"\n") or not found else b"\n"
    return found


class Words:
    """The words of a job, with the files that they name."""

    def __init__(self, job, words):
        self.words = []
        self.added = []
        # The path of each file that is copied, by its name in the run.
        self.paths = {}
        words = list(words)
        listed = default_cocycles(program_named("seek"), words) if job == "seek" else None
        if listed:
            words[:0] = ["--weights", listed]
        while words:
            self.take(job, words)

    def take(self, job, words):
        """Takes the next word, and the file after it."""
        word = words.pop(0)
        option, has_value, value = word.partition("=")
        if word.startswith("+"):
            self.added.append(self.copied(word[1:]))
        elif job == "seek" and option in FILE_WORDS:
            if not has_value and not words:
                raise PieceError(f"a file is due after {option}")
            self.words += [option, self.copied(value if has_value else words.pop(0))]
        elif job == "seek" and option in NO_WORDS:
            raise PieceError(f"{option} has no place here: each problem is a line of the table")
        else:
            self.words.append(word)

    def copied(self, path):
        """The name that a file has in the run."""
        if not os.path.isfile(path):
            raise PieceError(f"{path}: there is no such file")
        name = f"files/{len(self.paths) + 1}-{os.path.basename(path)}"
        self.paths[name] = path
        return name


# ---- the table

class TableLines:
    """The lines of a table as they are read, what is wrong with them, and the names that there were."""

    def __init__(self, path):
        if os.path.exists(path) and not os.path.isfile(path):
            raise PieceError(f"{path}: it is no file; a table is read twice, so put what a pipe gives into a file first")
        self.path = path
        self.count = 0
        self.faults = []
        self.more_faults = 0
        self.hashes = [array("q") for _ in range(HASH_PARTS)]

    def rows(self):
        """The lines, each ended; those that are not of the form are kept as faults and not answered."""
        with open(self.path, "rb") as file:
            for number, line in enumerate(file, 1):
                self.count += 1
                read = LINE.fullmatch(line)
                if not read or not is_text(line):
                    self.fault(number, form_fault(line))
                    continue
                key = hash(read[1])
                self.hashes[key % HASH_PARTS].append(key)
                yield line if line.endswith(b"\n") else line + b"\n"

    def fault(self, number, said):
        """Keeps a fault of a line."""
        if len(self.faults) < MOST_FAULTS:
            self.faults.append(f"line {number}: {said}")
        else:
            self.more_faults += 1

    def find_doubles(self):
        """Keeps as faults the lines with a name that a line before has. Names of one hash are looked at in a second reading."""
        doubles = set()
        for keys in self.hashes:
            if len(set(keys)) != len(keys):
                seen = set()
                doubles.update(key for key in keys if key in seen or seen.add(key))
        if not doubles:
            return
        first = {}
        with open(self.path, "rb") as file:
            for number, line in enumerate(file, 1):
                name = line.partition(b"\t")[0]
                if hash(name) in doubles and LINE.fullmatch(line) and is_text(line):
                    if name in first:
                        self.fault(number, f"the name '{name.decode()}' is that of line {first[name]} too")
                    first.setdefault(name, number)


def is_text(line):
    """Whether a line is UTF-8."""
    try:
        return line.isascii() or bool(line.decode())
    except UnicodeDecodeError:
        return False


def form_fault(line):
    """What is wrong with a line that is not of the form."""
    if not is_text(line):
        return "it is not UTF-8"
    text = line.rstrip(b"\n")
    name, tab, problem = text.partition(b"\t")
    if not text.strip():
        return "it is empty"
    if text.endswith(b"\r"):
        return "it ends with a carriage return"
    if not tab:
        return "it has no tab: a name, a tab and a problem are due"
    if not name:
        return "it has no name before the tab"
    if name.startswith(b"#"):
        return "a name doesn't begin with '#'"
    if not problem.strip():
        return "it has no problem after the tab"
    return "it has a second tab" if b"\t" in problem else "it has a control character"


# ---- the run

def cut(options):
    """Makes a run, whole or not at all; where the same one is there already, nothing. Answers its number of pieces."""
    target = os.path.abspath(options.run)
    if os.path.lexists(target) and not os.path.isfile(os.path.join(target, "job")) and not is_empty_folder(target):
        raise PieceError(f"{options.run}: it is there already, and is no run: name another folder")
    job, *given = options.job
    words = Words(job, given)
    use = "seek" if job == "seek" else "knot"
    programs = found_programs([use])
    program = programs.path(use)
    run = Run(target, job, program, sha256_of(program), tuple(words.words), tuple((name, sha256_of(path)) for name, path in words.paths.items()),
              tuple(words.added), tuple(options.keep.split(",")) if options.keep else (), options.each, ())
    probe = run._replace(words=tuple(words.paths.get(word, word) for word in run.words))
    programs.probe(probe.call(program), f"job {job}")
    folder, name = os.path.split(target)
    sweep_part_folders(folder, name)
    part = os.path.join(folder, f".{name}.{host_name()}.{os.getpid()}.0.part")
    try:
        return put_run(options, run, words, part)
    finally:
        shutil.rmtree(part, ignore_errors=True)


def put_run(options, run, words, part):
    """Makes the run in the folder `part`, and gives it its name."""
    target, run = run.folder, run._replace(folder=part)
    for folder in ("pieces", "answers", "files"):
        os.makedirs(os.path.join(part, folder))
    for name, path in words.paths.items():
        shutil.copyfile(path, os.path.join(part, name))
    added_bytes(run)
    table = TableLines(options.table)
    run = run._replace(pieces=tuple(put_pieces(run, table)))
    table.find_doubles()
    refuse_faults(table)
    if len(run.pieces) > options.most:
        raise PieceError(f"these are {len(run.pieces)} pieces, and more than {options.most} take a queue whose last index was raised: "
                         f"--each {-(-table.count // options.most)} makes fewer, --most {len(run.pieces)} allows them")
    with whole_file(os.path.join(part, "job")) as out:
        out.write(run.text().encode())
    if os.path.isfile(os.path.join(target, "job")):
        if read_run(target)._replace(program=run.program, folder=part) != run:
            raise PieceError(f"{options.run}: another run is there already: name another folder")
    else:
        os.replace(part, target)
    return len(run.pieces)


def put_pieces(run, table):
    """Writes the pieces of a table, and answers what is to be written down of each. None of them is left without its last line."""
    out, lines = None, 0
    try:
        for number, line in enumerate(table.rows()):
            if number % run.each == 0:
                if out:
                    yield end_piece(out, lines)
                path = run.path("pieces", number // run.each + 1)
                out, lines = Summed(open(path, "wb", 0), path), 0
            out.write(line)
            lines += 1
        if out:
            yield end_piece(out, lines)
    finally:
        if out:
            out.file.close()


def end_piece(out, lines):
    """Ends the file of a piece."""
    out.put(is_last=True)
    out.file.close()
    return Piece(lines, out.bytes, out.sum.hexdigest())


def refuse_faults(table):
    """Tells what is wrong with a table, and raises PieceError where something is."""
    if not table.count:
        raise PieceError(f"{table.path}: it is empty")
    for fault in table.faults:
        tell_by_name(f"{table.path}: {fault}")
    if table.faults:
        more = f", {table.more_faults} more of them" if table.more_faults else ""
        raise PieceError(f"{table.path}: lines are at fault{more}; nothing was cut")


def is_empty_folder(path):
    """Whether it is a folder with nothing in it."""
    return os.path.isdir(path) and not os.listdir(path)


def sweep_part_folders(folder, name):
    """Removes what calls of this host that are gone have left of a run of this name."""
    for found in os.listdir(folder):
        part = PART.fullmatch(found)
        if part and found.startswith(f".{name}.{host_name()}.") and part["host"] == host_name() and not is_alive(int(part["process"])):
            shutil.rmtree(os.path.join(folder, found), ignore_errors=True)
