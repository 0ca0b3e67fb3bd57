"""The files of the scripts on tables: what is read whole, and what a file with a row's name is called and how it is written."""
import errno
import os
import re
import unicodedata

from knot_workbench.tables.rows import TableError
from lib.calls.calls import StreamError, input_bytes
from lib.calls.whole_files import write_whole


def read_bytes(path):
    """The bytes of a file, or for `-` of standard input."""
    try:
        if path == "-":
            return input_bytes()
        with open(path, "rb") as file:
            return file.read()
    except StreamError as error:
        raise TableError(str(error)) from None
    except OSError as error:
        raise TableError(f"{path}: {error.strerror}") from None


# The most bytes of a file's name. Most systems take 255; a file that is being written has a longer name for a while.
MAX_FILE_NAME = 180


def file_name(name):
    """A name for a file: letters and digits of any script and a few marks stay, all others become `_`."""
    kept = re.sub(r"[^\w.,+-]", "_", unicodedata.normalize("NFC", name))
    return re.sub(r"^[.-]", "_", kept) + ".txt"


def free_name(base, taken):
    """The name of a file, or where another one has it, the first of NAME-2, NAME-3 and so on that none has; `taken` has the names in small
    letters, since some systems don't distinguish them from capitals."""
    stem, number, found = base[:-len(".txt")], 1, base
    while found.casefold() in taken:
        number += 1
        found = f"{stem}-{number}.txt"
    return found


def refusal_of(base):
    """Why a file can't have this name, or None."""
    length = len(base.encode())
    return f"the file's name would have {length} bytes, and {MAX_FILE_NAME} are the most" if length > MAX_FILE_NAME else None


def put_once(path, data, replace):
    """Writes a file, or finds it there with this content: why it isn't written, or None. An OSError has this path."""
    try:
        if os.path.exists(path):
            with open(path, "rb") as old:
                if old.read() == data:
                    return None
            if not replace:
                return f"{path} is there already, with another content; --replace writes it anew"
        write_whole(path, data)
    except OSError as error:
        if error.errno == errno.ENAMETOOLONG:
            return f"{path}: the system takes no name so long"
        raise OSError(error.errno, error.strerror, path) from None
    return None


def write_all(outputs, table, folder, replace, faults):
    """Writes each text to its file. How many files are there now as asked for, and how many inputs weren't written, which are named."""
    made = left = 0
    taken = set()
    for item, name, text in outputs:
        base = free_name(file_name(name), taken)
        why = refusal_of(base)
        if why is None:
            taken.add(base.casefold())
            why = put_once(os.path.join(folder, base), text.encode(), replace)
        if why is None:
            made += 1
        else:
            left += 1
            faults.add(table.path, item.line, name, why)
    return made, left
