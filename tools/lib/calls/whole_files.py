"""Files that are there whole or not at all."""
import errno
import os
import re
import socket

# What is said after an error that leaves no room for any answer.
FULL_TEXT = "no room is left, and so all is stopped; called again, it goes on"

# A part of a file bears the host and the process that writes it, so that parts of processes that are gone can be recognised.
PART = re.compile(r"\..*\.(?P<host>[^.]+)\.(?P<process>[0-9]+)\.[0-9]+\.part")


def is_full(error):
    """Whether an error of the system says that the disk or a quota is full, so that nothing more can be kept."""
    return error.errno in (errno.ENOSPC, errno.EDQUOT)


def host_name():
    """This host's name, in characters that a file's name can have."""
    return re.sub(r"[^A-Za-z0-9_-]", "-", socket.gethostname()) or "host"


def is_alive(process):
    """Whether a process of this number runs on this host."""
    try:
        os.kill(process, 0)
    except ProcessLookupError:
        return False
    except OSError:
        return True
    return True


def write_whole(path, data):
    """Writes the bytes beside the path and puts them there by a rename. On any failure, a signal's exception too, no part is left."""
    folder, name = os.path.split(path)
    number = 0
    while True:
        part = os.path.join(folder, f".{name}.{host_name()}.{os.getpid()}.{number}.part")
        try:
            out = open(part, "xb")
            break
        except FileExistsError:
            number += 1
        except OSError as error:
            error.filename = path
            raise
    try:
        with out:
            out.write(data)
            out.flush()
            os.fsync(out.fileno())
        os.replace(part, path)
    except BaseException:
        if os.path.exists(part):
            os.unlink(part)
        raise


def sweep_parts(folder):
    """Removes the parts that processes of this host have left which no longer run, as after a kill that can't be caught."""
    for name in os.listdir(folder):
        part = PART.fullmatch(name)
        if part and part["host"] == host_name() and not is_alive(int(part["process"])):
            os.unlink(os.path.join(folder, name))
