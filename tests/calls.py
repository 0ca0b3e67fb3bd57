"""Calls of the built program: on files, or on streams and under limits of the system as a user on a bad day has them."""
import ctypes
import os
import resource
import signal
import subprocess
import tempfile
import threading
import time

# How many seconds a call may take before it counts as hanging. The longest honest ones take some, but the machine may be busy.
PATIENCE = 600


class Ended:
    """How a call ended: its status, or minus the signal that ended it; None where it hung. And what it wrote."""

    def __init__(self, status, text, errors=b""):
        self.status, self.text, self.errors = status, text, errors


class Hung(Exception):
    pass


def _on_alarm(_signal, _frame):
    raise Hung


class Caller:
    """Calls one program, by this name, with a folder of its own in `room` for inputs and outputs. A program of one job isn't given so many of the
    first words."""

    def __init__(self, program, room, dropped=0, name=b"knot"):
        self.program, self.dropped, self.name = program, dropped, name
        self.folder = tempfile.mkdtemp(dir=room)
        self.paths = [os.path.join(self.folder, name) for name in ("in", "out", "err")]

    def call(self, words, data, name=None):
        """From a file into a file."""
        path_in, path_out, path_err = self.paths
        with open(path_in, "wb") as file:
            file.write(data)
        fresh = os.O_WRONLY | os.O_CREAT | os.O_TRUNC
        child = os.posix_spawn(self.program, [self.name if name is None else name, *words[self.dropped:]], os.environ, file_actions=[
            (os.POSIX_SPAWN_OPEN, 0, path_in, os.O_RDONLY, 0), (os.POSIX_SPAWN_OPEN, 1, path_out, fresh, 0o600),
            (os.POSIX_SPAWN_OPEN, 2, path_err, fresh, 0o600)], setsigdef=[signal.SIGPIPE, signal.SIGXFSZ])
        status = wait_for(child)
        with open(path_out, "rb") as out, open(path_err, "rb") as err:
            return Ended(status, out.read(), err.read())

    def call_by(self, words, data, stdin=None, stdout=None, before=None, ignored=()):
        """With some stream in place of a file, and something to do in the child before the program begins."""
        with open(self.paths[0], "wb") as file:
            file.write(data)

        def prepare():
            for number in (signal.SIGPIPE, signal.SIGXFSZ):
                signal.signal(number, signal.SIG_IGN if number in ignored else signal.SIG_DFL)
            if before:
                before()

        # (standard error is a pipe, so that a limit of files doesn't cut what is reported there)
        with open(self.paths[0], "rb") as given, open(self.paths[1], "wb") as taken:
            child = subprocess.Popen([self.name, *words[self.dropped:]], executable=self.program, stdin=given if stdin is None else stdin,
                                     stdout=taken if stdout is None else stdout, stderr=subprocess.PIPE, preexec_fn=prepare, restore_signals=False)
            try:
                told, status = child.communicate(timeout=PATIENCE)[1], child.returncode
            except subprocess.TimeoutExpired:
                child.kill()
                told, status = child.communicate()[1], None
        with open(self.paths[1], "rb") as out:
            return Ended(status, out.read(), told)

    def call_slowly(self, words, data, piece, pause):
        """Through a pipe, in pieces with pauses."""
        out, into = os.pipe()

        def feed():
            try:
                for begin in range(0, len(data), piece):
                    os.write(into, data[begin:begin + piece])
                    time.sleep(pause)
            except BrokenPipeError:
                pass
            finally:
                os.close(into)

        feeder = threading.Thread(target=feed)
        feeder.start()
        try:
            # The child must not hold the pipe's other end.
            return self.call_by(words, data, stdin=out)
        finally:
            os.close(out)
            feeder.join()

    def call_left(self, words, data, taken, ignored):
        """By a reader that takes so many bytes and goes away."""
        out, into = os.pipe()
        read = []

        def take():
            left = taken
            while left:
                piece = os.read(out, left)
                if not piece:
                    break
                read.append(piece)
                left -= len(piece)
            os.close(out)

        taker = threading.Thread(target=take)
        if taken:
            taker.start()
        else:
            take()

        try:
            ended = self.call_by(words, data, stdout=into, ignored=ignored)
        finally:
            os.close(into)
            if taken:
                taker.join()
        ended.text = b"".join(read)
        return ended

    def call_without_words(self, data):
        """With no word at all, not even the program's name; newer systems put an empty one there."""
        library = ctypes.CDLL(None, use_errno=True)
        with open(self.paths[0], "wb") as file:
            file.write(data)
        child = os.fork()
        if child == 0:
            try:
                os.dup2(os.open(self.paths[0], os.O_RDONLY), 0)
                os.dup2(os.open(self.paths[1], os.O_WRONLY | os.O_CREAT | os.O_TRUNC, 0o600), 1)
                none = (ctypes.c_char_p * 1)(None)
                library.execve(self.program.encode(), none, none)
            finally:
                os._exit(126)
        status = wait_for(child)
        with open(self.paths[1], "rb") as out:
            return Ended(status, out.read())


def wait_for(child):
    """The status of a child; None, and the child is ended, where it takes too long."""
    before = signal.signal(signal.SIGALRM, _on_alarm)
    signal.setitimer(signal.ITIMER_REAL, PATIENCE)
    try:
        _, status = os.waitpid(child, 0)
        return -os.WTERMSIG(status) if os.WIFSIGNALED(status) else os.WEXITSTATUS(status)
    except Hung:
        os.kill(child, signal.SIGKILL)
        os.waitpid(child, 0)
        return None
    finally:
        signal.setitimer(signal.ITIMER_REAL, 0)
        signal.signal(signal.SIGALRM, before)


def no_threads():
    """Lets the child begin no thread: its user may have no further process. Root may have any number, so another user is made of it."""
    if os.geteuid() == 0:
        os.setgroups([])
        os.setgid(65_534)
        os.setuid(65_534)
    resource.setrlimit(resource.RLIMIT_NPROC, (0, 0))


def limit(which, most):
    """What sets a limit of the system in the child."""
    def set_it():
        resource.setrlimit(which, (most, most))
    return set_it
