"""Calls of a program at a terminal: standard error, where a person reads it, and standard input, where one types."""
import contextlib
import os
import pty
import subprocess
import termios
import threading
import tty


@contextlib.contextmanager
def typed(text):
    """A terminal at which this text, of whole lines, is typed, and then its end."""
    keys, terminal = pty.openpty()
    try:
        modes = termios.tcgetattr(terminal)
        modes[3] &= ~termios.ECHO
        termios.tcsetattr(terminal, termios.TCSANOW, modes)
        os.write(keys, text + b"\x04")
        yield terminal
    finally:
        os.close(keys)
        os.close(terminal)


def run(command, given, folder=None, timeout=None, output=subprocess.PIPE, before=None):
    """Runs a command on these bytes, or on an open file, and answers its status, its standard output, and what the terminal took, byte for
    byte. Standard output may be an open file too, and nothing is answered of it then. `before` is called in the command's process, before it."""
    reader, terminal = pty.openpty()
    taken, is_text = [], isinstance(given, bytes)

    def take():
        while True:
            try:
                piece = os.read(reader, 65536)
            except OSError:
                # the system says so where nobody has the terminal any more
                return
            if not piece:
                return
            taken.append(piece)

    try:
        # else a line feed would come as two bytes
        tty.setraw(terminal)
        with subprocess.Popen(command, stdin=subprocess.PIPE if is_text else given, stdout=output, stderr=terminal, cwd=folder,
                              preexec_fn=before) as process:
            os.close(terminal)
            terminal = None
            thread = threading.Thread(target=take)
            thread.start()
            try:
                text, _ = process.communicate(given if is_text else None, timeout=timeout)
            except subprocess.TimeoutExpired:
                process.kill()
                raise
            finally:
                process.wait()
                thread.join()
        return process.returncode, text or b"", b"".join(taken)
    finally:
        os.close(reader)
        if terminal is not None:
            os.close(terminal)
