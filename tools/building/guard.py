"""Ends the provers when the build ends, however it ends."""
import contextlib
import os
import signal
import subprocess

# The read returns when the other end of the pipe is closed, that is, when the build is gone.
WAITING = ["sh", "-c", "read _; kill -9 0"]


class Guard:
    """A process group for commands, and a shell in it that kills them all if this process is gone, were it killed itself."""

    def __init__(self):
        ends, self.held = os.pipe()
        self.shell = subprocess.Popen(WAITING, stdin=ends, stdout=subprocess.DEVNULL, stderr=subprocess.DEVNULL, preexec_fn=os.setpgrp)
        os.close(ends)
        # Ctrl-Z reaches the group of this process alone.
        self.before = signal.signal(signal.SIGTSTP, self.pause)

    def begin(self, words, **more):
        """Begins with a command of the group."""
        return subprocess.Popen(words, stdin=subprocess.DEVNULL, preexec_fn=self.join, **more)

    def join(self):
        os.setpgid(0, self.shell.pid)

    def pause(self, _number, _frame):
        """Stops the commands with this process, and goes on with them; the shell goes on watching."""
        os.killpg(self.shell.pid, signal.SIGSTOP)
        os.kill(self.shell.pid, signal.SIGCONT)
        os.kill(os.getpid(), signal.SIGSTOP)
        os.killpg(self.shell.pid, signal.SIGCONT)

    def end(self):
        """Ends all commands of the group, and what they began."""
        with contextlib.suppress(ProcessLookupError):
            os.killpg(self.shell.pid, signal.SIGKILL)
        self.shell.wait()
        os.close(self.held)
        signal.signal(signal.SIGTSTP, self.before)
