"""A crate that is being built: the kit's commands for it, one after the other."""
import os
import re
import shutil
import signal
import subprocess
import time

# The prover's last line, where it has proved a crate.
PROVED = re.compile(rb"^logic=proved ", re.M)
AGAIN = "tools/build.py: the check was killed, most likely for memory: once more with one job\n"


class CrateBuild:
    """A crate that is being built, with `begun`, when that was, `jobs`, its processors, and `processor`, the seconds that it took of them."""

    def __init__(self, tree, name, jobs, log, held, guard):
        self.tree, self.name, self.jobs, self.log, self.held, self.guard = tree, name, jobs, log, held, guard
        self.begun, self.processor = time.monotonic(), 0.0
        self.clear()
        with open(log, "wb"):
            self.begin(tree.kit.commands(tree, name, jobs))

    def clear(self):
        """Removes what an earlier build left of the crate: its stamp first."""
        self.tree.forget(self.name)
        shutil.rmtree(self.tree.statements(self.name), ignore_errors=True)
        os.makedirs(self.tree.statements(self.name))

    def begin(self, commands):
        """Begins with the first of some commands."""
        self.commands = commands
        with open(self.log, "ab") as lines:
            self.process = self.guard.begin(commands[0], cwd=self.tree.folder(self.name), stdout=lines, stderr=subprocess.STDOUT, pass_fds=[self.held])

    def status(self):
        """The status of the command, or None while it works; notes what it took."""
        if self.process.returncode is None:
            ended, status, usage = os.wait4(self.process.pid, os.WNOHANG)
            if ended:
                self.process.returncode = os.waitstatus_to_exitcode(status)
                self.processor += usage.ru_utime + usage.ru_stime
        return self.process.returncode

    def is_ended(self):
        """Whether all commands have ended, or one failed. One that was killed, most likely for memory, is tried once more with one job."""
        status = self.status()
        if status == -signal.SIGKILL and self.jobs > 1:
            self.jobs = 1
            with open(self.log, "a", encoding="utf-8") as lines:
                lines.write(AGAIN)
            self.begin(self.tree.kit.commands(self.tree, self.name, 1))
        elif status == 0 and self.commands[1:]:
            self.begin(self.commands[1:])
        else:
            return status is not None
        return False

    def is_proved(self):
        """Whether the commands have done what they were to do, and the prover says that the crate is proved."""
        with open(self.log, "rb") as lines:
            return self.process.returncode == 0 and bool(PROVED.search(lines.read()))
