"""A trial run of the separate checker, before its proof."""
import re
import subprocess
import tempfile

# The statuses with which the checker has read its input and ruled on it, or said which line is wrong.
RULED = (0, 3, 4, 8)
# How many letters of a trial's answer are reported.
MOST_TOLD = 200
ENDED = re.compile(rb"(?m)^run=ended status=(\d+) ")


class Trial:
    """A run of the checker's sources before their proof, beside the build. What it answers is reported, and counts for nothing."""

    def __init__(self, folder, input_file):
        # (files, since nobody reads a pipe while crates are built)
        self.answer, self.told = tempfile.TemporaryFile(), tempfile.TemporaryFile()
        # (an interrupt at the terminal reaches this process alone, which ends rt once)
        with open(input_file, "rb") as source:
            self.process = subprocess.Popen(["rt", "try"], cwd=folder, stdin=source, stdout=self.answer, stderr=self.told, start_new_session=True)

    def ended(self):
        """What is to be said of it, once, when it has ended; else None."""
        if not self.process or self.process.poll() is None:
            return None
        ended = ENDED.search(read_again(self.told))
        lines = read_again(self.answer).decode(errors="replace").splitlines()
        self.stop()
        if ended and int(ended[1]) in RULED and lines:
            return f"a trial run, before the proof, says: {lines[0][:MOST_TOLD]}"
        return "a trial run, before the proof, gave no answer; the proof goes on"

    def stop(self):
        """Ends rt, which ends what it began."""
        if self.process:
            if self.process.poll() is None:
                self.process.terminate()
            self.process.wait()
            self.answer.close()
            self.told.close()
        self.process = None


class NoTrial:
    """Stands in the place of a trial where there is none."""

    def ended(self):
        return None

    def stop(self):
        pass


def read_again(file):
    file.seek(0)
    return file.read()
