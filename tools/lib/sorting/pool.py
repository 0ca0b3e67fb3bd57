"""How far a part of the work of tabulate.py and census.py is."""
import time

from lib.calls.calls import note

# A line on how far it is comes after so many seconds.
TELL = 10


class Progress:
    """Says on standard error how far a part of the work is, now and then and at its end."""

    def __init__(self, what, count, done=0):
        self.what, self.count, self.done, self.before = what, count, done, done
        self.began = self.said = time.monotonic()

    def step(self, many=1):
        """So many more are done."""
        self.done += many
        now = time.monotonic()
        if now - self.said >= TELL:
            self.said = now
            rate = (self.done - self.before) / (now - self.began)
            left = f", {(self.count - self.done) / rate:.0f} s left" if rate and self.count > self.done else ""
            note(f"{self.what}: {self.done} of {self.count}{left}")

    def end(self):
        """All is done. What took less than a second isn't worth a line."""
        seconds = time.monotonic() - self.began
        if self.done > self.before and seconds >= 1:
            note(f"{self.what}: {self.done} in {seconds:.0f} s")
