"""Signals that ask for an end, and waits during which they are noticed."""
import signal


class Stopped(BaseException):
    """A signal asks for an end."""

    def __init__(self, number):
        super().__init__(number)
        self.number = number


def on_signals():
    """Turns the signals that ask for an end into `Stopped`, once; later ones are left out while the end is made.

    What is ignored from the start, as by nohup, stays so.
    """
    numbers = [one for one in (signal.SIGINT, signal.SIGTERM, signal.SIGHUP) if signal.getsignal(one) is not signal.SIG_IGN]

    def stop(number, _):
        """What a signal calls."""
        for one in numbers:
            signal.signal(one, signal.SIG_IGN)
        raise Stopped(number)
    for one in numbers:
        signal.signal(one, stop)
