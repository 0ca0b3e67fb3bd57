"""A call that fails by itself, with a traceback, ends with a status that no answer has."""
import os
import sys

CRASHED = 70


def crashed(*error):
    """Says the traceback on standard error, and ends the process."""
    sys.__excepthook__(*error)
    if sys.stderr is not None:
        sys.stderr.flush()
    os._exit(CRASHED)
