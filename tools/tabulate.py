#!/usr/bin/env python3
"""Makes a table of knots from nothing: sorts diagrams into classes of one knot each, with a certificate for all that is said."""
import sys

from lib.calls.crashes import crashed

sys.excepthook = crashed

from lib.calls.calls import ended
from lib.tabulate.call import main

if __name__ == "__main__":
    sys.exit(ended("tabulate.py", main, sys.argv[1:], failed=3))
