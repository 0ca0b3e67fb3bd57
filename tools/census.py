#!/usr/bin/env python3
"""Sorts a folder of diagrams into classes, with a certificate for all that is said, by rounds of knot and seek."""
import sys

from lib.calls.crashes import crashed

sys.excepthook = crashed

from lib.calls.calls import ended
from lib.census.call import main

if __name__ == "__main__":
    sys.exit(ended("census.py", main, sys.argv[1:], failed=3))
