#!/usr/bin/env python3
"""Cuts a long table of short problems into pieces that a queue of jobs answers, and joins the answers."""
import sys

from lib.calls.crashes import crashed

sys.excepthook = crashed

from lib.calls.calls import ended
from lib.pieces.call import main

if __name__ == "__main__":
    sys.exit(ended("pieces.py", main, sys.argv[1:], failed=3))
