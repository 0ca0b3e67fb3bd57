#!/usr/bin/env python3
"""Runs a folder of problems through knot and seek, stage by stage, and checks each certificate at the end."""
import sys

from lib.calls.crashes import crashed

sys.excepthook = crashed

from lib.batch.call import main
from lib.calls.calls import ended

if __name__ == "__main__":
    sys.exit(ended("batch.py", main, sys.argv[1:], failed=3))
