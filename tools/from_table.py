#!/usr/bin/env python3
"""Makes inputs for knot and seek from a table of knots: one diagram a row, or one problem for each pair that is asked for."""
import sys

from lib.calls.calls import ended
from lib.tables.call import main

if __name__ == "__main__":
    try:
        sys.exit(ended("from_table.py", main, sys.argv[1:], failed=3))
    except KeyboardInterrupt:
        sys.exit(130)
