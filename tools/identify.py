#!/usr/bin/env python3
"""Says which knot a diagram is, by a table of knots, with a certificate."""
import sys

from lib.calls.calls import ended
from lib.identify.call import main

if __name__ == "__main__":
    sys.exit(ended("identify.py", main, sys.argv[1:], failed=3))
