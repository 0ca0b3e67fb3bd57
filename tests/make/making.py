"""Where the makers of quandles/make are, for their tests: with this imported, they are found, and what the tests of tools/ share."""
import os
import sys

ROOT = os.path.dirname(os.path.dirname(os.path.dirname(os.path.abspath(__file__))))
MAKE = os.path.join(ROOT, "quandles", "make")

sys.path[:0] = [MAKE, os.path.join(ROOT, "tests", "tools")]

import common


def run(script, *words, text=""):
    """Runs a maker and answers its status, standard output and standard error."""
    return common.run(os.path.join(MAKE, script), *words, text=text)
