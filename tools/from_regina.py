#!/usr/bin/env python3
"""Takes links from Regina to knot and seek.

    tools/from_regina.py 'ExampleLink.figureEight()' | ./knot grid
    tools/from_regina.py 'ExampleLink.trefoil()' 'ExampleLink.trefoilLeft()'           both to ./seek
    tools/from_regina.py 'Link("dabcabcv-")' 'ExampleLink.trefoil()' -- --seed 2

Regina lists the rows as they are. Run with Regina 7.3 (Debian's package regina-normal, /usr/bin/python3).
"""
from lib.codes import codes_in

from knot_workbench.sources import code_of_regina

if __name__ == "__main__":
    codes_in.run_from_script("from_regina.py", __doc__, "regina", code_of_regina)
