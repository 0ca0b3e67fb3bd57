#!/usr/bin/env python3
"""Takes links from SnapPy to knot and seek.

    tools/from_snappy.py 'Link("4_1")' | ./knot grid
    tools/from_snappy.py 'Link("8_17")' 'Link("DT: [(6,8,12,14,4,16,2,10)]")'          both to ./seek
    tools/from_snappy.py 'Link("K8a1")' 'Link("8_18")' -- --seed 2

By its documentation SnapPy lists the rows as they are, with edges from 0. This was never run with SnapPy.
"""
from lib.codes import codes_in

from knot_workbench.sources import code_of_snappy

if __name__ == "__main__":
    codes_in.run_from_script("from_snappy.py", __doc__, "snappy", code_of_snappy)
