#!/usr/bin/env python3
"""Takes links from Sage to knot and seek.

    sage --python tools/from_sage.py 'Knots().from_table(4, 1)' | ./knot grid
    sage --python tools/from_sage.py 'Link([[4,1,5,2],[2,5,3,6],[6,3,1,4]])' 'Link(BraidGroup(2)([1,1,1]))'      both to ./seek
    sage --python tools/from_sage.py 'KnotInfo.K8_17.link()' 'KnotInfo.K8_17.link().mirror_image()' -- --seed 2

Sage lists the edges of a crossing the other way round: [i, l, k, j] for X[i,j,k,l]. This is by its documentation, as tools/to_sage.py found
it with Sage 9.5; this script was never run with Sage.
"""
from lib.codes import codes_in

from knot_workbench.sources import code_of_sage

if __name__ == "__main__":
    codes_in.run_from_script("from_sage.py", __doc__, "sage.all", code_of_sage)
