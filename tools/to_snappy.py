#!/usr/bin/env python3
"""Takes what `./knot code` prints into SnapPy.

    ./knot code < diagram.txt | tools/to_snappy.py [--kinks]
    ./knot code < diagram.txt | tools/to_snappy.py --print      the call alone, for SnapPy's prompt
    tools/to_snappy.py [--print] CODE ...                       files, also those of tools/batch.py --job code

By its documentation SnapPy takes the rows as they are. This was never run with SnapPy.
"""
from lib.codes import crossing_codes


def expression_for_snappy(code):
    return f"Link({[tuple(row) for row in code.rows]})"


def show_in_snappy(code):
    import snappy

    if not code.rows:
        print(f"nothing to build: {code.loops} components without a crossing (--kinks gives each one)")
        return
    link = snappy.Link([tuple(row) for row in code.rows])
    print(link)
    print(f"components {len(link.link_components)}")
    print(f"writhe {link.writhe()}")
    print(f"volume {link.exterior().volume()}")


if __name__ == "__main__":
    crossing_codes.run_to_script("to_snappy.py", __doc__, expression_for_snappy, show_in_snappy)
