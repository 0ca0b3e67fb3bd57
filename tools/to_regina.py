#!/usr/bin/env python3
"""Takes what `./knot code` prints into Regina.

    ./knot code < diagram.txt | tools/to_regina.py [--kinks]
    ./knot code < diagram.txt | tools/to_regina.py --print      the call alone, for regina-python
    tools/to_regina.py [--print] CODE ...                       files, also those of tools/batch.py --job code

Regina takes the rows as they are. Run with Regina 7.3 (Debian's package regina-normal, /usr/bin/python3).
"""
from lib.codes import crossing_codes


def expression_for_regina(code):
    return f"Link.fromPD({code.rows})" if code.rows else f"Link({code.loops})"


def show_in_regina(code):
    import regina

    # Without crossings there is nothing to read, and Regina makes circles by their number.
    link = regina.Link.fromPD(code.rows) if code.rows else regina.Link(code.loops)
    print(link)
    print(f"components {link.countComponents()}")
    print(f"writhe {link.writhe()}")
    print(f"jones {link.jones()}")
    # Regina keeps the order of the rows.
    if [link.crossing(place).sign() for place in range(link.size())] != crossing_codes.signs(code):
        print("note: some signs differ: Regina ran through a component that passes over everywhere the other way round")


if __name__ == "__main__":
    crossing_codes.run_to_script("to_regina.py", __doc__, expression_for_regina, show_in_regina)
