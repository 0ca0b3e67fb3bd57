#!/usr/bin/env python3
"""The stand-in for knot or seek of a tree of its own, by the name it is called: it writes each call into the file `calls` at the top of this
tree, as its words and the SHA-256 of its input, and then does what stand_in.py does."""
import hashlib
import io
import json
import os
import sys

sys.path.insert(0, os.path.dirname(os.path.realpath(__file__)))

import stand_in

TREE = os.path.abspath(os.path.join(os.path.dirname(os.path.abspath(sys.argv[0])), "..", "..", ".."))


def main():
    text = sys.stdin.read()
    told = json.dumps([os.path.basename(sys.argv[0]), *sys.argv[1:], hashlib.sha256(text.encode()).hexdigest()])
    with open(os.path.join(TREE, "calls"), "a", encoding="utf-8") as log:
        log.write(told + "\n")
    sys.stdin = io.StringIO(text)
    return stand_in.main()


if __name__ == "__main__":
    sys.exit(main())
