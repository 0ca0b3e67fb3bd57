#!/usr/bin/env python3
"""Stands for knot and seek in tests of the module: the independent reader answers, or what variables say.

STAND_IN_SAYS has a status, and after a blank the text that is written, STAND_IN_TELLS what is said on standard error, and STAND_IN_NOTES
names a file that gets the words and the input. Without STAND_IN_SAYS a search has no answer here.
"""
import os
import sys

sys.path.insert(0, os.path.dirname(os.path.dirname(os.path.abspath(__file__))))


def main():
    words, data = sys.argv[1:], sys.stdin.buffer.read()
    if os.environ.get("STAND_IN_NOTES"):
        with open(os.environ["STAND_IN_NOTES"], "w", encoding="utf-8") as out:
            out.write(" ".join(words) + "\n" + data.decode())
    print(os.environ.get("STAND_IN_TELLS", ""), end="", file=sys.stderr)
    if os.environ.get("STAND_IN_SAYS"):
        status, _, text = os.environ["STAND_IN_SAYS"].partition(" ")
        sys.stdout.write(text)
        return int(status)
    import reader
    answer = reader.answer([word.encode() for word in words], data)
    text = answer.text if isinstance(answer.text, str) else answer.text.decode()
    sys.stdout.write(text)
    return answer.status


if __name__ == "__main__":
    sys.exit(main())
