"""Reads what `./knot code` prints, for to_regina.py, to_sage.py and to_snappy.py."""
import argparse

from knot_workbench.codes import BadCode, Code, all_over, kinked, read_code, signs

from lib.calls import calls

__all__ = ("BadCode", "Code", "LOST", "all_over", "kinked", "run_to_script", "read_code", "signs")

LOST = """The rows do not hold components without a crossing, which are only counted in the line `loops`, nor the direction of a component
that passes over at each of its crossings. With --kinks each of these gets a positive kink, a crossing with itself: then the rows hold all
of the link, and the writhe grows by one for each kink."""


def say_lost(code, named):
    """Tells on standard error what the rows don't hold."""
    if code.loops:
        calls.note(f"{named}note: {code.loops} of the components have no crossing, and the rows do not hold them (--kinks puts them in)")
    for place in all_over(code):
        calls.note(f"{named}note: component {place + 1} passes over everywhere, and the rows do not show its direction (--kinks does)")


def show_code(name, words, path, expression, built):
    """Writes the call of one code, or makes the link and shows it."""
    with calls.naming(path):
        code = read_code(calls.input_text(path))
    several = len(words.input) > 1
    if words.kinks:
        code = kinked(code)
    say_lost(code, f"{path}: " if several else "")
    if several:
        print(f"# {path}")
    if words.print:
        print(expression(code))
        return
    try:
        built(code)
    except ImportError as fault:
        calls.note(f"{name}: {fault}; install it, or use --print")
        raise SystemExit(3) from None


def run_to_script(name, doc, expression, built):
    """Runs one of the three programs: `expression(code)` is the call as text, `built(code)` makes the link and shows it."""
    def main():
        parser = argparse.ArgumentParser(description=f"{doc}\n{LOST}", formatter_class=argparse.RawDescriptionHelpFormatter)
        parser.add_argument("input", nargs="*", help="what ./knot code printed, or tools/batch.py --job code wrote; standard input if none is given")
        parser.add_argument("--kinks", action="store_true", help="put in loops, and directions, by kinks")
        parser.add_argument("--print", action="store_true", help="only write the call; needs no module")
        words = parser.parse_args()
        for path in words.input or [None]:
            show_code(name, words, path, expression, built)

    calls.run(name, main)
