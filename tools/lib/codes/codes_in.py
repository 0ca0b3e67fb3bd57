"""Takes links of other programs, as planar diagram codes, to knot and seek: for from_regina.py, from_sage.py and from_snappy.py."""
import argparse
import importlib
import os
import subprocess
import sys
import tempfile

from knot_workbench.codes.planar import planar_text
from knot_workbench.programs import default_cocycles

from lib import TOP as TREE
from lib.calls import calls

ABOUT = """One expression: its code is written as `./knot grid` reads it. Two: `./seek` gets both, with the words after `--`, and its exit status
is the script's. An expression is Python, with all names of the module, and its value is a link. Status 1 if there is no link, 3 if there is
no module."""


def values_of(module, expressions):
    """The links that the expressions mean."""
    names = dict(vars(module))
    for expression in expressions:
        try:
            yield eval(expression, names)  # (it is the user's own)
        except Exception as error:  # (whatever the other program raises)
            raise calls.Fault(f"{expression}: {type(error).__name__}: {error}") from None


def link_text(expression, link, code_of):
    """The text of a link's code."""
    try:
        rows, loops = code_of(link)
    except Exception as error:  # (what means no link has no code)
        raise calls.Fault(f"{expression}: it has no planar diagram code: {type(error).__name__}: {error}") from None
    if not rows and not loops:
        raise calls.Fault(f"{expression}: the link has no component")
    return planar_text(rows, loops)


def seek_links(program, texts, words):
    """Has seek look at two codes, and answers its exit status."""
    with tempfile.TemporaryDirectory(prefix="knot-codes-") as folder:
        listed = default_cocycles(program, words)
        given = [f"--weights={listed}"] if listed else []
        for name, text in zip(("first", "second"), texts):
            path = os.path.join(folder, name)
            calls.put(path, text)
            given += ["--pd", path]
        sys.stdout.flush()
        try:
            return subprocess.run([program, *given, *words], check=False).returncode
        except OSError as error:
            raise calls.Fault(f"{program}: {error.strerror}") from None


def run_from_script(name, doc, module, code_of):
    """Runs one of the three scripts: `module` is what it imports, and `code_of(link)` answers rows and the number of loops."""
    def main():
        words = sys.argv[1:]
        further = words[words.index("--") + 1:] if "--" in words else []
        parser = argparse.ArgumentParser(description=f"{doc}\n{ABOUT}", formatter_class=argparse.RawDescriptionHelpFormatter)
        parser.add_argument("link", nargs="+", metavar="LINK", help="one expression or two")
        parser.add_argument("--seek", default=os.environ.get("SEEK") or os.path.join(TREE, "seek"), metavar="PROGRAM", help="in place of ./seek")
        asked = parser.parse_args(words[: len(words) - len(further) - ("--" in words)])
        if len(asked.link) > 2 or further and len(asked.link) == 1:
            parser.error("one link is written, and two go to seek, with words after --")
        try:
            loaded = importlib.import_module(module)
        except ImportError as error:
            calls.note(f"{name}: {error}; install it, or run the script by the Python that has it")
            raise SystemExit(3) from None
        texts = [link_text(expression, link, code_of) for expression, link in zip(asked.link, values_of(loaded, asked.link))]
        if len(texts) == 1:
            calls.put(None, texts[0])
        else:
            raise SystemExit(seek_links(asked.seek, texts, further))

    calls.run(name, main)
