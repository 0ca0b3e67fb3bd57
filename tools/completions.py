#!/usr/bin/env python3
"""Makes the completions of knot and seek for bash, zsh and fish, from what the two say for --help.

    tools/completions.py FOLDER          writes knot.bash, seek.bash, _knot, _seek, knot.fish and seek.fish into the folder
    tools/completions.py --print FILE    writes one of them to standard output

Jobs and options are those of `./knot --help`, of examples/seek/help.out and of what the launcher adds to it, so a new one is completed as soon as
the help has it.
"""
import argparse
import os
import re
from collections import namedtuple

import man
from lib.calls import calls

# A word to be completed and what it does. `value` is what an option takes: None, "file", or "words" where nothing can be proposed.
Word = namedtuple("Word", "name said value")

FILES = ("FILE", "DIR")


def knot_words():
    """The jobs of knot and its options."""
    shown = man.help_of_knot()
    jobs = [Word(name, re.sub(r"`", "", writes), None) for name, _, writes in
            (re.split(r"  +", line.strip(), maxsplit=2) for line in man.help_part(shown, "Jobs,").splitlines())]
    options = [option_word(tag, said) for tag, said in man.help_options(man.help_part(shown, "Options,"))]
    return [*jobs, Word("help", "all jobs and options", None)], [*options, Word("--help", "all jobs and options", None), Word("--version", "the version", None)]


def seek_options():
    """The options of seek."""
    shown = calls.input_text(os.path.join(man.TOP, "examples", "seek", "help.out"))
    further = man.help_part(man.further_help(), "Options of the launcher")
    return [option_word(tag, said) for tag, said in man.help_options(man.help_part(shown, "Options:") + further)]


def option_word(tag, said):
    """The word of an option as a help has it: `--out <FILE>`, `--budget B`, `-h, --help`."""
    name, _, value = re.sub("^-., ", "", tag).partition(" ")
    value = value.strip("<>")
    return Word(name, re.sub(r" \[default: .*\]$", "", said).split("; ")[0], None if not value else "file" if value in FILES else "words")


def quoted(text):
    """A text within single quotes of a shell."""
    return "'" + text.replace("'", "'\\''") + "'"


# ---- bash

def bash(name, jobs, options):
    files = [word.name for word in options if word.value == "file"]
    others = [word.name for word in options if word.value == "words"]
    cases = ""
    if files:
        cases += f"        {' | '.join(files)}) local IFS=$'\\n'; COMPREPLY=($(compgen -f -- \"$word\")); compopt -o filenames 2>/dev/null; return ;;\n"
    if others:
        cases += f"        {' | '.join(others)}) return ;;\n"
    words = " ".join(word.name for word in options)
    files_of = "local IFS=$'\\n'; COMPREPLY=($(compgen -f -- \"$word\")); compopt -o filenames 2>/dev/null"
    names = [word.name for word in jobs]
    # After a job no further one is proposed.
    bare = (f'[[ " ${{COMP_WORDS[*]:1:COMP_CWORD-1}} " =~ \\ ({"|".join(names)})\\  ]] || '
            f"COMPREPLY=($(compgen -W {quoted(' '.join(names))} -- \"$word\"))" if jobs else files_of)
    return f"""# Completion of {name} for bash.
_{name}_words() {{
    local word=${{COMP_WORDS[COMP_CWORD]}} before=${{COMP_WORDS[COMP_CWORD-1]}}
    COMPREPLY=()
    case $before in
{cases}    esac
    case $word in
        -*) COMPREPLY=($(compgen -W {quoted(words)} -- "$word")) ;;
        *) {bare} ;;
    esac
}}
complete -F _{name}_words {name}
"""


# ---- zsh

def zsh_text(text):
    """What is in brackets or after a colon."""
    return re.sub(r"([\[\]:\\])", r"\\\1", text)


def zsh(name, jobs, options):
    lines = []
    for word in options:
        takes = "" if word.value is None else f":{word.name.lstrip('-')}:{'_files' if word.value == 'file' else ''}"
        lines.append(quoted(f"{word.name}[{zsh_text(word.said)}]{takes}"))
    if jobs:
        given = "\n".join(f"    {quoted(zsh_text(word.name) + ':' + zsh_text(word.said))}" for word in jobs)
        head, rest = f"local -a jobs\njobs=(\n{given}\n)\n", quoted("1:job:{_describe job jobs}")
    else:
        head, rest = "", quoted("*:file:_files")
    return f"#compdef {name}\n# Completion of {name} for zsh.\n{head}_arguments -s \\\n    " + " \\\n    ".join([*lines, rest]) + "\n"


# ---- fish

def fish_text(text):
    return "'" + text.replace("\\", "\\\\").replace("'", "\\'") + "'"


def fish(name, jobs, options):
    lines = [f"# Completion of {name} for fish."]
    if jobs:
        lines.append(f"complete -c {name} -f")
        none = f"not __fish_seen_subcommand_from {' '.join(word.name for word in jobs)}"
        lines += [f"complete -c {name} -n {fish_text(none)} -a {word.name} -d {fish_text(word.said)}" for word in jobs]
    for word in options:
        takes = {None: "", "file": " -r -F", "words": " -x"}[word.value]
        lines.append(f"complete -c {name} -l {word.name.lstrip('-')}{takes} -d {fish_text(word.said)}")
    return "\n".join(lines) + "\n"


def completion_files():
    """The six files by their names."""
    jobs, options = knot_words()
    own = seek_options()
    return {"knot.bash": bash("knot", jobs, options), "_knot": zsh("knot", jobs, options), "knot.fish": fish("knot", jobs, options),
            "seek.bash": bash("seek", [], own), "_seek": zsh("seek", [], own), "seek.fish": fish("seek", [], own)}


def main():
    parser = argparse.ArgumentParser(description=__doc__, formatter_class=argparse.RawDescriptionHelpFormatter)
    parser.add_argument("folder", nargs="?", metavar="FOLDER", help="where the files go")
    parser.add_argument("--print", metavar="FILE", help="only this file")
    words = parser.parse_args()
    if bool(words.folder) == bool(words.print):
        parser.error("a folder or --print is due")
    files = completion_files()
    if words.print:
        if words.print not in files:
            parser.error(f"there is no {words.print}, but {', '.join(files)}")
        calls.put(None, files[words.print])
        return
    if not os.path.isdir(words.folder):
        parser.error(f"there is no folder {words.folder}")
    for name, text in files.items():
        calls.put(os.path.join(words.folder, name), text)


if __name__ == "__main__":
    calls.run("completions.py", main)
