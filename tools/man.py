#!/usr/bin/env python3
"""Makes the manual pages knot.1, knot-check.1, seek.1 and knot-formats.5 from the documents of this tree.

    tools/man.py FOLDER         writes the four pages into the folder
    tools/man.py --print PAGE   writes one page to standard output

knot.1 has the tables of README.md, the options of docs/FORMATS.md and what `./knot --help` says; seek.1 what `seek --help` says, as
examples/seek/help.out has it, and the guide's section on `seek`; knot-check.1 what the guide says of the separate checker;
knot-formats.5 is docs/FORMATS.md. Read one by `man ./knot.1`.
"""
import argparse
import os
import re
import subprocess

from lib.calls import calls

TOP = os.path.dirname(os.path.dirname(os.path.realpath(__file__)))


def document(*parts):
    """A document of the tree."""
    return calls.input_text(os.path.join(TOP, *parts))


def section(text, title):
    """The lines of a section of a document, without its heading, up to the next heading of the same rank or a higher one."""
    heading = re.search(rf"(?m)^(#+) {re.escape(title)}$", text)
    if not heading:
        raise calls.Fault(f"there is no section '{title}', which a manual page is made from")
    rest = text[heading.end():]
    following = re.search(rf"(?m)^#{{1,{len(heading[1])}}} ", rest)
    return rest[:following.start()] if following else rest


def table_after(text, first):
    """The lines of the table whose heading begins with this cell."""
    found = re.search(rf"(?m)^\| {re.escape(first)} \|.*\n(?:\|.*\n?)*", text)
    if not found:
        raise calls.Fault(f"there is no table that begins with '{first}', which a manual page is made from")
    return found[0]


# ---- from Markdown to man(7)

def escaped(text):
    """Text for roff: backslashes, minus signs, and a mark at the beginning of a line."""
    text = text.replace("\\", "\\e").replace("-", "\\-")
    return re.sub(r"(?m)^([.'])", r"\\&\1", text)


def inline(text):
    """A run of words: code and strong words in bold, others in italics, and of links the words alone."""
    parts = []
    for place, part in enumerate(re.split(r"`([^`]*)`", text)):
        if place % 2:
            parts.append(f"\\fB{escaped(part)}\\fR")
            continue
        part = re.sub(r"\[([^]]*)\]\([^)]*\)", r"\1", part)
        part = escaped(part)
        part = re.sub(r"\*\*([^*]+)\*\*", r"\\fB\1\\fR", part)
        parts.append(re.sub(r"\*([^*]+)\*", r"\\fI\1\\fR", part))
    return "".join(parts)


def block(lines):
    """Lines that are as they are."""
    return [".PP", ".RS 4", ".nf", *(escaped(line) if line else "\\&" for line in lines), ".fi", ".RE"]


def cells(line):
    return [cell.strip() for cell in line.strip().strip("|").split("|")]


def table(lines):
    """A table: the first cell of a row is a tag, and the others follow with the words of their columns where there are several."""
    heads, found = cells(lines[0]), []
    tag = None
    for line in lines[2:]:
        first, *rest = cells(line)
        tag = first or tag
        found += [".TP", inline(tag)]
        if len(rest) == 1:
            found.append(inline(rest[0]) or "\\&")
            continue
        said = [f"\\fI{escaped(head)}\\fR: {inline(cell)}" for head, cell in zip(heads[1:], rest) if cell]
        found += [part for one in said for part in (one, ".br")][:-1] or ["\\&"]
    return found


def roff(text, is_whole=False):
    """Markdown as requests of man(7). With `is_whole` headings of the second rank are sections, else of the third."""
    found, lines = [], text.splitlines()
    place = 0
    while place < len(lines):
        line = lines[place]
        begin = place
        if line.startswith("```"):
            place = lines.index("```", place + 1) + 1
            found += block(lines[begin + 1:place - 1])
        elif line.startswith("    "):
            while place < len(lines) and (lines[place].startswith("    ") or not lines[place] and place + 1 < len(lines) and lines[place + 1].startswith("    ")):
                place += 1
            found += block([one[4:] for one in lines[begin:place]])
        elif line.startswith("|"):
            while place < len(lines) and lines[place].startswith("|"):
                place += 1
            found += table(lines[begin:place])
        else:
            place += 1
            heading = re.match(r"(#+) (.*)", line)
            item = re.match(r"(- |\d+\. )(.*)", line)
            if heading:
                rank = len(heading[1])
                is_section = is_whole and rank == 2
                found += [f".S{'H' if is_section else 'S'} {inline(heading[2].upper() if is_section else heading[2])}"]
            elif item:
                found += [bullet(item[1]), inline(item[2])]
            elif line:
                found += [".PP", inline(line)]
    return without_empty_paragraphs("\n".join(found) + "\n")


def without_empty_paragraphs(text):
    """A heading begins a paragraph by itself."""
    return re.sub(r"(?m)^(\.S[HS] .*)\n\.PP$", r"\1", text)


def bullet(mark):
    """The request that begins an item of a list."""
    return ".IP \\(bu 2" if mark == "- " else f".IP {mark.strip()} 4"


def head(name, number, said):
    """The beginning of a page."""
    return f'.TH {name.upper().replace("-", chr(92) + "-")} {number} "" "knot {version()}" "{said}"\n'


def version():
    """What `knot --version` says after its name."""
    return re.search(r"echo knot ([0-9.]+)", document("launch"))[1]


def help_of_knot():
    """What `./knot --help` says, which needs no program."""
    done = subprocess.run([os.path.join(TOP, "knot"), "--help"], stdout=subprocess.PIPE, stderr=subprocess.PIPE, text=True, check=False)
    if done.returncode:
        raise calls.Fault(f"./knot --help ends with status {done.returncode}: {done.stderr.strip()}")
    return done.stdout


def further_help():
    """What the launcher adds to the help of seek."""
    return re.search(r"(?ms)^further_help\(\) \{\n    cat <<'END'\n(.*?)^END$", document("launch"))[1]


def help_part(text, first):
    """The indented lines of a help after a line that begins so, up to the next line that isn't indented."""
    found = re.search(rf"(?m)^{re.escape(first)}.*\n((?: .*\n|\n(?= ))*)", text)
    if not found:
        raise calls.Fault(f"a help has no line '{first}', which a manual page is made from")
    return found[1]


def help_options(text):
    """The options of a help, each with what it says, as pairs."""
    return re.findall(r"(?m)^ +((?:-\w, )?--[a-z-]+(?: <?[A-Z]+>?)?)  +(\S.*)$", text)


def tagged(pairs):
    return "".join(f".TP\n\\fB{escaped(tag)}\\fR\n{inline(said)}\n" for tag, said in pairs)


# ---- the pages

def knot_page():
    readme, shown = document("README.md"), help_of_knot()
    about = shown.splitlines()[0]
    usage = re.search(r"(?m)^Usage: knot (.*)$", shown)[1]
    text = head("knot", 1, "knot and seek")
    text += f".SH NAME\nknot \\- decides whether knots and links are the same, with evidence\n.SH SYNOPSIS\n\\fBknot\\fR {escaped(usage)}\n"
    text += f".SH DESCRIPTION\n{inline(about)} The input of a job comes from standard input.\n" + roff(section(document("docs", "GUIDE.md"), "Grids"))
    text += ".PP\nA diagram is a grid, or a braid word, which means its closure: the number of strands and the letters, as\n"
    text += "\n".join(block(["braid 2 1 1 1"])) + "\n.PP\nAll texts are described in\n.BR knot\\-formats (5).\n"
    text += ".SH JOBS\n" + roff(table_after(readme, "job"))
    text += ".SH OPTIONS\n" + roff(table_after(section(document("docs", "FORMATS.md"), "The command line"), "option"))
    text += ".SH EXIT STATUS\n" + roff(table_after(readme, "status"))
    text += ".SH EXAMPLES\n.PP\nIs the evidence in a file right?\n" + "\n".join(block(["knot check < certificate.txt"]))
    text += "\n.PP\nCompare the two diagrams in a file, and check the answer:\n"
    text += "\n".join(block(["knot decide < problem.txt > verdict.txt", "cat problem.txt verdict.txt | knot check"])) + "\n"
    return text + ".SH SEE ALSO\n.BR seek (1),\n.BR knot\\-formats (5)\n"


def checker_page():
    about = section(document("docs", "GUIDE.md"), "The separate checker").strip().split("\n\n")[0].replace("`knot_check`", "`knot-check`")
    statuses = table_after(document("README.md"), "status")
    text = head("knot-check", 1, "knot and seek")
    text += ".SH NAME\nknot\\-check \\- checks evidence that two knots or links are the same, or differ\n.SH SYNOPSIS\n\\fBknot\\-check\\fR < INPUT\n"
    text += ".SH DESCRIPTION\n" + roff(about) + ".SH EXIT STATUS\n" + roff(statuses_of_checker(statuses))
    return text + ".SH SEE ALSO\n.BR knot\\-formats (5)\n"


def statuses_of_checker(statuses):
    """The rows of a table of statuses with which the separate checker ends."""
    return "".join(line for line in statuses.splitlines(keepends=True) if not re.match(r"\| (1|10|127) ", line))


def seek_page():
    shown = document("examples", "seek", "help.out")
    usage = re.search(r"(?m)^Usage: seek (.*)$", shown)[1]
    guide = section(document("docs", "GUIDE.md"), "Are these two the same?").split("\n### ")[0].replace("./seek", "seek").replace("./knot", "knot")
    text = head("seek", 1, "knot and seek")
    text += f".SH NAME\nseek \\- seeks evidence that two knots or links are the same, or differ\n.SH SYNOPSIS\n\\fBseek\\fR {escaped(usage)}\n"
    text += f".SH DESCRIPTION\n{inline(shown.splitlines()[0])}\n" + roff(paragraphs(help_after(shown, "A PROBLEM is", "\nWhat is written")))
    text += ".SH OPTIONS\n" + tagged(help_options(help_part(shown, "Options:")) + help_options(help_part(further_help(), "Options of the launcher")))
    text += ".SH EXIT STATUS\n" + roff(paragraphs(help_after(shown, "What is written", None)))
    text += ".SH EXAMPLES\n" + roff(guide)
    return text + ".SH SEE ALSO\n.BR knot (1),\n.BR knot\\-formats (5)\n"


def help_after(text, first, last):
    """The part of a help from these words up to others, or to the end."""
    if first not in text or last and last not in text:
        raise calls.Fault(f"the help of seek has no part '{first}', which a manual page is made from")
    return text[text.index(first):text.index(last) if last else None]


def paragraphs(text):
    """A text with lines that are broken by its width as paragraphs; indented lines stay as they are."""
    found = []
    for line in text.splitlines():
        if line.startswith("    ") or not line:
            found += ["", line] if found and found[-1] and not found[-1].startswith("    ") else [line]
        elif found and found[-1] and not found[-1].startswith("    "):
            found[-1] += f" {line}"
        else:
            found += ["", line]
    return "\n".join(found)


def formats_page():
    text = document("docs", "FORMATS.md")
    title, rest = text.split("\n", 1)
    if not title.startswith("# "):
        raise calls.Fault("docs/FORMATS.md doesn't begin with a title")
    body = roff(rest, is_whole=True)
    first = body.index(".SH ")
    return (head("knot-formats", 5, "Texts of knot and seek") + ".SH NAME\nknot\\-formats \\- the texts that knot and seek read and write\n.SH DESCRIPTION\n"
            + body[:first] + body[first:] + ".SH SEE ALSO\n.BR knot (1),\n.BR seek (1)\n")


def manual_page(made):
    return without_empty_paragraphs(made())


PAGES = {"knot.1": knot_page, "knot-check.1": checker_page, "seek.1": seek_page, "knot-formats.5": formats_page}


def main():
    parser = argparse.ArgumentParser(description=__doc__, formatter_class=argparse.RawDescriptionHelpFormatter)
    parser.add_argument("folder", nargs="?", metavar="FOLDER", help="where the pages go")
    parser.add_argument("--print", choices=PAGES, metavar="PAGE", help=f"only this page: {', '.join(PAGES)}")
    words = parser.parse_args()
    if bool(words.folder) == bool(words.print):
        parser.error("a folder or --print is due")
    if words.print:
        calls.put(None, manual_page(PAGES[words.print]))
        return
    if not os.path.isdir(words.folder):
        parser.error(f"there is no folder {words.folder}")
    for name, made in PAGES.items():
        calls.put(os.path.join(words.folder, name), manual_page(made))


if __name__ == "__main__":
    calls.run("man.py", main)
