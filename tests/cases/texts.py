"""Odd forms of texts, many of which still mean the same, and long lines."""
from .inputs import GOOD, Case, jobs

# So many of the examples of a job are tried in odd forms.
MOST = 4
ODD_BYTES = (("nul", b"\x00"), ("mark", b"\xef\xbb\xbf"), ("wide mark", b"\xff\xfe"), ("form feed", b"\x0c"), ("vertical tab", b"\x0b"),
             ("hard blank", b"\xc2\xa0"), ("next line", b"\x85"), ("escape", b"\x1b"), ("delete", b"\x7f"), ("end of file", b"\x1a"))


def odd_line_ends(text):
    """Carriage returns, and line feeds too few or too many."""
    yield "crlf", text.replace(b"\n", b"\r\n")
    yield "two returns", text.replace(b"\n", b"\r\r\n")
    yield "returns alone", text.replace(b"\n", b"\r")
    yield "return before", text.replace(b"\n", b"\n\r")
    yield "one return at the end", text.rstrip(b"\n") + b"\r"
    yield "a return alone behind", text + b"\r"
    yield "two returns behind", text + b"\r\r"
    yield "no line feed", text.rstrip(b"\n")
    yield "line feeds behind", text + b"\n" * 1000
    yield "line feeds before", b"\n" * 1000 + text


def odd_blanks(text):
    """Tabs and blanks, also before and after lines."""
    yield "tabs", text.replace(b" ", b"\t")
    yield "many tabs", text.replace(b" ", b" \t \t ")
    yield "blanks before", b"".join(b" \t" + line for line in text.splitlines(True))
    yield "blanks behind", text.replace(b"\n", b" \t \n")
    yield "blanks and a return behind", text.replace(b"\n", b" \r\n")
    yield "a return and blanks behind", text.replace(b"\n", b"\r \n")


def odd_remarks(text):
    """Remarks with odd bytes, within a line, and without an end."""
    yield "remarks between", text.replace(b"\n", b"\n# a remark \xff\x00\r\n \t#\n")
    yield "a remark in a line", text.replace(b"\n", b" # a remark\n", 1)
    yield "a remark without end", text + b"# a remark"


def with_odd_byte(text, name, mark):
    """A byte, or a few, in all kinds of places."""
    yield name + " before", mark + text
    yield name + " behind", text + mark
    yield name + " behind a line feed", text + mark + b"\n"
    yield name + " in a line", text.replace(b" ", mark, 1)
    yield name + " in a line and a blank", text.replace(b" ", b" " + mark, 1)
    yield name + " at a line's end", text.replace(b"\n", mark + b"\n", 1)
    yield name + " in a remark", b"# " + mark + b"\n" + text
    yield name + " alone in a line", text.replace(b"\n", b"\n" + mark + b"\n", 1)


def other_texts(text):
    """Texts of which little or nothing is the same."""
    yield "capitals", text.upper()
    yield "nothing", b""
    yield "a line feed", b"\n"
    yield "a return", b"\r"
    yield "nuls", b"\x00" * 1000
    yield "all bytes", bytes(range(256))
    yield "twice", text + text
    yield "utf-16", text.decode().encode("utf-16")


def odd_texts(text):
    """One text in odd forms."""
    yield from odd_line_ends(text)
    yield from odd_blanks(text)
    yield from odd_remarks(text)
    for name, mark in ODD_BYTES:
        yield from with_odd_byte(text, name, mark)
    yield from other_texts(text)


def long_lines(text, size):
    """One text with lines, blanks, numbers or words of so many bytes, or so many of them."""
    yield "a long remark before", b"#" + b"a" * size + b"\n" + text
    yield "a long remark behind", text + b"#" * size
    yield "long blanks before", b" " * size + text
    yield "long blanks behind", text.rstrip(b"\n") + b"\t" * size + b"\n"
    yield "long blanks between", text.replace(b" ", b" " * size, 1)
    yield "a long number", text.rstrip(b"\n") + b" " + b"1" * size
    yield "long zeros", text.replace(b" ", b" " + b"0" * size, 1)
    yield "a long word", b"x" * size + b"\n" + text
    yield "many numbers", text.replace(b"\n", b" 1" * (size // 2) + b"\n", 1)
    yield "many numbers behind", text.rstrip(b"\n") + b" 1" * (size // 2)
    yield "many numbers and a word", text.replace(b"\n", b" 1" * (size // 2) + b" a\n", 1)
    yield "many line feeds", b"\n" * size + text
    yield "many returns", b"\r" * size + text
    yield "many short lines", b"#\r\n" * (size // 3) + text
    yield "many nuls", b"\x00" * size + b"\n" + text


def texts(bases):
    """Examples of each job in odd forms, and inputs with long lines."""
    seen = {}
    for name, job, further, text in bases:
        seen[job] = seen.get(job, 0) + 1
        if seen[job] <= MOST:
            for odd, changed in odd_texts(text):
                yield Case("texts", f"{name}: {odd}", [job, *further], changed)
    # The shorter ones are within the limit of bytes of every job.
    for job in jobs():
        for size in (10_000_000, 1_000_000):
            for odd, changed in long_lines(GOOD[job], size):
                yield Case("texts", f"{job.decode()}: {odd}, {size}", [job], changed)
