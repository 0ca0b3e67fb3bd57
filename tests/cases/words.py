"""Words of the command line: numbers in all spellings, options in all places, no words and words that aren't UTF-8."""
import random

import reader

from .inputs import GOOD, TREFOIL, Case, jobs

DECIDE = b"decide"
NOT_UTF8 = (b"\xff", b"\xc3", b"\xed\xa0\x80", b"\xc0\x80", b"\xf4\x90\x80\x80", b"\xfe\xff", b"decide\xff", b"--spare=\xff", b"--\xff")
# Python starts no program by an empty name.
NAMES = (b"-", b"--", b"decide", b"--help", b"a b", b"\xc3\xa9", b"k" * 100_000, b"\xff", b"knot\xff", b"\xc3", b"\xed\xa0\x80")


def spellings(least, most):
    """Numbers at and beyond the bounds, and all ways to spell one that FORMATS.md tells, with others."""
    numbers = [least - 1, least, least + 1, most - 1, most, most + 1, 10 * most, 2**31, 2**32, 2**63, 2**64, 2**128]
    return [*(str(number) for number in numbers if number >= 0), *odd_spellings(str(max(least, 2)))]


def odd_spellings(one):
    """A number in odd forms, and what is none."""
    return ["+" + one, "0" + one, "000" + one, "+000" + one, "0" * 1000 + one, "+" + "0" * 100 + one, "++" + one, "-" + one, "+-" + one, "-+" + one,
            " " + one, one + " ", "\t" + one, one + "\n", "1_0", "1,0", "1.0", "1e1", "0x2", "0b1", "0o1", "", "+", "-", "0", "00", "+0", "-0", "-00",
            "-000", "+00", "--0", "-0 ", "-01", "-1", "two", "２", "٢", "NaN", "inf", "9" * 100, "1" + "0" * 10_000, "\u00a02", "2\u200b"]


def values_of(name, least, most, using):
    """An option with a number in each spelling, before and after the job, and beside a job that has no use for it."""
    option = b"--" + name
    for spelling in spellings(least, most):
        value = spelling.encode()
        yield [using, option + b"=" + value]
        yield [option + b"=" + value, using]
        yield [using, option, value]
        yield [option, value, using]
        yield [b"code", option + b"=" + value]


def options_twice(option, good, using):
    """An option without a value, and one that is given twice."""
    yield [using, option]
    yield [option, using]
    yield [using, option + b"="]
    yield [using, option, good, option, good]
    yield [using, option + b"=" + good, option + b"=" + good]
    yield [using, option, good, option + b"=" + good]
    yield [option, good, using, option, good]


def options_misspelt(name, good, using):
    """An option whose name is short, in capitals or without its dashes, or that is put together otherwise."""
    option = b"--" + name
    yield [using, option[:-1], good]
    yield [using, option[:6] + b"=" + good]
    yield [using, option.upper(), good]
    yield [using, option[1:], good]
    yield [using, option[1:3], good]
    yield [using, option + b" " + good]
    yield [using, option, b"=", good]
    yield [using, b"---" + name, good]


def options_and_dashes(option, good, using):
    """An option before and after the word `--`."""
    yield [b"--", using, option, good]
    yield [option, good, b"--", using]
    yield [option, b"--", good, using]
    yield [using, option, b"--", good]
    yield [using, b"--", option + b"=" + good]


def single_options():
    """Each option alone, in all these ways."""
    for name, (least, most, _) in reader.OPTIONS.items():
        using, good = b"sample" if name == b"seed" else DECIDE, str(max(least, 2)).encode()
        yield from values_of(name, least, most, using)
        yield from options_twice(b"--" + name, good, using)
        yield from options_misspelt(name, good, using)
        yield from options_and_dashes(b"--" + name, good, using)


def all_options():
    """All options, on all sides of the job."""
    every = [b"--workers=8", b"--budget", b"50", b"--spare=0", b"--seed", b"9"]
    yield [*every, DECIDE]
    yield [DECIDE, *every]
    yield [*every[:3], DECIDE, *every[3:]]
    yield [*every, b"--", DECIDE]
    yield [*every, b"--spare=0", DECIDE]


def few_words():
    """No word, empty words, dashes, help, jobs that are none, and words too many."""
    job = DECIDE
    yield from ([], [b""], [b"", job], [job, b""], [b"--"], [b"--", b"--"], [b"--", b"--", job], [b"--", job, b"--"], [job, b"--"], [b"--", job],
                [job, b"--", b"--"], [job, job], [job, b"check"], [b"-"], [job, b"-"], [b"-", job], [b"---"], [b"help"], [b"--help"], [b"-h"],
                [job, b"--help"], [b"--help", job], [job, b"-h"], [b"-h", job], [b"--", b"--help"], [b"help", job], [b"--version"], [b"-V"],
                [b"version"], [b"Decide"], [b"DECIDE"], [b"decid"], [b"decides"], [b" decide"], [b"decide "], [b"decide\n"], [b"decid\xc3\xa9"],
                [b"simplify"], [b"-v", job], [job, b"extra"], [job, b"--colour"], [b"--decide"], [b"-w", b"8", job], [b"-w8", job],
                [b"--help=1", job], [b"--=1", job], [b"--=", job], [b"=", job], [b"--spare=1=1", job], [b"--spare==1", job])


def long_words():
    """Long words, and many of them."""
    yield [DECIDE * 20_000]
    yield [DECIDE, b"--spare=" + b"0" * 120_000 + b"1"]
    yield [DECIDE, b"--" + b"a" * 120_000]
    yield [DECIDE] * 20_000
    yield [DECIDE, *[b"--spare=1"] * 10_000]
    yield [b"--"] * 10_000


def word_lists():
    """All lists of words that are tried, but for random ones."""
    yield from single_options()
    yield from all_options()
    yield from few_words()
    yield from long_words()
    for bad in NOT_UTF8:
        yield from ([bad], [DECIDE, bad], [bad, DECIDE], [b"--", DECIDE, bad], [DECIDE, b"--spare", bad], [b"--help", bad], [bad, b"--help"])
    for name in reader.JOBS:
        yield [name]
        yield [b"--seed=1", name]


def input_for(given):
    """An input for the job that these words name, or for decide."""
    return GOOD[next((word for word in given if word in GOOD), DECIDE)]


def words():
    """Lists of words, names of the program, and a call without any word."""
    for number, given in enumerate(word_lists()):
        yield Case("words", f"{number}", given, input_for(given))
    for number, name in enumerate(NAMES):
        for given in ([b"code"], [b"check"], [], [b"--help"]):
            yield Case("words", f"name {number} {len(given)}", given, GOOD[given[0]] if given and given[0] in GOOD else b"", program_name=name)
    yield Case("words", "no words", [], TREFOIL, way="no words")


def random_words(seed, count):
    """Lists of words put together by chance."""
    dice = random.Random(f"{seed} words")
    pieces = [b"decide", b"check", b"code", b"sample", b"--", b"--workers", b"--budget", b"--spare", b"--seed", b"8", b"+2", b"02", b"-0", b"-1", b"0",
              b"--spare=0", b"--spare=-0", b"--budget=+0050", b"--workers=64", b"--workers=65", b"--seed=-0", b"--seed=7", b"", b"-", b"--help", b"x"]
    for number in range(count):
        given = [dice.choice(pieces) for _ in range(dice.randint(0, 5))]
        if dice.random() < 0.7:
            given.insert(dice.randint(0, len(given)), dice.choice(jobs()))
        yield Case("words", f"random {number}", given, input_for(given))
