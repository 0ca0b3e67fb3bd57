"""Random changes of the examples: a case is made from a seed and its number alone, so it can be made again."""
import os
import random
import re
from glob import glob

SPELLINGS = [b"00", b"+1", b"-1", b"-0", b"--1", b"1.0", b"0x1", b"1e1", b"", b"a", b"X", b"-", b"\xff", b"\x00", b"#",
             b"999999999", b"1000000000", b"4294967296", b"18446744073709551616", b"65536", b"65537", b"256", b"255", b"24", b"16", b"17", b"48", b"49", b"32", b"33"]
WORDS = [b"x", b"o", b"braid", b"quandle", b"trivial", b"dihedral", b"tetrahedral", b"alexander", b"table", b"moves", b"shift", b"exchange",
         b"slide", b"stabilise", b"destabilise", b"columns", b"rows", b"lowleft", b"highright", b"colours", b"equal", b"different", b"list",
         b"unknown", b"budget", b"exhausted", b"certificate", b"weight"]
CORNERS = ["lowleft", "lowright", "highleft", "highright"]


def read(path):
    with open(path, "rb") as file:
        return file.read()


def examples(folder, jobs):
    """All examples of some jobs as (name, job, further words, text), and after them what `decide` answers, after its problem."""
    found = []
    for path in sorted(glob(os.path.join(folder, "*", "*.txt"))):
        job, stem = os.path.basename(os.path.dirname(path)), path[:-4]
        name = f"{job}/{os.path.basename(stem)}"
        if job == "batch":
            found.append((name, b"check", [], read(path)))
        elif job.encode() in jobs:
            further = read(stem + ".args").split() if os.path.exists(stem + ".args") else []
            found.append((name, job.encode(), further, read(path)))
            if job == "decide":
                found.append((name + " answered", b"check", [], read(path) + read(stem + ".out")))
    return found


# ---------------------------------------------------------------- whole items

def random_grid(dice, size=None):
    size = size or dice.choice([2, 2, 3, 3, 4, 4, 5, 5, 6, 7, 8, 12, 24, 48])
    xs, os_ = list(range(size)), list(range(size))
    dice.shuffle(xs)
    while True:
        dice.shuffle(os_)
        if size > 10:
            # By chance a large one seldom comes right.
            os_ = xs[1:] + xs[:1]
        if all(x != o for x, o in zip(xs, os_)):
            return [spell("x", xs), spell("o", os_)]


def spell(*words):
    flat = []
    for word in words:
        flat += word if isinstance(word, list) else [word]
    return " ".join(map(str, flat)).encode()


def random_braid(dice):
    strands = dice.randint(1, 5)
    letters = [dice.choice([1, -1]) * dice.randint(1, strands - 1) for _ in range(dice.randint(0, 8))] if strands > 1 else []
    return [spell("braid", strands, letters)]


def random_quandle(dice, word="quandle"):
    name = dice.choice(["trivial", "dihedral", "tetrahedral", "alexander", "table"])
    order = dice.randint(1, 5) if dice.random() < 0.8 else dice.randint(1, 32)
    if name == "tetrahedral":
        return [spell(word, name)]
    if name == "alexander":
        return [spell(word, name, order, dice.randint(0, order))]
    if name == "table":
        table = [[(2 * y - x) % order for y in range(order)] for x in range(order)]
        if dice.random() < 0.3:
            table[dice.randrange(order)][dice.randrange(order)] = dice.randint(0, order)
        return [spell(word, name, order), *(spell(row) for row in table)]
    return [spell(word, name, order)]


def random_move(dice):
    number = dice.randint(0, 6)
    way = dice.choice(["columns", "rows"])
    return dice.choice([
        spell("shift", way, number), spell("exchange", way, number), spell("slide", way, number),
        spell("stabilise", number, dice.choice("xo"), dice.choice(CORNERS)),
        spell("destabilise", number, dice.randint(0, 6))])


# ---------------------------------------------------------------- changes of lines

def some_place(dice, lines):
    return dice.randrange(len(lines))


def duplicate_line(dice, lines, _others):
    place = some_place(dice, lines)
    lines.insert(dice.choice([place, some_place(dice, lines)]), lines[place])


def drop_line(dice, lines, _others):
    del lines[some_place(dice, lines)]


def swap_lines(dice, lines, _others):
    i, j = some_place(dice, lines), some_place(dice, lines)
    lines[i], lines[j] = lines[j], lines[i]


def foreign_line(dice, lines, others):
    lines.insert(dice.randint(0, len(lines)), dice.choice(others))


def replace_line(dice, lines, others):
    lines[some_place(dice, lines)] = dice.choice(others)


def empty_line(dice, lines, _others):
    lines.insert(dice.randint(0, len(lines)), dice.choice([b"", b" ", b"\t", b"# a remark", b"  #", b"\r", b" \t\r"]))


def split_line(dice, lines, _others):
    place = some_place(dice, lines)
    tokens = lines[place].split(b" ")
    cut = dice.randint(0, len(tokens))
    lines[place:place + 1] = [b" ".join(tokens[:cut]), b" ".join(tokens[cut:])]


def join_lines(dice, lines, _others):
    place = some_place(dice, lines)
    lines[place:place + 2] = [b" ".join(lines[place:place + 2])]


def change_token(change):
    """A change of one token of a line."""
    def changed(dice, lines, others):
        place = some_place(dice, lines)
        tokens = lines[place].split(b" ")
        tokens = change(dice, tokens, others)
        lines[place] = b" ".join(tokens)
    return changed


def number_token(dice, tokens, _others):
    places = [place for place, token in enumerate(tokens) if token.lstrip(b"-").isdigit()]
    if places:
        place = dice.choice(places)
        number = int(tokens[place].lstrip(b"-")[:18])
        tokens[place] = str(dice.choice([number + 1, number - 1, number + 1, number - 1, number * 10, -number, dice.randint(0, 30), 0])).encode()
    return tokens


def spelled_token(dice, tokens, _others):
    tokens[dice.randrange(len(tokens))] = dice.choice(SPELLINGS)
    return tokens


def word_token(dice, tokens, _others):
    tokens[dice.randrange(len(tokens))] = dice.choice(WORDS)
    return tokens


def foreign_token(dice, tokens, others):
    tokens[dice.randrange(len(tokens))] = dice.choice(dice.choice(others).split(b" "))
    return tokens


def insert_token(dice, tokens, others):
    tokens.insert(dice.randint(0, len(tokens)), dice.choice(dice.choice(others).split(b" ")))
    return tokens


def drop_token(dice, tokens, _others):
    del tokens[dice.randrange(len(tokens))]
    return tokens


def swap_tokens(dice, tokens, _others):
    i, j = dice.randrange(len(tokens)), dice.randrange(len(tokens))
    tokens[i], tokens[j] = tokens[j], tokens[i]
    return tokens


def wide_blanks(dice, tokens, _others):
    place = dice.randrange(len(tokens))
    tokens[place] = dice.choice([b" ", b"\t", b" \t "]) + tokens[place] + dice.choice([b"", b" ", b"\t", b"\r"])
    return tokens


def fresh_diagram(dice, lines, _others):
    """Another diagram in the place of one."""
    places = [place for place, line in enumerate(lines) if line.startswith((b"x ", b"braid"))]
    if places:
        place = dice.choice(places)
        lines[place:place + (2 if lines[place].startswith(b"x") else 1)] = dice.choice([random_grid, random_grid, random_braid])(dice)


def fresh_size(dice, lines, _others):
    """Another diagram of the same size in the place of one."""
    places = [place for place, line in enumerate(lines) if line.startswith(b"x ") and 2 <= len(line.split()) - 1 <= 48]
    if places:
        place = dice.choice(places)
        lines[place:place + 2] = random_grid(dice, len(lines[place].split()) - 1)


def fresh_quandle(dice, lines, _others):
    places = [place for place, line in enumerate(lines) if line.startswith((b"quandle", b"different"))]
    if places and dice.random() < 0.8:
        place = dice.choice(places)
        lines[place:place + 1] = random_quandle(dice, "quandle" if lines[place].startswith(b"quandle") else "different")
    else:
        place = dice.randint(0, len(lines))
        lines[place:place] = random_quandle(dice)


def fresh_move(dice, lines, _others):
    places = [place for place, line in enumerate(lines) if line.startswith((b"shift", b"exch", b"slide", b"stab", b"dest"))]
    if places:
        lines[dice.choice(places)] = random_move(dice)


def further_move(dice, lines, _others):
    """One move more, or one less, and their number with it."""
    heads = [place for place, line in enumerate(lines) if re.match(rb"(moves|equal) [0-9]{1,9}$", line)]
    if heads:
        head = dice.choice(heads)
        number = min(int(lines[head].split()[1]), len(lines) - head - 1)
        place = head + 1 + dice.randint(0, number)
        if number and dice.random() < 0.3:
            del lines[min(place, head + number)]
            number -= 1
        else:
            lines.insert(place, random_move(dice))
            number += 1
        lines[head] = lines[head].split()[0] + b" " + str(number).encode()


LINE_CHANGES = [duplicate_line, drop_line, swap_lines, foreign_line, replace_line, empty_line, split_line, join_lines]
TOKEN_CHANGES = [change_token(change) for change in (
    number_token, number_token, number_token, spelled_token, word_token, foreign_token, insert_token, drop_token, swap_tokens, swap_tokens, wide_blanks)]
GENTLE = [fresh_diagram, fresh_size, fresh_quandle, fresh_move, further_move, further_move, empty_line, change_token(swap_tokens)]


# ---------------------------------------------------------------- changes of bytes

def alter_byte(dice, text):
    place = dice.randrange(len(text))
    text[place] = dice.choice([dice.randrange(256), dice.choice(b"0123456789 \n\t\r#-x"), text[place] ^ (1 << dice.randrange(8))])


def insert_byte(dice, text):
    text.insert(dice.randint(0, len(text)), dice.choice([dice.randrange(256), dice.choice(b"0123456789 \n\t\r#-\x00")]))


def delete_byte(dice, text):
    del text[dice.randrange(len(text))]


def cut_front(dice, text):
    del text[dice.randrange(len(text)):]


def cut_middle(dice, text):
    place = dice.randrange(len(text))
    del text[place:place + dice.randint(1, 20)]


def double_middle(dice, text):
    place = dice.randrange(len(text))
    piece = text[place:place + dice.randint(1, 40)]
    text[place:place] = piece


def carriage_returns(_dice, text):
    text[:] = text.replace(b"\n", b"\r\n")


def mark_in_front(_dice, text):
    text[:0] = b"\xef\xbb\xbf"


BYTE_CHANGES = [alter_byte, alter_byte, insert_byte, delete_byte, cut_front, cut_middle, double_middle, carriage_returns, mark_in_front]


# ---------------------------------------------------------------- a case

def changed_words(dice, words):
    """Mostly the words as they are; else options in all spellings."""
    if dice.random() < 0.9:
        return words
    words = list(words)
    for _ in range(dice.randint(1, 3)):
        words.insert(dice.randint(0, len(words)), dice.choice([
            b"--workers=8", b"--workers=64", b"--workers=65", b"--workers=+008", b"--budget=2", b"--budget=50", b"--budget=1000", b"--budget=1",
            b"--spare=0", b"--spare=-0", b"--spare=2", b"--spare=5", b"--seed=7", b"--seed=-0", b"--seed=18446744073709551615",
            b"--", b"--help", b"-h", b"--work=8", b"check", b"", b"-", b"\xff", b"--seed", b"--spare"]))
    return words


def make(seed, number, bases, lines_of_all):
    """The case of this number: the words, and the input."""
    dice = random.Random(f"{seed} {number}")
    _, job, further, text = bases[number % len(bases)]
    if dice.random() < 0.05:
        job = dice.choice(bases)[1]
    text = bytearray(text)
    # Half of the cases keep the form, so that answers of the jobs themselves are compared often enough.
    is_gentle = dice.random() < 0.5
    for _ in range(dice.choice([1, 1, 1, 2, 2, 3, 5])):
        kind = dice.random()
        if is_gentle and kind < 0.05:
            carriage_returns(dice, text)
        elif not is_gentle and kind < 0.4:
            if text:
                dice.choice(BYTE_CHANGES)(dice, text)
        else:
            changes = GENTLE if is_gentle else TOKEN_CHANGES if kind < 0.75 else LINE_CHANGES
            lines = bytes(text).split(b"\n")
            dice.choice(changes)(dice, lines, lines_of_all)
            text = bytearray(b"\n".join(lines))
    return changed_words(dice, [job, *further]), bytes(text)
