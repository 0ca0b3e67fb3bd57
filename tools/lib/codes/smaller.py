"""Braid words made shorter by random changes. A shorter word is a proposal: nothing here shows that the closures are one link."""
from knot_workbench.diagrams import Braid

WORD_TURNS = 4000


def cancelled(letters):
    """A word without letters beside their negatives, also round the end."""
    kept = []
    for letter in letters:
        if kept and kept[-1] == -letter:
            kept.pop()
        else:
            kept.append(letter)
    while len(kept) > 1 and kept[0] == -kept[-1]:
        kept = kept[1:-1]
    return kept


def shrunk(strands, letters):
    """A word without the last strand or the first, where only one letter crosses it."""
    while strands > 1:
        sizes = [abs(letter) for letter in letters]
        if sizes.count(strands - 1) == 1:
            letters = [letter for letter in letters if abs(letter) != strands - 1]
        elif sizes.count(1) == 1:
            letters = [letter - 1 if letter > 0 else letter + 1 for letter in letters if abs(letter) != 1]
        else:
            break
        strands, letters = strands - 1, cancelled(letters)
    return strands, letters


def related(letters, dice):
    """The word after a relation of Artin at a random place that keeps its length, or after a turn."""
    place = dice.randrange(len(letters))
    word = letters[place:] + letters[:place]
    if len(word) > 2 and word[2] in (word[0], -word[0]) and abs(abs(word[0]) - abs(word[1])) == 1:
        a, b = word[:2]
        if word[2] == -a:
            return ([-b, a, b] if (a > 0) == (b > 0) else [b, -a, -b]) + word[3:]
        if (a > 0) == (b > 0):
            return [b, a, b] + word[3:]
    if len(word) > 1 and abs(abs(word[0]) - abs(word[1])) > 1:
        return [word[1], word[0]] + word[2:]
    return word


def reduced(braid, dice, turns=WORD_TURNS):
    """A braid of the same closure with fewer letters and strands, as far as random turns lead."""
    strands, letters = shrunk(braid.strands, cancelled(list(braid.letters)))
    for _ in range(turns):
        if len(letters) < 2:
            break
        strands, letters = shrunk(strands, cancelled(related(letters, dice)))
    return Braid(strands, tuple(letters))
