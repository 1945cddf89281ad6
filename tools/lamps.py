"""Lamps in words and a cycle as a picture, by document 01, "Lamps and seconds".

An approach is two octets, its steady lamps and its flashing ones; from the words they can be told again exactly.
"""
import functools
import re

APPROACHES = "ABCDEFGH"
# The lamps of an approach, lowest bit first: the word it is told under and, of the four greens, which it is.
LAMPS = (
    ("red", ""),
    ("yellow", ""),
    ("green", "left"),
    ("green", "round"),
    ("green", "straight"),
    ("green", "right"),
    ("red man", ""),
    ("green man", ""),
)
VEHICLES, MEN = ("red", "yellow", "green"), ("red man", "green man")
BITS = {word: sum(1 << bit for bit, (told, _) in enumerate(LAMPS) if told == word) for word in VEHICLES + MEN}
# how a colour is told to a terminal: as the colour of words and as that of a picture's cells
HUES = {"red": ("31", "30;41"), "yellow": ("33", "30;43"), "green": ("32", "30;42")}

# The letters of a picture; of each list the first whose lamps are all lit. The second letter is for lamps of which one only
# flashes, the last column is the colour of the cell.
VEHICLE_LETTERS = (
    ("Y", "y", "yellow", ("yellow",), "yellow"),
    ("B", "b", "red and green both", ("red", "green"), ""),
    ("G", "g", "green", ("green",), "green"),
    ("R", "r", "red", ("red",), "red"),
    ("-", "-", "dark", (), ""),
)
MEN_LETTERS = (
    ("B", "b", "both men", ("red man", "green man"), ""),
    ("W", "w", "walk", ("green man",), "green"),
    (".", ",", "red man", ("red man",), "red"),
    ("-", "-", "dark", (), ""),
)
LABEL = 7  # "A men  "
LEAST_BAR = 10


def approach(word, index):
    """The octet of an approach in a lamp word."""
    return word >> 8 * index & 0xFF


def painted(text, hue, cell=False):
    return "\033[%sm%s\033[0m" % (HUES[hue][cell], text) if hue else text


def lit_words(word, octet, mark):
    """The lamps of an octet that are told under a word: one text, or none. Round green alone is plain green."""
    which = [name for bit, (told, name) in enumerate(LAMPS) if told == word and octet >> bit & 1]
    if not which:
        return []
    return [word + mark] if which[0] in ("", "round") and len(which) == 1 else [word + mark + ": " + ", ".join(which)]


@functools.lru_cache(maxsize=None)
def lamp_words(words, steady, flashing, colour=False):
    """The lamps of an approach that are told under these words. One that is steady and flashing at once is told as both."""
    texts = []
    for word in words:
        lit = lit_words(word, steady, "") + lit_words(word, flashing, " flashing")
        texts += [painted(text, word.split()[0] if colour else "") for text in lit]
    return ", ".join(texts) or "dark"


@functools.lru_cache(maxsize=None)
def letter(letters, steady, flashing):
    """The letter of a picture for the lamps of an approach."""
    for plain, small, _, words, _ in letters:
        if all((steady | flashing) & BITS[word] for word in words):
            return plain if all(steady & BITS[word] for word in words) else small


def bar(letters, lamps, index, per):
    """A bar of letters, one for `per` seconds: the first second's, but yellow if any of them is, so that no yellow is lost."""
    cells = [letter(letters, approach(steady, index), approach(flashing, index)) for steady, flashing in lamps]
    yellow = "Yy" if letters is VEHICLE_LETTERS else ""
    columns = [cells[at:at + per] for at in range(0, len(cells), per)]
    return "".join(([cell for cell in column if cell in yellow] or column)[0] for column in columns)


def painted_bar(letters, cells):
    hues = {name: row[4] for row in letters for name in row[:2]}
    return "".join(painted(run.group(), hues[run.group()[0]], True) for run in re.finditer(r"(.)\1*", cells))


def legend(letters, cells):
    """The letters that stand in the cells, with their meaning."""
    told = []
    for plain, small, words, _, _ in letters:
        told += ["%s %s" % (plain, words)] if plain in cells else []
        told += ["%s %s flashing" % (small, words)] if small in cells and small != plain else []
    return ", ".join(told)


def ruler(first, count, per):
    """A mark at every tenth column, or every twentieth and so on where the numbers are long, with its second behind it; at
    the end the mark alone where the number has no room."""
    last = "|%d " % (first + (count - 1) * per)
    every = 10 * (1 + (len(last) - 1) // 10)
    marks = ""
    for at in range(0, count, every):
        mark = "|%d" % (first + at * per)
        marks = marks.ljust(at) + (mark if at == 0 or at + len(mark) <= count else "|")
    return marks


def picture(caption, first, lamps, colour, columns):
    """The lines of a picture. `lamps` has a pair of lamp words for each second from `first` on."""
    room = max(LEAST_BAR, columns - LABEL)
    per = -(-len(lamps) // room)
    lit = 0
    for steady, flashing in lamps:
        lit |= steady | flashing
    used = [index for index in range(len(APPROACHES)) if approach(lit, index)]
    lines, seen = [], {VEHICLE_LETTERS: "", MEN_LETTERS: ""}
    for index in used:
        for letters, label in ((VEHICLE_LETTERS, "%s"), (MEN_LETTERS, "%s men")):
            cells = bar(letters, lamps, index, per)
            seen[letters] += cells
            lines.append((label % APPROACHES[index]).ljust(LABEL) + (painted_bar(letters, cells) if colour else cells))
    scale = "one column a second" if per == 1 else "one column for %d seconds" % per
    top = ["%s, %s" % (caption, scale), " " * LABEL + ruler(first, -(-len(lamps) // per), per)]
    if not used:
        return top + ["all dark"]
    vehicles, men = [legend(letters, cells) for letters, cells in seen.items()]
    return top + lines + ["%s; men: %s" % (vehicles, men)]
