"""Two listings side by side. A mark stands between the two: `*` where the lines differ, `<` and `>` where one side has a line
and the other has none."""
import difflib
import itertools
import textwrap

# the equal lines that a short telling keeps before and after those that differ
NEAR = 2


def pairs(ours, theirs):
    """The lines of both, those that belong together beside each other; None where one side has none. Where there are as many of
    the one as of the other, each line of the input has brought one, and they belong together as they stand."""
    if len(ours) == len(theirs):
        yield from zip(ours, theirs)
        return
    for _, i, i_end, j, j_end in difflib.SequenceMatcher(None, ours, theirs, autojunk=False).get_opcodes():
        yield from itertools.zip_longest(ours[i:i_end], theirs[j:j_end])


def mark(left, right):
    if left == right:
        return " "
    return ">" if left is None else "<" if right is None else "*"


def column(line, width):
    """A line in a column of this width: its tabs are blanks, and a long one goes on below, indented."""
    return textwrap.wrap((line or "").replace("\t", " "), width, subsequent_indent="    ") or [""]


def lines_beside(left, right, width):
    between = mark(left, right)
    for a, b in itertools.zip_longest(column(left, width), column(right, width), fillvalue=""):
        yield ("%s %s %s" % (a.ljust(width), between, b)).rstrip()


def near(rows):
    """For each row whether it differs, or stands near one that does."""
    found = [False] * len(rows)
    for at, (left, right) in enumerate(rows):
        if left != right:
            for other in range(max(0, at - NEAR), min(len(rows), at + NEAR + 1)):
                found[other] = True
    return found


def beside(ours, theirs, heads, width, short=False):
    """The lines of the telling. `width` is that of all of it; `short` leaves out what is the same on both sides and stands
    near no difference."""
    half = (width - 3) // 2
    rows = list(pairs(ours, theirs))
    yield heads[0].ljust(half + 3) + heads[1]
    left_out = 0
    for (left, right), kept in zip(rows, near(rows)):
        if short and not kept:
            left_out += 1
            continue
        if left_out:
            yield ".. %d lines that are the same" % left_out
            left_out = 0
        yield from lines_beside(left, right, half)
    if left_out:
        yield ".. %d lines that are the same" % left_out
    yield "%d of %d lines differ" % (sum(left != right for left, right in rows), len(rows))
