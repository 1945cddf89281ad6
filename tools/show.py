"""The listing for people: a filter that tells each line of the listing in words, as soon as the line is there.

All that it says stands in the listing's own columns; the listing may be a wrong controller's, so nothing is taken to agree
with anything else. A line that it cannot read comes out as it is.

A line for a step is told in its first second: a new one where plan, step or lamps change, where `left` is not one less than
in the second before, and where a second is missing. An approach is told once a lamp of it has been lit, and then always, so
that one that goes dark is seen to. A reply is told frame by frame, with the noise before it, and so is a resend, which has none; if
not all of it is sound, the line follows as it is.

A cycle is drawn when it is over, the first time for each plan and then only where its lamps are others than those last
drawn for the plan. It begins with second 0, or with a step number lower than the one before, and is over when the next
begins; one with a second missing or with two plans in it is not drawn. The end of the input ends a cycle too if its last
second has 1 left in the step with which the plan's last whole cycle ended (plan 0's first: step 10); the caption says so.

The modules beside this one are found if this folder is on Python's path.
"""
import collections
import re
import types

from lamps import APPROACHES, MEN, VEHICLES, approach, lamp_words, picture
from words import reply_words

# 01's five steps of a phase; a plan has at most eight phases
STEPS = ("green", "walk flash", "red man", "yellow", "all-red")
MOST_STEPS = 8 * len(STEPS)
PLAN_0_STEPS = 2 * len(STEPS)

Second = collections.namedtuple("Second", "second plan step left steady flashing")
HEADER = "\t".join(Second._fields)
NUMBER = "(0|[1-9][0-9]{0,19})"  # as many digits as 64 bits can have
SECOND = re.compile("\t".join([NUMBER] * 4 + ["([0-9A-Fa-f]{16})"] * 2))
OCTETS = "([0-9A-Fa-f]{2}(?: [0-9A-Fa-f]{2})*)"
REPLY = re.compile("reply\t" + OCTETS + "\t" + NUMBER)
AGAIN = re.compile("again\t" + OCTETS)
BAD = re.compile("bad\t" + NUMBER)
COLUMNS = "%11s %4s  %-13s %5s %5s  %s  %s"
VEHICLES_WIDTH = 43  # "A green: straight, right; B yellow; C D red"
WIDTH = 120  # of the lines of a reply


def read_second(line):
    """The columns of a second's line, or None."""
    found = SECOND.fullmatch(line)
    if not found:
        return None
    return Second(*[int(text) for text in found.groups()[:4]], *[int(text, 16) for text in found.groups()[4:]])


def is_listed(line):
    """Whether a line is one of a listing, and not of an input."""
    return line == HEADER or read_second(line) is not None or bool(REPLY.fullmatch(line) or AGAIN.fullmatch(line) or BAD.fullmatch(line))


def lit(row):
    """The approaches with a lamp lit, each a bit."""
    return sum(1 << i for i in range(len(APPROACHES)) if approach(row.steady | row.flashing, i))


def told_lamps(words, row, used, colour):
    """The lamps of the used approaches that are told under these words; approaches that show the same stand together."""
    alike = {}
    for index, name in enumerate(APPROACHES):
        if used >> index & 1:
            text = lamp_words(words, approach(row.steady, index), approach(row.flashing, index), colour)
            alike.setdefault(text, []).append(name)
    return "; ".join("%s %s" % (" ".join(names), text) for text, names in alike.items()) or "dark"


def step_words(step):
    """A step with its name, and its phase."""
    if not 1 <= step <= MOST_STEPS:
        return "%2d no step" % step, "-"
    return "%2d %s" % (step, STEPS[(step - 1) % len(STEPS)]), (step - 1) // len(STEPS) + 1


def second_words(row, used, colour):
    step, phase = step_words(row.step)
    # the width is that of the words, not of what colours them
    gap = " " * (VEHICLES_WIDTH - len(told_lamps(VEHICLES, row, used, False)))
    vehicles, men = [told_lamps(words, row, used, colour) for words in (VEHICLES, MEN)]
    return COLUMNS % (row.second, row.plan, step, phase, row.left, vehicles + gap, men)


def header_words(seconds):
    first = "second" if seconds else "from second"
    return COLUMNS % (first, "plan", "step", "phase", "left", "vehicles".ljust(VEHICLES_WIDTH), "men")


def goes_on(before, row):
    """Whether a second is the next of the step before it."""
    return before is not None and row == before._replace(second=before.second + 1, left=before.left - 1)


def folded(head, texts):
    """A head and its texts as a line, or where that is too long as lines, of which all but the first are indented."""
    line, joint = head, ":"
    for text in texts:
        if len(line) + len(joint) + 1 + len(text) > WIDTH:
            yield line + joint
            line, joint = "    " + text, ";"
        else:
            line, joint = line + joint + " " + text, ";"
    yield line


def when(before):
    return "before the first second" if before is None else "after second %d" % before.second


def other_words(line, before):
    """What a line says that is no second's: a reply, a resend, a bad line, or what cannot be read."""
    bad, reply, again = BAD.fullmatch(line), REPLY.fullmatch(line), AGAIN.fullmatch(line)
    if bad:
        return ["%s: line %s of the input is neither a T nor a B line" % (when(before), bad.group(1))]
    if reply:
        return noise_words(int(reply.group(2)), before) + written_words(line, reply.group(1), when(before))
    if again:
        return written_words(line, again.group(1), when(before) + ", again")
    return [line]


def written_words(line, octets, lead):
    """The frames that a line has, each behind the lead; if not all of them are sound, the line follows."""
    frames, sound = reply_words([int(octet, 16) for octet in octets.split()])
    told = [text for head, texts in frames for text in folded("%s: %s" % (lead, head), texts)]
    return told if sound else told + [line]


def noise_words(octets, before):
    """What a reply's third field says: octets that belong to no sound frame, since the last one or the start."""
    return ["%s: noise on the line, %s" % (when(before), counted(octets, "octet"))] if octets else []


def counted(number, thing):
    return "%d %s" % (number, thing if number == 1 else thing + "s")


def drawn(state, cycle, ending, colour, columns):
    """The lines of a whole cycle's picture, none if it is not to be drawn."""
    if not cycle or len({row.plan for row in cycle}) > 1:
        return []
    plan, lamps = cycle[0].plan, [(row.steady, row.flashing) for row in cycle]
    state.last_step[plan] = cycle[-1].step
    if state.drawn.get(plan) == lamps:
        return []
    state.drawn[plan] = lamps
    caption = "Cycle of plan %d, seconds %d to %d%s" % (plan, cycle[0].second, cycle[-1].second, ending)
    return ["", *picture(caption, cycle[0].second, lamps, colour, columns), ""]


def cycle_ended(state, row):
    """Takes a second into the cycle under way, and gives the cycle that ended before it, if it is whole."""
    before, ended = state.before, None
    if row.second == 0:
        state.cycle = [row]
    elif before is None or row.second != before.second + 1:
        state.cycle = None
    elif row.step < before.step:
        ended, state.cycle = state.cycle, [row]
    elif state.cycle is not None:
        state.cycle.append(row)
    return ended


def show(lines, write, seconds=False, colour=False, columns=100):
    """Tells the listing's lines, texts without line ends, by handing lines of text to `write`. With `seconds` each second has
    its line; with `colour` lamps are coloured for a terminal; a picture has at most so many columns."""
    state = types.SimpleNamespace(before=None, used=0, headed=False, cycle=None, drawn={}, last_step={0: PLAN_0_STEPS})

    def write_all(texts):
        for text in texts:
            write(text)

    for line in lines:
        row = read_second(line)
        if line == HEADER or row and not state.headed:
            write(header_words(seconds))
            state.headed = True
        if row:
            write_all(drawn(state, cycle_ended(state, row), "", colour, columns))
            state.used |= lit(row)
            if seconds or not goes_on(state.before, row):
                write(second_words(row, state.used, colour))
            state.before = row
        elif line != HEADER:
            write_all(other_words(line, state.before))
    last = state.before
    if state.cycle and last.left == 1 and last.step == state.last_step.get(last.plan):
        write_all(drawn(state, state.cycle, ", where the input ends", colour, columns))
