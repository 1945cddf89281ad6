"""Replies in words: the frames that a controller wrote, by document 01, "Frames", "Replies" and "Messages".

Each field is told as it stands, in its range or not. Octets that are no sound frame are told as far as they go, with what is
wrong; they may be a wrong controller's.
"""
import collections
import functools
import operator

# LEN of each kind, shortest and longest
Kind = collections.namedtuple("Kind", "name shortest longest")
KINDS = {0xBB: Kind("message", 12, 266), 0xDD: Kind("ACK", 8, 8), 0xEE: Kind("NAK", 9, 9)}
UP_TO_LEN, CLOSING = 7, [0xAA, 0xCC]
LISTED_ADDRESS = 0x0001  # the listing program's own; another one is worth a word

REFUSALS = {
    1: "CKS wrong",
    2: "doubling or closing octets wrong",
    3: "LEN wrong",
    4: "INFO not 2 to 256 long",
    5: "field outside its range or code not listed",
    6: "fresh start with address FFFF",
    7: "state unsound",
    8: "plan book not 3,840 octets",
    9: "output too short",
    10: "code not handled",
    11: "INFO length wrong for its code",
    12: "field out of range",
    13: "plan not set, or not ready",
    14: "fields disagree",
    15: "sender busy",
    17: "T outside 1 to 60",
}
ERRS = {0x01: 1, 0x02: 2, 0x04: 3}  # the refusal that an ERR stands for

# A field is its name and its octets. `each` stands once for each phase, as many as the field `count` says.
Layout = collections.namedtuple("Layout", "before each after")
TIMES = Layout(
    (("plan", 1), ("count", 1)),
    (("minimum green", 1), ("maximum green", 2), ("yellow", 1), ("all-red", 1), ("walk flash", 1), ("red man", 1)),
    (),
)
GREENS = Layout(
    (("plan", 1), ("direct", 1), ("phase order", 1), ("count", 1)),
    (("green", 2),),
    (("cycle", 2), ("offset", 2)),
)
PLAN = Layout((("plan", 1),), (), ())
CARRIED_OUT, REFUSED = 0x0F80, 0x0F81
MESSAGES = {
    CARRIED_OUT: ("carried out", Layout((("code", 2),), (), ())),
    REFUSED: ("refused", Layout((("code", 2), ("error number", 1), ("parameter number", 1)), (), ())),
    0x5F14: ("set times", TIMES),
    0x5FC4: ("report times", TIMES),
    0x5F15: ("set greens and cycle", GREENS),
    0x5FC5: ("report greens and cycle", GREENS),
    0x5FC8: ("report running plan", GREENS),
    0x5F18: ("run plan", PLAN),
    0x5F44: ("query times", PLAN),
    0x5F45: ("query greens and cycle", PLAN),
    0x5F48: ("query running plan", Layout((), (), ())),
}
COUNTS = range(1, 9)
COUNT_WORDS = ("no", "one", "two", "three", "four", "five", "six", "seven", "eight")


class Unsound(Exception):
    """Octets whose frame has no end that can be found."""


def number(octets):
    return int.from_bytes(bytes(octets), "big")


def digits(octets):
    return " ".join("%02X" % octet for octet in octets)


def code_words(code):
    name = MESSAGES[code][0] if code in MESSAGES else "(no code of a message)"
    return "%s %s" % (digits(code.to_bytes(2, "big")), name)


def fields(layout, count):
    """Each field in order: its name, its phase or 0, its octets."""
    found = [(name, 0, size) for name, size in layout.before]
    found += [(name, phase, size) for phase in range(1, count + 1) for name, size in layout.each]
    return found + [(name, 0, size) for name, size in layout.after]


def values(layout, body):
    """The fields of a message's body: name, phase and value; None where they do not have the octets that it has."""
    count = 0
    if layout.each:
        at = layout.before.index(("count", 1))  # all fields before it have one octet
        count = body[at] if at < len(body) else 0
        if count not in COUNTS:
            return None
    found, at = [], 0
    for name, phase, size in fields(layout, count):
        found.append((name, phase, number(body[at:at + size])))
        at += size
    return found if at == len(body) else None


def value_words(name, value):
    return "%s %s" % (name, "%02X" % value if name == "phase order" else value)


def sections(found):
    """The fields in words: those of one phase are one text, and so are those before and those behind the phases."""
    texts, last = [], None
    for name, phase, value in found:
        text = value_words(name, value)
        if phase == last:
            texts[-1] += ", " + text
        else:
            texts.append("phase %d: %s" % (phase, text) if phase else text)
        last = phase
    return texts


def field_words(code, wanted):
    """What a field's number means in a message. A refusal does not say how many phases the message had, so where that
    matters each meaning is told with its number of phases."""
    if wanted == 0:
        return "none"
    layout = MESSAGES[code][1] if code in MESSAGES else Layout((), (), ())
    meant = {}
    for count in COUNTS:
        named = fields(layout, count)
        if wanted <= len(named):
            meant.setdefault(named[wanted - 1][:2], []).append(count)
    if not meant:
        return "no field of this message"
    texts = ["%s of phase %d" % place if place[1] else place[0] for place in meant]
    (_, phase), counts = next(iter(meant.items()))
    if len(meant) == 1 and (phase or len(counts) == len(COUNTS)):
        return texts[0]
    of = ["more" if len(counts) > 1 else COUNT_WORDS[counts[0]] for counts in meant.values()]
    of[0] = "there is one phase" if of[0] == "one" else "there are %s phases" % of[0]
    return ", ".join("%s if %s" % pair for pair in zip(texts, of))


def message_words(info):
    """A message's code in words, and the texts of its fields."""
    code, body = number(info[:2]), info[2:]
    if code not in MESSAGES:
        return code_words(code), [digits(body)] if body else []
    found = values(MESSAGES[code][1], body)
    if found is None:
        return code_words(code), ["length wrong for this code"] + [digits(body)] * bool(body)
    if code == CARRIED_OUT:
        return code_words(code), [code_words(found[0][2])]
    if code == REFUSED:
        refused, refusal, field = [value for _, _, value in found]
        meaning = REFUSALS.get(refusal, "no such refusal")
        return code_words(code), [
            code_words(refused), "refusal %d, %s" % (refusal, meaning), "field %d: %s" % (field, field_words(refused, field))]
    return code_words(code), sections(found)


def undoubled(octets, count):
    """So many octets of INFO, each AA of them having come twice, and the octets behind them."""
    info, at = [], 0
    while len(info) < count and at < len(octets):
        info.append(octets[at])
        if octets[at] == 0xAA:
            if octets[at + 1:at + 2] != [0xAA]:
                raise Unsound("an AA in INFO stands alone")
            at += 1
        at += 1
    return info, octets[at:]


def parted(octets):
    """The frame that the octets begin with, as it is before doubling, and the octets behind it."""
    if octets[0] != 0xAA or len(octets) > 1 and octets[1] not in KINDS:
        raise Unsound("no frame begins with %s" % digits(octets[:2]))
    if len(octets) < UP_TO_LEN:
        raise Unsound("it ends before its LEN does")
    kind, length = KINDS[octets[1]], number(octets[5:UP_TO_LEN])
    if not kind.shortest <= length <= kind.longest:
        due = "%d" % kind.longest if kind.shortest == kind.longest else "%d to %d" % (kind.shortest, kind.longest)
        raise Unsound("LEN is %d, %s is due" % (length, due))
    plain, rest = octets[:UP_TO_LEN], octets[UP_TO_LEN:]
    if kind.name == "message":
        info, rest = undoubled(rest, length - 10)
        plain = plain + info
    behind = length - len(plain)
    plain, rest = plain + rest[:behind], rest[behind:]
    if len(plain) < length:
        raise Unsound("LEN is %d, %d octets are there" % (length, len(plain)))
    if kind.name == "message" and plain[-3:-1] != CLOSING:
        raise Unsound("closing octets are %s, %s are due" % (digits(plain[-3:-1]), digits(CLOSING)))
    return plain, rest


def head_words(octets):
    """Kind, SEQ and address of a frame, as far as they are there."""
    if len(octets) < 3 or octets[0] != 0xAA or octets[1] not in KINDS:
        return "no frame"
    name = KINDS[octets[1]].name
    text = "%s%s SEQ %02X" % (name, "" if name == "message" else " of", octets[2])
    if len(octets) >= 5 and number(octets[3:5]) != LISTED_ADDRESS:
        text += ", address %04X" % number(octets[3:5])
    return text


def frame_words(plain):
    """A frame before doubling: a head and the texts that follow it."""
    head, name = head_words(plain), KINDS[plain[1]].name
    if name == "message":
        code, texts = message_words(plain[UP_TO_LEN:-3])
        return "%s, %s" % (head, code), texts
    if name == "NAK":
        err = plain[UP_TO_LEN]
        return head, ["ERR %02X, %s" % (err, REFUSALS[ERRS[err]] if err in ERRS else "no such ERR")]
    return head, []


def reply_words(octets):
    """A reply's frames, each a head and texts, and whether all of it is sound. A wrong CKS is told behind its frame; where a
    frame's end cannot be found nothing behind it is told."""
    frames, sound = [], True
    while octets:
        try:
            plain, rest = parted(octets)
        except Unsound as fault:
            return frames + [(head_words(octets), ["not sound", str(fault)])], False
        head, texts = frame_words(plain)
        due = functools.reduce(operator.xor, plain[:-1])
        if plain[-1] != due:
            texts, sound = texts + ["CKS is %02X, %02X is due" % (plain[-1], due)], False
        frames.append((head, texts))
        octets = rest
    return frames, sound
