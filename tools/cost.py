"""What the calls cost: instructions of each call and of a host's whole turn, counted over the program `cost`, and each call's
deepest stack, worked out from its compiled code. The tables are those of docs/COST.md."""
import counting
import stack
from frames import frames_of
from programs import prove

PROGRAM = stack.PROGRAM
OCTET, SECOND, OFFER = stack.CALLS["octet"], stack.CALLS["second"], stack.CALLS["offer"]
# an event is counted so often, so that what the host does once does not show
MANY = 100
# an octet that a decoder at rest drops, and one of INFO
IDLE, LONG = "00", "11"
TIMES = "0A 00 5A 03 02 05 02"
# the plans whose calls are counted: how it is called, its order and its greens
PLANS = (("plan 0", None, ()), ("two phases", "00", (20, 30)), ("three", "20", (10, 12, 14)), ("four", "60", (10, 12, 14, 16)))
PLAN_0_CYCLE = 80
# the T of the program's start
WAIT = 10


def two_octets(*numbers):
    """Each number as two octets, high octet first."""
    return ["%02X" % octet for number in numbers for octet in number.to_bytes(2, "big")]


def set_times(plan, count):
    return ["5F", "14", "%02X" % plan, "%02X" % count] + TIMES.split() * count


def set_plan(plan, order, greens):
    return ["5F", "15", "%02X" % plan, "00", order, "%02X" % len(greens)] + two_octets(*greens, sum(greens) + 5 * len(greens), 0)


def messages(*infos):
    """The octets of the message frames with these INFO."""
    return frames_of([("message", ["%02X" % (1 + seq)] + info) for seq, info in enumerate(infos)])


def acks(count, first=0):
    """The octets of the ACK frames of so many of our message frames."""
    return frames_of([("ack", ["%02X" % seq]) for seq in range(first, first + count)])


def octets(frame):
    return bytes(octet for each in frame for octet in (0, int(each, 16)))


def heard(frames, first=0):
    """The events of message frames, the reply to each being acknowledged; the first reply has this SEQ."""
    return b"".join(octets(frame) + octets(ack) for frame, ack in zip(frames, acks(len(frames), first)))


def seconds(count):
    return bytes([1, 0]) * count


def offered():
    return bytes([5, 0x80])


def more(before, events, inside=None):
    """What these events cost behind those before them."""
    return counting.counted(PROGRAM, before + events, inside) - counting.counted(PROGRAM, before, inside)


def running(order, greens):
    """The events after which a plan has just begun to run, and its cycle; with no order it is plan 0. Each kind of call was made
    before, so that what the loader does at the first is not counted."""
    if order is None:
        return octets([IDLE]) + seconds(PLAN_0_CYCLE), PLAN_0_CYCLE
    frames = messages(set_times(3, len(greens)), set_plan(3, order, greens), ["5F", "18", "03"])
    return heard(frames) + seconds(PLAN_0_CYCLE), sum(greens) + 5 * len(greens)


def of_plan(order, greens):
    """The rows of the first table for one plan."""
    start, cycle = running(order, greens)
    frame = octets(messages([LONG] * 256)[0])
    inside, idle = frame[:2 * 20], octets([IDLE]) * MANY
    unheard = octets(messages(["5F", "48"])[0]) + seconds(WAIT - 1)
    return [
        more(start, idle, OCTET) // MANY,
        more(start, idle) // MANY,
        more(start + inside, octets([LONG]) * MANY, OCTET) // MANY,
        more(start, seconds(cycle), SECOND) // cycle,
        more(start, seconds(cycle)) // cycle,
        more(start + seconds(cycle - 1), seconds(1), SECOND),
        more(start + unheard, seconds(1), SECOND),
        more(start, offered(), OFFER),
    ]


CALLS = (
    "an octet in idle, call", "the same, turn", "an octet inside a long frame, call", "a second, over a whole cycle, call",
    "the same, turn", "the last second of a cycle, which picks the next plan, call", "a second that sends 5F C8 again, call",
    "an offer of two octets, call")


def of_messages():
    """The rows of the second table: the message, its octets, all of them, the last."""
    start = running(*PLANS[1][1:])[0]
    eight = heard(messages(set_times(5, 8)), 3)
    asked = (
        ("5F 14 with two phases, 0F 80", set_times(4, 2), b""),
        ("5F 15 with two phases, 0F 80", set_plan(3, "00", (20, 30)), b""),
        ("5F 14 with four phases, 0F 80", set_times(4, 4), b""),
        ("5F 14 with eight phases, 0F 80", set_times(4, 8), b""),
        ("5F 44 of eight phases, 5F C4", ["5F", "44", "05"], eight),
        ("5F 48, 5F C8", ["5F", "48"], b""),
    )
    rows = []
    for (name, _, before), frame in zip(asked, messages(*(info for _, info, _ in asked))):
        events = octets(frame)
        all_of_it = more(start + before, events, OCTET)
        last = more(start + before + events[:-2], events[-2:], OCTET)
        rows.append((name, len(frame), all_of_it, last))
    return rows


def of_stack():
    """The rows of the third table."""
    program = stack.Program(PROGRAM)
    for call, function in stack.CALLS.items():
        octets_in_all, way = program.deepest(function)
        yield call, stack.limit(call), octets_in_all, " > ".join(way)


def table(head, rows):
    yield "| %s |" % " | ".join(head)
    yield "|%s" % ("---|" * len(head))
    for row in rows:
        yield "| %s |" % " | ".join(text if isinstance(text, str) else "{:,}".format(text) for text in row)


def tables():
    """The tables, line by line, as they are counted."""
    prove(PROGRAM)
    columns = [of_plan(order, greens) for _, order, greens in PLANS]
    yield from table(["Call"] + [name for name, _, _ in PLANS], zip(CALLS, *columns))
    yield ""
    yield from table(["Message, a plan of two phases running", "Octets in", "All its octets and its reply", "Its last octet"], of_messages())
    yield ""
    yield from table(["Call", "Limit", "Stack, with the red zone of 128", "By way of"], of_stack())
