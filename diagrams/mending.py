"""The mends of the crawled copy, from mends.txt, and the verdict on each diagram."""
from dataclasses import dataclass, field
from pathlib import Path

from appendix import HEADING, LAMPS

MENDS = Path(__file__).resolve().parent / "mends.txt"
STEPS_A_PHASE, PHASES_MOST, APPROACHES_MOST = 5, 8, 8
MARKS = {HEADING} | {lamp + kind for lamp in LAMPS for kind in ("", "-flashing")}


@dataclass
class Mend:
    code: int
    steps: range
    approach: str
    shown: str
    put: str
    why: str


@dataclass
class Mends:
    moved: list = field(default_factory=list)
    why: dict = field(default_factory=dict)  # a reason's name to its text
    choices: list = field(default_factory=list)
    empty: dict = field(default_factory=dict)  # (number, class, step) of a row that is no step, to the reason
    numbers: dict = field(default_factory=dict)  # a code of Appendix 1 to the number that is set, and the reason

    def renumbered(self):
        return {code: number for code, (number, _) in self.numbers.items()}


def moved(words):
    code, steps, approach, shown, put, why = words.replace("|", " ").split()
    first, _, last = steps.partition("-")
    assert {shown, put} <= MARKS, words
    return Mend(int(code, 16), range(int(first), int(last or first) + 1), approach, shown, put, why)


def read_mends():
    m = Mends()
    for line in MENDS.read_text(encoding="utf-8").splitlines():
        kind, _, rest = line.partition(" ")
        if kind == "mend":
            m.moved.append(moved(rest))
        elif kind == "why":
            m.why.update([rest.split(maxsplit=1)])
        elif kind == "choice":
            m.choices.append([p.strip() for p in rest.split("|")])
        elif kind == "empty":
            number, letter, step, reason = rest.split(maxsplit=3)
            m.empty[int(number), letter, int(step)] = reason
        elif kind == "number":
            code, number, reason = rest.split(maxsplit=2)
            m.numbers[code] = (int(number), reason)
        else:
            assert not kind or kind == "#", line
    assert {x.why for x in m.moved} == set(m.why), "a reason is missing, or is given for nothing"
    return m


def mend(diagram, m):
    for step in m.steps:
        marks = diagram.marks[step, m.approach]
        assert m.shown in marks and m.put not in marks, f"{m.code:02X} step {step} {m.approach}: {sorted(marks)}"
        diagram.marks[step, m.approach] = marks - {m.shown} | {m.put}


def breaks(marks):
    """What the marks of one approach at one step have against the lamp rule, or None."""
    lit = {m.removesuffix("-flashing") for m in marks}
    shown = [bool(lit & group) for group in ({"red"}, {"yellow"}, {"left", "round", "straight", "right"})]
    if HEADING in lit:
        return "a mark in the heading's column"
    if not any(shown):
        return "a man and no vehicle lamp" if lit else "no lamp"
    if sum(shown) > 1:
        return " with ".join(n for n, s in zip(("red", "yellow", "green"), shown) if s)
    if len(lit & {"red-man", "green-man"}) != 1:
        return "not one man"
    return "a flashing lamp that is no green man" if {m for m in marks if "flashing" in m} - {"green-man-flashing"} else None


def runs(steps):
    """1, 2, 3, 7 as '1 to 3, 7'."""
    said = []
    for step in steps:
        if said and said[-1][1] == step - 1:
            said[-1][1] = step
        else:
            said.append([step, step])
    return ", ".join(f"{a}" if a == b else f"{a} to {b}" for a, b in said)


def verdict(diagram):
    if any(n != STEPS_A_PHASE for n in diagram.lengths()):
        return "not five steps"
    assert len(diagram.starts) == diagram.greens <= PHASES_MOST and len(diagram.approaches()) <= APPROACHES_MOST
    found = {}
    for (step, approach), marks in sorted(diagram.marks.items()):
        if breaks(marks):
            found.setdefault((approach, breaks(marks)), []).append(step)
    said = [f"approach {a} shows {what} in {'step' if len(s) == 1 else 'steps'} {runs(s)}" for (a, what), s in found.items()]
    return "unsupported: " + "; ".join(said) if said else "supported"
