"""Reads the type codes of Appendix 1 and the step diagrams of Appendix 2 from the crawled text of source document 004.

What the tables are expected to look like is asserted, so that a source of another shape is refused and not misread: the
columns and their numbers, the length of each row, steps and phases in order, and the same in every continuation.
"""
import re
from dataclasses import dataclass, field

# "red, yellow, left, round, straight, right green, red man, green man": the names of 01, and the headings of the columns
LAMPS = ["red", "yellow", "left", "round", "straight", "right", "red-man", "green-man"]
COLUMNS = ["紅燈", "黃燈", "左轉綠", "圓綠燈", "直行綠", "右轉綠", "行人紅", "行人綠"]
PHASES = ["I", "II", "III", "IV", "V", "VI", "VII", "VIII"]

# the columns before the lamps: step, phase and the heading 方位
LEAD = 3

# a lamp that is lit, and one that flashes; a mark in the column of the heading 方位, left of the lamps
STEADY, FLASHING = "○", "△"
HEADING = "heading"


@dataclass
class Diagram:
    number: int
    letter: str
    name: str
    greens: int  # the green phases that its head names
    code: int = 0
    starts: list = field(default_factory=list)  # the steps at which a phase is marked
    steps: int = 0
    marks: dict = field(default_factory=dict)  # (step, approach) to the set of its marks

    def lengths(self):
        return [b - a for a, b in zip(self.starts, self.starts[1:] + [self.steps + 1])]

    def approaches(self):
        return sorted({a for _, a in self.marks})


@dataclass
class Table:
    """The part of a diagram that one table of the copy shows: one or two approaches."""
    diagram: Diagram
    approaches: list
    starts: list = field(default_factory=list)
    steps: int = 0


def cells(line):
    return [c.replace("<br>", "").strip() for c in line.strip().strip("|").split("|")]


def part(lines, first, last):
    start = next(i for i, l in enumerate(lines) if re.match(f"#+ {first}", l))
    end = next(i for i, l in enumerate(lines) if i > start and re.match(f"#+ {last}", l))
    return lines[start + 1:end]


def codes(lines, renumbered):
    """Appendix 1: the type code of each number and class."""
    found, number, unset = {}, None, dict(renumbered)
    for row in (cells(l) for l in part(lines, "附錄一", "附錄二") if l.startswith("|")):
        if not re.fullmatch("[0-9A-F]{2}", row[-1]) or not re.fullmatch("[A-F]", row[2]):
            continue
        number = int(row[0]) if row[0] else number
        key = (unset.pop(row[-1], number), row[2])
        assert key not in found, f"Appendix 1 has {key} twice"
        found[key] = int(row[-1], 16)
    assert not unset, f"codes that Appendix 1 does not have: {unset}"
    return found


def titled(text):
    """The diagram that the words above a table name."""
    number = re.search(r"號:+(\d+)", text)
    name, letter = re.search(r"時相名稱:(\S+?)(?:\(([A-F])\))?(?:\s|$)", text).groups()
    return Diagram(int(number[1]), letter or "A", name, int(re.search(r"綠燈分相數: ?(\d)", text)[1]))


def heads(table, row):
    """Whether the row is one of a table's three headings; the approaches are taken from the first."""
    if row[2] == "方位":
        table.approaches = [c for c in row[LEAD:] if c]
    elif row[2] == "流向":
        assert row[LEAD:] == COLUMNS * len(table.approaches), row
    elif row[2] == "編號":
        numbers = [len(LAMPS) * (ord(a) - ord("A")) + i for a in table.approaches for i in range(1, len(LAMPS) + 1)]
        assert [int(c) for c in row[LEAD:]] == numbers, row
    return row[2] in ("方位", "流向", "編號")


def add_row(table, row):
    """A row of a step: its number, the mark of a phase, the heading's column, eight lamps an approach."""
    table.steps += 1
    assert len(row) == LEAD + len(LAMPS) * len(table.approaches) and row[0] == str(table.steps), row
    assert row[1] in ("", PHASES[len(table.starts)]) and row[2] in ("", STEADY), row
    if row[1]:
        table.starts.append(table.steps)
    for i, approach in enumerate(table.approaches):
        lamps = row[LEAD + len(LAMPS) * i:][:len(LAMPS)]
        assert set(lamps) <= {"", STEADY, FLASHING}, row
        marks = {l + ("-flashing" if c == FLASHING else "") for l, c in zip(LAMPS, lamps) if c}
        key = (table.steps, approach)
        assert key not in table.diagram.marks, f"{key} twice: {row}"
        table.diagram.marks[key] = marks | ({HEADING} if i == 0 and row[2] else set())


def tables(lines):
    """The tables of Appendix 2, in their order; a title that is not repeated goes on."""
    found, title, table, known = [], "", None, {}
    for line in part(lines, "附錄二", "附錄三"):
        if not line.startswith("|"):
            title += " " + line
            continue
        row = cells(line)
        if row[2] == "方位":
            named = titled(title) if title.strip() else table.diagram
            table, title = Table(known.setdefault((named.number, named.letter), named), []), ""
            found.append(table)
        if not set("".join(row)) <= set("-: ") and not heads(table, row):
            add_row(table, row)
    return found


def drop(table, empty):
    """A row without a mark that the copy has in one table alone is no step."""
    while (table.diagram.number, table.diagram.letter, table.steps) in empty:
        for approach in table.approaches:
            assert not table.diagram.marks.pop((table.steps, approach)), f"not empty: {table}"
        table.steps -= 1


def diagrams(lines, empty):
    """Appendix 2: each diagram, its tables put together."""
    found, kept = {}, set(empty)
    for table in tables(lines):
        kept.discard((table.diagram.number, table.diagram.letter, table.steps))
        drop(table, empty)
        d = found.setdefault((table.diagram.number, table.diagram.letter), table.diagram)
        d.starts, d.steps = d.starts or table.starts, d.steps or table.steps
        assert (d.starts, d.steps) == (table.starts, table.steps), f"a continuation differs: {d.number} ({d.letter})"
    assert not kept, f"rows that are not there: {kept}"
    for d in found.values():
        assert "".join(d.approaches()) == "ABCDEFGH"[:len(d.approaches())], f"approaches of {d.number} ({d.letter})"
    return found
