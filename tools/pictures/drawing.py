"""Draws the columns of a story as SVG. The colours, and the forms of marks, stand in drawing.svg."""
import html
import string
from itertools import groupby
from typing import NamedTuple

from .story import HERE, WORDS, Column, Group, Story

LEFT, TURN, LANE, GAP, EDGE, CHIP = 74, 40, 52, 34, 25, 28
UNKNOWN = dict.fromkeys([*range(9), 11, 12, *range(14, 32), 0xFFFE, 0xFFFF], "\ufffd")  # no characters of XML
LOUD = ("split", "merge", "stop", "fail", "recover")
MAYBE = ("Un", "NonPrim", "ExchangeStates", "ExchangeActions")  # a record is of an attempt that may have come about


class Place(NamedTuple):
    """Where a column stands: its lanes turn from `turn` to `left`. A stretch is what lies between two turns."""

    stretch: int
    turn: int
    left: int
    right: int
    lanes: dict[int, int]


class Drawing:
    """The columns at their places, and what is drawn so far; `whole` has the members of each configuration."""

    def __init__(self, columns: list[Column], story: Story, whole: dict[str, set[int]]) -> None:
        self.columns, self.story, self.whole = columns, story, whole
        self.numbers = sorted(set().union(*(column.replicas for column in columns)))
        self.top = 70 + 36 * max(len(spelled(column)) for column in columns) // 10
        self.bottom = self.top + len(self.numbers) * (LANE + GAP)
        self.places: list[Place] = []
        for column in columns:
            self.place(column)
        self.drawn: list[str] = []

    def place(self, column: Column) -> None:
        last = self.places[-1] if self.places else Place(0, LEFT, LEFT, LEFT, {})
        height = len(column.replicas) * LANE + (len(column.groups) - 1) * GAP
        y = (self.top + self.bottom - GAP - height + LANE) // 2
        lanes: dict[int, int] = {}
        for group in column.groups:
            lanes |= {number: y + LANE * index for index, number in enumerate(group.members)}
            y += LANE * len(group.members) + GAP
        turns = bool(last.lanes) and lanes != last.lanes
        left = last.right + TURN * turns
        chips = [10 + sum(width(text) for _, text in chips_of(column, number)) for number in self.numbers]
        answers = [7 * len(answer_of(column, number)) + 8 for number in self.numbers]
        right = left + max(CHIP, 30 * len(few(column.placed)) + 4, *chips, *answers)
        self.places.append(Place(last.stretch + turns, last.right, left, right, lanes))

    def add(self, name: str, kind: str, text: str = "", title: str = "", **attributes: object) -> None:
        values = "".join(f' {key}="{value}"' for key, value in attributes.items())
        inside = (f"<title>{html.escape(title)}</title>" if title else "") + html.escape(text, quote=False)
        self.drawn.append(f'<{name} class="{kind}"{values}>{inside.translate(UNKNOWN)}</{name}>')

    def svg(self, title: str) -> str:
        for group in dict.fromkeys(g for column in self.columns for g in column.groups if g.place != "-"):
            present = [n for n, column in enumerate(self.columns) if group in column.groups]
            for _, run in groupby(present, key=lambda n: self.places[n].stretch):
                self.frames(group, list(run))
        for number in self.numbers:
            self.lane(number)
        self.heading()
        self.order()
        overhang = [place.left + 6 * len(spelled(column)) for column, place in zip(self.columns, self.places)]
        edge = max(self.places[-1].right + (190 if self.story.databases else 40), *overhang)
        frame = string.Template((HERE / "drawing.svg").read_text(encoding="utf-8"))
        return frame.substitute(
            title=html.escape(title), width=edge, height=self.bottom + 56, top=self.top - 36, order=self.bottom + 26,
            now=self.bottom + 80 - self.top, drawn="\n".join(self.drawn),
        )  # fmt: skip

    def frames(self, group: Group, run: list[int]) -> None:
        """The frame of those that stand together, and from where the first of them is in it, of a primary component."""
        parted = group.place[0] == "t"
        held = not parted and set(group.members) != self.whole.get(group.place, set(group.members))
        kind = "parted" if parted else "held" if held else "together"
        name = f"{'parted from' if parted else 'configuration'} {group.place[1:]}"
        lines = [(n, self.columns[n].replicas[number]) for n in run for number in group.members]
        first, now = next(((n, now) for n, now in lines if now.state == "RegPrim"), (len(self.columns), None))
        self.frame(group, run, kind, [name], self.places[first].left if now else 10**6)
        if now:
            names = [f"PRIMARY {now.primary} {'held up' if held else now.members}", f"PRIMARY {now.primary}"]
            self.frame(group, [n for n in run if n >= first], f"primary {kind}", names, 10**6)

    def frame(self, group: Group, run: list[int], kind: str, names: list[str], room: int) -> None:
        heights = [self.places[run[0]].lanes[number] for number in group.members]
        x, y, right = self.places[run[0]].left - 3, min(heights) - EDGE, self.places[run[-1]].right + 3
        self.add("rect", kind, x=x, y=y, width=right - x, height=max(heights) + EDGE - y, rx=14)
        name = next((name for name in names if 7 * len(name) + 4 < min(room, right + 8) - x), "")
        self.add("text", f"name {kind}", name, x=x + 7, y=y - 5)

    def lane(self, number: int) -> None:
        begun = [(c, place, c.replicas[number]) for c, place in zip(self.columns, self.places) if number in c.replicas]
        state, y = "", 0
        for (now, maybe, _), run in groupby(
            begun, key=lambda it: (it[2].state, it[2].state in MAYBE and it[2].record != (), it[1].stretch)
        ):
            places = [place for _, place, _ in run]
            turn, left, right, before, y = places[0].turn, places[0].left, places[-1].right, y, places[0].lanes[number]
            if state and turn < left:
                kind, middle = "Down" if "Down" in (state, now) else state, (turn + left) // 2
                self.add("path", f"turn {kind}", d=f"M{turn},{before}C{middle},{before} {middle},{y} {left},{y}")
            self.add("path", f"lane {now}", d=f"M{left},{y}H{right}")
            if maybe:
                self.add("path", "record", d=f"M{left},{y + 6}H{right}")
            name = WORDS["state"][now]["name"]
            if now not in (state, "RegPrim") and right - left > 5 * len(name):
                self.add("text", "state", name, x=left + 3, y=y + 17)
            state = now
        for column, place, _ in begun:
            self.marks(number, column, place)
        self.add("text", "replica first", str(number), x=begun[0][1].left - 8, y=begun[0][1].lanes[number] + 5)
        self.add("text", "replica", str(number), x=right + 8, y=y + 5)
        told = self.story.databases.get(begun[-1][2].green, "")
        self.add("text", "told", told if len(told) < 28 else told[:27] + "…", x=right + 26, y=y + 4)

    def marks(self, number: int, column: Column, place: Place) -> None:
        x, y = place.left + 5, place.lanes[number]
        for mark in column.marks:
            if mark.number == number and mark.kind in ("crash", "back", "armed"):
                self.add("use", mark.kind, title=mark.words, href=f"#mark-{mark.kind}", x=x + 9, y=y)
                x += 20 if mark.kind == "back" else 0
        for kind, text in chips_of(column, number):
            title = f"{text} {self.story.made.get(text, kind)}"
            self.add("rect", f"chip {kind}", title=title, x=x, y=y - 10, width=width(text) - 2, height=20, rx=10)
            self.add("text", "on", text, x=x + width(text) // 2 - 1, y=y + 4)
            x += width(text)
        if answer := answer_of(column, number):
            self.add("text", "answer", answer, x=place.left + 4, y=y - 13)

    def heading(self) -> None:
        """The lines of the schedule above the steps that they make."""
        y = self.top - 40
        for column, place in zip(self.columns, self.places):
            self.add("text", "number", column.name, x=(place.left + place.right) // 2, y=y + 14)
        for passage, run in groupby(zip(self.columns, self.places), key=lambda pair: pair[0].passage):
            if passage:
                spanned = list(run)
                (column, first), (_, last) = spanned[0], spanned[-1]
                word = "" if passage.lines[1:] else passage.lines[0].word
                quiet = {"": "several", "rounds": "quiet", "gather": "quiet"}
                kind = "refused" if column.name == "end" else "loud" if word in LOUD else quiet.get(word, "event")
                self.add("path", f"bracket {kind}", d=f"M{first.left},{y}H{last.right - 4}")
                turned = f"translate({first.left + 4},{y - 6}) rotate(-32)"
                self.add("text", f"line {kind}", spelled(column), transform=turned)

    def order(self) -> None:
        """The global order grows below, each place joined to the replica that was the first to reach it."""
        y = self.bottom
        self.add("path", "order", d=f"M{LEFT},{y + 22}H{self.places[-1].right}")
        for column, place in zip(self.columns, self.places):
            x = place.left + 4
            for number, action in few(column.placed):
                first = next((mark.number for mark in column.marks if mark[1:3] == ("green", action)), 0)
                if first:
                    self.add("path", "reached", d=f"M{x + 13},{place.lanes[first] + 11}V{y + 6}")
                title = self.story.made.get(action, "")
                self.add("rect", "placed", title=title, x=x, y=y + 8, width=27, height=28, rx=4)
                self.add("text", "place", number, x=x + 13, y=y + 20)
                self.add("text", "action", action, x=x + 13, y=y + 31)
                x += 30


def spelled(column: Column) -> str:
    """The lines of the schedule above a column, as far as there is room."""
    text = "  ".join(line.text for line in column.passage.lines) if column.passage else ""
    text = f"✖ {text}" if column.name == "end" else text
    return text if len(text) < 45 else text[:43] + "…"


def few(texts: list[tuple[str, str]]) -> list[tuple[str, str]]:
    """At most four: else the first, how many more, and the last."""
    return texts if len(texts) < 5 else [texts[0], (texts[1][0], f"+{len(texts) - 2}"), texts[-1]]


def chips_of(column: Column, number: int) -> list[tuple[str, str]]:
    kinds = ("own", "red", "yellow", "green", "white", "note")
    return sum((few([mark[1:3] for mark in column.marks if mark[:2] == (number, kind)]) for kind in kinds), [])


def answer_of(column: Column, number: int) -> str:
    return ", ".join(mark.text for mark in column.marks if mark[:2] == (number, "answer"))


def width(text: str) -> int:
    """How much room a chip takes."""
    return max(CHIP + 2, 7 * len(text) + 8)
