"""Tells what each step of a report means: the columns of the picture."""
import pathlib
import re
import tomllib
from collections.abc import Iterator
from dataclasses import dataclass, replace
from typing import NamedTuple

from .report import Replica, Step
from .schedule import Line, Passage, is_stopped_recovery, leading_number

HERE = pathlib.Path(__file__).resolve().parent
WORDS = tomllib.loads((HERE / "words.toml").read_text(encoding="utf-8"))
ASKED = {"sweak": 1, "follower": 1, "feed": 0, "relaxed": 0, "joined": 0}  # which part of a line names the replica


class Mark(NamedTuple):
    """What happens: the lane that it is marked at, by which kind of mark with which text, and in words."""

    number: int
    kind: str
    text: str
    words: str


class Group(NamedTuple):
    """Replicas that stand together: in a configuration (`c2`), split from it in one step (`t2`), or one alone."""

    place: str
    since: int
    members: tuple[int, ...]


@dataclass(frozen=True)
class Column:
    """What happens in a step, and how all stand after it; `length` is that of the global order."""

    name: str
    passage: Passage | None
    marks: list[Mark]
    placed: list[tuple[str, str]]
    length: int
    replicas: dict[int, Replica]
    groups: list[Group]


class Story:
    """Goes through the steps, and keeps what was made, the global order, and how the replicas stand."""

    def __init__(self) -> None:
        self.made: dict[str, str] = {}
        self.order: list[str] = []
        self.replicas: dict[int, Replica] = {}
        self.last_up: dict[int, Replica] = {}
        self.moved: dict[int, int] = {}  # the step in which a replica came to its place
        self.databases: dict[int, str] = {}  # what the first so many actions of the order make, where that was told

    def column(self, step: Step, passage: Passage | None) -> Column:
        self.made |= step.made
        self.order += [action for _, action in step.order]
        marks = list(self.marks(step, passage))
        for number, now in step.replicas.items():
            if number not in self.replicas or self.replicas[number].place != now.place:
                self.moved[number] = step.number
        self.replicas |= step.replicas
        together: dict[tuple[str, int], list[int]] = {}
        for number, now in sorted(self.replicas.items()):
            since = {"c": 0, "t": self.moved[number]}.get(now.place[0], -number)
            together.setdefault((now.place, since), []).append(number)
        groups = [Group(place, since, tuple(members)) for (place, since), members in together.items()]
        return Column(str(step.number), passage, marks, step.order, len(self.order), dict(self.replicas), groups)

    def marks(self, step: Step, passage: Passage | None) -> Iterator[Mark]:
        for action, text in step.made.items():
            yield Mark(0, "", "", f"{action} is made: {text}")
        for place, action in step.order:
            yield Mark(0, "", "", f"{action} gets place {place} of the global order")
        for number, now in step.replicas.items():
            yield from self.changes(number, self.replicas.get(number), now)
        line = passage.lines[0] if passage and len(passage.lines) == 1 else None
        if line and line.word in ("stop", "fail", "fstop") and line.numbers[1]:  # arming shows nothing in the report
            yield armed(line)
        if line and line.word == "downgrade":
            number = line.numbers[0]
            yield Mark(number, "note", "older disk", f"Replica {number} gets a disk of the older format")
        if line and is_stopped_recovery(line) and line.numbers[0] not in step.replicas:
            yield stopped(line)
        for word, rest in step.told:
            yield further(line, f"{word} {rest}") or self.told(word, rest)

    def changes(self, number: int, old: Replica | None, now: Replica) -> Iterator[Mark]:
        who = f"Replica {number}"
        if now.state == "Down":
            yield Mark(number, "crash", "", f"{who} goes down")
            return
        if old and old.state == "Down":
            yield Mark(number, "back", "", f"{who} comes back from its disk")
        if not old or old.state != now.state:
            does = WORDS["state"][now.state]["does"]
            more = WORDS["from"].get(old.state if old else "", {}).get(now.state) or WORDS["more"].get(now.state, "")
            yield Mark(0, "", "", f"{who} {does}{more.format(now=now)}")
        known = self.last_up.get(number, Replica())
        if not old and now.green:
            known = replace(known, green=now.green, white=now.white)
            yield Mark(number, "note", f"copy of {now.green}", f"{who} begins with a copy of {now.green} green actions")
        for kind in ("own", "red", "yellow"):
            for action in getattr(now, kind):
                if action not in getattr(known, kind):
                    yield Mark(number, kind, action, f"{action} is {kind} at replica {number}")
        for place, action in enumerate(self.order[known.green : now.green], known.green + 1):
            yield Mark(number, "green", action, f"{action} is green at replica {number}, at place {place}")
        if now.white > known.white:
            yield Mark(number, "white", f"to {now.white}", f"{who} keeps the first {now.white} places no longer")
        if now.kept > known.kept:
            yield Mark(number, "note", f"keeps {now.kept}", f"{who} keeps requests for later: {now.kept}")
        self.last_up[number] = now

    def told(self, word: str, rest: str) -> Mark:
        """A line at the end of an entry; what a client hears is marked at the lane of its replica."""
        who, _, what = rest.partition(" ")
        number = leading_number(who)
        if word == "db":
            self.databases[self.last_up[number].green] = what or "empty"
        words = WORDS["told"][word].format(who=who, what=what or "empty") if word in WORDS["told"] else f"{word} {rest}"
        if word == "reply":
            effect, _, answer = what.partition(" ? ")
            return Mark(number, "answer", ("✓ " if effect == "done" else "✗ ") + (answer or effect), words)
        return Mark(number, "answer" if word in ("weak", "dirty") else "", f"{word}: {what}", words)


def armed(line: Line) -> Mark:
    """A crash or a failed call that is to come; a follower has no lane."""
    number, call = line.numbers[:2]
    who = "Follower" if line.word == "fstop" else "Replica"
    does = "fail at" if line.word == "fail" else "stop inside"
    words = f"{who} {number} will {does} its device call {call} from now on"
    return Mark(0, "", "", words) if line.word == "fstop" else Mark(number, "armed", "", words)


def stopped(line: Line) -> Mark:
    """A recovery that its stop has struck."""
    number, call = line.numbers[:2]
    words = f"Replica {number} crashes in its recovery, inside device call {call}, and stays down"
    return Mark(number, "crash", "", words)


def further(line: Line | None, told: str) -> Mark | None:
    """A line of a session, a follower or a relaxed query; what it answers is marked at the replica that was asked."""
    for form, (words, answer) in WORDS["further"].items():
        if found := re.fullmatch(form, told):
            number = line.numbers[ASKED[line.word]] if line and line.word in ASKED else 0
            return Mark(number, "answer" if number else "", *(text.format(*found.groups()) for text in (answer, words)))
    return None


def told(steps: list[Step], passages: list[Passage], tail: str, stop: Line | None) -> tuple[list[Column], Story]:
    """A column for each step that shows something, for each line whose step shows nothing, and for one refused."""
    story = Story()
    shown = {step.number: step for step in steps}
    of_step = {number: passage for passage in passages for number in range(passage.first, passage.last + 1)}
    silent = {p.first for p in passages if p.first == p.last and p.lines[0].word not in ("rounds", "gather")}
    columns = [story.column(shown.get(n, Step(n)), of_step.get(n)) for n in sorted(silent | set(shown))]
    if tail and not tail.startswith("end "):
        passage, words = Passage((stop,), 0, 0) if stop else None, Mark(0, "", "", of_tail(tail))
        columns.append(replace(story.column(Step(0), None), name="end", passage=passage, marks=[words]))
    return columns, story


def of_tail(tail: str) -> str:
    """Why the run ended early; the reasons are those of the documents' tables."""
    word, *parts = tail.split()
    if word not in ("syntax", "refused"):
        return f"The run ended early: {tail}"
    document, finding = ("SCHEDULES.md", "can't be read") if word == "syntax" else ("REPORT.md", "isn't admitted")
    table = (HERE.parents[1] / "docs" / document).read_text(encoding="utf-8")
    row = re.search(rf"^\| {parts[1]} \| ([^|]*)(?: \| [^|]*\| ([^|]*))? \|$", table, re.M)
    words = "; ".join(filter(None, row.groups())) if row else "no words for it"
    return f"Line {parts[0]} {finding}: {words} (reason {', value '.join(parts[1:])})"
