"""Reads a schedule, and finds which steps its lines make.

Each event makes one step, but `rounds` as many as its passes take, and many of these show nothing. So a line is found
by what only events of its kind show: where the report has as many such steps as the schedule has lines, they belong
together. What lies between two lines that are found is exact where one `rounds` is among it. Else it stays together, a
passage of several lines, and which of its lines makes which of its steps isn't known; a program can tell it.
"""
import re
import subprocess
from collections.abc import Iterable, Iterator
from dataclasses import dataclass

from .report import Replica, Step

Kind = tuple[str, int]
EVENTS = {  # what an event shows, and which of its parts is the replica that shows it
    "request": ("ask", 0), "join": ("ask", 0), "leave": ("ask", 0), "swrite": ("ask", 1), "recover": ("back", 0),
    "weak": ("weak", 0), "dirty": ("dirty", 0), "show": ("show", 0), "transfer": ("pieces", 1),
    "sweak": ("sweak", 0), "fweak": ("fweak", 0), "relaxed": ("relaxed", 0), "joined": ("joined", 0),
}  # fmt: skip
ASKING = ("weak", "dirty", "pieces", "sweak", "fweak", "relaxed", "joined")
TOLD = {word: word for word in ASKING} | {"greens": "show", "all": "show"}


@dataclass(frozen=True)
class Line:
    """An event: its line's number, its text, the comment above it, its word and its numbers (0 for other parts)."""

    number: int
    text: str
    note: str
    word: str
    numbers: tuple[int, ...]


@dataclass(frozen=True)
class Passage:
    """Lines, and the first and the last step that they make together."""

    lines: tuple[Line, ...]
    first: int
    last: int


def read(text: str) -> list[Line]:
    """The events before `end`."""
    lines: list[Line] = []
    note: list[str] = []
    for number, raw in enumerate(text.split("\n"), 1):
        line = raw.strip(" \t\r")
        if line.startswith("#"):
            note.append(line.lstrip("# "))
        elif line == "end":
            break
        elif line:
            word, *parts = line.split()
            lines.append(Line(number, line, " ".join(note), word, tuple(leading_number(part) for part in parts)))
            note = []
    return lines


def passages(lines: list[Line], steps: list[Step], tail: str, program: str = "") -> list[Passage]:
    """The passages of lines that were all carried out."""
    before: list[int | None] = [0, *[None] * len(lines)]  # how many steps the lines before each one make
    if lines and tail.startswith("end "):
        before[-1] = int(tail[4:])
    for index, step in found(lines, steps):
        before[index : index + 2] = [step - 1, step]
    fill(lines, before)
    for index, line in enumerate(lines):
        if program and before[index + 1] is None and line.word == "rounds":
            before[index + 1] = told_steps(lines[: index + 1], program)
            fill(lines, before)
    if before[-1] is None:
        before[-1] = steps[-1].number
    known = [(index, count) for index, count in enumerate(before) if count is not None]
    return [Passage(tuple(lines[a:b]), first + 1, last) for (a, first), (b, last) in zip(known, known[1:])]


def fill(lines: list[Line], before: list[int | None]) -> None:
    """Goes on from what is known, forwards and then backwards, over the lines that make one step."""
    single = [index for index, line in enumerate(lines) if line.word != "rounds"]
    for index in single:
        if (count := before[index]) is not None:
            before[index + 1] = count + 1
    for index in reversed(single):
        if (count := before[index + 1]) is not None:
            before[index] = count - 1


def told_steps(front: list[Line], program: str) -> int | None:
    """How many steps the front makes, as `check` of the program says."""
    text = "".join(f"{line.text}\n" for line in front) + "end\n"
    told = subprocess.run([program, "check"], input=text, capture_output=True, text=True, check=False).stdout
    return int(told[4:]) if told.startswith("end ") else None


def found(lines: list[Line], steps: list[Step]) -> Iterator[tuple[int, int]]:
    """The lines, by their index, that are found by what they show, each with its step."""
    shown = grouped(kinds_of_steps(steps))
    for kind, indexes in grouped(kinds_of_lines(lines)).items():
        if len(indexes) == len(shown.get(kind, ())):
            yield from zip(indexes, shown[kind])


def grouped(pairs: Iterable[tuple[Kind, int]]) -> dict[Kind, list[int]]:
    """The different numbers of each kind, in their order."""
    groups: dict[Kind, list[int]] = {}
    for kind, number in dict.fromkeys(pairs):
        groups.setdefault(kind, []).append(number)
    return groups


def kinds_of_lines(lines: list[Line]) -> Iterator[tuple[Kind, int]]:
    merges = 0
    for index, line in enumerate(lines):
        if line.word == "merge":
            merges += 1
            yield ("merge", merges), index  # configurations are numbered as they are made
        elif line.word == "split":
            yield from ((("split", number), index) for number in line.numbers)
        elif line.word == "stop" and line.numbers[1] == 0:
            yield ("down", line.numbers[0]), index
        elif line.word in EVENTS and not is_stopped_recovery(line):
            word, part = EVENTS[line.word]
            yield (word, line.numbers[part]), index


def is_stopped_recovery(line: Line) -> bool:
    """A stop is armed for the recovery: where it strikes, the step shows nothing."""
    return line.word == "recover" and len(line.numbers) > 1


def kinds_of_steps(steps: list[Step]) -> Iterator[tuple[Kind, int]]:
    """What each step shows that only an event of this kind does; only a crash may also have been armed before."""
    last: dict[int, Replica] = {}
    for step in steps:
        yield from (((TOLD[word], leading_number(rest)), step.number) for word, rest in step.told if word in TOLD)
        makers = {leading_number(action) for action in step.made}
        for number, now in step.replicas.items():
            old = last.get(number, now)
            if "Down" in (now.state, old.state):
                yield ("down" if now.state == "Down" else "back", number), step.number
            elif now.kept > old.kept or now.kept == old.kept and number in makers:
                yield ("ask", number), step.number
            if now.place[0] == "c" and now.place != old.place:
                yield ("merge", int(now.place[1:])), step.number
            if now.place[0] == "t" and old.place[0] == "c":
                yield ("split", number), step.number
        last |= step.replicas


def leading_number(text: str) -> int:
    return int(re.split(r"\D", text, maxsplit=1)[0] or 0)
