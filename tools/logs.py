"""The logs of a store's replicas, as they go to `compare` of the program, which says whether one order fits them all.

A log is a line `log W LIST`: the names of the actions that a replica has applied, in order, at the places after the
first W, which it keeps no longer. A name is CREATOR:N, the Nth action of that creator, and LIST has no blanks, as
[1:1,2:1]. The last line is `end`. Blank lines and lines that begin with # are passed over.
"""
from __future__ import annotations

import re
from collections.abc import Sequence
from dataclasses import dataclass

MOST_WHITE = 1_000_000
MOST_CREATOR = 32
END_OF_INDEXES = 2**62
NAMES_OF_A_LINE = 1000  # so that a line of the longest names is within the program's limit

PASSED_OVER = re.compile(rb"[ \t]*(#.*)?", re.DOTALL)
END = re.compile(rb"[ \t]*end[ \t]*")
LOG = re.compile(rb"[ \t]*log[ \t]+(0|[1-9]\d*)[ \t]+\[(\d+:\d+(?:,\d+:\d+)*)?\][ \t]*")
NAME = re.compile(r"([1-9]\d*):([1-9]\d*)")


class Unreadable(Exception):
    """Why lines aren't logs."""


@dataclass(frozen=True)
class Log:
    """One replica's log, and the number of its line."""

    line: int
    white: int
    names: tuple[str, ...]

    def end(self) -> int:
        """How many actions the replica has applied."""
        return self.white + len(self.names)


def read_logs(text: bytes) -> list[Log]:
    """The logs in these lines."""
    logs: list[Log] = []
    ended = False
    for number, line in enumerate(text.split(b"\n"), 1):
        line = line.removesuffix(b"\r")
        if PASSED_OVER.fullmatch(line):
            continue
        if ended:
            raise Unreadable(f"line {number}: nothing comes after end")
        if END.fullmatch(line):
            ended = True
        else:
            logs.append(read_log(number, line))
    if not ended:
        raise Unreadable("there is no last line end")
    return logs


def read_log(number: int, line: bytes) -> Log:
    parts = LOG.fullmatch(line)
    names = tuple(parts[2].decode().split(",")) if parts and parts[2] else ()
    if not parts or int(parts[1]) > MOST_WHITE or not all(map(is_name, names)):
        raise Unreadable(f"line {number}: it is no log: {line.decode(errors='replace')[:80]}")
    return Log(number, int(parts[1]), names)


def is_name(text: str) -> bool:
    parts = NAME.fullmatch(text)
    return parts is not None and int(parts[1]) <= MOST_CREATOR and int(parts[2]) < END_OF_INDEXES


def comparable(logs: Sequence[Log]) -> tuple[str, list[int]]:
    """The input of `compare`, and of each of its lines the line of the log. A long log takes several lines."""
    lines: list[str] = []
    numbers: list[int] = []
    for log in logs:
        for first in range(0, max(len(log.names), 1), NAMES_OF_A_LINE):
            lines.append(f"log {log.white + first} [{','.join(log.names[first : first + NAMES_OF_A_LINE])}]")
            numbers.append(log.line)
    return "\n".join([*lines, "end", ""]), numbers


def told(answer: str, numbers: Sequence[int]) -> str:
    """What `compare` has answered, with the lines of the logs."""
    word, *parts = answer.split()
    if word == "differ":
        for index in (1, 3):
            parts[index] = str(numbers[int(parts[index]) - 1])
    return " ".join([word, *parts])


def agreed(answer: str) -> list[str | None] | None:
    """The one list that fits all logs, with None at places that no log covers; None where there is no such list."""
    word, _, names = (*answer.split(), "", "")[:3]
    if word != "agree":
        return None
    return [None if name == "-" else name for name in filter(None, names.strip("[]").split(","))]
