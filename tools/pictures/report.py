"""Reads the report of a replay in either form: the text of `replay`, or the objects of `json`."""
import json
import re
from dataclasses import dataclass, field

TAILS = {"end", "syntax", "refused", "limit", "read", "no"}
REPLICA = re.compile(
    r"(\w+) (\S+) g(\d+) w(\d+) p(\d+)@\d+(\{\S*\}) a\d+ v(\S+) y[-?!]*(\S*) r(\S+) o(\S+) x\{\S*\} b(\d+)"
)


@dataclass(frozen=True)
class Replica:
    """What the line of a replica says; its place is `-`, `c2` or `t2`. Of one that is down nothing is known."""

    state: str = "Down"
    place: str = "-"
    green: int = 0
    white: int = 0
    primary: int = 0
    members: str = ""
    record: tuple[str, ...] = ()  # of an attempt: its members, and those known to hold the record
    yellow: tuple[str, ...] = ()
    red: tuple[str, ...] = ()
    own: tuple[str, ...] = ()
    kept: int = 0


@dataclass
class Step:
    """What a step shows. Lines that aren't of a replica, `made` or `order` are told: a word, and the rest."""

    number: int
    made: dict[str, str] = field(default_factory=dict)
    order: list[tuple[str, str]] = field(default_factory=list)
    replicas: dict[int, Replica] = field(default_factory=dict)
    told: list[tuple[str, str]] = field(default_factory=list)

    def take(self, line: str) -> None:
        word, _, rest = line.partition(" ")
        name, _, text = rest.partition(" ")
        if word == "made":
            self.made[name] = text
        elif word == "order":
            self.order.append((name, text))
        elif word.isdecimal():
            self.replicas[int(word)] = replica(rest)
        else:
            self.told.append((word, rest))


def replica(text: str) -> Replica:
    """Reads the line of a replica, after its identifier."""
    if text == "Down":
        return Replica()
    found = REPLICA.fullmatch(text)
    if not found:
        raise ValueError(f"the report has a line that can't be read: {text}")
    state, place, green, white, primary, members, record, *lists, kept = found.groups()
    yellow, red, own = (tuple(filter(None, names.strip("[]").split(","))) for names in lists)
    sets = tuple(re.findall(r"\{\S*?\}", record))
    return Replica(state, place, int(green), int(white), int(primary), members, sets, yellow, red, own, int(kept))


def read(text: str) -> tuple[list[Step], str]:
    """The steps that show something, and the tail; it is empty where the report has none."""
    lines = list(filter(None, text.split("\n")))
    if text.startswith("{"):
        entries = map(json.loads, lines)
        lines = [line for e in entries for line in ([e["tail"]] if "tail" in e else [f"= {e['step']}", *e["lines"]])]
    steps: list[Step] = []
    tail = ""
    for line in lines:
        if line.startswith("= "):
            steps.append(Step(int(line[2:])))
        elif line.split(" ")[0] in TAILS:
            tail = line
        elif steps:
            steps[-1].take(line)
    if not steps:
        raise ValueError(f"the report shows no step: {text[:60].strip()}")
    return steps, tail
