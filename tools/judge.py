"""What a store has to answer and to hold, where its replicas apply the actions in an agreed order.

The judge is the database of Congruity: the actions, in this order, are the requests of a schedule of one replica. Its
report has the effect and the answer of each action, and the database after any number of them.
"""
from __future__ import annotations

import re
from collections.abc import Callable, Sequence
from dataclasses import dataclass, field

from logs import Log, Unreadable, read_logs

REPLY = re.compile(r"reply (\d+:\d+) (.+)")
DATABASE = re.compile(r"db \d+( .+)?")
JUDGED = re.compile(r"reply 1:(\d+) (.+)")


@dataclass
class Output:
    """What a store printed: its logs, what it says that clients were told, as action, reply and line; and its
    databases, as the number of actions that the log before it has come to, entries and line."""

    logs: list[Log]
    replies: list[tuple[str, str, str]] = field(default_factory=list)
    databases: list[tuple[int, str, str]] = field(default_factory=list)


def read_output(text: bytes) -> Output:
    """The logs are read without the lines for the judge, and keep the numbers of their lines."""
    lines = text.split(b"\n")
    told = {n: line for n, line in enumerate(lines, 1) if line.split(maxsplit=1)[:1] in ([b"reply"], [b"db"])}
    output = Output(read_logs(b"\n".join(b"" if n in told else line for n, line in enumerate(lines, 1))))
    for number, line in told.items():
        add_line(output, number, line.decode(errors="replace").strip())
    return output


def add_line(output: Output, number: int, line: str) -> None:
    ends = [log.end() for log in output.logs if log.line < number]
    if reply := REPLY.fullmatch(line):
        output.replies.append((reply[1], reply[2], line))
    elif (database := DATABASE.fullmatch(line)) and ends:
        output.databases.append((ends[-1], (database[1] or "").strip(), line))
    else:
        raise Unreadable(f"line {number}: it is no reply, and no database after a log: {line[:80]}")


def actions_of(schedule: str) -> dict[str, str]:
    """What each action of a schedule asks for. The Nth request at replica p is the action p:N."""
    counts: dict[str, int] = {}
    actions = {}
    for line in schedule.splitlines():
        parts = line.split(maxsplit=2)
        if len(parts) == 3 and parts[0] == "request":
            counts[parts[1]] = counts.get(parts[1], 0) + 1
            actions[f"{parts[1]}:{counts[parts[1]]}"] = parts[2]
    return actions


def schedule_of(asked: Sequence[str], shown: set[int]) -> str:
    """The schedule of one replica that is asked for these in turn, and shows its database after so many of them."""
    lines = ["start 1", "merge 1", "rounds 2"]
    for count in range(len(asked) + 1):
        if count in shown:
            lines += ["rounds 1", "show 1"]
        if count < len(asked):
            lines.append(f"request 1 {asked[count]}")
    return "\n".join([*lines, "rounds 1", "end", ""])


def judge(output: Output, order: Sequence[str | None], schedule: str, replay: Callable[[str], str]) -> str | None:
    """The first line that isn't as the order gives it, where there is one. `replay` gives the report of a schedule."""
    if not output.replies and not output.databases:
        return None
    if None in order:
        return f"gap: no log covers place {order.index(None) + 1}"
    actions = actions_of(schedule)
    names = [name for name in order if name]
    if made_up := [name for name in names if name not in actions]:
        return f"unasked: no request of the schedule is {made_up[0]}"
    shown = {count for count, _, _ in output.databases}
    report = replay(schedule_of([actions[name] for name in names], shown)).splitlines()
    replies = {names[int(parts[1]) - 1]: parts[2] for line in report if (parts := JUDGED.fullmatch(line))}
    entries = [(parts[1] or "").strip() for line in report if (parts := DATABASE.fullmatch(line))]
    return wrong_reply(output, replies) or wrong_database(output, dict(zip(sorted(shown), entries, strict=True)))


def wrong_reply(output: Output, right: dict[str, str]) -> str | None:
    seen = set()
    for name, reply, line in output.replies:
        if name not in right:
            return f"{line}: this action isn't in the agreed order"
        if name in seen:
            return f"{line}: this action was replied to before"
        if reply != right[name]:
            return f"{line}: in the agreed order it is {right[name]}"
        seen.add(name)
    return None


def wrong_database(output: Output, right: dict[int, str]) -> str | None:
    for count, entries, line in output.databases:
        if entries != right[count]:
            return f"{line}: after place {count} of the agreed order it is {right[count] or 'empty'}"
    return None
