"""Lines for people, and the schedules that they stand for."""
from __future__ import annotations

import importlib.machinery
import importlib.util
import pathlib
import random
import subprocess
import sys
import unittest

TOOL = pathlib.Path(__file__).resolve().parent.parent / "plain"
sys.dont_write_bytecode = True
_loader = importlib.machinery.SourceFileLoader("plain", str(TOOL))
plain = importlib.util.module_from_spec(importlib.util.spec_from_loader("plain", _loader))
_loader.exec_module(plain)


def spelled(*lines: str) -> list[str]:
    """What the lines stand for, without comments."""
    return [line for line in plain.spelled_out(lines) if not line.startswith("#")]


class Others(unittest.TestCase):
    def test_lines_of_other_commands_are_put_as_they_are(self) -> None:
        lines = ["start 1 2", 'swrite 2 1 put "x" 1', "follower 1 2", "fstop 1 0 -", "frecover 1", 'joined 1 2 "x"']
        self.assertEqual(spelled(*lines, "heal"), [*lines, "merge 1 2"])


class Group:
    """Which splits, merges, crashes and recoveries are admitted, by the rules of docs/REPORT.md."""

    def __init__(self) -> None:
        self.up: set[int] = set()
        self.down: set[int] = set()
        self.configurations: list[set[int]] = []
        self.transitional: list[set[int]] = []

    def take(self, line: str) -> bool:
        """Whether the line is admitted; where it is, it happens."""
        word, *parts = line.split()
        replicas = {int(part) for part in parts if part.isdecimal()}
        if word == "start":
            self.up = replicas
        elif word == "split":
            return self.split(replicas)
        elif word == "merge":
            return self.merge(replicas)
        elif word == "stop":
            return self.change(int(parts[0]), self.up, self.down)
        elif word == "recover":
            return self.change(int(parts[0]), self.down, self.up)
        return True

    def split(self, replicas: set[int]) -> bool:
        for configuration in self.configurations:
            if replicas and replicas <= configuration:
                configuration -= replicas
                self.transitional.append(replicas)
                return True
        return False

    def merge(self, replicas: set[int]) -> bool:
        touched = [those for those in self.transitional if those & replicas]
        regular = set().union(*self.configurations)
        if not replicas or not replicas <= self.up or replicas & regular or not set().union(*touched) <= replicas:
            return False
        self.transitional = [those for those in self.transitional if those not in touched]
        self.configurations.append(replicas)
        return True

    def change(self, replica: int, source: set[int], target: set[int]) -> bool:
        for those in [*self.configurations, *self.transitional]:
            those.discard(replica)
        if replica not in source:
            return False
        source.remove(replica)
        target.add(replica)
        return True


def random_lines(draw: random.Random) -> list[str]:
    """Lines that part, heal, crash and come back, at two to six replicas."""
    up, down = list(range(1, draw.randint(2, 6) + 1)), []
    lines = ["start " + " ".join(map(str, up)), "heal"]
    for _ in range(40):
        word = draw.choice(["part", "heal", "crash", "back", "settle"])
        if word == "part":
            sides = [[p for p in up if p % draw.randint(1, 3) == 0] for _ in range(2)]
            sides = [sides[0], [p for p in up if p not in sides[0]]]
            lines.append("part " + " | ".join(" ".join(map(str, side)) for side in sides if side))
        elif word == "crash" and len(up) > 1:
            down.append(up.pop(draw.randrange(len(up))))
            lines.append(f"crash {down[-1]}")
        elif word == "back" and down:
            up.append(down.pop(draw.randrange(len(down))))
            lines.append(f"back {up[-1]}")
        elif word in ("heal", "settle"):
            lines.append(word)
    return lines


class Spelled(unittest.TestCase):
    def test_a_part_splits_where_its_sides_stand_and_merges_each(self) -> None:
        self.assertEqual(
            spelled("start 1 2 3", "merge 1 2 3", "part 1 2 | 3"),
            ["start 1 2 3", "merge 1 2 3", "split 1 2", "split 3", "merge 1 2", "merge 3"],
        )

    def test_a_part_goes_through_each_configuration(self) -> None:
        lines = ["start 1 2 3 4", "merge 1 2", "merge 3 4", "part 1 3|2 4"]
        self.assertEqual(spelled(*lines)[3:], ["split 1", "split 2", "split 3", "split 4", "merge 1 3", "merge 2 4"])

    def test_those_that_stand_alone_are_only_merged(self) -> None:
        self.assertEqual(spelled("start 1 2*3", "heal"), ["start 1 2*3", "merge 1 2"])

    def test_those_that_were_split_are_only_merged(self) -> None:
        self.assertEqual(spelled("start 1 2", "merge 1 2", "split 1 2", "heal")[3:], ["merge 1 2"])

    def test_a_crash_and_the_way_back(self) -> None:
        lines = ["start 1 2 3", "heal", "crash 2", "part 1 3", "back 2", "heal"]
        self.assertEqual(
            spelled(*lines)[2:], ["stop 2 0 -", "split 1 3", "merge 1 3", "recover 2", "split 1 3", "merge 1 2 3"]
        )

    def test_an_armed_crash_counts_as_one(self) -> None:
        lines = ["start 1 2", "heal", "stop 2 3 01", 'request 2 put "y" 2', "back 2", "heal"]
        self.assertEqual(spelled(*lines)[4:], ["recover 2", "split 1", "merge 1 2"])

    def test_a_recovery_with_a_device_call_counts_as_a_crash(self) -> None:
        lines = ["start 1 2", "crash 2", "downgrade 2", "recover 2 3 00", "recover 2 x", "heal", "back 2", "heal"]
        self.assertEqual(spelled(*lines)[2:], [*lines[2:5], "merge 1", "recover 2", "split 1", "merge 1 2"])

    def test_passes_settle_with_those_that_are_away_or_joined(self) -> None:
        self.assertEqual(spelled("start 1 2 3", "crash 1", "settle")[2:], ["rounds 7"])
        self.assertEqual(spelled("start 1 2 3", "join 1 4*2", "settle")[2:], ["rounds 8"])

    def test_a_joiner_is_up_with_the_last_piece(self) -> None:
        lines = ["start 1", "heal", "join 1 4", "transfer 1 4 1000000", "heal"]
        self.assertEqual(spelled(*lines)[4:], ["split 1", "merge 1 4"])

    def test_a_server_that_was_asked_to_leave_need_not_be_named(self) -> None:
        front = ["start 1 2 3", "heal", "leave 1 3"]
        self.assertEqual(spelled(*front, "heal")[3:], ["split 1 2", "merge 1 2"])
        self.assertEqual(spelled(*front, "part 1 2 3")[3:], ["split 1 2 3", "merge 1 2 3"])

    def test_other_lines_go_through_and_what_is_spelled_out_is_a_comment(self) -> None:
        lines = ["# two", "start 1 2", "  heal ", "", 'weak 1 get "heal"', "end\r"]
        self.assertEqual(
            list(plain.spelled_out(lines)),
            ["# two", "start 1 2", "# heal", "merge 1 2", "", 'weak 1 get "heal"', "end\r"],
        )

    def test_the_rules_by_which_random_lines_are_judged(self) -> None:
        admitted = ["split 1", "split 1 2", "merge 3"]
        refused = ["split 1 3", "split 3", "merge 1 2", "merge 1 3", "recover 1"]
        for line in [*admitted, *refused]:
            group = Group()
            self.assertTrue(group.take("start 1 2 3") and group.take("merge 1 2"))
            self.assertEqual(group.take(line), line in admitted, line)
        group = Group()
        lines = ["start 1 2", "merge 1 2", "split 1 2", "merge 1", "stop 2 0 -", "merge 1"]
        self.assertEqual([group.take(line) for line in lines], [True, True, True, False, True, True])

    def test_random_lines_are_spelled_as_what_is_admitted(self) -> None:
        for seed in range(300):
            group = Group()
            for line in spelled(*random_lines(random.Random(seed))):
                self.assertTrue(group.take(line), f"seed {seed}: {line}")


class Faults(unittest.TestCase):
    def fails(self, line: str, why: str) -> None:
        with self.assertRaises(plain.Fault) as raised:
            spelled("start 1 2 3", "heal", "crash 3", line)
        self.assertEqual(str(raised.exception), f"line 4: {why}")

    def test_each_says_why(self) -> None:
        self.fails("part 1 2 | 3", "not up: 3")
        self.fails("part 1", "they stand together with a replica that is named, so name them too: 2")
        self.fails("part 1 2 | 2", "named twice: 2")
        self.fails("part 1 2 |", "a side is without a replica")
        self.fails("part one | 2", "no identifier: one")
        self.fails("crash 3", "not up: 3")
        self.fails("crash", "it names one replica")
        self.fails("back 2", "up already: 2")
        self.fails("back 4", "no such replica yet: 4")
        self.fails("heal 1", "nothing comes after this word")
        self.fails("settle now", "nothing comes after this word")


class Program(unittest.TestCase):
    def run_on(self, text: bytes) -> subprocess.CompletedProcess[bytes]:
        return subprocess.run([sys.executable, str(TOOL)], input=text, capture_output=True, check=False)

    def test_it_goes_from_standard_input_to_standard_output(self) -> None:
        ended = self.run_on(b'start 1\nheal\nrequest 1 put "\xff" 1\nend')
        self.assertEqual(ended.stdout, b'start 1\n# heal\nmerge 1\nrequest 1 put "\xff" 1\nend\n')
        self.assertEqual((ended.stderr, ended.returncode), (b"", 0))

    def test_a_fault_is_told_with_its_line(self) -> None:
        ended = self.run_on(b"start 1\nback 1\n")
        self.assertEqual((ended.stdout, ended.returncode), (b"start 1\n", 1))
        self.assertEqual(ended.stderr, b"plain: line 2: up already: 1\n")


if __name__ == "__main__":
    unittest.main()
