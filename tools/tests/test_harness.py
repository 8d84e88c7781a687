"""The harness on the toy store, over a few rules that stand in for the program."""
from __future__ import annotations

import contextlib
import io
import pathlib
import subprocess
import sys
import tempfile
import unittest

import by_path

harness = by_path.load("harness")
toy = by_path.load("toy_store")

GENERATED = """\
start 1 2 3 4
merge 1 2 3 4
rounds 2
request 1 inc "k0" 1
rounds 4
split 2 4
split 1 3
merge 2 4
weak 1 get "k0"
merge 1 3
request 3 inc "k6" 2
request 2 inc "k6" 1
stop 3 0 -
recover 3
merge 3
gather
end
"""


def is_admitted(lines: list[str]) -> bool:
    """Whether splits are of members, merges of others, and recoveries of those that are down."""
    if not lines or not lines[0].startswith("start ") or lines[-1] != "end":
        return False
    regular: set[str] = set()
    down: set[str] = set()
    for word, *parts in map(str.split, lines):
        if word == "split" and not regular.issuperset(parts) or word == "merge" and (regular | down) & set(parts):
            return False
        if word == "request" and parts[0] in down or word == "recover" and parts[0] not in down:
            return False
        if word in ("merge", "split"):
            regular = regular.union(parts) if word == "merge" else regular.difference(parts)
        elif word in ("stop", "recover"):
            regular.discard(parts[0])
            down = down | {parts[0]} if word == "stop" else down - {parts[0]}
    return True


def printed(lines: list[str], *faults: str) -> list[str]:
    """What the toy store prints."""
    store = toy.Store("half" in faults, "again" in faults)
    for line in lines:
        store.take(line)
    return store.lines()


def replayed(lines: list[str]) -> list[str]:
    """The replies and databases in the report of a schedule of one replica."""
    shown = [printed(lines[:n])[-2] for n, line in enumerate(lines) if line.startswith("show")]
    return [*printed(lines)[:-3], *shown]


def compared(lines: list[str]) -> str:
    """What `compare` prints of logs in which no action is twice."""
    found: dict[int, list[tuple[int, str]]] = {}
    for number, (_, white, names) in enumerate((line.split(" ") for line in lines[:-1]), 1):
        for place, name in enumerate(filter(None, names.strip("[]").split(",")), int(white) + 1):
            found.setdefault(place, []).append((number, name))
    for place, ((line, name), *others) in sorted(found.items()):
        for other_line, other in others:
            if other != name:
                return f"differ {place} {line} {name} {other_line} {other}"
    return f"agree {len(found)} [{','.join(found[place][0][1] for place in sorted(found))}]"


class Harness(harness.Harness):
    """The harness, with the program and the store in its own process."""

    def run(self, words: list[str], given: str) -> subprocess.CompletedProcess[bytes]:
        lines = given.splitlines()
        if words[0] == "store":
            out = printed(lines, *words[1:])
        elif words[1] == "compare":
            out = [compared(lines)]
        else:
            out = {"generate": GENERATED.splitlines(), "check": [], "replay": replayed(lines)}[words[1]]
        status = 3 if words[1:] == ["check"] and not is_admitted(lines) else 0
        return subprocess.CompletedProcess(words, status, "\n".join([*out, ""]).encode())


class Tried(unittest.TestCase):
    def setUp(self) -> None:
        kept = tempfile.TemporaryDirectory()
        self.addCleanup(kept.cleanup)
        self.found = pathlib.Path(kept.name, "found")

    def tried(self, *faults: str) -> tuple[int, list[str]]:
        """Tries two seeds, and says what was printed."""
        out = io.StringIO()
        with contextlib.redirect_stdout(out):
            status = harness.try_all(Harness(["congruity"], ["store", *faults], 60), ["7", "8"], 4, 60, self.found)
        return status, out.getvalue().replace(str(self.found), "found").splitlines()

    def kept(self, name: str) -> list[str]:
        return (self.found / name).read_text(encoding="utf-8").splitlines()

    def test_a_store_that_is_right(self) -> None:
        self.assertEqual(self.tried(), (0, ["2 schedules, 0 on which the store is wrong; 2 places agreed"]))
        self.assertFalse(self.found.exists())

    def test_logs_that_differ_are_made_small(self) -> None:
        status, lines = self.tried("half")
        self.assertEqual((status, lines[:2]), (1, ["7: differ 1 3 3:1 5 2:1", "    found/7.schedule has 9 lines"]))
        self.assertEqual(lines[4:], ["2 schedules, 2 on which the store is wrong; 0 places agreed"])
        front = ["start 1 2 3 4", "merge 1 2 3 4", "split 2 4", "split 1 3", "merge 2 4", "merge 1 3"]
        requests = ['request 3 inc "k6" 2', 'request 2 inc "k6" 1']
        self.assertEqual(self.kept("8.schedule"), [*front, *requests, "end"])
        self.assertEqual(self.kept("8.output")[2:4], ["log 0 [3:1]", 'db 1 "k6"=2'])

    def test_a_database_that_is_wrong_is_made_small(self) -> None:
        wrong = '7: db 3 "k6"=2: after place 1 of the agreed order it is "k6"=1'
        status, lines = self.tried("again")
        self.assertEqual((status, lines[0]), (1, wrong))
        self.assertEqual(
            self.kept("7.schedule"),
            ["start 1 2 3 4", "merge 1 2 3 4", 'request 2 inc "k6" 1', "stop 3 0 -", "recover 3", "end"],
        )

    def test_a_schedule_of_ones_own(self) -> None:
        own = self.found.with_name("own.schedule")
        tried = Harness(["congruity"], ["store"], 60)
        own.write_text("start 1\nmerge 1\nend\n", encoding="utf-8")
        self.assertEqual(harness.schedule_of(tried, str(own), 4, 60), "start 1\nmerge 1\nend\n")
        own.write_text("start 1\nrecover 1\nend\n", encoding="utf-8")
        with self.assertRaises(harness.Failed):
            harness.schedule_of(tried, str(own), 4, 60)

    def test_stores_that_print_no_logs(self) -> None:
        for words, wrong in {
            ("false",): "stopped: the store ended with status 1",
            ("true",): "unreadable: there is no last line end",
            ("sleep", "9"): "stopped: the store hadn't ended after 0.2 seconds",
        }.items():
            with self.subTest(words):
                tried = harness.Harness([], list(words), 0.2 if words[0] == "sleep" else 60)
                self.assertEqual(tried.judged(GENERATED).wrong, wrong)


class Program(unittest.TestCase):
    def test_a_program_that_is_missing_is_told(self) -> None:
        tool = [sys.executable, "-B", str(by_path.TOOLS / "harness"), "--program", "/no/program", "1"]
        ended = subprocess.run(tool, capture_output=True, text=True, check=False)
        self.assertEqual((ended.returncode, ended.stdout), (2, ""))
        self.assertTrue(ended.stderr.startswith("harness: "), ended.stderr)


if __name__ == "__main__":
    unittest.main()
