"""Replies and databases of a store, judged by a report of one replica."""
from __future__ import annotations

import unittest

import by_path  # noqa: F401
from judge import actions_of, judge, read_output, schedule_of
from logs import Unreadable

SCHEDULE = """\
start 1 2
# request 1 put "x" 9
request 1 put "x" 1
  request 2  inc "x" 4 ? get "x"
weak 1 get "x"
request 1 ? count
end
"""

# what the program prints of these three, where the database is shown after the first and the third
REPORT = """\
= 9
reply 1:1 done
= 11
db 1 "x"=1
= 14
reply 1:2 done ? 5
reply 1:3 done ? count 1
= 16
db 1 "x"=5
end 16
"""


def judged(*lines: str) -> str | None:
    output = read_output("\n".join([*lines, "end"]).encode())
    asked: list[str] = []

    def replay(schedule: str) -> str:
        asked.append(schedule)
        return REPORT if "show 1" in schedule else REPORT.replace("db ", "# ")

    found = judge(output, ["1:1", "2:1", "1:2"], SCHEDULE, replay)
    assert len(asked) == bool(output.replies or output.databases)
    return found


class Read(unittest.TestCase):
    def test_lines_for_the_judge_leave_the_logs_their_numbers(self) -> None:
        output = read_output(b"# one\nreply 1:1 done\nlog 3 [1:1,2:1]\r\n db 1 \"x\"=1 \r\nlog 0 []\ndb 2\nend\n")
        self.assertEqual([(log.line, log.end()) for log in output.logs], [(3, 5), (5, 0)])
        self.assertEqual(output.replies, [("1:1", "done", "reply 1:1 done")])
        self.assertEqual(output.databases, [(5, '"x"=1', 'db 1 "x"=1'), (0, "", "db 2")])

    def test_other_lines_are_told(self) -> None:
        for line, why in {
            b"db 1": "line 1: it is no reply, and no database after a log: db 1",
            b"reply 1 done": "line 1: it is no reply, and no database after a log: reply 1 done",
            b"replies": "line 1: it is no log: replies",
        }.items():
            with self.subTest(line), self.assertRaises(Unreadable) as raised:
                read_output(line + b"\nend\n")
            self.assertEqual(str(raised.exception), why)


class Asked(unittest.TestCase):
    def test_actions_are_counted_by_replica(self) -> None:
        actions = {"1:1": 'put "x" 1', "2:1": 'inc "x" 4 ? get "x"', "1:2": "? count"}
        self.assertEqual(actions_of(SCHEDULE), actions)

    def test_one_replica_is_asked_for_them_in_turn(self) -> None:
        lines = ["start 1", "merge 1", "rounds 2", "rounds 1", "show 1", "request 1 a", "request 1 b", "rounds 1"]
        self.assertEqual(schedule_of(["a", "b"], {0, 2}), "\n".join([*lines, "show 1", "rounds 1", "end", ""]))


class Judged(unittest.TestCase):
    def test_what_is_right(self) -> None:
        self.assertIsNone(judged("log 0 [1:1,2:1,1:2]"))
        self.assertIsNone(judged("reply 2:1 done ? 5", "reply 1:2 done ? count 1"))
        self.assertIsNone(judged("log 1 [2:1,1:2]", 'db 2 "x"=5', "log 0 [1:1]", 'db 1 "x"=1'))

    def test_what_is_wrong(self) -> None:
        databases = ["log 0 [1:1,2:1,1:2]", 'db 1 "x"=5', "log 0 [1:1]"]
        for lines, why in {
            ("reply 1:1 aborted 1",): "reply 1:1 aborted 1: in the agreed order it is done",
            ("reply 1:1 done", "reply 1:1 done"): "reply 1:1 done: this action was replied to before",
            ("reply 3:1 done",): "reply 3:1 done: this action isn't in the agreed order",
            (*databases, 'db 2 "x"=5'): 'db 2 "x"=5: after place 1 of the agreed order it is "x"=1',
            (*databases, "db 2"): 'db 2: after place 1 of the agreed order it is "x"=1',
        }.items():
            with self.subTest(lines):
                self.assertEqual(judged(*lines), why)

    def test_orders_that_no_judge_can_follow(self) -> None:
        output = read_output(b"reply 1:1 done\nend\n")
        self.assertEqual(judge(output, [None, "1:1"], SCHEDULE, str), "gap: no log covers place 1")
        self.assertEqual(judge(output, ["1:3"], SCHEDULE, str), "unasked: no request of the schedule is 1:3")


if __name__ == "__main__":
    unittest.main()
