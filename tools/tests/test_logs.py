"""Logs are read, go to `compare`, and come back with their lines."""
from __future__ import annotations

import unittest

import by_path  # noqa: F401
from logs import Log, Unreadable, agreed, comparable, read_logs, told

# lines that are no logs, and the line that is told, where it is one
UNREADABLE = {
    "log 0 []": "there is no last line end",
    "end;log 0 []": "line 2",
    "end 0": "line 1",
    "start 1;end": "line 1",
    "Log 0 [];end": "line 1",
    '"log" 0 [];end': "line 1",
    "log;end": "line 1",
    "log 0;end": "line 1",
    'log 0 "[]";end': "line 1",
    "log 0 [1:1] [1:2];end": "line 1",
    "log 0 [1:1, 2:1];end": "line 1",
    "log 0 [1:1,];end": "line 1",
    "log 0 [1:1,-,2:1];end": "line 1",
    "log 0 [1:0];end": "line 1",
    "log 0 [1:01];end": "line 1",
    "log 0 [33:1];end": "line 1",
    "log 0 [1:4611686018427387904];end": "line 1",
    "log 00 [];end": "line 1",
    "log 1000001 [];end": "line 1",
    "log 0 [];log \udcff [];end": "line 2",
}


def in_bytes(lines: str) -> bytes:
    return lines.replace(";", "\n").encode(errors="surrogateescape")


class Read(unittest.TestCase):
    def test_logs_keep_the_numbers_of_their_lines(self) -> None:
        logs = read_logs(in_bytes(";  \t;# log; \tlog\t7  [1:1,32:4611686018427387903] \r;log 0 [];end;#\udcff"))
        self.assertEqual([(log.line, log.white, log.end()) for log in logs], [(4, 7, 9), (5, 0, 0)])

    def test_lines_that_are_no_logs(self) -> None:
        for lines, why in UNREADABLE.items():
            with self.subTest(lines), self.assertRaises(Unreadable) as raised:
                read_logs(in_bytes(lines))
            self.assertTrue(str(raised.exception).startswith(why), raised.exception)


class Compared(unittest.TestCase):
    def test_the_input_of_compare(self) -> None:
        text, numbers = comparable(read_logs(b"# one\nlog 3 [1:1,2:1]\n\nlog 0 []\nend\n"))
        self.assertEqual((text, numbers), ("log 3 [1:1,2:1]\nlog 0 []\nend\n", [2, 4]))
        self.assertEqual(comparable([]), ("end\n", []))

    def test_a_long_log_takes_several_lines(self) -> None:
        names = tuple(f"32:{2**62 - 1 - n}" for n in range(2001))
        text, numbers = comparable([Log(5, 10, names)])
        lines = text.splitlines()
        self.assertEqual([line.split()[1] for line in lines[:-1]], ["10", "1010", "2010"])
        self.assertLess(max(map(len, lines)), 32_768)
        self.assertEqual(numbers, [5, 5, 5])

    def test_what_is_told_of_logs(self) -> None:
        self.assertEqual(told("differ 1 2 1:1 3 2:1\n", [4, 6, 9]), "differ 1 6 1:1 9 2:1")
        self.assertEqual(told("twice 1:1 1 3\n", [4]), "twice 1:1 1 3")
        self.assertIsNone(agreed("twice 1:1 1 3\n"))
        self.assertEqual(agreed("agree 3 [1:1,-,2:1]\n"), ["1:1", None, "2:1"])
        self.assertEqual(agreed("agree 0 []\n"), [])


if __name__ == "__main__":
    unittest.main()
