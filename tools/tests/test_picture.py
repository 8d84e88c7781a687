"""Pictures: a report and a schedule are read, belong together step by step, and are told and drawn."""
from __future__ import annotations

import json
import pathlib
import re
import stat
import subprocess
import sys
import tempfile
import unittest
import xml.dom.minidom

TOOLS = pathlib.Path(__file__).resolve().parents[1]
EXAMPLES = TOOLS.parent / "examples"
sys.dont_write_bytecode = True
sys.path.insert(0, str(TOOLS))
from pictures import page, report, schedule, story  # noqa: E402


def texts(name: str, command: str = "schedule") -> tuple[str, str]:
    return tuple((EXAMPLES / f"{name}.{kind}").read_text(encoding="utf-8") for kind in ("report", command))


def as_json(text: str) -> str:
    """The report of `json` for the report of `replay`."""
    entries: list[dict[str, object]] = []
    for line in text.splitlines():
        if line.startswith("= "):
            entries.append({"lines": [], "step": int(line[2:])})
        elif line.split(" ")[0] in ("end", "refused"):
            entries.append({"tail": line})
        else:
            entries[-1]["lines"].append(line)
    return "".join(json.dumps(entry, separators=(",", ":")) + "\n" for entry in entries)


def spans(name: str, program: str = "") -> list[tuple[str, int, int]]:
    """The lines of each passage, with its first and last step."""
    text, plan = texts(name)
    found = schedule.passages(schedule.read(plan), *report.read(text), program)
    return [(" | ".join(line.text for line in p.lines), p.first, p.last) for p in found]


def told(name: str, command: str = "schedule") -> dict[str, story.Column]:
    text, plan = texts(name, command)
    steps, tail = report.read(text)
    columns, _ = story.told(steps, schedule.passages(schedule.read(plan), steps, tail), tail, None)
    return {column.name: column for column in columns}


def chips(column: story.Column) -> list[tuple[int, str, str]]:
    return [mark[:3] for mark in column.marks if mark.kind]


class Reports(unittest.TestCase):
    def test_both_forms_are_read_alike(self) -> None:
        for path in sorted((EXAMPLES / "pictures").glob("*.svg")):
            text = (EXAMPLES / f"{path.stem}.report").read_text(encoding="utf-8")
            self.assertEqual(report.read(as_json(text)), report.read(text), path.name)

    def test_the_line_of_a_replica(self) -> None:
        line = "RegPrim c4 g2 w1 p3@4{1*3,2} a0 v4/2{1*3,2}{1} y?[1:1] r[2:1,3:1] o[2:2] x{3} b5"
        record, lists = ("{1*3,2}", "{1}"), (("1:1",), ("2:1", "3:1"), ("2:2",))
        self.assertEqual(report.replica(line), report.Replica("RegPrim", "c4", 2, 1, 3, "{1*3,2}", record, *lists, 5))
        self.assertEqual(report.replica("Down"), report.Replica())
        for yellow in ("y-", "y![]"):
            line = f"NonPrim - g0 w0 p0@0{{1}} a0 v- {yellow} r[] o[] x{{}} b0"
            self.assertEqual(report.replica(line), report.Replica("NonPrim", members="{1}"))

    def test_what_is_no_report_is_told(self) -> None:
        for text in ("", "usage: congruity replay\n", "no end 0\n"):
            with self.assertRaisesRegex(ValueError, "shows no step"):
                report.read(text)
        with self.assertRaisesRegex(ValueError, "can't be read: RegPrim"):
            report.read("= 1\n1 RegPrim\n")


class Schedules(unittest.TestCase):
    def test_comments_belong_to_the_line_below_them(self) -> None:
        lines = schedule.read("# one\n#two\n\nstart 1 2*3\n  merge 1 2\r\nend\nmerge 1\n")
        self.assertEqual(lines[0], schedule.Line(4, "start 1 2*3", "one two", "start", (1, 2)))
        self.assertEqual(lines[1], schedule.Line(5, "merge 1 2", "", "merge", (1, 2)))
        self.assertEqual(len(lines), 2)

    def test_the_steps_of_lines_are_found_without_a_program(self) -> None:
        found = spans("partition")
        self.assertEqual(found[2:5], [("rounds 2", 3, 10), ("split 1 2", 11, 11), ("split 3", 12, 12)])
        self.assertEqual(found[7:9], [("rounds 3", 15, 22), ('request 1 put "x" 1', 23, 23)])
        self.assertEqual(found[10:12], [("rounds 1", 25, 28), ("split 1 2", 29, 29)])

    def test_an_event_that_shows_nothing_has_its_step(self) -> None:
        self.assertIn(("stop 1 3 01", 2, 2), spans("crash-after"))
        self.assertIn(("order 2", 23, 23), spans("third-member"))

    def test_what_the_report_leaves_open_stays_together(self) -> None:
        self.assertEqual(spans("waits-in-the-exchange")[-1], ("rounds 2 | rounds 1", 5, 16))

    def test_a_program_tells_it(self) -> None:
        with tempfile.NamedTemporaryFile("w", suffix=".sh", delete=False) as file:
            file.write('#!/bin/sh\n[ "$1" = check ] && grep -q "^rounds 2" && echo end 12\n')
        path = pathlib.Path(file.name)
        path.chmod(stat.S_IRWXU)
        try:
            found = spans("waits-in-the-exchange", file.name)
            self.assertEqual(found[-2:], [("rounds 2", 5, 12), ("rounds 1", 13, 16)])
        finally:
            path.unlink()

    def test_a_made_action_may_be_one_that_was_kept(self) -> None:
        # these requests are kept in their steps, and made inside the rounds
        found = spans("waits-in-the-exchange")
        self.assertEqual(found[2:4], [('request 1 put "x" 1', 3, 3), ('request 1 put "y" 2', 4, 4)])


class Stories(unittest.TestCase):
    def test_actions_change_their_colour(self) -> None:
        columns = told("yellow")
        self.assertEqual(chips(columns["18"]), [(1, "yellow", "3:1"), (1, "yellow", "1:1")])
        self.assertEqual(chips(columns["25"]), [(1, "red", "1:1")])
        self.assertEqual(chips(columns["29"])[:2], [(1, "green", "3:1"), (1, "green", "1:1")])
        self.assertEqual(columns["29"].placed, [("1", "3:1"), ("2", "1:1")])

    def test_a_crash_is_armed_comes_and_is_over(self) -> None:
        columns = told("crash-after")
        found = [chips(columns[step]) for step in ("2", "5", "11")]
        self.assertEqual(found, [[(1, "armed", "")], [(1, "crash", "")], [(1, "back", "")]])
        self.assertEqual(columns["2"].marks[0].words, "Replica 1 will stop inside its device call 3 from now on")

    def test_a_recovery_is_stopped_on_an_older_disk(self) -> None:
        columns = told("older-disk")
        found = [chips(columns[step]) for step in ("18", "19", "20")]
        self.assertEqual(found, [[(1, "note", "older disk")], [(1, "crash", "")], [(1, "crash", "")]])
        self.assertEqual(chips(columns["21"])[0], (1, "back", ""))
        words = "Replica 1 crashes in its recovery, inside device call 12, and stays down"
        self.assertEqual(columns["20"].marks[0].words, words)
        self.assertIn(("recover 1 12 01", 20, 20), spans("older-disk"))

    def test_states_are_told_in_words(self) -> None:
        columns = told("partition")
        words = [columns[step].marks[0].words for step in ("16", "18", "20")]
        last = "a quorum of the last one, {1,2,3}"
        self.assertEqual(words[0], f"Replica 1 attempts to form a primary component of {{1,2}}: these are {last}")
        self.assertTrue(words[1].startswith("Replica 3 is in no primary component: those here are no quorum"), words[1])
        self.assertEqual(words[2], "Replica 1 is in the primary component: number 2, of {1,2}")

    def test_who_stands_together(self) -> None:
        columns = told("partition")
        steps = [columns[step] for step in ("1", "10", "11", "12", "14")]
        places = [[(group.place, group.members) for group in column.groups] for column in steps]
        self.assertEqual(places[0], [("-", (1,)), ("-", (2,)), ("-", (3,))])
        self.assertEqual(places[1], [("c1", (1, 2, 3))])
        self.assertEqual(places[2], [("t1", (1, 2)), ("c1", (3,))])
        self.assertEqual(places[3], [("t1", (1, 2)), ("t1", (3,))])
        self.assertEqual(places[4], [("c2", (1, 2)), ("c3", (3,))])

    def test_a_joiner_begins_with_a_copy(self) -> None:
        self.assertEqual(chips(told("join")["41"]), [(4, "note", "copy of 3")])

    def test_databases_are_those_that_the_report_tells(self) -> None:
        text, _ = texts("join")
        steps, tail = report.read(text)
        self.assertEqual(story.told(steps, [], tail, None)[1].databases, {3: '"x"=1 "y"=2'})

    def test_sessions_are_told_in_words(self) -> None:
        columns = told("own-past", "sessions")
        self.assertEqual(columns["24"].marks[-1].words, "Session 1 has written 1:1")
        at = "Session 1 is told of its write at place 1, and reads nothing older from now on"
        self.assertEqual(columns["26"].marks[-1].words, at)
        behind = "Session 1 isn't answered: the replica has 0 places, and the session has seen 1"
        self.assertEqual(columns["29"].marks[-1], (3, "answer", "✗ behind: 0 of 1", behind))
        self.assertEqual(columns["30"].marks[-1], (2, "answer", "1 at 1", "Session 1 finds 1 in the first 1 places"))

    def test_followers_are_told_in_words(self) -> None:
        columns = told("struck-feed", "follow")
        armed = "Follower 3 will stop inside its device call 3 from now on"
        self.assertEqual([columns["32"].marks[-1].words, chips(columns["32"])], [armed, []])
        self.assertEqual(columns["33"].marks[-1], (2, "answer", "follower 3: down", "Follower 3 is down"))
        self.assertEqual(columns["44"].marks[-1].words, "Follower 3 is up and has the first 4 places")
        self.assertEqual(columns["45"].marks[-1].words, "A query at follower 3 finds 15")

    def test_relaxed_queries_are_told_in_words(self) -> None:
        columns = told("sums-apart", "relaxed")
        words = "By all that replica 1 knows the register is absent, the sum 103"
        self.assertEqual(columns["50"].marks[-1], (1, "answer", "absent 103", words))
        words = "By all that replicas 4 and 5 know together the register is 4, the sum 1301"
        self.assertEqual(columns["56"].marks[-1], (4, "answer", "with 5: 4 1301", words))

    def test_a_line_with_a_word_of_its_own_is_shown_as_it_is(self) -> None:
        story_of = story.Story()
        self.assertEqual(story_of.told("other", '1 "{}"').words, 'other 1 "{}"')

    def test_each_tail_has_words(self) -> None:
        words = "Line 6 isn't admitted: it is regular in a configuration; split it first (reason 16, value 3)"
        self.assertEqual(story.of_tail("refused 6 16 3"), words)
        refused = [f"refused 2 {n} 1" for n in (*range(1, 17), *range(18, 26))]
        for tail in [*refused, *(f"syntax 2 {n}" for n in range(1, 10))]:
            self.assertNotIn("no words", story.of_tail(tail), tail)
        self.assertEqual(story.of_tail("limit 3 steps"), "The run ended early: limit 3 steps")


class Drawn(unittest.TestCase):
    def drawn(self, name: str, **how: object) -> str:
        return page.drawn(*texts(name), name, **how)

    def test_a_picture_is_well_formed_and_needs_nothing_else(self) -> None:
        for name in ("third-member", "commands", "refused"):
            svg = self.drawn(name, svg=True)
            xml.dom.minidom.parseString(svg.encode())
            self.assertEqual(re.findall(r'(?:href|src)="(?!#mark-)[^"]*"', svg), [])

    def test_a_primary_component_that_a_member_has_left_is_dashed(self) -> None:
        self.assertIn(">PRIMARY 2 held up<", self.drawn("third-member", svg=True))
        self.assertIn('<text class="name primary held"', self.drawn("third-member", svg=True))
        self.assertNotIn("held up", self.drawn("first", svg=True))

    def test_lines_that_are_not_told_apart_have_a_dashed_bracket(self) -> None:
        svg = self.drawn("waits-in-the-exchange", svg=True)
        self.assertRegex(svg, r'<text class="line several"[^>]*>rounds 2  rounds 1<')

    def test_a_refused_line_is_drawn_at_the_end(self) -> None:
        self.assertRegex(self.drawn("refused", svg=True), r'<text class="line refused"[^>]*>✖ merge 1 2 3<')

    def test_a_line_of_any_bytes_is_drawn(self) -> None:
        text, plan = texts("refused")
        plan = plan.replace("merge 1 2 3\nend", 'put "\x00\uffff" <b>\nend')
        svg = page.drawn(text.replace("refused 6 16 3", "syntax 6 2"), plan, "x", svg=True)
        xml.dom.minidom.parseString(svg.encode())
        self.assertIn('✖ put "\ufffd\ufffd" &lt;b&gt;<', svg)

    def test_a_part_of_the_steps(self) -> None:
        svg = self.drawn("partition", svg=True, part="20-30")
        self.assertEqual(re.findall(r'class="number"[^>]*>(\w+)<', svg), "20 21 23 24 26 27 28 29 30".split())
        numbers = re.findall(r'class="number"[^>]*>(\w+)<', self.drawn("refused", svg=True, part="9-"))
        self.assertEqual(numbers, ["9", "10", "11", "end"])
        with self.assertRaisesRegex(ValueError, "no step of 60-"):
            self.drawn("partition", part="60-")

    def test_without_a_schedule_there_are_the_steps_alone(self) -> None:
        self.assertNotIn("bracket ", page.drawn(texts("partition")[0], "", "x", svg=True).partition("</style>")[2])

    def test_no_text_of_a_schedule_ends_the_script(self) -> None:
        text, plan = (it.replace('"x"', '"</script>&"') for it in texts("partition"))
        html = page.drawn(text, plan, "<b>")
        self.assertEqual(html.count("</script>"), 1)
        data = json.loads(re.search(r"const data = (.*);\n", html)[1])
        self.assertEqual(data["made"]["1:1"], 'put "</script>&" 1')
        self.assertEqual((len(data["steps"]), data["order"]), (36, ["1:1", "3:1"]))
        self.assertIn("<title>&lt;b&gt;</title>", html)


class Program(unittest.TestCase):
    def run_on(self, text: str, *words: str) -> subprocess.CompletedProcess[str]:
        return subprocess.run([TOOLS / "picture", *words], input=text, capture_output=True, text=True, check=False)

    def test_it_goes_from_standard_input_to_standard_output(self) -> None:
        words = ["--svg", "--schedule", str(EXAMPLES / "first.schedule"), "--title", "first"]
        ended = self.run_on(as_json(texts("first")[0]), *words)
        self.assertEqual((ended.stderr, ended.returncode), ("", 0))
        self.assertEqual(ended.stdout, (EXAMPLES / "pictures" / "first.svg").read_text(encoding="utf-8"))

    def test_a_fault_is_told(self) -> None:
        ended = self.run_on("usage: congruity\n")
        self.assertEqual((ended.stdout, ended.returncode), ("", 1))
        self.assertEqual(ended.stderr, "picture: the report shows no step: usage: congruity\n")


if __name__ == "__main__":
    unittest.main()
