"""Puts a picture together: SVG alone, or a page that goes through it step by step."""
import html
import json
import re
from dataclasses import asdict

from . import report, schedule, story
from .drawing import Drawing

LATE = 10**9  # after every line and step


def drawn(text: str, plan: str, title: str, svg: bool = False, part: str = "1-", program: str = "") -> str:
    """The picture of a report, or of a part of its steps; the schedule may be empty."""
    steps, tail = report.read(text)
    lines = schedule.read(plan)
    word, *numbers = tail.split() or [""]
    stop = int(numbers[0]) if word in ("syntax", "refused", "limit") else LATE
    done = [line for line in lines if line.number < stop]
    passages = schedule.passages(done, steps, tail, program)
    columns, told = story.told(steps, passages, tail, next((line for line in lines if line.number == stop), None))
    first, _, last = part.partition("-")
    numbered = [(LATE if column.name == "end" else int(column.name), column) for column in columns]
    columns = [column for number, column in numbered if int(first or 1) <= number <= int(last or LATE)]
    if not columns:
        raise ValueError(f"no step of {part} shows anything")
    merges = enumerate((line for line in done if line.word == "merge"), 1)
    drawing = Drawing(columns, told, {f"c{n}": set(line.numbers) for n, line in merges})
    picture = drawing.svg(title)
    if svg:
        return picture
    data = {
        "steps": [asdict(column) | {"left": p.left, "right": p.right} for column, p in zip(columns, drawing.places)],
        "made": told.made, "order": told.order, "databases": told.databases, "states": story.WORDS["state"],
    }  # fmt: skip
    page = (story.HERE / "page.html").read_text(encoding="utf-8")
    spelled = json.dumps(data, ensure_ascii=False).replace("<", "\\u003c")  # no text of a schedule ends the script
    parts = {"TITLE": html.escape(title), "SVG": picture, "DATA": spelled}
    return re.sub("@(TITLE|SVG|DATA)@", lambda found: parts[found[1]], page)
