"""A report as one page of HTML, which asks for nothing else: the hints and sentences in front, the picture, and beside it the commands.

The picture is that of `dvbemu picture`, drawn once; sheet.js cuts it into strips that fit the window, and ties its marks to the commands.
"""
from __future__ import annotations

import json
import os
from html import escape
from typing import TYPE_CHECKING, NamedTuple

from .. import reports
from ..explain import told
from .axis import CELL
from .drawing import PATTERN, drawing_of
from ..explain.sentences import command_text
from .svg import LEFT, fixed

if TYPE_CHECKING:
    from typing import Sequence

    from ..explain.clients import Call
    from ..explain.story import Story
    from .axis import Axis
    from .drawing import Drawing

HERE = os.path.dirname(os.path.realpath(__file__))
# How wide the columns of the picture may be before they are gathered, and how many bytes of commands are listed.
WIDTH, MOST_LISTED = 6 * 696, 2_500_000
POLICY = "default-src 'none'; style-src 'unsafe-inline'; script-src 'unsafe-inline'"


class List(NamedTuple):
    """The rows of the commands, and how many commands there are and have none."""

    rows: list[str]
    whole: int
    left: int


def file_text(name: str) -> str:
    """A file beside this one."""
    with open(os.path.join(HERE, name), encoding="utf-8") as file:
        return file.read()


# ------ the sentences


def sentence(row: told.Row) -> str:
    """A row of what explain tells, as HTML."""
    if isinstance(row, told.Told):
        kind = ' class="rule"' if row.text.startswith("Rule: ") else ""
        parts = enumerate(row.text.split("\n"))
        return "".join(f'<p data-indent="{row.indent + 2 * (place > 0)}"{kind}>{escape(part)}</p>' for place, part in parts)
    return f"<h2>{escape(row)}</h2>" if row else ""


def sentences_of(report: reports.Report, story: Story) -> str:
    """What explain tells but for what was asked, which the list has; the hints first."""
    whole = told.Part()
    rows = told.hint_lines(story, whole) + ["", *told.stream_lines(report, story.joints > 0)]
    for _, client in sorted(story.clients.items()):
        rows += told.client_lines(client, whole, False) if client.outcomes else []
    return "\n".join(filter(None, map(sentence, rows)))


# ------ the commands


def row_of(client: int, outcome: reports.Outcome, calls: Sequence[Call]) -> str:
    """A command as a row of the list."""
    node = reports.node_name(calls[0].node) if calls else ""
    place = f'data-client="c{client}" data-line="{outcome.line}" data-first="{outcome.first}" data-node="{node}"'
    return f"<div {place}><b>c{client} {outcome.line}</b>{escape(command_text(outcome, calls))}</div>"


def list_of(story: Story) -> List:
    """The rows of all commands, by client; of too many the first ones of each client."""
    rows, whole, left = [], sum(len(client.outcomes) for client in story.clients.values()), 0
    asking = [client for _, client in sorted(story.clients.items()) if client.outcomes]
    for client in asking:
        room = MOST_LISTED // len(asking)
        for number, (outcome, calls) in enumerate(told.commands_of(client)):
            row = row_of(client.number, outcome, calls)
            room -= len(row)
            if room < 0:
                left += len(client.outcomes) - number
                break
            rows.append(row)
    return List(rows, whole, left)


# ------ the picture


def source_of(drawing: Drawing) -> str:
    """The shapes of the picture, a group for each client and node."""
    found = []
    for part in drawing.parts:
        found.append(f'<g data-lane="{escape(part.name)}" data-top="{fixed(part.top)}" data-bottom="{fixed(part.bottom)}">')
        found += part.shapes + ["</g>"]
    return "\n".join(found)


def edges_of(axis: Axis) -> list[float]:
    """Where a strip may end."""
    if not axis.gathers:
        return [round(edge, 1) for edge in axis.edges]
    cells = int((axis.right - LEFT) // CELL)
    return [LEFT + CELL * cell for cell in range(cells)] + [round(axis.right, 1)]


def legend_of(drawing: Drawing) -> str:
    """The legend by itself."""
    high = fixed(drawing.end - drawing.below)
    return "\n".join([f'<svg width="730" height="{high}" viewBox="0 {fixed(drawing.below)} 730 {high}">', *drawing.legend, "</svg>"])


def notes_of(drawing: Drawing, listed: List) -> str:
    """What the page says of what it sums."""
    notes = ["A click on a mark marks its command, and the other way round. Keys: + and - zoom, 0 as it was, / searches, Escape ends it; "
             "the wheel zooms with Ctrl."]  # fmt: skip
    if drawing.axis.gathers:
        notes.append(f"Summed: {drawing.axis.count:,} columns of calls and batches stand in {len(edges_of(drawing.axis)) - 1} cells, where a number "
                     "says how many marks are one, and its title has the first of them.")  # fmt: skip
    if listed.left:
        notes.append(f"Summed: of {listed.whole:,} commands the list has {len(listed.rows):,}, the first ones of each client; "
                     f"{listed.left:,} more stand in the report.")  # fmt: skip
    return "".join(f'<p class="note">{escape(note)}</p>' for note in notes)


def page(report: reports.Report, title: str) -> str:
    """The page."""
    drawing, story = drawing_of(report, title, WIDTH), told.story_of(report)
    listed = list_of(story)
    boxes = "".join(f'<label><input type="checkbox" checked value="{escape(part.name)}"> {escape(part.name)}</label>' for part in drawing.parts)
    return f"""<!DOCTYPE html>
<html lang="en">
<head>
<meta charset="utf-8">
<meta http-equiv="Content-Security-Policy" content="{POLICY}">
<meta name="viewport" content="width=device-width, initial-scale=1">
<title>{escape(title)}</title>
<style>
{file_text("sheet.css")}</style>
</head>
<body>
<header><h1>{escape(title)}</h1><input id="search" type="search" placeholder="search"><span id="count"></span>
<button id="smaller" aria-label="smaller">-</button><span id="zoomed"></span><button id="larger" aria-label="larger">+</button><button id="theme"></button></header>
<main>
<section id="told">
{sentences_of(report, story)}
</section>
<h2>The picture, and the commands</h2>
{notes_of(drawing, listed)}
<div id="lanes">{boxes}</div>
<section id="work">
<div><div id="strips"></div><div id="legend">{legend_of(drawing)}</div></div>
<div id="list">
{chr(10).join(listed.rows)}
</div>
</section>
<svg width="0" height="0"><defs>{PATTERN}</defs></svg>
<svg id="source" aria-hidden="true">
{source_of(drawing)}
</svg>
</main>
<script>
const LEFT = {LEFT}, EDGES = {json.dumps(edges_of(drawing.axis))};
{file_text("sheet.js")}</script>
</body>
</html>
"""
