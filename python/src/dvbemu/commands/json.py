"""Writes a report as JSON Lines, and JSON Lines as a report: `dvbemu json --help`. The form of both is that of docs/JSON.md.

Nothing is lost on the way: what --back writes is the report byte for byte. A text that is no report, or that --back would make none of,
is told with its line, and the status is 1.
"""
from __future__ import annotations

import gc
import sys

from .. import objects
from .. import progress
from .. import reports
from .. import tool


def command() -> tool.Command:
    """The command and its words."""
    words = tool.Command(
        "json",
        "[--back] [REPORT]",
        "Writes a report as JSON Lines: an object for each row of the stream, each command of a client and each entry of a node.",
        reads="a report, from the file REPORT; without it, or with `-`, from standard input. With --back the output of json",
        writes="JSON Lines in the form of docs/JSON.md, whose schema is docs/report.schema.json; with --back a report",
        status="0; 1 if REPORT can't be read, or is of the wrong kind; 2 for a usage error",
        example="dvbemu json my.report | jq 'select(.reply.name == \"overflow\")'",
    )
    words.add_argument("--back", action="store_true", help="convert JSON Lines back to a report")
    words.add_argument("report", metavar="REPORT", nargs="?", help="the report, or the JSON Lines")
    return words


def main() -> None:
    """Writes the one as the other."""
    gc.disable()  # what is made of a report stays until the end
    words = command()
    given = words.parse_args()
    try:
        with progress.reading(words, given.report, "writing") as file:
            text = reports.text_of(file)
            report = reports.read(objects.back(text) if given.back else text)
    except (reports.ReportError, objects.JsonError, OSError) as wrong:
        words.fail_on(given.report, wrong)
    progress.clear()
    sys.stdout.writelines(reports.write(report) if given.back else (text + "\n" for text in objects.texts_of(report)))
