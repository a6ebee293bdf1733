"""Draws a report of `dvbemu steps` or `dvbemu run`: `dvbemu picture --help`.

The report is the only input. A text that is no report is told on standard error with its line, and the status is 1. Not proved; the
form of a report is that of docs/BEHAVIOUR.md.
"""
from __future__ import annotations

import gc
import io
import os
import sys

from .. import progress
from .. import reports
from .. import tool
from ..picture.drawing import picture


def command() -> tool.Command:
    """The command and its words."""
    words = tool.Command(
        "picture",
        "[--title TEXT] [REPORT]",
        "Draws a report: who called which node when, and what each filter's buffer held, gave and lost.",
        reads="a report, from the file REPORT; without it, or with `-`, from standard input",
        writes="an SVG",
        status="0; 1 if REPORT can't be read or isn't a report; 2 for a usage error",
        example="dvbemu picture my.report > my.svg",
    )
    words.add_argument("--title", metavar="TEXT", help="the picture's title; default: the report's name")
    words.add_argument("report", metavar="REPORT", nargs="?", help="the report")
    return words


def main() -> None:
    """Draws the named report, or the one on standard input."""
    gc.disable()  # what is made of a report stays until the end
    words = command()
    given = words.parse_args()
    name = given.report if given.report != "-" else None
    try:
        report = reports.read(reports.text_of(progress.reading(words, name, "drawing")))
    except (reports.ReportError, OSError) as wrong:
        words.fail_on(name, wrong)
    title = given.title or (os.path.basename(name).removesuffix(".report") if name else "a report of dvbemu")
    text = picture(report, title)
    progress.clear()
    if isinstance(sys.stdout, io.TextIOWrapper):
        sys.stdout.reconfigure(encoding="utf-8", newline="\n")
    sys.stdout.write(text)
