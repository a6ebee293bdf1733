"""Writes a report as a page of HTML that a browser shows without a network: `dvbemu page --help`. What is far away is summed, and the page
says so. Not proved."""
from __future__ import annotations

import gc
import io
import os
import sys

from .. import progress
from .. import reports
from .. import tool
from ..picture.sheet import page


def command() -> tool.Command:
    """The command and its words."""
    words = tool.Command(
        "page",
        "[--title TEXT] [REPORT]",
        "Writes a report as an HTML page: sentences, picture and commands.",
        reads="a report, from the file REPORT; without it, or with `-`, from standard input",
        writes="one HTML file, which needs no other file and no network",
        status="0; 1 if REPORT can't be read or isn't a report; 2 for a usage error",
        example="dvbemu page my.report > my.html",
    )
    words.add_argument("--title", metavar="TEXT", help="the page's title; default: the report's name")
    words.add_argument("report", metavar="REPORT", nargs="?", help="the report")
    return words


def main() -> None:
    """Writes the page of the named report, or of the one on standard input."""
    gc.disable()  # what is made of a report stays until the end
    words = command()
    given = words.parse_args()
    name = given.report if given.report != "-" else None
    title = given.title or (os.path.basename(name).removesuffix(".report") if name else "a report of dvbemu")
    try:
        text = page(reports.read(reports.text_of(progress.reading(words, name, "making the page"))), title)
    except (reports.ReportError, OSError) as wrong:
        words.fail_on(name, wrong)
    progress.clear()
    if isinstance(sys.stdout, io.TextIOWrapper):
        sys.stdout.reconfigure(encoding="utf-8", newline="\n")
    sys.stdout.write(text)
