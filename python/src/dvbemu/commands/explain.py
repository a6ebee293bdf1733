"""Tells a report of `dvbemu steps` or `dvbemu run` in plain sentences: `dvbemu explain --help`.

With --node only what concerns that node is told, and with --client only what that client did. A text that is no report is told on
standard error with its line; the status is then 1.
"""
from __future__ import annotations

import gc
import sys
from typing import TYPE_CHECKING

from .. import progress
from .. import reports
from .. import tool
from ..explain.told import Part, Told, page, text_of

if TYPE_CHECKING:
    from argparse import Namespace


def command() -> tool.Command:
    """The command and its words."""
    words = tool.Command(
        "explain",
        "[--node NODE] [--client CLIENT] [REPORT [SESSION]]",
        "Explains a report in plain English, with hints: what each client asked for, got, lost and was refused; with its stream, why filters got nothing.",
        reads="a report, as `steps`, `run` and `serve` write it, from the file REPORT; without it, or with `-`, from standard input; and SESSION, "
        "its session, script and stream, or the recording that `serve` played",
        writes="text",
        status="0; 1 if a file can't be read, or is of the wrong kind; 2 for a usage error",
        example="dvbemu steps my.script my.ts | dvbemu explain --node n0",
    )
    words.add_argument("--node", metavar="NODE", type=tool.reader(reports.node_of, "n0 to n31 or dvr"), help="only what concerns this node: n0 to n31, or dvr")
    words.add_argument("--client", metavar="CLIENT", type=tool.reader(client_of, "c0 to c7"), help="only what this client did: c0 to c7")
    words.add_argument("report", metavar="REPORT", nargs="?", help="the report")
    words.add_argument("session", metavar="SESSION", nargs="?", help="the session of the report, or its recording")
    return words


def client_of(word: str) -> int:
    """The client that a word of the command line names."""
    return reports.number(word.removeprefix("c"), reports.CLIENTS - 1)


def with_session(words: tool.Command, given: Namespace, report: reports.Report, part: Part) -> str:
    """What is told of a report with its session: behind the rest, what Linux would answer otherwise, where there is a script."""
    from ..explain import offered, played  # pylint: disable=import-outside-toplevel
    from ..linux.beside import first_difference  # pylint: disable=import-outside-toplevel
    session = words.bytes_of(given.session)
    try:
        packets = played.packets_of(session, report)
    except played.NotPlayed as wrong:
        words.fail_on(given.session, wrong)
    text = page(report, part, offered.Stream(packets))
    told = "" if part != Part() or played.is_recording(session) else first_difference(report, session, packets)
    return text + "\n" + text_of(["On Linux 6.1", "", Told(2, told)]) if told else text


def main() -> None:
    """Tells the named report, or the one on standard input."""
    gc.disable()  # what is made of a report stays until the end
    words = command()
    given = words.parse_args()
    part = Part(given.node, given.client)
    try:
        report = reports.read(reports.text_of(progress.reading(words, given.report, "telling")))
        if part.node is not None and part.node not in report.nodes:
            words.fail(f"no client called {reports.node_name(part.node)}")
        if part.client is not None and part.client >= len(report.clients):
            words.fail(f"the report has no client {part.client}")
        text = with_session(words, given, report, part) if given.session else page(report, part, None)
    except (reports.ReportError, OSError) as wrong:
        words.fail_on(given.report, wrong)
    progress.clear()
    sys.stdout.write(text)
