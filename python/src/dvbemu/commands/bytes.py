"""Writes what a node's clients have read, as a file: `dvbemu bytes --help`.

The bytes of all reads of the node stand there in the order of its entries. What isn't among them is reported on standard error: what was lost,
how many bytes, and behind which of those that are written; and each filter, PID or start that was asked for and refused.
"""
from __future__ import annotations

import re
import sys
from typing import TYPE_CHECKING

from .. import tool
from .. import reports
from ..inputs import many
from ..explain.refusals import refusal
from ..explain.walk import Walk

if TYPE_CHECKING:
    from argparse import Namespace
    from typing import BinaryIO, Iterator, Sequence

    from ..reports import Entry, Report

# The calls that say what comes.
ASKING = "section", "pes", "add", "start"


def command() -> tool.Command:
    """The command line."""
    parser = tool.Command(
        "bytes",
        "[--node NODE] [-o FILE] [REPORT]",
        "Writes the bytes that were read from a node: what a recorder would have on disk.",
        reads="a report, from the file REPORT; without it, or with `-`, from standard input",
        writes="the bytes, on standard output or into FILE; on standard error what was lost between them, and "
        "what was asked for and refused",
        status="0, even if bytes were lost; 1 if a file can't be read or written, REPORT isn't a report, nothing was read, or "
        "several nodes were read and --node is missing; 2 for a usage error",
        example="dvbemu steps record.script my.ts | dvbemu bytes --node dvr -o recorded.ts",
    )
    parser.add_argument("--node", metavar="NODE", type=tool.reader(reports.node_of, "n0 to n31 or dvr"), help="the node: n0 to n31, or dvr; "
                        "default: the one that was read")  # fmt: skip
    parser.add_argument("-o", metavar="FILE", dest="to", help="the output file; default: standard output")
    parser.add_argument("report", metavar="REPORT", nargs="?", help="the report")
    return parser


def has_data(entry: Entry) -> bool:
    """Whether a read gave bytes."""
    return entry.reply.startswith("data ") and entry.reply != "data -"


def chosen(parser: tool.Command, args: Namespace, report: Report) -> int:
    """The node whose bytes are asked for."""
    if args.node is not None:
        node: int = args.node
        if node not in report.nodes:
            parser.fail(f"no client called {reports.node_name(node)}")
        return node
    found = [node for node, entries in sorted(report.nodes.items()) if any(map(has_data, entries))]
    if not found:
        for node, entries in sorted(report.nodes.items()):
            for entry in entries:
                tell_lost(parser, node, entry, 0)
        parser.fail("no byte was read; `dvbemu explain` says more")
    if len(found) > 1:
        parser.fail(f"{', '.join(map(reports.node_name, found))} were read; choose one with --node")
    return found[0]


class Asked(Walk):
    """What clients have asked a node for."""

    def refused(self, entries: Sequence[Entry]) -> Iterator[tuple[int, str, str]]:
        """The calls that were refused: the place of each, the call, and why."""
        for entry in entries:
            if entry.reply.startswith("done "):
                self.accept(entry, reports.act_of(entry), reports.reply_of(entry))
            elif entry.reply in reports.REFUSALS and entry.act.split(" ")[0] in ASKING:
                error, reason = refusal(self, int(entry.who[1]), reports.act_of(entry)) or (entry.reply, "")
                yield entry.place, re.sub(r" at=\d+", "", entry.act), error + (f": {reason}" if reason else "")


def tell_refused(parser: tool.Command, report: Report, node: int) -> None:
    """Tells what was asked for and refused; of the dvr node, what was asked of the nodes whose packets it gets."""
    tapped = [number for number, entries in report.nodes.items() if any(" output=ts_tap " in entry.act for entry in entries)]
    for number in tapped if node == reports.DVR else [node]:
        for place, act, error in Asked(number).refused(report.nodes[number]):
            print(f"{parser.prog}: {reports.node_name(number)}: refused, and not among these bytes: {act} (place {place}: {error})",
                  file=sys.stderr)  # fmt: skip


def tell_lost(parser: tool.Command, node: int, entry: Entry, written: int) -> None:
    """Tells of an overflow, behind so many bytes that are written."""
    if entry.reply.startswith("overflow "):
        first, after = reports.span(entry.reply.split(" ")[1])
        lost = many(after - first, "byte is", "bytes are")
        print(f"{parser.prog}: {reports.node_name(node)}: {lost} lost after byte {written:,} (place {entry.place}: {entry.reply})",
              file=sys.stderr)  # fmt: skip


def copy(parser: tool.Command, node: int, entries: Sequence[Entry], out: BinaryIO) -> None:
    """Writes the bytes of a node's reads, and tells what was lost."""
    written = 0
    for entry in entries:
        tell_lost(parser, node, entry, written)
        if has_data(entry):
            data = bytes.fromhex(entry.reply[5:])
            out.write(data)
            written += len(data)


def main() -> None:
    """Writes the bytes."""
    parser = command()
    args = parser.parse_args()
    try:
        report = reports.read(reports.text_of(parser.opened(args.report)))
    except (reports.ReportError, OSError) as wrong:
        parser.fail_on(args.report, wrong)
    node = chosen(parser, args, report)
    tell_refused(parser, report, node)
    try:
        with open(args.to, "wb") if args.to else sys.stdout.buffer as out:
            copy(parser, node, report.nodes[node], out)
    except OSError as wrong:
        parser.fail_on(args.to or "standard output", wrong)
