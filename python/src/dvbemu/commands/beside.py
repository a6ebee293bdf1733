"""Tells which replies of a session a Linux kernel would give otherwise: `dvbemu beside --help`.

The replies here are those of the program's `steps`; those of Linux are of the model in dvbemu.linux, whose points of
difference are the rows of docs/KERNEL.md."""
from __future__ import annotations

import io
import json
import sys
from typing import TYPE_CHECKING, NamedTuple

from .. import child, cli, inputs, progress, reports, tool
from ..explain import played
from ..inputs import LINE, many
from ..linux.beside import MOST_BATCH, Beside, batch_of, events_here, told
from ..linux.session import Session
from . import session as sessions

if TYPE_CHECKING:
    from argparse import Namespace
    from typing import Iterator, Sequence

    from ..linux.beside import Cause, Change
    from ..linux.parts import Reply
    from ..linux.points import Point

# How many changes of a line are shown, and how many lines by the same rows.
CHANGES, LINES = 3, 20
HERTZ = 1000, 250, 100


# ------ what is compared


class Given(NamedTuple):
    """What the arguments name: the session with its script in front, the batch, and the report that it is of, if there is one."""

    session: bytes
    batch: int
    report: bytes | None


def command() -> tool.Command:
    """The command line."""
    parser = tool.Command(
        "beside",
        "[--batch B] [--packet P] [--hz HZ] [--json] [SESSION | SCRIPT STREAM .. | REPORT SESSION]",
        "Runs a session also by the rules of Linux 6.1, and shows line by line which replies differ, and by which row of docs/KERNEL.md.",
        reads="a session, or a script and its streams, like `steps`; or a report of `steps` and its session, with the report's batch size; "
        "or a report of `serve` and what was played, with the lines of `dvbemu session`. A file may be `-`; without files the session is "
        "read from standard input",
        writes="for each call that differs, the reply here and on Linux, and the row; or that all are the same",
        status="0 if all replies are the same; 1 if one differs, or a file can't be read; 2 for a usage error; 3 if the script has an error",
        example="dvbemu beside my.session; dvbemu beside my.script my.ts; dvbemu beside --hz 250 my.report my.session",
    )
    parser.add_argument("--batch", action=tool.Once, type=tool.number(1, MOST_BATCH, True), metavar="B",
                        help="the maximum number of packets in a batch, as in `steps`")  # fmt: skip
    parser.add_argument("--packet", action=tool.Once, type=int, choices=(188, 204), metavar="P",
                        help="the packet size in the stream: 188 (default) or 204")  # fmt: skip
    parser.add_argument("--hz", type=int, choices=HERTZ, default=HERTZ[0], help="the timer frequency of the kernel; default 1000")
    parser.add_argument("--json", action="store_true", help="write JSON Lines: one object for each line that differs, and a summary")
    parser.add_argument("files", metavar="FILE", nargs="*", help="the files, in the order shown above")
    return parser


def given_by(parser: tool.Command, args: Namespace, files: Sequence[inputs.Input]) -> Given:
    """What the files are."""
    texts = [file.whole() for file in files]
    if not texts[0].startswith(f"{reports.FORMAT}\n".encode()) or len(texts) == 1:
        script = inputs.with_line(texts[0]) if texts[1:] else texts[0]
        return Given(b"".join([script, *texts[1:]]), args.batch or MOST_BATCH, None)
    if played.is_recording(texts[1]):
        return Given(served(parser, files, texts), args.batch or MOST_BATCH, None)
    script = inputs.with_line(texts[1]) if texts[2:] else texts[1]
    return Given(b"".join([script, *texts[2:]]), args.batch or batch_of(texts[0].decode("latin-1").split("\n")), texts[0])


def served(parser: tool.Command, files: Sequence[inputs.Input], texts: Sequence[bytes]) -> bytes:
    """The session of a report of `serve` and of what was played."""
    try:
        report = reports.read(reports.text_of(io.BytesIO(texts[0])))
        script, _ = sessions.script_in(parser, files[0].name, report)
        return b"".join(["\n".join([*script, ""]).encode(), LINE, *played.packets_of(texts[1], report)])
    except reports.ReportError as wrong:
        parser.fail_on(files[0].name, wrong)
    except played.NotPlayed as wrong:
        parser.fail_on(files[1].name, wrong)


def compared(parser: tool.Command, args: Namespace, files: Sequence[inputs.Input]) -> Beside | int:
    """Both runs of what the files are, or the status where `steps` ends with another one than 0."""
    found = given_by(parser, args, files)
    size = args.packet or 188
    run = child.Run(child.program(), ["steps", "--batch", str(found.batch), "--packet", str(size)], True)
    if status := run.feed([found.session]):
        progress.end()
        sys.stderr.buffer.write(run.stderr)
        sys.stderr.flush()
        cli.tell_more(status, run, found.session[: inputs.SCRIPT], files, "beside")
        return cli.ended(status)
    if found.report is not None and found.report != run.stdout:
        parser.fail(f"{files[0].name}: not the report of `steps` over this session; leave it out to compare the session alone")
    session = Session.of(found.session, size)
    return Beside(session, events_here(run.stdout.decode("latin-1").split("\n"), session), found.batch, args.hz)


# ------ what is written


def change_lines(count: int, changes: Sequence[Change]) -> Iterator[str]:
    """What differs in a line that has so many replies here."""
    for change in changes[:CHANGES]:
        where = f"reply {change.place + 1:,} of {count:,}: " if count > 1 else ""
        yield f"    {where}here {told(change.here)} | Linux {told(change.there)}"
    if left := len(changes) - CHANGES:
        yield from [f"    and {many(left, 'place')} more"] * (left > 0)


class Teller:
    """The differences of a session, as text. `times` says how many lines each set of rows was shown for; `passed` are the
    lines left out since, because their rows have been shown often enough."""

    def __init__(self, both: Beside) -> None:
        self.both = both
        self.times: dict[frozenset[Point], int] = {}
        self.named: set[Point] = set()
        self.passed: list[int] = []

    def lines(self) -> Iterator[str]:
        """The text on each line that differs, and the end."""
        for line in self.both.differing:
            causes = self.both.causes(line)
            rows = frozenset(cause.point for cause in causes)
            times = self.times.get(rows, 0)
            if causes and times and (times >= LINES or self.both.elsewhere(line)):
                self.passed.append(line)
                self.named |= rows
                continue
            yield from self.passed_lines()
            self.times[rows] = times + 1
            yield from self.line(line, causes)
        yield from self.passed_lines()
        yield from self.last()

    def line(self, line: int, causes: Sequence[Cause]) -> Iterator[str]:
        """The text on a line."""
        yield f"line {line}: {self.both.session.text[line - 1]}"
        yield from change_lines(*self.both.changes(line))
        for cause in causes:
            since = f", line {cause.line}" if cause.line != line else ""
            says = "" if cause.point in self.named else f": {cause.point.says}"
            self.named.add(cause.point)
            yield f"    by '{cause.point.row}'{since}{says}"
        if not causes:
            yield "    by several rows together"

    def passed_lines(self) -> Iterator[str]:
        """The text on lines that were left out."""
        if not self.passed:
            return
        first, last, places = self.passed[0], self.passed[-1], self.both.elsewhere(self.passed[0])
        of = f"line {first}" if first == last else f"lines {first} to {last}"
        where = "; the stream stands elsewhere, in line {} at packet {:,} here, {:,} on Linux".format(first, *places) if places else ""
        yield f"{of}: {len(self.passed):,} more by rows told above{where}"
        self.passed = []

    def last(self) -> Iterator[str]:
        """The last lines."""
        both, lines = self.both, many(len(self.both.lines), "line")
        if both.undefined is not None:
            yield f"undefined from line {both.undefined} on: Linux goes on with memory that it has given to another feed"
        if both.is_same():
            yield f"The same on Linux 6.1: {lines}, {many(both.calls(), 'call')}."
        else:
            rows = many(len(self.named), "row")
            yield f"{len(both.differing):,} of {lines} otherwise on Linux 6.1, by {rows} of docs/KERNEL.md"


def plain(reply: Reply) -> str:
    """A reply as a report has it."""
    return f"data {reply.hex() or '-'}" if isinstance(reply, bytes) else reply


def objects(both: Beside) -> Iterator[str]:
    """The same as JSON Lines."""
    named: dict[str, None] = {}
    for line in both.differing:
        causes = both.causes(line)
        named |= dict.fromkeys(cause.point.row for cause in causes)
        yield json.dumps({
            "kind": "difference", "line": line, "command": both.session.text[line - 1],
            "changes": [{"reply": change.place + 1, "here": [*map(plain, change.here)], "linux": [*map(plain, change.there)]}
                        for change in both.changes(line)[1]],
            "rows": [{"name": cause.point.row, "line": cause.line} for cause in causes],
            "packets": both.elsewhere(line),
        })  # fmt: skip
    yield json.dumps({
        "kind": "end", "same": both.is_same(), "lines": len(both.lines), "calls": both.calls(), "differing": len(both.differing),
        "rows": list(named), "undefined": both.undefined,
    })  # fmt: skip


def main() -> int:
    """Compares, and tells."""
    parser = command()
    args = parser.parse_args()
    try:
        files = inputs.opened(args.files or ["-"])
        if any(file.is_terminal for file in files):
            parser.tell_waiting()
        progress.show(parser.teller, progress.Work(files, "comparing").text)
        both = compared(parser, args, files)
    except inputs.InputError as fault:
        parser.fail(fault)
    if isinstance(both, int):
        return both
    progress.clear()
    for line in objects(both) if args.json else Teller(both).lines():
        sys.stdout.write(line + "\n")
    return 0 if both.is_same() else 1
