"""Makes the report of a run whose calls a server has written into a folder (`dvbemu serve --keep FOLDER`): `dvbemu merge --help`.

The folder has a file N.calls for each seat, with a line for each call: its node, and then the line that the report has of it. The file
`batches` has a line for each batch that passed all nodes: the number of its first packet, how many packets it has, and the moment. `head`
is a report of the stream alone. A client's commands aren't there, since its calls tell them: a search for a free node is a command, the
call by which the dvr node gets a tap belongs to the call before it, and each other call is a command of its own.

The report is written as it comes, and no file is held in memory; each is read once for the commands, and once more for each node that was
called. Where the server hasn't ended, or a line is missing, incomplete or wrong, that is reported on standard error, and the status is 1; what was
written until then is no report.
"""
from __future__ import annotations

import glob
import heapq
import itertools
import os
import re
import stat
import sys
from typing import TYPE_CHECKING, NamedTuple

from .. import progress
from .. import reports
from .. import tool
from ..errors import Error
from ..reports import BITS_32, DVR, Entry, ReportError, Outcome

if TYPE_CHECKING:
    from typing import Iterable, Iterator, TextIO

NODES = {**{str(node): node for node in range(DVR)}, "dvr": DVR}


class MergeError(Error):
    """A folder of which no report can be made."""


class Call(NamedTuple):
    """A call: its node, and its entry there."""

    node: int
    entry: Entry

    def is_search(self) -> bool:
        """Whether it looks for a free demux node."""
        return self.entry.act == "open" and self.node != DVR

    def finds_none(self) -> bool:
        """Whether it looks for one, and finds this one taken."""
        return self.is_search() and self.entry.reply.startswith("busy ")


def opened(path: str) -> TextIO:
    """A file of the folder, which is open. Of what is no file nothing is waited for."""

    def open_file(name: str, flags: int) -> int:
        file = os.open(name, flags | os.O_NONBLOCK)
        if not stat.S_ISREG(os.fstat(file).st_mode):
            os.close(file)
            raise MergeError(f"{name}: it is no file")
        return file

    return open(path, encoding="ascii", opener=open_file)


def calls_in(path: str) -> Iterator[Call]:
    """The calls of a seat, in their order."""
    with opened(path) as file:
        for step, line in enumerate(file):
            found = re.fullmatch(r"(\d+|dvr) (\d+) (c\d+) (\d+) (.*?) = (.*)\n", line)
            if not found or found[1] not in NODES or int(found[4]) != step:
                raise MergeError(f"{path}: line {step + 1} isn't call {step}")
            yield Call(NODES[found[1]], Entry(int(found[2]), found[3], step, found[5], found[6]))


def passes_in(path: str, count: int) -> Iterator[str]:
    """The acts of the feeder, which has passed so many packets, the end of the stream last."""
    packets = 0
    with opened(path) as file:
        for number, line in enumerate(file, 1):
            found = re.fullmatch(r"(\d+) (\d+) (\d+)\n", line)
            if not found or int(found[1]) != packets:
                raise MergeError(f"{path}: line {number} isn't the batch behind {packets} packets")
            yield f"pass input=frontend first={found[1]} count={found[2]} at={found[3]}"
            packets += int(found[2])
    if packets != count:
        raise MergeError(f"{path} tells of {packets} packets, and the stream had {count}")
    yield "end"


def goes_on(last: Call, call: Call) -> bool:
    """Whether a call belongs to the command of the one before it."""
    if call.entry.act.startswith(("attach ", "detach ")):
        return True
    return call.is_search() and last.finds_none() and call.node == last.node + 1


def commands_of(calls: Iterable[Call]) -> Iterator[list[Call]]:
    """The calls of each command of a client."""
    command: list[Call] = []
    for call in calls:
        if command and not goes_on(command[-1], call):
            yield command
            command = []
        command.append(call)
    if command:
        yield command


def outcomes_of(calls: Iterable[Call]) -> Iterator[Outcome]:
    """What became of the commands of a client. Those behind the greatest number of a line have it too."""
    for line, (first, *others) in enumerate(commands_of(calls), 1):
        last = others[-1] if others else first
        yield Outcome(min(line, BITS_32), first.entry.step, last.entry.step + 1, "EMFILE" if last.finds_none() else "done")


class Folder:
    """A folder of a server that has ended."""

    def __init__(self, path: str) -> None:
        self.batches, head = os.path.join(path, "batches"), os.path.join(path, "head")
        self.read, self.written = 0, 0
        self.files: dict[str, str] = {}
        self.called: set[int] = set()
        self.node: int | None = None
        progress.show_beside("dvbemu merge", self.how_far)
        if not os.path.isdir(path):
            raise MergeError(f"{path}: {'it is no folder' if os.path.exists(path) else 'No such file or directory'}")
        if not os.path.exists(head):
            raise MergeError(f"{path} has no file `head`: the server is still running, or this isn't a --keep folder")
        try:
            with opened(head) as file:
                self.stream = reports.read(file)
        except ReportError:
            raise MergeError(f"{head} isn't complete") from None
        paths = glob.glob(os.path.join(glob.escape(path), "*.calls"))
        for name in paths:
            self.take(name)
        self.clients = max([len(paths), *(int(who[1:]) + 1 for who in self.files)])

    def take(self, path: str) -> None:
        """Looks who has made the calls of a file, and on which nodes."""
        for node, entry in calls_in(path):
            if self.files.setdefault(entry.who, path) != path:
                raise MergeError(f"{path}: {entry.who} has made the calls of {self.files[entry.who]}")
            self.called.add(node)
            self.read += 1

    def how_far(self) -> str:
        """How far it is."""
        if self.node is None:
            return f"{self.read:,} calls read"
        return f"{self.read:,} calls read, {self.written:,} entries written, node {reports.node_text(self.node)}"

    def outcomes(self, client: int) -> Iterable[Outcome]:
        """What became of the commands of a client, of whom there may be no call."""
        path = self.files.get(f"c{client}")
        return outcomes_of(calls_in(path)) if path else ()

    def history(self, node: int) -> Iterator[Entry]:
        """The entries of a node: each call at its place, and the feeder's at all others."""
        self.node = node
        own = iter(heapq.merge(*((call.entry for call in calls_in(path) if call.node == node) for path in self.files.values())))
        passes, call = enumerate(passes_in(self.batches, self.stream.packets)), next(own, None)
        for place in itertools.count():
            if call and call.place < place:
                raise MergeError(f"node {reports.node_text(node)}: two calls at place {call.place}")
            if call and call.place == place:
                entry, call = call, next(own, None)
            elif passed := next(passes, None):
                entry = Entry(place, "feed", *passed, "passed")
            elif call:
                raise MergeError(f"node {reports.node_text(node)}: no file has the call at place {place}")
            else:
                break
            self.written += 1
            yield entry

    def report(self) -> Iterator[str]:
        """The lines of the report."""
        nodes = ((node, self.history(node)) for node in sorted(self.called))
        return reports.write(self.stream, map(self.outcomes, range(self.clients)), nodes)


def command() -> tool.Command:
    """The command line."""
    parser = tool.Command(
        "merge",
        "FOLDER",
        "Makes a report from the calls that `serve --keep FOLDER` has written.",
        reads="FOLDER, whose server has ended",
        writes="the report; after an error, what was written is incomplete",
        status="0; 1 if a file can't be read, a line is missing, incomplete or wrong, or the server is still running; 2 for a usage error",
        example="dvbemu merge calls > my.report",
    )
    parser.add_argument("folder", metavar="FOLDER", help="the folder")
    return parser


def main() -> None:
    """Writes the report."""
    parser = command()
    args = parser.parse_args()
    try:
        sys.stdout.writelines(Folder(args.folder).report())
    except OSError as fault:
        parser.fail_on(fault.filename or args.folder, fault)
    except (MergeError, UnicodeDecodeError, ValueError) as fault:
        parser.fail(str(fault))
