"""A report as typed objects: nodes with their entries, calls and replies, and the outcome of each command of the script.

reports.py reads the text.
"""
from __future__ import annotations

import io
import os
from dataclasses import dataclass, field
from typing import Any, Callable, Iterator, Mapping, Optional, Union

from . import objects
from . import reports
from .arguments import see_bytes, see_text, whole
from .inputs import many
from .reports import ReportError, Outcome, PidCount

__all__ = ["Call", "Done", "Busy", "Refused", "Data", "Again", "Overflow", "TimedOut", "Ready", "Passed", "Entry", "Node", "ReportError",
           "Outcome", "PidCount", "Report"]  # fmt: skip


@dataclass(frozen=True)
class Call:
    """A call: `open`, `section`, `pes`, `start`, `read` or another name that a report has for it. `arguments` has its arguments by
    name, such as `pid`, `flags`, `count` and the moment `at`, in milliseconds; `bytes` of a `section` has the filter, mask and mode
    byte of each place."""

    name: str
    arguments: Mapping[str, Any]
    text: str


@dataclass(frozen=True)
class Done:
    """The call succeeded. The capture's bytes from `dropped[0]` up to `dropped[1]` had not been read, and are gone."""

    dropped: tuple[int, int]
    tap: Union[str, list[int]]


@dataclass(frozen=True)
class Busy:
    """EBUSY of an open: this client, `c0` to `c7`, has opened the node."""

    owner: str


@dataclass(frozen=True)
class Refused:
    """The call was refused: EBADF, EBUSY, EINVAL or ENOSPC."""

    error: str


@dataclass(frozen=True)
class Data:
    """A read returned these bytes."""

    data: bytes


@dataclass(frozen=True)
class Again:
    """EAGAIN: there is nothing to read; `ended` says whether the stream has ended."""

    ended: bool


@dataclass(frozen=True)
class Overflow:
    """EOVERFLOW: item number `item` needed `need` bytes where `room` were free, and the capture's bytes from `span[0]` up to
    `span[1]` are lost."""

    span: tuple[int, int]
    item: int
    need: int
    room: int


@dataclass(frozen=True)
class TimedOut:
    """ETIMEDOUT: the moments at which the wait began and ended, and the timeout, in milliseconds."""

    started: int
    now: int
    timeout: int


@dataclass(frozen=True)
class Ready:
    """The result of poll(): whether there are bytes (POLLIN), an error, how many bytes have been read so far, and whether the stream
    has ended."""

    readable: bool
    error: str
    at: int
    ended: bool


@dataclass(frozen=True)
class Passed:
    """A batch of packets, or the end of the stream, has passed."""


Reply = Union[Done, Busy, Refused, Data, Again, Overflow, TimedOut, Ready, Passed]


@dataclass(frozen=True)
class Entry:
    """A call and its reply, at a place in a node's history. `who` is `c0` to `c7`, or `feed` for the stream; `step` is the number of
    the call among its caller's calls."""

    place: int
    who: str
    step: int
    call: Call
    reply: Reply


@dataclass(frozen=True, repr=False)
class Node:
    """A node, `n0` to `n31` or `dvr`, and the entries of its history."""

    name: str
    entries: list[Entry]

    def __repr__(self) -> str:
        return f"<Node {self.name}: {many(len(self.calls()), 'call')}, {many(len(self.data()), 'byte')} read>"

    def __iter__(self) -> Iterator[Entry]:
        return iter(self.entries)

    def calls(self) -> list[Entry]:
        """The entries of clients, without the stream's."""
        return [entry for entry in self.entries if entry.who != "feed"]

    def replies(self, name: Optional[str] = None) -> list[Reply]:
        """The replies to the clients' calls, or to the calls of this name."""
        return [entry.reply for entry in self.calls() if name in (None, entry.call.name)]

    def reads(self) -> list[bytes]:
        """The bytes of each read that returned some. With a section filter and large enough reads each is one section."""
        return [entry.reply.data for entry in self.entries if isinstance(entry.reply, Data) and entry.reply.data]

    def data(self) -> bytes:
        """All bytes that were read."""
        return b"".join(self.reads())

    def losses(self) -> list[Overflow]:
        """Each overflow that a read returned."""
        return [entry.reply for entry in self.entries if isinstance(entry.reply, Overflow)]


@dataclass(frozen=True, repr=False)
class Report:
    """A report. `text` is its text; `clients` has the outcomes of each client's commands, and `nodes` each node that was called."""

    text: bytes
    packets: int
    skipped: int
    rest: int
    pids: list[PidCount]
    clients: list[list[Outcome]]
    nodes: list[Node]
    read_fault: bool
    # the script and its streams, or the recording that was played; and the size of a packet there
    source: tuple[Any, ...] = field(default=(), compare=False)
    packet: int = field(default=188, compare=False)

    def __repr__(self) -> str:
        calls = sum(len(node.calls()) for node in self.nodes)
        names = ", ".join(node.name for node in self.nodes) or "no node"
        read = sum(len(node.data()) for node in self.nodes)
        return f"<Report: {many(self.packets, 'packet')}, {many(calls, 'call')} on {names}, {many(read, 'byte')} read>"

    @classmethod
    def parse(cls, text: bytes) -> Report:
        """The report with this text. Raises ReportError, with the line, if the text is not a report."""
        see_bytes(text, "text")
        plain = reports.read(reports.text_of(io.BytesIO(text)))
        nodes = [Node(reports.node_name(number), list(map(_entry, entries))) for number, entries in plain.nodes.items()]
        return cls(text, plain.packets, plain.skipped, plain.rest, plain.pids, [list(outcomes) for outcomes in plain.clients], nodes, plain.read_fault)

    @classmethod
    def load(cls, path: Union[str, os.PathLike[str]]) -> Report:
        """The report in a file."""
        with open(path, "rb") as file:
            return cls.parse(file.read())

    def save(self, path: Union[str, os.PathLike[str]]) -> None:
        """Writes its text into a file."""
        with open(path, "wb") as file:
            file.write(self.text)

    def node(self, name: str) -> Node:
        """The node of this name. Raises a KeyError if no client called it."""
        see_text(name, "name")
        for node in self.nodes:
            if node.name == name:
                return node
        raise KeyError(f"no client called {name}; nodes that were called: {', '.join(node.name for node in self.nodes) or 'none'}")

    def outcome(self, line: int) -> Outcome:
        """The outcome of the command in this line of the script. Raises a KeyError if the line has no command."""
        whole(line, "line")
        for outcome in (outcome for outcomes in self.clients for outcome in outcomes):
            if outcome.line == line:
                return outcome
        raise KeyError(f"line {line} has no command")

    def check(self, script: Any, *streams: Any, packet: int = 188) -> Any:
        """Whether this report is valid for a script and its streams, or for a session, by the proved `dvbemu check`: a Verdict, which
        is true or false and has the reason. The arguments are those of `steps`."""
        from .program import check  # pylint: disable=import-outside-toplevel

        return check(self, script, *streams, packet=packet)

    def same_on_linux(self, *source: Any) -> Any:
        """Whether Linux 6.1 gives the same replies, by the tested `dvbemu beside`: a Verdict, with the calls that Linux answers
        otherwise. A report of `steps`, or of an adapter with one recording, knows its source; for another name it: a session, a
        script and its streams, or the recording that was played."""
        from .program import same_on_linux  # pylint: disable=import-outside-toplevel

        return same_on_linux(self, *(source or self.source))

    def explain(self, *source: Any) -> str:
        """The report in plain English, with hints, as `dvbemu explain` writes it. With its source, named as for same_on_linux, it also
        says why filters got nothing."""
        from .program import explain  # pylint: disable=import-outside-toplevel

        return explain(self, *source)

    def to_json(self) -> str:
        """The report as JSON Lines, as `dvbemu json` writes it (docs/JSON.md)."""
        return "".join(line + "\n" for line in objects.texts_of(reports.read(reports.text_of(io.BytesIO(self.text)))))


def _entry(plain: reports.Entry) -> Entry:
    act = reports.read_act(plain.act)
    call = Call(act["name"], {name: value for name, value in act.items() if name != "name"}, plain.act)
    return Entry(plain.place, plain.who, plain.step, call, _reply(plain.reply))


# The class of each reply, whose fields have the order of the report, and the fields that are true or false.
_REPLIES: dict[str, Callable[..., Reply]] = {"done": Done, "busy": Busy, "again": Again, "overflow": Overflow, "timedout": TimedOut, "ready": Ready, "passed": Passed}
_FLAGS = "ended", "readable"


def _reply(text: str) -> Reply:
    """A reply from its text, which the reader has accepted."""
    values = reports.read_reply(text)
    name = values["name"]
    if name == "data":
        return Data(bytes.fromhex(text[5:]) if values["length"] else b"")
    if name in reports.REFUSALS:
        return Refused(name)
    return _REPLIES[name](*(bool(value) if place in _FLAGS else value for place, value in values.items() if place != "name"))
