"""A node's entries gone through: owner, size, filter, PIDs and capture as they follow from the calls that were accepted, by the rules of
docs/BEHAVIOUR.md, 'Calls' and 'The dvr node'. What a read or a poll gives stands in the report, and isn't worked out here.
"""
from __future__ import annotations

from typing import TYPE_CHECKING

from ..reports import DVR
from .refusals import IMMEDIATE, KEEP, ONESHOT, refusal

if TYPE_CHECKING:
    from ..reports import Act, Entry, Reply

# The size of the buffer that Open gives, of a demux node and of the dvr node.
FIRST_SIZE, FIRST_DVR_SIZE = 8192, 1925120


class Filter:
    """A filter of a demux node: its set call, whose it is, what of the call counts for what it gives, and the PIDs that it ever had."""

    def __init__(self, entry: Entry, act: Act) -> None:
        self.entry, self.act, self.client = entry, act, int(entry.who[1])
        self.kind, self.pid, self.output = act["name"], act["pid"], act.get("output", "")
        self.is_played = act.get("input") == "dvr"
        self.once = self.kind == "section" and bool(act["flags"] & ONESHOT)
        self.keeps = bool(act["flags"] & KEEP)
        self.ever = {self.pid}


class Answered:
    """How many bytes of a capture are answered: given by reads, or named as lost by Overflows."""

    def __init__(self) -> None:
        self.answered = 0

    def give(self, length: int) -> None:
        """A read gives so many bytes."""
        self.answered += length

    def skip_to(self, after: int) -> None:
        """An Overflow names the bytes up to here, behind which an item begins."""
        self.answered = after


class Walk:
    """A node behind some entries. What happens where a filter or a capture begins or ends is said by the classes below this one; `runs` says
    whether a filter is started and not stopped, and `due` is the moment from which the capture's timeout is over, where nothing was
    selected before; None where it has none."""

    def __init__(self, number: int) -> None:
        self.number = number
        self.owner: int | None = None
        self.size: int | None = None
        self.first_size: int | None = None
        self.filter: Filter | None = None
        self.pids: set[int] = set()
        self.has_capture, self.runs = False, False
        self.due: int | None = None

    def accept(self, entry: Entry, act: Act, reply: Reply) -> None:
        """Takes a call of a client that was answered Done."""
        name, client = act["name"], int(entry.who[1])
        if self.owner is not None if name == "open" else refusal(self, client, act):
            return  # no report of a program
        is_resized = name == "size" and act["size"] != self.size
        ends = self.has_capture and (is_resized or name in ("close", "section", "pes", "start"))
        begins = name == "start" or self.number == DVR and (name == "open" or is_resized)
        begins = begins or name in ("section", "pes") and bool(act["flags"] & IMMEDIATE)
        self.has_capture = begins or self.has_capture and not ends
        self.runs = self.number != DVR and self.has_capture and (begins or self.runs and name != "stop")
        self.change(client, act)
        if ends:
            self.end_capture(entry, reply)
        if name in ("close", "section", "pes") and self.filter is not None:
            self.end_filter()
            self.filter = None
        if name in ("section", "pes"):
            self.filter = self.filter_of(entry, act)
        elif name in ("add", "remove") and self.filter:
            self.filter.ever |= self.pids
            self.change_pids(entry)
        elif name == "stop":
            self.stop(entry)
        if begins:
            timeout = self.filter.act.get("timeout", 0) if self.filter else 0
            self.due = act["at"] + timeout if timeout else None
            self.begin_capture(entry)

    def change(self, client: int, act: Act) -> None:
        """What an accepted call changes of owner, size and PIDs."""
        name = act["name"]
        if name == "open":
            self.owner, self.size = client, FIRST_DVR_SIZE if self.number == DVR else FIRST_SIZE
            self.first_size, self.pids = self.size, set()
        elif name == "close":
            self.owner, self.size = None, None
        elif name == "size":
            self.size = act["size"]
        elif name in ("section", "pes"):
            self.pids = {act["pid"]}
        elif name == "add":
            self.pids = self.pids | {act["pid"]}
        elif name == "remove":
            self.pids = self.pids - {act["pid"]}

    def filter_of(self, entry: Entry, act: Act) -> Filter:
        """The filter of a set call."""
        return Filter(entry, act)

    def begin_capture(self, entry: Entry) -> None:
        """A capture begins with this entry."""

    def end_capture(self, entry: Entry, reply: Reply) -> None:
        """The capture ends with this entry."""

    def end_filter(self) -> None:
        """The filter is set no longer."""

    def change_pids(self, entry: Entry) -> None:
        """The filter has another PID, or one less."""

    def stop(self, entry: Entry) -> None:
        """A Stop is accepted."""
