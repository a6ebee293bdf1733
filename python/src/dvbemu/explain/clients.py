"""The clients of a report, what they called, and what they got."""
from __future__ import annotations

from array import array
from bisect import bisect_right
from itertools import chain
from operator import eq
from typing import TYPE_CHECKING, NamedTuple

from ..psi.fields import NAMES, head_of
from ..reports import DVR
from ..stream.packets import PACKET

if TYPE_CHECKING:
    from typing import Any, Iterator, Mapping, Optional, Sequence, Tuple

    from ..reports import Entries, Entry, Outcomes, Reply
    from .story import Node

    # A table_id, a table_id_extension, and whether the sections are those of the table of this number.
    Kind = Tuple[int, Optional[int], bool]


class Note(NamedTuple):
    """What is known of a call beside its entry: a reason that the entry hasn't, what is there of the section that it begins or ends to give,
    whether that is all of it, the stream_ids of the PES packets that begin in its bytes, what is known of what was lost where it is answered
    an Overflow, and how many sections it drops that are as long as those read before."""

    reason: str = ""
    section: bytes = b""
    whole: bool = False
    streams: Sequence[int] = ()
    lost: Lost | None = None
    repeats: int = 0


NOTHING = Note()


class Call:
    """A call of a client: its node, its entry, the names of its act and its reply, the first moment of the report, and what is known of it
    beside."""

    __slots__ = ("node", "entry", "act", "reply", "start", "note")

    def __init__(self, node: int, entry: Entry, start: int, note: Note = NOTHING) -> None:
        self.node, self.entry, self.start, self.note = node, entry, start, note
        self.act = entry.act.partition(" ")[0]
        self.reply = entry.reply.partition(" ")[0]

    def know(self, **known: Any) -> None:
        """Notes what is known of it."""
        self.note = self.note._replace(**known)

    def length(self) -> int:
        """How many bytes a read gave."""
        return 0 if self.reply != "data" or self.entry.reply == "data -" else (len(self.entry.reply) - 5) // 2


class Calls:
    """The calls of a client. Kept are their steps, nodes and numbers there, and what is known beside their entries, which stay in the report."""

    def __init__(self, nodes: Mapping[int, Entries], start: int) -> None:
        self.start = start
        self.entries, self.steps, self.nodes, self.numbers = nodes, array("Q"), array("B"), array("Q")
        self.order: Sequence[int] = ()
        self.notes: dict[tuple[int, int], Note] = {}

    def keep(self, call: Call, number: int) -> None:
        """Takes a call, of whatever step, which has this number on its node."""
        self.steps.append(call.entry.step)
        self.nodes.append(call.node)
        self.numbers.append(number)
        self.note(call)

    def note(self, call: Call) -> None:
        """Takes what is known of a call now."""
        if call.note is not NOTHING:
            self.notes[call.node, call.entry.place] = call.note

    def sort(self) -> None:
        """Orders them by their steps."""
        self.order = array("Q", sorted(range(len(self.steps)), key=self.steps.__getitem__))

    def are_all(self) -> bool:
        """Whether their steps are just those from 0 on."""
        return all(map(eq, map(self.steps.__getitem__, self.order), range(len(self.order))))

    def __iter__(self) -> Iterator[Call]:
        for at in self.order:
            node = self.nodes[at]
            entry = self.entries[node].call(self.numbers[at])
            yield Call(node, entry, self.start, self.notes.get((node, entry.place), NOTHING))


class Lost(NamedTuple):
    """What is known of the span of an Overflow: whether KEEP has kept what was unread before, how many packets it has, where these are
    given whole, how many sections it has at least, where these are given, and the numbers of the stream's packets from which and before
    which its bytes came."""

    kept: bool
    packets: int | None
    sections: int | None
    first: int
    after: int


def lost_by(node: Node, reply: Reply) -> Lost:
    """What is known of the span of an Overflow. Of whole packets each item is another one of those that have passed since the capture began;
    what clients write has no place in the stream."""
    is_whole = node.number == DVR or node.filter is not None and node.filter.output == "tsdemux_tap"
    is_section = node.filter is not None and node.filter.kind == "section"
    kept, (begin, after) = bool(node.filter and node.filter.keeps), reply["span"]
    packets = -(-after // PACKET) - begin // PACKET if is_whole else None
    read = reply["item"] if kept else node.capture.items if node.capture else 0
    sections = max(1, reply["item"] + 1 - read) if is_section else None
    if node.capture is None or node.filter and node.filter.is_played:
        return Lost(kept, packets, sections, 0, 0)
    least = node.capture.begin + begin // PACKET if is_whole else 0
    return Lost(kept, packets, sections, max(node.capture.clear, least), node.passed)


class Through(NamedTuple):
    """What a client reads through: a node, and the kind, the output and the PID of its filter; "", "" and 0 where it has none."""

    node: int
    kind: str
    output: str
    pid: int


class Got:
    """What the reads of a node through one kind of filter gave: how often each section, and of payloads how often each stream_id stands in
    them."""

    def __init__(self) -> None:
        self.reads, self.with_data, self.bytes, self.items = 0, 0, 0, 0
        self.pids: set[int] = set()
        self.sections: dict[bytes, int] = {}
        self.streams: dict[int, int] = {}

    def take_section(self, data: bytes) -> None:
        """Takes a section that was read to its end."""
        self.sections[data] = self.sections.get(data, 0) + 1

    def tables(self) -> dict[Kind, list[set[int]]]:
        """The values of each field of the sections' heads, by table_id and table_id_extension, and whether it is the table of this number."""
        from ..stream.tables import read  # pylint: disable=import-outside-toplevel
        found: dict[Kind, list[set[int]]] = {}
        for data in self.sections:
            head = head_of(data)
            values = found.setdefault((head.table, head.extension, read(data) is not None), [set() for _ in NAMES])
            for known, value in zip(values, head):
                if value is not None:
                    known.add(value)
        return found


class Waits:
    """How often a client waited on a node, and until what."""

    def __init__(self) -> None:
        self.lines: list[int] = []
        self.passes, self.ends, self.others = 0, 0, 0


class Client:
    """What one client asked and got."""

    def __init__(self, number: int, outcomes: Outcomes, nodes: Mapping[int, Entries], start: int) -> None:
        self.number, self.outcomes, self.calls, self.writes = number, outcomes, Calls(nodes, start), False
        self.command = -1
        self.got: dict[Through, Got] = {}
        self.waits: dict[int, Waits] = {}
        self.lost: list[tuple[int, Call, tuple[int, int]]] = []
        self.timed: list[tuple[int, Call, int | None]] = []
        self.refused: dict[tuple[str, str, int], list[int]] = {}

    def number_of(self, step: int) -> int:
        """The number of the command that made this call, or -1 where no command did."""
        outcomes, number = self.outcomes, self.command
        if number < 0 or not outcomes.firsts[number] <= step < outcomes.afters[number]:
            self.command = number = bisect_right(outcomes.firsts, step) - 1
        return number

    def line_of(self, step: int) -> int:
        """The line of the command that made this call, or 0 where no command did."""
        number = self.number_of(step)
        return self.outcomes.lines[number] if number >= 0 else 0

    def begins(self, step: int) -> bool:
        """Whether this call is the first one of its command."""
        number = self.number_of(step)
        return number >= 0 and self.outcomes.firsts[number] == step

    def is_last(self, step: int) -> bool:
        """Whether this call is the last one of its command."""
        number = self.number_of(step)
        return number < 0 or self.outcomes.afters[number] == step + 1

    def has_all(self) -> bool:
        """Whether its calls' steps are just those that its commands made."""
        firsts, afters = self.outcomes.firsts, self.outcomes.afters
        follow = all(map(eq, firsts, chain([0], afters)))
        return follow and len(self.calls.steps) == (afters[-1] if afters else 0) and self.calls.are_all()

    def refuse(self, line: int, call: Call) -> None:
        """Takes a call that was refused, by its error, its reason and its node."""
        lines = self.refused.setdefault((call.reply, call.note.reason, call.node), [])
        if line not in lines[-1:]:
            lines.append(line)
