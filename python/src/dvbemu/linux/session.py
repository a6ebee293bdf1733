"""A session on the adapter: the lines of its script, in the order of `steps` (docs/BEHAVIOUR.md), and what each call is
answered."""
from __future__ import annotations

from typing import TYPE_CHECKING, NamedTuple, cast

from .. import abi, reports
from ..inputs import LINE, stream_at
from ..reports import DVR
from ..stream.packets import PACKET, SYNC, cut, pcr_of
from .adapter import HERTZ, Adapter
from .parts import INPUTS, OUTPUTS, UndefinedError
from .points import Point

if TYPE_CHECKING:
    from typing import Any, Collection, Iterable, Sequence

    from ..reports import Act
    from .parts import Reply

NODES, NO_NODE = 32, -1
# What ends the packets of a counter, where it is done.
ANEW = "open", "close", "section", "pes", "start", "size"


class Line(NamedTuple):
    """A line of a script: its number, command, client and target, the call that it asks for, and its number, or its bytes."""

    number: int
    command: str
    client: int = 0
    target: str = ""
    act: Act = {}
    asked: int = 0
    data: bytes = b""


class Event(NamedTuple):
    """A call and its reply, by the line that asks for it; `given` are the packets of the stream that had passed. Where a
    command makes no call its outcome is the reply, and the node is NO_NODE."""

    line: int
    client: int
    node: int
    call: str
    reply: Reply
    given: int


# ------ the script


def act_by_words(name: str, words: Sequence[str]) -> Act:
    """The call of a command by the words behind its target, which stand in the order of a report's act, without the moment."""
    places = [place for place in reports.places_of(reports.ACTS[name]) if place.name != "at"]
    act: dict[str, Any] = {place.name: place.read(word) for place, word in zip(places, words)}
    if name == "section":
        pairs = (word.partition("=") for word in words[3:])
        act["bytes"] = {int(place): tuple(bytes.fromhex(three.replace("/", ""))) for place, _, three in pairs}
    return cast("Act", {"name": name, **act})


def request(number: int, argument: bytes) -> tuple[str, dict[str, Any]]:
    """The command that a request is, by its number and its argument, and what its structure has."""
    asked = abi.REQUESTS[number]
    act = asked.values(argument)
    if asked is abi.SET_FILTER:
        act["bytes"] = dict(enumerate(zip(act["filter"], act["mask"], act["mode"])))
    elif asked is abi.SET_PES_FILTER:
        act["input"], act["output"] = INPUTS[act["input"]], OUTPUTS[act["output"]]
    return asked.command, {"name": asked.command, **act}


def read_line(number: int, text: str) -> Line:
    """A line of a script without fault."""
    words = text.split(" ")
    if words[0] in ("feed", "tick"):
        return Line(number, words[0], asked=int(words[1]))
    client, command, target, *behind = words
    line = Line(number, command, int(client[1]), target)
    if command == "ioctl":
        command, act = request(int(behind[0], 16), bytes.fromhex(behind[1].strip("-")))
        return line._replace(command=command, act=cast("Act", act), asked=act.get("num", 0))
    if command == "write":
        return line._replace(data=bytes.fromhex(behind[0]))
    return line._replace(act=act_by_words("read" if command in ("readw", "drain") else command, behind))


class Session(NamedTuple):
    """A session: the lines of its script as they stand and as they are asked, and its packets."""

    text: list[str]
    lines: list[Line]
    packets: Sequence[bytes]

    @classmethod
    def of(cls, session: bytes, size: int = PACKET) -> Session:
        """The session of these bytes, whose script has no fault and whose packets take up so many bytes."""
        at = stream_at(session)
        text = session[:at].decode("latin-1").split("\n")
        lines = [read_line(number, line) for number, line in enumerate(text, 1) if line and not line.startswith("#")]
        return cls(text, lines, cut(session[at + len(LINE) :], size).packets)


# ------ what clients write, and their counters


def joined(part: bytes, data: bytes) -> tuple[list[bytes], bytes]:
    """The packets that bytes complete behind a part of one, and the part that is left."""
    whole = part + data
    found = cut(whole)
    return found.packets, whole[len(whole) - found.rest :]


def searched(part: bytes, data: bytes) -> tuple[list[bytes], bytes]:
    """The same as Linux does it: where it passes bytes over, and a packet before the sync byte that it finds stands another
    one in this write, it goes back to that."""
    whole = part + data
    packets, rest = joined(part, data)
    if len(whole) < PACKET:
        return [], whole if part else rest
    found, at = ([whole[:PACKET]], PACKET - len(part)) if part else ([], 0)
    while True:
        sync = data.find(SYNC, at) % (len(data) + 1)
        at = sync - PACKET if sync > at and sync >= PACKET and data[sync - PACKET] == SYNC else sync
        if len(data) - at < PACKET:
            return found, rest if found == packets else data[at:]
        found.append(data[at : at + PACKET])
        at += PACKET


class Counter:
    """The clock of the packets that a client has read on a node, by the rules of docs/BEHAVIOUR.md, 'System time counters'."""

    def __init__(self) -> None:
        self.part, self.type = b"", 0
        self.clock: int | None = None

    def follow(self, act: Act, reply: Reply) -> None:
        """A call of the client there has this reply."""
        name = act["name"]
        if isinstance(reply, bytes):
            packets, self.part = joined(self.part, reply)
            self.clock = next((clock for clock in map(pcr_of, reversed(packets)) if clock is not None), self.clock)
        elif reply == "overflow" or reply == "done" and name in ANEW:
            self.part, self.clock = b"", None
        if reply == "done" and name in ("section", "pes"):
            self.type = act["type"] if act.get("output") == "tsdemux_tap" else 0

    def outcome(self, number: int) -> str:
        """What becomes of a DMX_GET_STC of this number."""
        is_asked = number <= 3 and self.type == 4 + 5 * number and self.clock is not None
        return f"stc base=300 value={self.clock}" if is_asked else "nostc"


# ------ the run


class Run:
    """A session by the rules of Linux, but for the points in `off`, for which those of docs/BEHAVIOUR.md stand. `undefined`
    is the line from which on nothing can be told, as Linux goes on with memory that is another feed's."""

    def __init__(self, session: Session, batch: int, off: Collection[Point] = (), hertz: int = HERTZ) -> None:
        self.session, self.batch, self.adapter = session, batch, Adapter(off, hertz)
        self.moment, self.given, self.has_ended = 0, 0, False
        self.slots: dict[tuple[int, str], int] = {}
        self.parts: dict[int, bytes] = {}
        self.counters: dict[tuple[int, int], Counter] = {}
        # of what was written and not refused the part of a packet that is left: by a plain search, and by Linux's
        self.plain, self.searched = b"", b""
        self.events: list[Event] = []
        self.undefined: int | None = None

    def lines(self, last: int | None = None) -> Run:
        """Goes through the lines, up to the last one that is wanted."""
        try:
            for line in self.session.lines:
                if last is not None and line.number > last:
                    break
                self.adapter.line = line.number
                self.line(line)
        except UndefinedError:
            self.undefined = self.adapter.line
        return self

    def line(self, line: Line) -> None:
        """Does what a line asks for."""
        if line.command == "feed":
            self.feed(line.asked)
        elif line.command == "tick":
            self.moment += line.asked
        elif (outcome := self.command(line)) != "done":
            self.add(line, NO_NODE, line.command, outcome)

    def add(self, line: Line, node: int, call: str, reply: Reply) -> None:
        """A call has this reply."""
        self.events.append(Event(line.number, line.client, node, call, reply, self.given))

    def feed(self, count: int) -> None:
        """So many packets pass."""
        while count > 0 and (passed := self.run_pass(count)):
            count -= passed

    def run_pass(self, most: int) -> int:
        """A batch passes, of at most so many packets, or the end of the stream; gives how many passed."""
        packets = self.session.packets[self.given : self.given + min(most, self.batch)]
        self.adapter.pass_packets(packets, self.moment)
        self.given += len(packets)
        self.has_ended = self.has_ended or not packets
        return len(packets)

    def called(self, line: Line, node: int) -> Reply:
        """A call of a line's client."""
        act = line.act
        reply = self.adapter.call(line.client, node, act, self.moment)
        self.add(line, node, f"read {act['count']}" if act["name"] == "read" else act["name"], reply)
        if node != DVR:
            self.counters.setdefault((line.client, node), Counter()).follow(act, reply)
        return reply

    def command(self, line: Line) -> str:
        """Does a command, and gives its outcome."""
        slot = line.client, line.target
        if line.command == "write":
            return self.write(line)
        if line.target[0] == "h" and line.command == "open":
            return self.open_slot(line)
        if line.target[0] == "h" and slot not in self.slots:
            return "unbound"
        node = self.slots[slot] if line.target[0] == "h" else reports.node_of(line.target)
        if line.command == "ioctl":
            return self.stc(line, node)
        if line.command in ("readw", "drain"):
            self.read_on(line, node)
        else:
            self.called(line, node)
        return "done"

    def open_slot(self, line: Line) -> str:
        """Opens the first node that is free."""
        for node in range(NODES):
            if self.called(line, node) != "busy":
                self.slots[line.client, line.target] = node
                return "done"
        return "EMFILE"

    def read_on(self, line: Line, node: int) -> None:
        """Reads, and lets packets pass where there is nothing: until there is something to tell, or to the stream's end."""
        while True:
            had_ended, reply = self.has_ended, self.called(line, node)
            if reply == "again" and not had_ended:
                self.run_pass(self.batch)
            elif line.command == "readw" or reply in ("again", b"", "timedout") or reply[:1] == "E":
                return

    def write(self, line: Line) -> str:
        """A write to dvr0, as of a second open for writing beside the client's own."""
        packets, self.parts[line.client] = joined(self.parts.get(line.client, b""), line.data)
        if self.adapter.dvr_owner == line.client:
            plain, self.plain = joined(self.plain, line.data)
            found, self.searched = searched(self.searched, line.data)
            if plain != packets and self.adapter.linux(Point.WRITE):
                packets = plain
            if found != plain and plain == packets and self.adapter.linux(Point.GARBAGE):
                packets = found
            self.adapter.pass_packets(packets, self.moment, "dvr")
        self.add(line, DVR, "write", "done")
        return "done"

    def stc(self, line: Line, node: int) -> str:
        """What becomes of a DMX_GET_STC."""
        if self.adapter.linux(Point.STC):
            return "EINVAL"
        return self.counters.get((line.client, node), Counter()).outcome(line.asked)


def texts(events: Iterable[Event]) -> list[str]:
    """The events as text: `LINE cK NODE CALL = REPLY`, or `LINE cK OUTCOME`."""
    found = []
    for event in events:
        reply = f"data {event.reply.hex() or '-'}" if isinstance(event.reply, bytes) else event.reply
        node = f"{'dvr' if event.node == DVR else f'n{event.node}'} {event.call} = " if event.node != NO_NODE else ""
        found.append(f"{event.line} c{event.client} {node}{reply}")
    return found
