"""What a report tells of each client: each node's history gone through once, by the rules of docs/BEHAVIOUR.md.

Nothing here works out a reply anew: what a node does is taken from its replies, and only the states that follow from the calls
accepted so far are kept beside them.
"""
from __future__ import annotations

from itertools import chain
from operator import eq
from typing import TYPE_CHECKING, NamedTuple

from ..psi.fields import as_hex, is_pes_head
from ..reports import DVR, Outcomes, Pass, act_of, first_moment, reply_of
from ..stream.packets import ALL_PACKETS, LAST_PID, PACKET
from .captures import Capture, Filter
from .clients import Call, Client, Got, Through, Waits, lost_by
from .refusals import refusal
from .walk import Walk

if TYPE_CHECKING:
    from typing import Collection, Hashable, Optional, Tuple, TypedDict

    from ..reports import Act, Entry, PidCount, Reply, Report
    from .offered import Lost, Stream

    class Facts(TypedDict, total=False):
        """The facts of a stumble: those that its kind has, of which hints.py makes words."""

        act: Act
        about: int
        asks: bool
        batch: int
        begin: int
        bytes: int
        call: str
        carried: Optional[str]
        count: int
        data: bytes
        end: Optional[int]
        item: int
        least: int
        moment: int
        most: int
        need: int
        of: Optional[int]
        opened: int
        packets: int
        pid: int
        pids: Tuple[int, ...]
        read_as: dict[int, int]
        served: bool
        size: int
        skipped: int
        tapped: int
        times: int
        unsure: bool
        wanted: int
        whole: int
        why: str
        written: int

MOST_READ_AS = 4
# From how many packets on that may have passed a filter it is told that it selected nothing.
LEAST_PASSED = 3


class Waiting(NamedTuple):
    """A read that found nothing: its step, and what had come by the node until then, as the node counts it."""

    step: int
    passes: int
    end: int | None
    calls: int


class Tap(NamedTuple):
    """A tap that is attached while the dvr node is free: by whom and in which line, how many packets had passed the free node before, and
    the tap's PIDs."""

    client: int
    line: int
    before: int
    pids: tuple[int, ...]


class Node(Walk):
    """The state of a node that follows from the calls accepted so far, and counts of what came by. `is_ahead` says that packets have passed
    which wouldn't have yet, had no Overflow come."""

    filter: Filter | None

    def __init__(self, number: int, story: Story) -> None:
        super().__init__(number)
        self.capture: Capture | None = None
        self.story, self.ended_by, self.is_ahead = story, "", False
        self.passed, self.passes, self.batch, self.calls, self.free_packets = 0, 0, 0, 0, 0
        self.end: int | None = None
        self.waiting: dict[int, Waiting] = {}
        self.busy: dict[int, int] = {}
        self.openers: set[int] = set()
        self.taps: dict[int, Tap] = {}
        self.attached: dict[int, tuple[int, list[int]]] = {}
        self.untapped: list[tuple[int, int, Facts]] = []

    def begin_capture(self, entry: Entry) -> None:
        """A capture begins; on a demux node the filter runs from here on."""
        is_late = self.end is not None and not (self.filter and self.filter.is_played)
        if self.filter:
            self.filter.started = True
        if self.is_ahead:
            self.story.unsure.add(self.number)
        self.capture = Capture(int(entry.who[1]), self.story.line_of(entry), self.passed, self.passes, is_late)
        self.story.ran = True
        if self.filter:
            self.filter.places.append(self.capture.places)
        self.capture.tapped = bool(self.attached)
        if is_late:
            self.story.note_late(self, entry)

    def end_capture(self, entry: Entry, reply: Reply) -> None:
        """The capture ends, where there is one."""
        if self.capture and entry.act.startswith("size "):
            self.ended_by = "SetSize to another size has ended the capture"
        self.is_ahead = self.is_ahead or self.capture is not None and self.capture.lag > 0
        self.tell(reply["drop"][1] > reply["drop"][0])
        self.story.leave_capture(self)
        if self.filter:
            self.filter.leave()

    def filter_of(self, entry: Entry, act: Act) -> Filter:
        """Another filter, which doesn't run yet."""
        self.ended_by = ""
        return Filter(entry, act, self.story.line_of(entry))

    def end_filter(self) -> None:
        """The filter's time is over."""
        self.story.leave_filter(self)

    def gives_all(self) -> bool:
        """Whether a read gives all that is unread, where it asks for as much: not where it ends at a section or before a kept overflow."""
        return not self.filter or self.filter.kind != "section" and not self.filter.keeps

    def tell(self, has_come: bool) -> None:
        """A reply tells whether anything is there that the filter let through."""
        if self.filter and has_come:
            self.filter.gave = True
        elif self.filter and self.capture and not self.capture.answered:
            self.filter.tell_empty()


class Stumble:
    """Something that a receiver's writer would stumble over: its kind, where it is, and the facts of its first time."""

    def __init__(self, kind: str, client: int | None, node: int | None, facts: Facts) -> None:
        self.kind, self.client, self.node, self.facts = kind, client, node, facts
        self.lines: list[int] = []


# ------ the nodes gone through


def is_served(report: Report, first: int) -> bool:
    """Whether a report, with this first moment, seems to be one of `serve`, where each client counts its commands from 1, and each call has the
    machine's time."""
    return first > 0 and bool(report.clients) and all(all(map(eq, outcomes.lines, range(1, len(outcomes) + 1))) for outcomes in report.clients)


def joints(report: Report) -> int:
    """How often a recording that is played in a loop has begun again, where the breaks of the stream seem to be just these: most PIDs with a
    break have as many, none more, and at least two; else 0. (A PID that hasn't come since the last time has one less, and one whose counter
    goes on has none.)"""
    breaks = [row.breaks for row in report.pids if row.breaks]
    most = max(breaks, default=0)
    is_alike = all(count >= most - 1 for count in breaks) and 2 * breaks.count(most) > len(breaks) > 1
    return most if is_alike else 0


def other_size(packets: int, skipped: int) -> int | None:
    """What the packets of a stream seem to take up, where it was read by another number; None where they don't. Of packets of 204 bytes 16
    are skipped each, and 4 of those of 192, but where one of these is a sync byte; of packets of 188 bytes that are read as 204, what
    stands behind each that is found up to the next sync byte, which is one of the picture half of the time."""
    if packets < 4:
        return None
    for size, least, most in (204, 14, 20), (192, 3, 6), (188, 60, 184):
        if least * packets <= skipped <= most * packets:
            return size
    return None


def is_no_stream(report: Report, whole: int) -> bool:
    """Whether what was read as a stream seems to be none: no packet at all, more skipped than taken, or, as where 0x47 stands here and
    there, much skipped and hardly two packets of a PID."""
    if whole and not report.packets or 2 * report.skipped > whole:
        return True
    return report.packets >= 8 and 4 * report.skipped > whole and 2 * len(report.pids) > report.packets


# The kinds of stumbles over a buffer's size.
SIZES = "larger", "first size", "overflow"


class Story:
    """A report gone through: its clients by number, the stumbles, and whether a capture ran. With the stream at hand `silent` has the
    filters that gave nothing, each with its node, and `exact` what the Overflows lost, each with its client, its line, its node and its
    span."""

    def __init__(self, report: Report, stream: Stream | None = None) -> None:
        self.report, self.stream = report, stream
        self.ran = False
        self.silent: list[tuple[int, Filter]] = []
        self.exact: list[tuple[int, int, int, tuple[int, int], Lost]] = []
        self.packets = {row.pid: row for row in report.pids}
        self.stumbles: dict[tuple[str, int | None, int | None, Hashable], Stumble] = {}
        start = self.first_moment = first_moment(report)
        self.clients = {number: Client(number, outcomes, report.nodes, start) for number, outcomes in enumerate(report.clients)}
        self.is_served = is_served(report, self.first_moment)
        self.joints = joints(report) if self.is_served else 0
        # Nodes where reads waited behind an Overflow, and those whose later captures would have begun at other packets without it.
        self.waited: set[int] = set()
        self.unsure: set[int] = set()
        self.is_misread = self.look_at_skipped()
        for number, entries in sorted(report.nodes.items()):
            node = Node(number, self)
            for row in entries.rows():
                if isinstance(row, Pass):
                    self.take_pass(node, row)
                elif row.who == "feed":
                    node.end = row.place
                else:
                    self.take(node, row)
            self.leave_capture(node)
            self.leave_filter(node)
            for tapped in list(node.taps):
                self.leave_tap(node, tapped)
            self.tell_untapped(node)
        for client in self.clients.values():
            client.calls.sort()
            self.look_at_slots(client)
            self.look_at_writes(client)
        if report.clients and not any(report.clients):
            self.stumble("nobody", None, None, None)
        self.tell_carried()
        self.join_sizes()

    def tell_carried(self) -> None:
        """Tells the hints on section filters what a PMT that was read says of their PIDs."""
        told = [stumble for stumble in self.stumbles.values() if stumble.kind in ("selects nothing", "packets as sections")]
        if not told:
            return
        from ..psi.tables import carried_by  # pylint: disable=import-outside-toplevel
        sections = {data for client in self.clients.values() for got in client.got.values() for data in got.sections}
        carried = {pid: text for data in sections for pid, text in carried_by(data).items()}
        for stumble in told:
            stumble.facts["carried"] = carried.get(stumble.facts["pid"])

    def line_of(self, entry: Entry) -> int:
        """The line of the command that made this entry's call."""
        return self.clients[int(entry.who[1])].line_of(entry.step)

    def look_at_skipped(self) -> bool:
        """Notes that so many bytes were skipped for each packet as where packets take up another number of bytes, or else that the bytes
        seem to be no packets; tells whether one of these is so."""
        report = self.report
        whole = PACKET * report.packets + report.skipped + report.rest
        if is_no_stream(report, whole):
            self.stumble("skipped", None, None, None, facts={"skipped": report.skipped, "whole": whole, "packets": report.packets})
            return True
        size = other_size(report.packets, report.skipped)
        if size:
            self.stumble("other size", None, None, None, facts={"skipped": report.skipped, "packets": report.packets, "size": size})
        return size is not None

    def look_at_slots(self, client: Client) -> None:
        """Notes the commands on a slot that is bound to no node."""
        for number, kind in client.outcomes.others.items():
            if kind == "unbound":
                self.stumble("unbound", client.number, None, client.outcomes.lines[number])

    @staticmethod
    def look_at_writes(client: Client) -> None:
        """Of a client that writes packets to the dvr device a poll of the dvr node alone may be a write too."""
        before: Call | None = None
        behind: list[Call | None] = [None]
        for call in chain(client.calls, behind) if client.writes else behind:
            if before and (before.node, before.act, before.reply) == (DVR, "poll", "ready") and not (call and call.act == "pass"):
                before.know(reason="as a write does that completes no packet")
                client.calls.note(before)
            before = call

    def join_sizes(self) -> None:
        """The size that is named holds what came at each Overflow of a client's node, of whatever kind each of them is. None is named where
        it can't be told which packets would have passed by then."""
        over = {number for kind, _, number, _ in self.stumbles if kind in SIZES}
        mixed = over & {number for client in self.clients.values() for number in client.waits}
        for (kind, client, node, subject), stumble in self.stumbles.items():
            if kind in SIZES and (node in self.unsure or node in self.waited and mixed - {node}):
                stumble.facts.update({"wanted": 0, "unsure": True})
            elif kind in SIZES and stumble.facts["wanted"]:
                same = (self.stumbles.get((other, client, node, subject)) for other in SIZES)
                stumble.facts["wanted"] = max(one.facts["wanted"] for one in same if one)

    def stumble(self, kind: str, client: int | None, node: Node | None, line: int | None, subject: Hashable = None,
                facts: Facts | None = None) -> Stumble:  # fmt: skip
        """Notes that a client stumbles at this line, on a node or none, and gives the note; what is the same but for the line is gathered."""
        number = None if node is None else node.number
        key = (kind, client, number, subject)
        if key not in self.stumbles:
            self.stumbles[key] = Stumble(kind, client, number, facts or {})
        if line is not None and line not in self.stumbles[key].lines[-1:]:
            self.stumbles[key].lines.append(line)
        return self.stumbles[key]

    def take(self, node: Node, entry: Entry) -> None:
        """Goes over a client's entry of a node."""
        number = int(entry.who[1])
        if number not in self.clients:
            self.clients[number] = Client(number, Outcomes(), self.report.nodes, self.first_moment)
        client = self.clients[number]
        call, line = Call(node.number, entry, self.first_moment), client.line_of(entry.step)
        self.end_wait(node, client, call, line)
        node.calls += 1
        if call.reply[0] == "E":
            self.take_refused(node, client, call, line)
        elif call.act == "read":
            self.take_read(node, client, call, line)
        elif call.act == "poll":
            self.take_poll(node, call, line)
        elif call.act == "open":
            self.take_open(node, client, call, line)
        elif call.act in ("attach", "detach"):
            self.take_tap(node, client, call, line)
        elif call.act == "pass":
            self.take_played(node, client, call)
        else:
            self.take_change(node, client, call, line)
        client.calls.keep(call, entry.place - node.passes)

    def take_pass(self, node: Node, batch: Pass) -> None:
        """A batch passes a node."""
        node.passes += 1
        node.passed, node.batch = batch.first + batch.packets, batch.packets
        if node.taps and node.owner is None:
            node.free_packets += batch.packets
        if node.capture and not (node.filter and node.filter.is_played) and (node.runs or node.number == DVR):
            self.offer(node, node.capture, batch)

    def offer(self, node: Node, capture: Capture, batch: Pass) -> None:
        """A batch of the stream is offered to a capture, where its timeout isn't over."""
        is_in_time = node.due is None or batch.at < node.due
        if node.filter and is_in_time:
            node.filter.take(batch.first, node.passed, node.pids)
        if self.stream and (is_in_time or node.filter and node.filter.gave):
            pids = node.pids if node.filter else {pid for _, pids in node.attached.values() for pid in pids}
            capture.places += self.stream.places(pids, batch.first, node.passed)

    def take_played(self, node: Node, client: Client, call: Call) -> None:
        """Packets that a client has written pass a node."""
        client.writes = True
        if node.runs and node.capture and node.filter:
            node.filter.written += act_of(call.entry)["count"]

    def end_wait(self, node: Node, client: Client, call: Call, line: int) -> None:
        """Where the call before was a wait of the same command, notes what came in between."""
        before = node.waiting.pop(client.number, None)
        if before is None or call.entry.step != before.step + 1 or client.begins(call.entry.step):
            return
        waits = client.waits.setdefault(node.number, Waits())
        if line not in waits.lines[-1:]:
            waits.lines.append(line)
        if node.end != before.end:
            waits.ends += 1
        elif node.passes > before.passes:
            waits.passes += 1
        elif node.calls > before.calls:
            waits.others += 1

    # ------ replies

    def take_refused(self, node: Node, client: Client, call: Call, line: int) -> None:
        """A call that the node refused."""
        found = refusal(node, client.number, act_of(call.entry))
        if found and found[0] == call.reply:
            call.know(reason=found[1])
        client.refuse(line, call)
        act = act_of(call.entry)
        if call.reply == "EBADF" and client.number in node.busy:
            self.stumble("busy", client.number, node, line, facts={"opened": node.busy[client.number]})
        elif call.reply == "EBADF" and node.owner is None and client.number not in node.openers:
            self.stumble("not open", client.number, node, line)
        elif call.reply == "EINVAL" and act["name"] in ("section", "pes") and act["pid"] > LAST_PID:
            self.stumble("large pid", client.number, node, line, act["pid"], {"call": act["name"], "pid": act["pid"]})

    def take_open(self, node: Node, client: Client, call: Call, line: int) -> None:
        """An Open, accepted or Busy. One of demux0 looks for a free node and asks the next one where a node is Busy: no call is refused then."""
        if call.reply == "busy":
            owner = int(reply_of(call.entry)["owner"][1])
            call.know(reason=f"client {owner} {'itself ' if owner == client.number else ''}is its owner")
            if not client.is_last(call.entry.step):
                return
            if owner != client.number:
                node.busy[client.number] = line
            client.refuse(line, call)
            return
        node.busy.pop(client.number, None)
        node.openers.add(client.number)
        node.ended_by, node.capture = "", None
        node.accept(call.entry, act_of(call.entry), reply_of(call.entry))
        for tapped in list(node.taps):
            self.leave_tap(node, tapped)

    def take_tap(self, node: Node, client: Client, call: Call, line: int) -> None:
        """An Attach or a Detach of the dvr node; what passes while it is free is counted for the taps attached then."""
        tapped = act_of(call.entry)["node"]
        if call.act == "attach":
            node.attached[tapped] = client.number, act_of(call.entry)["pids"]
        elif tapped in node.attached and node.attached[tapped][0] == client.number:
            del node.attached[tapped]
        if node.capture:
            node.capture.tapped |= bool(node.attached)
        mine = tapped in node.taps and node.taps[tapped].client == client.number
        if tapped in node.taps and mine == (call.act == "detach"):
            self.leave_tap(node, tapped)
        if call.act == "attach" and node.owner is None and not mine:
            node.taps[tapped] = Tap(client.number, line, node.free_packets, tuple(act_of(call.entry)["pids"]))

    def leave_tap(self, node: Node, tapped: int) -> None:
        """A tap that was attached while the dvr node was free is removed, or the dvr node is opened, by whom it may be read yet."""
        tap = node.taps.pop(tapped)
        least, most = self.within(node.free_packets - tap.before, tap.pids)
        if most:
            node.untapped.append((tap.client, tap.line, {"tapped": tapped, "least": least, "most": most, "pids": tap.pids}))

    def tell_untapped(self, node: Node) -> None:
        """Notes the taps that were attached while the dvr node was free, where nothing was read of it since."""
        for client, line, facts in node.untapped:
            self.stumble("free tap", client, node, line, facts["tapped"], facts)
        node.untapped = []

    def within(self, passed: int, pids: Collection[int]) -> tuple[int, int]:
        """The least and the most packets of some PIDs that may be among so many of the stream."""
        whole = self.report.packets if ALL_PACKETS in pids else sum(row.packets for pid in set(pids) for row in self.rows_of(pid))
        return max(0, whole - (self.report.packets - passed)), min(whole, passed)

    def take_change(self, node: Node, client: Client, call: Call, line: int) -> None:
        """An accepted call that changes a node's filter, capture or size."""
        act, reply = act_of(call.entry), reply_of(call.entry)
        if reply["drop"][1] > reply["drop"][0]:
            self.take_drop(node, client, call, line, reply["drop"])
        node.accept(call.entry, act, reply)

    def take_drop(self, node: Node, client: Client, call: Call, line: int, span: tuple[int, int]) -> None:
        """A Done that names unread bytes."""
        client.lost.append((line, call, span))
        if node.capture and node.filter and node.filter.kind == "section":
            call.know(repeats=node.capture.repeats(span[1] - span[0]))
        if call.act in ("section", "pes", "start", "size") and not call.note.repeats:
            self.stumble("dropped", client.number, node, line, call.act, {"call": call.act, "bytes": span[1] - span[0]})

    # ------ ends

    def leave_filter(self, node: Node) -> None:
        """A filter's time is over: by another set call, by Close, or at the end of the report."""
        used, node.filter = node.filter, None
        if used is None:
            return
        if used.started and not used.gave and (used.kind == "section" or not used.is_played and not any(used.places)):
            self.silent.append((node.number, used))
        if not used.started:
            self.stumble("never started", used.client, node, used.line)
        elif used.is_played:
            self.look_at_played(node, used)
        else:
            self.look_at_used(node, used)

    def look_at_played(self, node: Node, used: Filter) -> None:
        """Notes that nothing of what clients write came through a filter that takes it."""
        if not used.gave and (not used.written or used.empty is not None):
            self.stumble("nothing written", used.client, node, used.line, facts={"pid": used.pid, "written": used.written})

    def look_at_used(self, node: Node, used: Filter) -> None:
        """Looks at what a filter that ran was offered, and what of it it let through."""
        absent = tuple(pid for pid in sorted(used.ever) if not self.rows_of(pid))
        if absent:
            few = absent if len(absent) <= MOST_READ_AS else ()
            read_as = {pid: self.packets[as_hex(pid)].packets for pid in few if as_hex(pid) in self.packets}
            self.stumble("no packet", used.client, node, used.line, absent, {"pids": absent, "read_as": read_as, "written": used.written})
        elif used.kind == "section" and used.empty and not used.gave:
            self.look_at_nothing(node, used)
        for pid in sorted(used.ever) if not self.is_misread and not used.once else ():
            self.look_at_pid(node, used, pid)

    def look_at_nothing(self, node: Node, used: Filter) -> None:
        """Notes that packets of its PID passed a section filter that ran, and that it has selected nothing."""
        passed, whole = sum(after - first for first, after in used.empty or ()), self.packets[used.pid].packets
        least, most = self.within(passed, [used.pid])
        about = whole * passed // self.report.packets
        if least or about >= LEAST_PASSED:
            facts: Facts = {"pid": used.pid, "least": least, "most": most, "about": about, "act": used.act, "asks": not self.stream}
            self.stumble("selects nothing", used.client, node, used.line, facts=facts)

    def rows_of(self, pid: int) -> list[PidCount]:
        """The rows of the stream's PIDs that a filter's PID names."""
        if pid == ALL_PACKETS:
            return self.report.pids
        return [self.packets[pid]] if pid in self.packets else []

    def look_at_pid(self, node: Node, used: Filter, pid: int) -> None:
        """Notes the breaks and duplicates in the stream of a PID of a filter that ran, where one at least was offered to it: a
        report doesn't tell where they are, so there have to be more than may lie elsewhere."""
        rows = self.rows_of(pid)
        hidden = used.offered[pid].may_hide(self.report.packets, len(rows)) if pid in used.offered else self.report.packets
        for name, count in ("break", sum(row.breaks for row in rows)), ("duplicate", sum(row.duplicates for row in rows)):
            if count > hidden and not (name == "break" and self.joints):
                kind = f"{name} of {'sections' if used.kind == 'section' else 'packets'}"
                self.stumble(kind, used.client, node, used.line, pid, {"pid": pid, "count": count})

    def leave_capture(self, node: Node) -> None:
        """A capture's time is over; a timeout that a poll told and no read is noted now."""
        capture, node.capture = node.capture, None
        if capture is None:
            return
        if capture.polled is not None:
            self.note_timeout(node, capture.client, capture.polled, capture)
        for line in () if capture.tapped else capture.dry:
            self.stumble("no tap", capture.client, node, line, capture.line)
        if capture.early and not capture.is_late:
            self.note_early(node, capture)

    def note_early(self, node: Node, capture: Capture) -> None:
        """Notes that all reads and polls of a capture came before the first packet. Of `run` this says nothing of a script: there the
        stream passes at its own pace."""
        if self.first_moment or capture.begin >= self.report.packets:
            return
        for line in capture.early or ():
            left = self.report.packets - capture.begin
            self.stumble("no feed", capture.client, node, line, capture.line, {"begin": capture.line, "packets": left})

    def note_late(self, node: Node, entry: Entry) -> None:
        """Notes that a capture begins behind End."""
        client = int(entry.who[1])
        kind = "late in run" if self.first_moment else "late"
        facts: Facts = {"end": node.end, "begin": entry.place, "moment": self.first_moment}
        self.stumble(kind, client, node, self.line_of(entry), facts=facts)

    def note_timeout(self, node: Node, client: int, line: int, capture: Capture | None) -> None:
        """Notes a timeout of a section filter whose PID has packets in the stream, which hadn't ended before."""
        if node.filter and node.filter.pid in self.packets and not (capture and capture.is_late):
            pid = node.filter.pid
            self.stumble("timed out", client, node, line, pid, {"pid": pid, "packets": self.packets[pid].packets})

    # ------ reads

    def take_read(self, node: Node, client: Client, call: Call, line: int) -> None:
        """A read that wasn't refused."""
        key = Through(node.number, node.filter.kind, node.filter.output, node.filter.pid) if node.filter else Through(node.number, "", "", 0)
        got = client.got.get(key)
        if got is None:
            got = client.got[key] = Got()
        got.reads += 1
        if node.filter and len(node.filter.ever) > len(got.pids):
            got.pids |= node.filter.ever
        is_short = 0 < call.length() < act_of(call.entry)["count"]
        is_clear = call.reply in ("again", "timedout") or is_short and node.gives_all()
        self.look(node, call, line, call.length() > 0 or call.reply == "overflow", is_clear)
        if call.reply == "again":
            self.hold_again(node, client, call)
            if node.number == DVR and node.capture:
                node.capture.dry.append(line)
            if node.filter and node.filter.output == "ts_tap":
                self.stumble("read of ts_tap", client.number, node, line)
            if call.entry.reply == "again ended=0":
                node.waiting[client.number] = Waiting(call.entry.step, node.passes, node.end, node.calls)
        elif call.reply == "overflow":
            self.take_overflow(node, client, call, line)
        elif call.reply == "timedout":
            client.timed.append((line, call, node.filter.pid if node.filter else None))
            if node.capture:
                node.capture.polled = None
            self.note_timeout(node, client.number, line, node.capture)
        else:
            self.take_data(node, client, call, line, got)

    def take_poll(self, node: Node, call: Call, line: int) -> None:
        """A poll that wasn't refused."""
        reply = reply_of(call.entry)
        if reply["error"] == "timedout" and node.capture:
            node.capture.polled = line
        if not reply["readable"] and node.capture and self.is_served:
            node.capture.hold_all()
        found = reply["error"] == "overflow" or reply["readable"] == 1 and reply["error"] == "none"
        self.look(node, call, line, found, not reply["readable"])

    @staticmethod
    def look(node: Node, call: Call, line: int, found: bool, is_clear: bool) -> None:
        """A read or a poll has found something or nothing, and all that had come may be read by then."""
        node.tell(found)
        if node.capture:
            node.capture.look(line, node.passed, found or "timedout" in call.entry.reply, call.act == "read")
            if is_clear:
                node.capture.clear, node.capture.clear_passes = node.passed, node.passes

    def take_data(self, node: Node, client: Client, call: Call, line: int, got: Got) -> None:
        """Data, with bytes or none."""
        length, capture = call.length(), node.capture
        if length == 0:
            self.take_no_bytes(node, client, call, line)
            return
        got.with_data += 1
        got.bytes += length
        if capture is None:
            return
        before = capture.answered // PACKET
        self.hold_data(node, client, call)
        node.untapped = [] if node.number == DVR else node.untapped
        capture.give(length)
        if node.number == DVR or (node.filter and node.filter.output == "tsdemux_tap"):
            got.items += capture.answered // PACKET - before
        elif node.filter and node.filter.kind == "section":
            self.take_section(node, client, call, line, got)
        elif node.filter and node.filter.output == "tap":
            self.take_payload(capture, call, got)

    def take_section(self, node: Node, client: Client, call: Call, line: int, got: Got) -> None:
        """A section or a part of one."""
        assert node.capture is not None and node.filter is not None
        begun = node.capture.have > 0
        of, data, whole = node.capture.take_section(call.entry.reply[5:])
        if not begun and is_pes_head(data):
            self.stumble("packets as sections", client.number, node, line, node.filter.pid, {"pid": node.filter.pid, "data": data[:3]})
        if whole:
            got.items += 1
            got.take_section(data)
        else:
            self.stumble("part", client.number, node, line, facts={"count": act_of(call.entry)["count"], "of": of})
        reason = ("the end of a section" if begun else "a section") if whole else "a part of a section"
        call.know(reason=reason, section=data if whole or not begun else b"", whole=whole)

    def take_payload(self, capture: Capture, call: Call, got: Got) -> None:
        """Payloads, in which PES packets begin."""
        if streams := capture.take_payload(call.entry.reply[5:]):
            call.know(streams=streams)
        for stream in streams:
            got.streams[stream] = got.streams.get(stream, 0) + 1

    def take_no_bytes(self, node: Node, client: Client, call: Call, line: int) -> None:
        """Data of no bytes: why, as far as the state says."""
        if node.capture is None:
            without = "no capture has begun" if node.filter else "no filter is set"
            call.know(reason=node.ended_by or without)
            if act_of(call.entry)["count"]:
                self.stumble("no capture", client.number, node, line, call.note.reason, {"why": call.note.reason})
        elif not act_of(call.entry)["count"]:
            call.know(reason="a count of 0")

    # ------ overflows

    def hold(self, node: Node, call: Call, least: int, most: int) -> int:
        """Takes a read of a capture to which at least and at most so many bytes had come, and tells how many a buffer has to hold."""
        assert node.capture is not None
        if node.capture.waits:
            self.waited.add(node.number)
        return node.capture.hold(least, most, act_of(call.entry)["count"] if node.gives_all() else 1)

    def hold_data(self, node: Node, client: Client, call: Call) -> None:
        """Takes what a read gives: what more came has to be held too where, had no Overflow come, the reader would be behind."""
        capture, count = node.capture, act_of(call.entry)["count"]
        assert capture is not None and node.size is not None
        after = capture.answered + call.length()
        is_bytes, wanted = node.gives_all(), 0
        if is_bytes and call.length() < count:
            capture.known = after, node.passed
        if capture.held == capture.answered and not capture.lag:
            capture.held = after
        else:
            has_place = is_bytes and not (node.filter and node.filter.is_played)
            wanted = self.hold(node, call, after, capture.most(node.passed, node.size, not has_place))
        if capture.over and capture.over.facts["wanted"]:
            capture.over.facts["wanted"] = max(capture.over.facts["wanted"], wanted + 1)
        capture.loops = not client.is_last(call.entry.step)

    def hold_again(self, node: Node, client: Client, call: Call) -> None:
        """Takes a read that found nothing. Who reads until it finds nothing would have read all; a single read in a script would have given
        as much as it asks for, without a wait."""
        capture = node.capture
        if capture is None:
            return
        capture.known = capture.answered, node.passed
        if self.is_served or capture.held == capture.answered or capture.loops and not client.begins(call.entry.step):
            capture.hold_all()
        elif client.is_last(call.entry.step):
            self.hold(node, call, capture.answered, capture.answered)
        else:
            capture.waits = True

    def take_overflow(self, node: Node, client: Client, call: Call, line: int) -> None:
        """An Overflow that a read answered."""
        reply, capture = reply_of(call.entry), node.capture
        client.lost.append((line, call, reply["span"]))
        lost_here = lost_by(node, reply)
        call.know(lost=lost_here)
        if self.stream and capture and not (node.filter and node.filter.is_played):
            brought = capture.brought = capture.brought or self.stream.brought(node.filter)
            brought.take(self.stream.packets, capture.places)
            if lost := brought.lost(*reply["span"]):
                self.exact.append((client.number, line, node.number, reply["span"], lost))
        if node.size is None:
            return  # no report of a program
        call.know(reason=str(node.size))
        is_larger, is_first = reply["need"] > node.size - 1, node.size == node.first_size
        kind = "larger" if is_larger else "first size" if is_first else "overflow"
        facts: Facts = {"item": reply["item"], "need": reply["need"], "size": node.size, "wanted": 0, "times": 0, "batch": node.batch,
                        "served": self.is_served, "asks": not (self.stream or node.filter and node.filter.is_played)}  # fmt: skip
        found = self.stumble(kind, client.number, node, line, facts=facts)
        found.facts["times"] += 1
        if capture:
            self.look_at_pace(node, client, call, found)
            wanted = self.hold(node, call, reply["span"][1], reply["span"][1])
            found.facts["wanted"] = 0 if lost_here.kept else max(found.facts["wanted"], wanted + 1)
            capture.over, capture.loops, capture.known = found, not client.is_last(call.entry.step), (reply["span"][1], node.passed)
            capture.skip_to(reply["span"][1])
            capture.clear, capture.clear_passes = node.passed, node.passes

    def look_at_pace(self, node: Node, client: Client, call: Call, found: Stumble) -> None:
        """Looks whether one batch alone had come since the client last found nothing, and it looked as soon as that had passed."""
        waits = self.is_served or not client.begins(call.entry.step)
        is_single = waits and node.capture is not None and node.passes - node.capture.clear_passes == 1 and node.batch > 1
        found.facts["batch"] = max(found.facts["batch"], node.batch) if is_single and found.facts["batch"] else 0
