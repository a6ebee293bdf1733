"""What the entries of one node tell of its captures, its buffer and its unread bytes.

A report doesn't say how many bytes a pass brings. What is told, some entries later, is how many bytes of the capture have
arrived: by reads, by polls that find nothing, by overflow spans and by what a call drops. Behind the passes between two such
entries only bounds are known: the sum before, or what reads have given since, and the sum behind. Where a capture of whole packets
got as many as passed, each pass brought its packets. Before an overflow that a read tells, the fill is the one that the first
lost item found.
"""
from __future__ import annotations

from typing import TYPE_CHECKING, NamedTuple

from .. import reports
from ..reports import Pass
from ..psi.fields import pid_name
from ..stream.packets import ALL_PACKETS, PACKET
from .walk import Answered, Walk

if TYPE_CHECKING:
    from typing import Callable, Mapping, Tuple, Union

    from ..reports import Act, Entries, Entry, Reply

    # PIDs in a few words, and in fewer; and an entry with its act, or a batch.
    Label = Tuple[str, str]
    See = Callable[[Union[Entry, Pass], Union[Act, None]], None]

MOST_NAMED = 4


class Loss(NamedTuple):
    """An overflow: the first place behind which it may have come, the first behind which it has, and the place of the read that tells it,
    with its reply; of one that no read tells the places where a poll or a drop shows it, and the last place of its capture."""

    first: int
    sure: int
    told: int
    reply: Reply | None = None


class Step(NamedTuple):
    """What is known behind an entry of a capture: packets offered, bytes answered, bytes that have arrived at least, and whether
    an overflow is told to be pending."""

    place: int
    packets: int
    answered: int
    least: int
    is_over: bool = False


class Known(NamedTuple):
    """An entry behind which the bytes that have arrived are known."""

    place: float
    packets: int
    arrived: int


class Expiry(NamedTuple):
    """A timeout: the place where it is over, and the place where a read or a poll tells it."""

    place: int
    told: int


class Capture(Answered):
    """A capture: its first place and, where it has ended, the place of the call that ended it; `quiet` is where it takes no
    further packets, by a stop or a timeout; `labels` has what it takes from which place on, in words and in fewer; `keeps` says
    that the filter was set with KEEP; `over` is the place where its timeout may be over."""

    def __init__(self, begin: int, words: str, kind: str, label: Label) -> None:
        super().__init__()
        self.begin, self.words, self.kind = begin, words, kind
        self.end: int | None = None
        self.quiet: int | None = None
        self.labels = [(begin, label)]
        self.over: int | None = None
        self.expiry: Expiry | None = None
        self.told_losses: list[tuple[int, int, int, Reply]] = []
        self.losses: list[Loss] = []
        self.packets, self.told_packets = 0, 0
        self.known, self.steps = [Known(begin, 0, 0)], [Step(begin, 0, 0, 0)]
        self.clear, self.keeps = 0, False
        self.pending: int | None = None

    def keep(self, place: int, least: int = 0, is_over: bool = False) -> None:
        """Keeps what is known behind an entry."""
        self.steps.append(Step(place, self.packets, self.answered, max(least, self.answered), is_over))

    def know(self, place: int, arrived: int) -> None:
        """Keeps that just so many bytes have arrived."""
        self.known.append(Known(place, self.packets, arrived))

    def tell(self, place: int, least: int = 0, is_over: bool = False, is_empty: bool = True) -> None:
        """Keeps what a read or a poll tells: that an overflow is pending, that none is, or neither where with KEEP bytes come first."""
        self.keep(place, least, is_over)
        self.told_packets = self.packets
        if not is_over and (is_empty or not self.keeps):
            self.clear = len(self.steps) - 1

    def lose(self, place: int, reply: Reply) -> None:
        """Keeps an overflow span with the number of the last step behind which none was pending, and that of the read's."""
        self.told_losses.append((self.clear, len(self.steps), place, reply))
        self.pending = None


class History(Walk):
    """A node's captures, its size behind each entry, and the least and the most bytes that may be unread behind each entry (None
    where nothing tells them). The entries are gone through once, and each is shown to `see`."""

    def __init__(self, node: int, entries: Entries, see: See | None = None) -> None:
        super().__init__(node)
        self.capture: Capture | None = None
        self.sizes: list[int | None] = []
        self.captures: list[Capture] = []
        for row in entries.rows():
            act = None
            if not isinstance(row, Pass):
                act = reports.act_of(row)
                self.take(row, act)
            elif self.capture and self.capture.quiet is None:
                self.take_pass(self.capture, row.place, row.at, row.packets, False)
            self.sizes.append(self.size)
            if see:
                see(row, act)
        self.low: list[int | None] = [0] * len(self.sizes)
        self.high: list[int | None] = [0] * len(self.sizes)
        for capture in self.captures:
            self.fill(capture)

    def losses(self) -> list[Loss]:
        """All overflow spans, and the overflows that no read tells."""
        return [loss for capture in self.captures for loss in capture.losses]

    def expiries(self) -> list[Expiry]:
        """All timeouts that are told."""
        return [capture.expiry for capture in self.captures if capture.expiry]

    def take(self, entry: Entry, act: Act) -> None:
        """Takes the next entry."""
        name, capture = act["name"], self.capture
        if name == "pass":
            if capture and capture.quiet is None:
                self.take_pass(capture, entry.place, act["at"], act["count"], True)
        elif name not in ("read", "poll"):
            if (reply := reports.reply_of(entry))["name"] == "done":
                self.accept(entry, act, reply)
        elif capture and (reply := reports.reply_of(entry))["name"] not in reports.REFUSALS:
            self.note_moment(capture, entry.place, act["at"])
            (self.take_read if name == "read" else self.take_poll)(capture, entry, act, reply)

    def note_moment(self, capture: Capture, place: int, at: int) -> None:
        """Notes the first entry at which the timeout may be over."""
        if self.due is not None and capture.over is None and capture.quiet is None and at >= self.due:
            capture.over = place

    def take_pass(self, capture: Capture, place: int, at: int, count: int, is_written: bool) -> None:
        """A batch passes, of the stream or of what a client has written."""
        self.note_moment(capture, place, at)
        if is_written == (self.filter is not None and self.filter.is_played):
            capture.packets += count
        capture.keep(place)

    def take_read(self, capture: Capture, entry: Entry, act: Act, reply: Reply) -> None:
        """A read and what it tells."""
        name = reply["name"]
        if name == "overflow":
            capture.know(entry.place, reply["span"][1])
            capture.lose(entry.place, reply)
            capture.skip_to(reply["span"][1])
        elif name == "timedout":
            self.expire(capture, entry)
        else:
            capture.give(reply.get("length", 0))
            if name != "data" or capture.kind != "section" and not capture.keeps and reply["length"] < act["count"]:
                capture.know(entry.place, capture.answered)
        capture.tell(entry.place, is_empty=name != "data")

    def take_poll(self, capture: Capture, entry: Entry, _: Act, reply: Reply) -> None:
        """A poll and what it tells."""
        if reply["error"] == "timedout":
            self.expire(capture, entry)
        if reply["error"] == "overflow" and capture.pending is None:
            capture.pending = entry.place
        if reply["readable"] == 0:
            capture.know(entry.place, capture.answered)
        has_more = reply["readable"] == 1 and reply["error"] == "none"
        capture.tell(entry.place, capture.answered + has_more, reply["error"] == "overflow", not has_more)

    @staticmethod
    def expire(capture: Capture, entry: Entry) -> None:
        """The timeout is told here."""
        if capture.expiry is None:
            place = entry.place if capture.over is None else capture.over
            capture.expiry = Expiry(place, entry.place)
            capture.quiet = capture.quiet or place

    def begin_capture(self, entry: Entry) -> None:
        """A capture begins: of the filter, or on the dvr node of what the taps name."""
        kind = self.filter.output or self.filter.kind if self.filter else "dvr"
        label = ("tapped packets", "tapped") if kind == "dvr" else pids_labels(self.pids)
        self.capture = Capture(entry.place, entry.act, kind, label)
        self.capture.keeps = self.filter is not None and self.filter.keeps
        self.captures.append(self.capture)

    def change_pids(self, entry: Entry) -> None:
        """Another PID, or one less; a capture takes them from here on."""
        if self.capture:
            self.capture.labels.append((entry.place, pids_labels(self.pids)))

    def stop(self, entry: Entry) -> None:
        """The capture takes no further packets."""
        if self.capture:
            self.capture.quiet = self.capture.quiet or entry.place

    def end_capture(self, entry: Entry, reply: Reply) -> None:
        """The capture ends, where there is one, and its unread bytes are dropped."""
        begin, end = reply["drop"]
        if self.capture:
            if end - begin >= (self.sizes[-1] or 1) and self.capture.pending is None:
                self.capture.pending = entry.place
            self.capture.know(entry.place, end)
            self.capture.told_packets = self.capture.packets
            self.capture.end = entry.place
        self.capture = None

    # ------ the bytes unread

    def fill(self, capture: Capture) -> None:
        """Fills in the bytes unread behind each entry of a capture, and where its overflow spans are drawn from."""
        last = len(self.sizes) if capture.end is None else capture.end
        bounds = [(low - step.answered, high - step.answered) for step, (low, high) in zip(capture.steps, bounds_of(capture))]
        capture.losses = [self.fill_before(*loss, capture, bounds) for loss in capture.told_losses]
        if capture.pending is not None:
            capture.losses.append(Loss(capture.pending, capture.pending, min(last, len(self.sizes) - 1)))
        behind = [step.place for step in capture.steps[1:]] + [last]
        for (place, packets, *_), until, (low, high) in zip(capture.steps, behind, bounds):
            # (no more than the buffer can have at this place)
            most = (self.sizes[place] or 1) - 1
            is_told = packets <= capture.told_packets or capture.kind == "ts_tap"
            levels = (max(0, min(low, most)), max(0, min(high, most))) if is_told else (None, None)
            for at in range(place, until):
                self.low[at], self.high[at] = levels
        # (what was kept behind each entry isn't asked for any longer)
        capture.steps, capture.known = [], []

    def fill_before(self, clear: int, told: int, place: int, reply: Reply, capture: Capture, bounds: list[tuple[int, int]]) -> Loss:
        """The overflow span with the places behind which it may have come and has come: the buffer is as full then as it says, and
        from then on only what is read leaves it; with KEEP it holds what comes before the span."""
        full, begin = (self.sizes[place] or 1) - 1 - reply["room"], reply["span"][0]
        steps, last = capture.steps, max(clear + 1, told - 1)
        between = [(number, begin - steps[number].answered if capture.keeps else full) for number in range(clear + 1, told)]
        sure = next((number for number, most in between if bounds[number][0] > most or steps[number].is_over), last)
        first = min(sure, next((number for number, most in between if bounds[number][1] > most), last))
        for number, most in between[first - clear - 1 :]:
            left = most if capture.keeps else full - steps[number].answered + steps[min(first, told - 1)].answered
            bounds[number] = (left if number >= sure else min(bounds[number][0], left), left)
        first, sure = (steps[min(number, told)].place for number in (first, sure))
        return Loss(first, sure, place, reply)


def pids_labels(pids: set[int]) -> Label:
    """PIDs in a few words, and shorter for where there is less room."""
    names = ["all packets" if pid == ALL_PACKETS else pid_name(pid) for pid in sorted(pids)]
    if not pids:
        return "no PID", "none"
    if len(pids) == 1:
        return names[0] if ALL_PACKETS in pids else f"PID {names[0]}", names[0].partition(" (")[0]
    short = f"{len(pids)} PIDs"
    return f"PIDs {', '.join(names)}" if len(pids) <= MOST_NAMED else short, short


def bounds_of(capture: Capture) -> list[tuple[int, int]]:
    """The least and the most bytes that may have arrived behind each step."""
    known = [*capture.known, Known(float("inf"), capture.told_packets, capture.answered)]
    least: dict[int, int] = {}
    found, here = [], 0
    for step in capture.steps:
        least[step.packets] = max(least.get(step.packets, 0), step.least)
    for step in capture.steps:
        while known[here + 1].place <= step.place:
            here += 1
        found.append(bounds_at(step, known[here], known[here + 1], least, capture.kind in ("dvr", "tsdemux_tap")))
    return found


def bounds_at(step: Step, before: Known, after: Known, least: Mapping[int, int], is_whole: bool) -> tuple[int, int]:
    """The bounds behind a step between two entries that tell how many bytes have arrived; least has the bytes that reads show to
    have come with so many packets."""
    if step.packets <= before.packets:
        low = high = before.arrived
    elif step.packets >= after.packets:
        low = high = after.arrived
    elif is_whole and after.arrived - before.arrived == PACKET * (after.packets - before.packets):
        low = high = before.arrived + PACKET * (step.packets - before.packets)
    else:
        low, high = max(before.arrived, least[step.packets]), after.arrived
    return max(low, step.least), max(high, step.least)
