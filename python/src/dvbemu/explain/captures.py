"""What is known of the filters and captures of a report."""
from __future__ import annotations

from typing import TYPE_CHECKING

from ..psi.fields import streams_in
from ..stream.packets import PACKET
from . import walk

if TYPE_CHECKING:
    from typing import Iterable

    from ..reports import Act, Entry
    from .offered import Brought
    from .story import Stumble


class Offered:
    """Stretches of the stream's packets that were surely offered to a filter's captures while it had a PID."""

    def __init__(self) -> None:
        self.stretches: list[list[int]] = []
        self.goes_on = False

    def take(self, first: int, after: int) -> None:
        """Takes a batch."""
        if self.goes_on and self.stretches and self.stretches[-1][1] == first:
            self.stretches[-1][1] = after
        else:
            self.stretches.append([first, after])
        self.goes_on = True

    def leave(self) -> None:
        """The capture ends: what is offered next isn't taken together with what came before."""
        self.goes_on = False

    def may_hide(self, packets: int, pids: int) -> int:
        """How many of the stream's breaks or duplicates of so many PIDs may lie where no capture sees them: one at each packet
        that isn't offered, and one at the first packet of each PID in a stretch that doesn't begin with the stream."""
        seen = sum(after - first for first, after in self.stretches)
        return packets - seen + pids * sum(first > 0 for first, _ in self.stretches)


class Filter(walk.Filter):
    """What is known of a filter: the line of its set call, whether it was ever started, what of the stream it was offered, by PID, how many
    packets clients wrote while it ran, and, with the stream at hand, the places of the packets that each capture was offered. `gave` says
    that anything came through it, and `empty` what it had been offered, as stretches of its PID, when the report last showed that nothing
    had."""

    def __init__(self, entry: Entry, act: Act, line: int) -> None:
        super().__init__(entry, act)
        self.line, self.started, self.written, self.gave = line, False, 0, False
        self.offered: dict[int, Offered] = {}
        self.places: list[list[int]] = []
        self.empty: list[tuple[int, int]] | None = None

    def take(self, first: int, after: int, pids: Iterable[int]) -> None:
        """Takes a batch that is surely offered to the capture, by these PIDs."""
        for pid in pids:
            if pid not in self.offered:
                self.offered[pid] = Offered()
            self.offered[pid].take(first, after)

    def tell_empty(self) -> None:
        """Nothing has come through up to here."""
        offered = self.offered.get(self.pid)
        self.empty = [(first, after) for first, after in offered.stretches] if offered else []

    def leave(self) -> None:
        """A capture ends."""
        for offered in self.offered.values():
            offered.leave()


class Capture(walk.Answered):
    """What is known of a capture: whose it is, the line that began it, how much of the stream had passed then, in how many batches, whether
    the stream had ended when it began, how many bytes and items were answered, and where in a section the reader stands. `clear` is how
    much of the stream had passed when all that had come was read, `clear_passes` in how many batches, and `early` has the lines of the
    reads that found nothing before the first packet passed; it is None once something else is found, or a later read is made. `held` is how
    many bytes its reads would have given at least, had no Overflow come, `over` the Overflow that came last, `known` how many bytes had
    come when so much of the stream had passed, where a reply last told that, and `loops` says that the last read wasn't the last call of
    its command. `lag` is how many bytes at most came while reads waited that wouldn't have had to, had no Overflow come, so that they would
    have come later then, and `waits` says that such a read waits. `lengths` has those of the sections that were read, the last one at the
    end. Of a dvr node's capture `tapped` says whether a tap was attached, and `dry` has the lines of the reads that found nothing. With the
    stream at hand `places` has those of the packets that the capture was offered, and `brought` what they brought."""

    def __init__(self, client: int, line: int, passed: int, passes: int, is_late: bool) -> None:
        super().__init__()
        self.client, self.line, self.begin, self.is_late = client, line, passed, is_late
        self.items, self.have, self.digits, self.tail = 0, 0, "", ""
        self.polled: int | None = None
        self.lengths: dict[bytes, int] = {}
        self.clear, self.clear_passes = passed, passes
        self.early: list[int] | None = []
        self.held, self.known, self.loops, self.tapped = 0, (0, passed), False, False
        self.lag, self.waits = 0, False
        self.over: Stumble | None = None
        self.places: list[int] = []
        self.brought: Brought | None = None
        self.dry: list[int] = []

    def hold(self, least: int, most: int, count: int) -> int:
        """Takes a read of at most so many bytes, of a capture to which at least and at most so many had come: tells how many a buffer has to
        hold that no Overflow comes to this read."""
        if self.waits:
            self.lag, self.waits = self.lag + most - self.answered, False
        wanted = max(0, most - self.held)
        self.held = max(self.held, min(least - self.lag, self.held + count))
        return wanted

    def hold_all(self) -> None:
        """All that has come would have been read too, had no Overflow come."""
        self.held, self.lag, self.waits = self.answered, 0, False

    def most(self, passed: int, size: int, is_section: bool) -> int:
        """How many bytes may have come by now, where so much of the stream has passed, and no Overflow is told: no more than the buffer holds,
        and a packet brings no more than its own bytes, but where it completes a section."""
        unread = self.answered + size - 1
        arrived, at = self.known
        return unread if is_section else min(unread, arrived + PACKET * (passed - at))

    def repeats(self, length: int) -> int:
        """How many sections are dropped with so many bytes, where these are as long as the ones that were read and come again in their order;
        0 where they aren't."""
        lengths, count = list(self.lengths.values()), 0
        while lengths and not self.have and length > 0:
            length -= lengths[count % len(lengths)]
            count += 1
        return count if length == 0 else 0

    def look(self, line: int, passed: int, found: bool, is_read: bool) -> None:
        """Takes a read or a poll, which found something or nothing, when so much of the stream had passed."""
        if found or passed > self.begin:
            self.early = None
        elif is_read and self.early is not None and line not in self.early[-1:]:
            self.early.append(line)

    def take_section(self, digits: str) -> tuple[int | None, bytes, bool]:
        """Takes a read of a section filter; gives the section's length where it is known, the bytes of it that are there, and whether it
        is whole."""
        self.digits += digits
        data = bytes.fromhex(self.digits)
        length = ((data[1] << 8 | data[2]) & 0x0FFF) + 3 if len(data) > 2 else None
        if length is None or len(data) < length:
            self.have = len(data)
            return length, data, False
        self.have, self.digits = 0, ""
        self.items += 1
        self.lengths.pop(data, None)
        self.lengths[data] = length
        return length, data, True

    def take_payload(self, digits: str) -> list[int]:
        """Takes a read of payloads; gives the stream_ids of the PES packets that begin in it, also over the read before."""
        data = self.tail + digits
        self.tail = data[-6:]
        return streams_in(bytes.fromhex(data))

    def skip_to(self, after: int) -> None:
        super().skip_to(after)
        self.have, self.digits, self.tail = 0, "", ""
