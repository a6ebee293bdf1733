"""The pace of a stream by its program clock: when its packets are due (ISO/IEC 13818-1, 2.4.2.2, 2.4.3.5).

The clock is that of the PCRs of one PID: of the first that has one, or of one that is named. Between two of them the bytes come evenly. In front
of the first, behind the last, and where the clock makes a leap, stands still or begins anew, they come at the pace beside that; a step of more
than ten seconds, also one back, is a leap. Where that PID has had no PCR for 100,000 packets, and it wasn't named, the next PID that has one is
the clock.
"""
from __future__ import annotations

from typing import TYPE_CHECKING

from ..errors import Error
from .packets import PACKET, SYNC, discontinuity, pcr_of, pid_of

if TYPE_CHECKING:
    from typing import Iterable, Iterator

TICKS = 27_000_000
WRAP = 2**33 * 300
LONGEST, SILENT = 10 * TICKS, 100_000 * PACKET


class ClockError(Error):
    """A stream that has fewer than two PCRs of one PID."""


class Pace:
    """The seconds that a byte takes, PCR by PCR; None where that isn't known yet."""

    def __init__(self, pid: int | None = None) -> None:
        self.pid, self.is_named = pid, pid is not None
        self.seconds: float | None = None
        self.last: int | None = None

    def takes(self, packet: bytes, pcr: int, size: int) -> bool:
        """Whether the PCR of a packet, so many bytes behind the one that was taken last, is one of this clock; then it is taken."""
        pid = pid_of(packet)
        is_same = self.pid == pid
        if not is_same and self.pid is not None and (self.is_named or size < SILENT):
            return False
        if is_same and self.last is not None and size:
            ticks = (pcr - self.last) % WRAP
            if 0 < ticks <= LONGEST and not discontinuity(packet):
                self.seconds = ticks / TICKS / size
        self.pid, self.last = pid, pcr
        return True


def pieces(chunks: Iterable[bytes]) -> Iterator[bytes]:
    """The packets of a stream that comes in chunks, and, as they stand, the bytes between and behind them."""
    held = b""
    for chunk in chunks:
        held, place = held + chunk, 0
        while len(held) - place >= PACKET:
            found = held.find(SYNC, place)
            after = place + PACKET if found == place else found if found > 0 else len(held)
            yield held[place:after]
            place = after
        held = held[place:]
    if held:
        yield held


def timed(stream: Iterable[bytes], pid: int | None = None) -> Iterator[tuple[float, bytes]]:
    """The pieces of a stream, which comes in chunks, each with the second from the first PCR at which it is due, which is below 0 in front of
    that. Raises ClockError, before the first piece, where the stream has fewer than two PCRs of one PID, or of the one that is named."""
    timer = Timer(pid)
    for piece in pieces(stream):
        yield from timer.take(piece)
    if timer.pace.seconds is None:
        raise ClockError
    yield from timer.due(timer.pace.seconds)


class Timer:
    """When pieces of a stream are due, which wait until that is known."""

    def __init__(self, pid: int | None) -> None:
        self.pace, self.at = Pace(pid), 0.0
        self.waiting: list[bytes] = []
        # (the bytes in front of the first PCR, and those since the last one)
        self.ahead, self.behind = 0, 0

    def take(self, piece: bytes) -> Iterator[tuple[float, bytes]]:
        """Takes a piece, and gives those before it whose time is known now."""
        pcr, is_first = pcr_of(piece), self.pace.last is None
        if pcr is not None and self.pace.takes(piece, pcr, self.behind):
            self.ahead, self.behind = self.behind if is_first else self.ahead, 0
            if self.pace.seconds is not None:
                yield from self.due(self.pace.seconds)
        self.waiting.append(piece)
        self.behind += len(piece)

    def due(self, seconds: float) -> Iterator[tuple[float, bytes]]:
        """The waiting pieces, each with the time at which it is due, if a byte takes this many seconds."""
        for piece in self.waiting:
            yield -self.ahead * seconds if self.ahead else self.at, piece
            if self.ahead:
                self.ahead -= len(piece)
            else:
                self.at += len(piece) * seconds
        self.waiting = []
