"""A transport stream as it is recorded, in a file or from a pipe: how its packets lie, and when each is due by its program clock."""
from __future__ import annotations

import os
import select
import stat
from typing import TYPE_CHECKING

from ..stream.pace import Pace
from ..stream.packets import FORMS, PACKET, SYNC, form_of, pcr_of

if TYPE_CHECKING:
    from typing import Iterator

# In how many bytes a form is looked for, how many are read at once, and in how many a clock has to begin.
LOOKED_AT, BLOCK, CLOCK_WITHIN = 64 << 10, 1 << 18, 16 << 20
# The seconds that a pipe is waited for at once, and those by which it may come late before its clock waits for it.
PAUSE, LATE = 0.004, 0.5
# Which flags of a packet say that an adaptation field may be there.
HAS_FIELD = bytes(1 if flags & 0x20 else 0 for flags in range(256))


class Unplayable(Exception):
    """A file that can't be played, and why."""


def pcrs_of(block: bytes, phase: int) -> Iterator[tuple[int, bytes, int]]:
    """The packets with a PCR in a block whose packets begin at this phase: the place of each, the packet, and its PCR."""
    flags = block[phase + 3::PACKET].translate(HAS_FIELD)
    number = flags.find(1)
    while number >= 0:
        at = phase + PACKET * number
        packet = block[at:at + PACKET]
        if packet[0] == SYNC and (pcr := pcr_of(packet)) is not None:
            yield at, packet, pcr
        number = flags.find(1, number + 1)


class Recording:
    """A stream, which is read as it is played. A rate in packets a second goes before its clock."""

    def __init__(self, path: str, rate: float | None = None) -> None:
        self.path, self.rate = path, rate
        self.form: tuple[int, int] | None = None
        self.told: list[str] = []
        self.seconds: float | None = None
        self.file = os.dup(0) if path == "-" else os.open(path, os.O_RDONLY | os.O_CLOEXEC)
        kind = os.fstat(self.file).st_mode
        if stat.S_ISDIR(kind):
            raise Unplayable(f"{path} is a folder")
        self.is_pipe = not stat.S_ISREG(kind)
        if not self.is_pipe:
            self.look(os.pread(self.file, LOOKED_AT, 0))
            self.speed()

    def look(self, data: bytes) -> tuple[int, int]:
        """Sees how packets lie, as form_of does."""
        if len(data) < PACKET:
            raise Unplayable(f"{self.path} has no packet")
        form = self.form = form_of(data)
        if form is None:
            raise Unplayable(f"{self.path} isn't a transport stream: no sync bytes 0x47 every 188, 192 or 204 bytes")
        size, at = form
        if size != PACKET or at:
            self.told.append(f"{self.path}: packets of {size} bytes, the first at byte {at}")
        return form

    def speed(self) -> float:
        """The packets a second in the first ten seconds of a file, or the rate that was said."""
        if self.rate:
            return self.rate
        packets, seconds = 0, 0.0
        for run, length in self.runs(CLOCK_WITHIN):
            packets, seconds = packets + len(run) // PACKET, seconds + length
            if seconds > 10:
                break
        return packets / seconds

    def length(self) -> float:
        """The seconds that the whole of a file takes."""
        if self.seconds is None:
            self.seconds = sum(seconds for _, seconds in self.runs())
        return self.seconds

    def blocks(self, at: int = 0) -> Iterator[bytes]:
        """The packets from this byte on, as many as come at once; none where nothing of a pipe has come yet."""
        rest, is_over, form = b"", False, self.form
        while not is_over:
            data = self.read(at, BLOCK)
            is_over = data == b""
            at += len(data or b"")
            rest += data or b""
            if form is None and (is_over or len(rest) >= LOOKED_AT // 8):
                form = self.look(rest)
                rest = rest[form[1]:]
            packets, rest = self.unwrapped(rest, form[0]) if form else (b"", rest)
            yield packets

    def read(self, at: int, count: int) -> bytes | None:
        """Bytes of the file from this place on, or what comes next through a pipe: None where nothing does now."""
        if not self.is_pipe:
            return os.pread(self.file, count, at)
        return os.read(self.file, count) if select.select([self.file], [], [], PAUSE)[0] else None

    @staticmethod
    def unwrapped(data: bytes, size: int) -> tuple[bytes, bytes]:
        """The packets, of so many bytes each, without what lies around them, and the bytes of one that isn't whole. Of 188 bytes all are as they stand."""
        ahead, whole = FORMS[size], len(data) // size * size
        if size == PACKET:
            return data[:whole], data[whole:]
        packets, at = [], 0
        while at + size <= len(data):
            if data[at + ahead] == SYNC:
                packets.append(data[at + ahead:at + ahead + PACKET])
                at += size
            else:
                found = data.find(SYNC, at + ahead + 1)
                at = found - ahead if found >= 0 else len(data)
        return b"".join(packets), data[at:]

    def runs(self, within: int | None = None) -> Iterator[tuple[bytes, float]]:
        """Runs of packets, each with the seconds that it takes. A stream without a clock in so many bytes can't be played."""
        begin = self.form[1] if self.form else 0
        if self.rate:
            for block in self.blocks(begin):
                yield block, len(block) / PACKET / self.rate
            return
        runs = Runs()
        for block in self.blocks(begin):
            if self.is_pipe and not block:
                yield b"", 0.0
            yield from runs.take(block)
            if within and runs.pace.seconds is None and runs.count > within:
                break
        if runs.pace.seconds is None:
            raise Unplayable(f"{self.path} has no program clock{' in its first 16 MiB' if within else ''}: "
                             "give --packets N, or --rate N in bits a second")  # fmt: skip
        yield from runs.given()


class Runs:
    """Runs of packets, from one PCR to the next, which wait until the pace is known."""

    def __init__(self) -> None:
        self.pace, self.held, self.count = Pace(), b"", 0
        # (the bytes since the last PCR)
        self.behind = 0

    def take(self, block: bytes) -> Iterator[tuple[bytes, float]]:
        """The runs that end in a block, each with the seconds that it takes."""
        begun = 0
        for at, packet, pcr in pcrs_of(block, max(self.phase_of(block), 0)):
            if self.pace.takes(packet, pcr, self.behind + at - begun):
                self.held += block[begun:at]
                begun, self.behind = at, 0
                yield from self.given()
        self.held += block[begun:]
        self.behind += len(block) - begun
        self.count += len(block)

    def given(self) -> Iterator[tuple[bytes, float]]:
        """What is held, where its pace is known."""
        if self.held and self.pace.seconds is not None:
            yield self.held, len(self.held) * self.pace.seconds
            self.held = b""

    @staticmethod
    def phase_of(block: bytes) -> int:
        """Where the first packet of a block begins: at its front, but where bytes lie between that are none."""
        form = (PACKET, 0) if block[::PACKET].count(SYNC) > len(block) // PACKET * 0.9 else form_of(block)
        return form[1] if form and form[0] == PACKET else 0


class Player:
    """A recording that is played, in a loop or once."""

    def __init__(self, recording: Recording, once: bool) -> None:
        self.recording, self.once = recording, once or recording.is_pipe
        self.runs, self.run, self.given, self.ended = recording.runs(), b"", 0, False
        self.begun, self.length = 0.0, 0.0

    def begin(self, now: float, seconds: float = 0.0) -> None:
        """Plays from this moment on, from the first packet or from that which is due behind so many seconds."""
        self.begun, self.length = now, 0.0
        if self.recording.is_pipe:
            return
        self.runs, self.run, self.given, self.ended = self.recording.runs(), b"", 0, False
        left = seconds % self.recording.length() if seconds else 0.0
        while left > self.length:
            left -= self.length
            self.run, self.length = next(self.runs, (b"", 0.0))
        self.begun = now - left
        self.given = int(len(self.run) / PACKET * left / self.length) if self.length else 0

    def next_run(self, now: float) -> None:
        """Comes to the next run; the first one follows the last."""
        self.begun += self.length
        if self.recording.is_pipe and now - self.begun > LATE:
            self.begun = now
        found = next(self.runs, None)
        if found is None and not self.once:
            self.runs = self.recording.runs()
            found = next(self.runs, None)
        self.ended = found is None
        self.run, self.length = found or (b"", 0.0)
        self.given = 0

    def due(self, now: float, most: int) -> bytes:
        """The packets that are due up to this moment, at most so many."""
        if not self.run and not self.ended:
            self.next_run(now)
        count = len(self.run) // PACKET
        share = (now - self.begun) / self.length if self.length else 1.0
        upto = min(int(count * min(max(share, 0.0), 1.0)), self.given + most)
        piece = self.run[PACKET * self.given:PACKET * upto]
        self.given = upto
        if upto == count:
            self.run = b""
        return piece
