"""Writes to a server what is on the air, at its pace, until it is told to end."""
from __future__ import annotations

import fcntl
import math
import os
import struct
import termios
import threading
import time
from typing import TYPE_CHECKING

from ..stream.packets import PACKET
from .channels import LOCKED, NOTHING, Quality
from .recording import PAUSE, Player, Unplayable

if TYPE_CHECKING:
    from typing import IO, BinaryIO, Callable, Sequence

    from .channels import Asked, Channel, Front

# The most packets of a write; and the packets of a batch, which pass the server together.
MOST, BATCH, NEVER = 640, 64, (math.inf, math.inf)
NULL = bytes([0x47, 0x1F, 0xFF, 0x10]) + b"\xff" * (PACKET - 4)


class Feeder(threading.Thread):
    """Plays the channel that the frontend is tuned to. `played` and `tunings` are files, or None."""

    def __init__(self, channels: Sequence[Channel], front: Front, pipe: IO[bytes], once: bool = False, live: bool = False) -> None:
        super().__init__(daemon=True)
        self.players = {channel: Player(channel.recording, once) for channel in channels}
        self.front, self.pipe, self.once, self.live = front, pipe, once, live
        self.played: BinaryIO | None = None
        self.tunings: BinaryIO | None = None
        self.unkept: dict[str, str] = {}
        self.fault: Exception | None = None
        self.on_fault: Callable[[], object] | None = None
        self.ended, self.count, self.begun = threading.Event(), 0, time.monotonic()
        self.now = next((channel for channel in channels if channel.frequency is None), None)
        # (what was tuned to, from when until when its lock is lost, and whether it is)
        self.words, self.drop, self.is_lost = "", NEVER, False

    def write(self, piece: bytes) -> None:
        """Writes packets."""
        rest = memoryview(piece)
        while rest:
            rest = rest[self.pipe.write(rest):]
        self.keep(self.played, piece)
        self.count += len(piece) // PACKET
        self.front.pass_packets(self.count)

    def keep(self, file: BinaryIO | None, data: bytes) -> None:
        """Writes what is kept beside the report, up to the first write that fails."""
        rest = memoryview(data)
        try:
            while file and rest and file.name not in self.unkept:
                rest = rest[file.write(rest):]
        except OSError as fault:
            self.unkept[file.name if file else ""] = fault.strerror or str(fault)

    def pass_all(self) -> None:
        """What was written has passed all nodes: a batch is filled with null packets, and the server has come to read the next one."""
        for fill in (-self.count % BATCH, BATCH):
            self.write(NULL * fill)
            while not self.ended.is_set() and struct.unpack("i", fcntl.ioctl(self.pipe, termios.FIONREAD, bytes(4)))[0]:
                time.sleep(PAUSE / 4)

    def channel_for(self, asked: Asked) -> tuple[Channel | None, int]:
        """The channel that a frontend finds, one that it can lock to first, and what it tells then."""
        near = [channel for channel in self.players if channel.is_near(asked)]
        found = next((channel for channel in near if channel.status(asked) == LOCKED), None)
        return (found, LOCKED) if found else (None, near[0].status(asked) if near else NOTHING)

    def tune(self) -> None:
        """Where a program has tuned what was on the air passes, and then the new stream begins, or none."""
        tuning = self.front.asked()
        if tuning is None:
            return
        found, status = self.channel_for(tuning[1])
        self.words = tuning[1].words()
        quality = found.quality if found else Quality()
        if found is not self.now:
            if self.now:
                self.pass_all()
            self.wait_for_lock(tuning[0], quality.lock)
            now = time.monotonic()
            if found:
                self.players[found].begin(now, now - self.begun if self.live else 0.0)
            self.now, self.is_lost, self.drop = found, False, (now + quality.drop[0], now + quality.drop[1])
        self.tell(found.recording.path if found else "no lock")
        self.front.grant(tuning[0], NOTHING if self.is_lost else status, quality.ratio)

    def tell(self, what: str) -> None:
        """Tells what is on the air from the next packet on."""
        self.keep(self.tunings, os.fsencode(f"{self.count} {self.words} {what}\n"))

    def wait_for_lock(self, wanted: int, seconds: float) -> None:
        """Waits until a tuner locks, or a program tunes anew."""
        until = time.monotonic() + seconds
        while (left := until - time.monotonic()) > 0 and not self.ended.is_set() and (self.front.asked() or (0,))[0] == wanted:
            time.sleep(min(left, PAUSE))

    def see_drop(self) -> None:
        """Loses the lock, and gets it back, where the channel asks for that: what is sent meanwhile isn't received."""
        is_lost = self.drop[0] <= time.monotonic() < self.drop[1]
        if self.now is None or is_lost == self.is_lost:
            return
        if is_lost:
            self.pass_all()
            # (it takes its time until that has passed)
            self.drop = self.drop[0], self.drop[1] + time.monotonic() - self.drop[0]
        self.is_lost = is_lost
        self.tell("lock lost" if is_lost else self.now.recording.path)
        self.front.change(NOTHING if is_lost else LOCKED)

    def feed(self) -> bool:
        """Writes what is due now, and says whether there was any."""
        piece = self.players[self.now].due(time.monotonic(), MOST) if self.now else b""
        if piece and not self.is_lost:
            self.write(piece)
        return bool(piece)

    def is_over(self) -> bool:
        """Whether there is no more to come: a stream that is played once, at all frequencies, has ended."""
        return len(self.players) == 1 and self.now is not None and self.now.frequency is None and self.players[self.now].ended

    def play(self) -> None:
        """Plays until it is told to end, or there is no more to come."""
        if self.now:
            self.players[self.now].begin(self.begun)
        while not self.ended.is_set() and not self.is_over():
            self.tune()
            self.see_drop()
            if not self.feed():
                time.sleep(PAUSE)

    def run(self) -> None:
        try:
            self.play()
        except (BrokenPipeError, ValueError):
            pass
        except (Unplayable, OSError) as fault:
            self.fault = fault
            if self.on_fault:
                self.on_fault()
        finally:
            self.pipe.close()
        while not self.ended.wait(PAUSE):
            self.answer()

    def answer(self) -> None:
        """Behind a stream's end a frontend has its signal still."""
        if tuning := self.front.asked():
            self.front.grant(tuning[0], self.channel_for(tuning[1])[1])
