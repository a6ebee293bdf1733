"""What is on the air: which recording plays at which frequency, for whom; and the frontend's page, which preload/frontend.c has
too."""
from __future__ import annotations

import math
import mmap
import os
import re
import struct
from typing import TYPE_CHECKING, NamedTuple

from .recording import Recording, Unplayable

if TYPE_CHECKING:
    from typing import Sequence

# The delivery systems, by the numbers of linux/dvb/frontend.h.
SYSTEMS = {"DVBC": 1, "DVBCB": 2, "DVBT": 3, "DVBS": 5, "DVBS2": 6, "ISDBT": 8, "ATSC": 11, "DVBT2": 16}
SATELLITE, TERRESTRIAL, WITH_STREAMS, ANY_STREAM, FIRST = (5, 6), (3,), (6, 16), 0xFFFFFFFF, {6: 5, 16: 3}
SECONDS = r"\d{1,5}(?:\.\d{1,3})?"
LINE = re.compile(r"(\d+)(?::(?!(?:snr|lock|drop)=)([A-Za-z0-9/-]+?))?(?::([HVLR]))?"
                  rf"((?::(?:snr=\d{{1,2}}(?:\.\d)?|lock=\d{{1,6}}|drop={SECONDS}\+{SECONDS}))*)=(.+)")  # fmt: skip
# Below this many Hz, and of a satellite kHz, nothing is sent: such a number is one of MHz.
LEAST = 100_000
# How far a tuner may be off, in Hz, and for a satellite in kHz; and the converters' oscillators in kHz: for the lower band, the upper
# band, which a tone chooses, and that of C band, above its signals.
NEAR, NEAR_KHZ, LOW, HIGH, C_BAND, HIGHEST_IF = 2_000_000, 2_000, 9_750_000, 10_600_000, 5_150_000, 3_000_000
# What a frontend tells: signal, carrier, viterbi, sync and lock; or a signal alone.
LOCKED, SIGNAL, NOTHING = 0x1F, 0x01, 0x00
TONE_ON, VOLTAGE_OFF = 0, 2


class Quality(NamedTuple):
    """How a signal is received: signal to noise in 0.1 dB, 0 where that is unknown; the seconds until a tuner locks; and the seconds
    behind the lock at which it is lost and comes back."""

    ratio: int = 0
    lock: float = 0.1
    drop: tuple[float, float] = (math.inf, math.inf)


def quality_of(words: str) -> Quality:
    """What words :snr=DB, :lock=MS and :drop=SECONDS+SECONDS say; of two the last."""
    known = dict(word.split("=") for word in words.split(":")[1:])
    after, lasts = map(float, known["drop"].split("+")) if "drop" in known else (math.inf, 0.0)
    lock = int(known["lock"]) / 1000 if "lock" in known else Quality().lock
    return Quality(round(float(known.get("snr", 0)) * 10), lock, (after, after + lasts))


class Channel:
    """A recording at a frequency: in Hz, or in kHz for a satellite. A frequency of None is any."""

    def __init__(self, frequency: int | None, systems: Sequence[int], polarisation: str | None, recording: Recording,
                 quality: Quality = Quality()) -> None:  # fmt: skip
        self.frequency, self.systems, self.polarisation, self.recording = frequency, systems, polarisation, recording
        self.quality = quality

    def is_near(self, asked: Asked) -> bool:
        """Whether a frontend that is set so finds a signal."""
        if self.frequency is None:
            return True
        if asked.system not in SATELLITE:
            return not self.polarisation and abs(asked.frequency - self.frequency) <= NEAR
        band = HIGH if asked.tone == TONE_ON else LOW
        wanted = (self.frequency,) if self.frequency < HIGHEST_IF else (self.frequency - band, C_BAND - self.frequency)
        if not any(abs(asked.frequency - one) <= NEAR_KHZ for one in wanted):
            return False
        return not self.polarisation or asked.voltage == VOLTAGE_OFF or self.polarisation in ("VR", "HL")[asked.voltage & 1]

    def status(self, asked: Asked) -> int:
        """What the frontend tells of it, which is the stream 0 where a system has several at a frequency."""
        is_stream = asked.system not in WITH_STREAMS or asked.stream in (0, ANY_STREAM)
        return LOCKED if is_stream and (not self.systems or asked.system in self.systems) else SIGNAL


class Asked:
    """A tuning that a program has asked for."""

    def __init__(self, frequency: int, system: int, voltage: int, tone: int, stream: int) -> None:
        self.frequency, self.system, self.voltage, self.tone, self.stream = frequency, system, voltage, tone, stream

    def words(self) -> str:
        name = next((name for name, number in SYSTEMS.items() if number == self.system), str(self.system))
        if self.system not in SATELLITE:
            return f"{self.frequency} {name}"
        return f"{self.frequency} {name} {'VH-'[min(self.voltage, 2)]} {'high' if self.tone == TONE_ON else 'low'}"


def channel_of(word: str, rate: float | None) -> Channel:
    """The channel of a word HZ[:SYSTEM][:POL]=FILE."""
    found = LINE.fullmatch(word)
    if not found:
        raise Unplayable(f"{word}: expected HZ[:SYSTEM][:H|V|L|R][:snr=DB][:lock=MS][:drop=S+S]=FILE")
    system = found[2] and found[2].upper().replace("-", "").replace("/", "")
    if system in ("H", "V", "L", "R"):
        system, polarisation = None, system
    else:
        polarisation = found[3]
    if system is not None and system not in SYSTEMS:
        raise Unplayable(f"{word}: {found[2]} isn't one of {', '.join(SYSTEMS)}")
    systems = (SYSTEMS[system],) if system else SATELLITE if polarisation else ()
    if polarisation and not set(systems) <= set(SATELLITE):
        raise Unplayable(f"{word}: {system} has no polarisation")
    frequency, recording = int(found[1]), Recording(found[5], rate)
    if frequency < LEAST:
        recording.told.append(f"{word}: {frequency} is taken as {frequency} MHz")
        frequency *= 1_000 if set(systems) & set(SATELLITE) else 1_000_000
    return Channel(frequency, systems, polarisation, recording, quality_of(found[4]))


def lines_in(path: str) -> list[str] | None:
    """The lines of a file of channels, without comments, which begin with `#`, and with paths relative to its folder; None if it isn't one."""
    try:
        with open(path, encoding="utf-8") as file:
            lines = [line.strip() for line in file.read(1 << 20).split("\n")]
    except (OSError, UnicodeDecodeError):
        return None
    lines = [line for line in lines if line and not line.startswith("#")]
    found = [LINE.fullmatch(line) for line in lines]
    if not lines or not all(found):
        return None
    return [line[0][:line.start(5)] + os.path.join(os.path.dirname(path), line[5]) for line in found if line]


def not_lines(path: str) -> str:
    """What a file of channels has in the place of such lines. One that can't be read is told as such."""
    with open(path, "rb") as file:
        data = file.read(1 << 20)
    try:
        lines = data.decode().split("\n")
    except UnicodeDecodeError:
        return "it isn't text"
    for number, line in enumerate(map(str.strip, lines), 1):
        if line and not line.startswith("#") and not LINE.fullmatch(line):
            return f"line {number} is {line[:60]!r}"
    return "it has none"


def channels_of(tunings: Sequence[str], file: str | None, stream: str | None, rate: float | None) -> list[Channel]:
    """The channels of these words, of the lines of a file, and of a stream that plays everywhere else."""
    lines: list[str] = []
    if file is not None:
        if (given := lines_in(file)) is None:
            raise Unplayable(f"{file}: expected lines HZ[:SYSTEM][:H|V|L|R]=FILE, but {not_lines(file)}")
        lines = given
    found = [channel_of(word, rate) for word in [*tunings, *lines]]
    return found + ([Channel(None, (), None, Recording(stream, rate))] if stream is not None else [])


def systems_of(channels: Sequence[Channel]) -> list[int]:
    """The delivery systems of a frontend that finds these channels. One of a second generation has the first one too."""
    found = [system for channel in channels for system in channel.systems or TERRESTRIAL]
    return list(dict.fromkeys([*found, *(FIRST[system] for system in found if system in FIRST)]))


class Front:
    """The page that a frontend's programs and this one share."""

    SIZE, MOST_SYSTEMS = 4096, 7
    HEAD, STATUS_AT, TAKEN_AT = struct.Struct("=9I"), 8, 12
    SEATLESS_AT, RATIO_AT, PACKETS_AT, SYSTEMS_AT, SYSTEM_AT = 36, 40, 48, 56, 88 + 4 * 17

    def __init__(self, path: str, systems: Sequence[int]) -> None:
        self.file = os.open(path, os.O_RDWR | os.O_CREAT | os.O_CLOEXEC, 0o600)
        os.ftruncate(self.file, self.SIZE)
        self.page = mmap.mmap(self.file, self.SIZE)
        systems = systems[:self.MOST_SYSTEMS]
        struct.pack_into(f"={len(systems)}I", self.page, self.SYSTEMS_AT, *systems)

    def asked(self) -> tuple[int, Asked] | None:
        """The count of a tuning that isn't done yet, and what it asks for; None where there is none."""
        wanted, granted, _, _, *asked = self.HEAD.unpack_from(self.page)
        return None if wanted == granted else (wanted, Asked(*asked))

    def was_opened(self) -> bool:
        """Whether a program has used the frontend: it has a delivery system from then on."""
        return struct.unpack_from("=I", self.page, self.SYSTEM_AT) != (0,)

    def seatless(self) -> int:
        """How many programs have found no seat."""
        found: int = struct.unpack_from("=I", self.page, self.SEATLESS_AT)[0]
        return found

    def grant(self, wanted: int, status: int, ratio: int = 0) -> None:
        """A tuning is done. Programs that wait are told of it by the file."""
        os.pwrite(self.file, struct.pack("=I", ratio), self.RATIO_AT)
        os.pwrite(self.file, struct.pack("=I", status), self.STATUS_AT)
        os.pwrite(self.file, struct.pack("=I", wanted), 4)

    def change(self, status: int) -> None:
        """The lock is lost, or comes back: an event, as a tuning is."""
        os.pwrite(self.file, struct.pack("=I", status), self.STATUS_AT)
        os.pwrite(self.file, struct.pack("=I", (self.HEAD.unpack_from(self.page)[1] - 1) & 0xFFFFFFFF), self.TAKEN_AT)

    def pass_packets(self, count: int) -> None:
        """So many packets have passed."""
        struct.pack_into("=Q", self.page, self.PACKETS_AT, count)
