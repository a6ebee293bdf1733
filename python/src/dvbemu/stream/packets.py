"""Packets of a transport stream: how they lie, what their heads say, and how they are made (ISO/IEC 13818-1, 2.4.3)."""
from __future__ import annotations

from typing import NamedTuple

SYNC, PACKET, ROOM = 0x47, 188, 184
# The greatest PID, which is that of null packets, and the PID by which the media API means every packet.
LAST_PID, ALL_PACKETS = 0x1FFF, 0x2000
# The bytes of a packet with what lies in front of it and behind it: as it is, with a time in front (Blu-ray, .m2ts), with 16 bytes
# behind (of a Reed-Solomon code); and how many bytes lie in front.
FORMS = {188: 0, 192: 4, 204: 0}
# How many packets show a form.
SHOWN = 5
# Flags of an adaptation field: discontinuity_indicator, random_access_indicator and elementary_stream_priority_indicator.
DISCONTINUITY, RANDOM_ACCESS, PRIORITY = 0x80, 0x40, 0x20


# ------ how they lie


class Cut(NamedTuple):
    """The packets of a stream, how many bytes between them are passed over, and how many are left where one isn't whole."""

    packets: list[bytes]
    skipped: int
    rest: int


def cut(stream: bytes, size: int = PACKET) -> Cut:
    """The packets of a stream, each of which takes up so many bytes."""
    packets: list[bytes] = []
    skipped, at = 0, 0
    while (begin := stream.find(SYNC, at)) >= 0:
        skipped += begin - at
        if begin + size > len(stream):
            return Cut(packets, skipped, len(stream) - begin)
        packets.append(stream[begin : begin + PACKET])
        at = begin + size
    return Cut(packets, skipped + max(len(stream) - at, 0), 0)


def form_of(data: bytes) -> tuple[int, int] | None:
    """How packets lie in these bytes: how many bytes each takes, and where the first begins; None where there are none."""
    found = []
    for size, ahead in FORMS.items():
        for at in range(ahead, min(size + ahead, len(data))):
            syncs = data[at::size]
            count = min(len(syncs), SHOWN)
            if syncs[:count].count(SYNC) == count and (count == SHOWN or len(data) < SHOWN * size):
                found.append((at - ahead, size))
                break
    if not found:
        return None
    at, size = min(found)
    return size, at


# ------ what they say


def error_bit(packet: bytes) -> bool:
    """transport_error_indicator."""
    return bool(packet[1] & 0x80)


def unit_start(packet: bytes) -> bool:
    """payload_unit_start_indicator: a section, or a PES packet, begins in the payload."""
    return bool(packet[1] & 0x40)


def pid_of(packet: bytes) -> int:
    """The PID."""
    return (packet[1] & 0x1F) << 8 | packet[2]


def counter_of(packet: bytes) -> int:
    """The continuity_counter."""
    return packet[3] & 0x0F


def payload_of(packet: bytes) -> bytes | None:
    """The payload; None where there is none."""
    first = 5 + packet[4] if packet[3] & 0x20 else 4
    return packet[first:] if packet[3] & 0x10 and first < PACKET else None


def discontinuity(packet: bytes) -> bool:
    """discontinuity_indicator: the counter needn't go on, or another clock begins with the PCR that stands there."""
    return bool(packet[3] & 0x20 and packet[4] and packet[5] & DISCONTINUITY)


def joins(before: bytes, packet: bytes) -> bool:
    """Whether a packet goes on where the one before it on its PID ends."""
    return counter_of(packet) == (counter_of(before) + 1) % 16 and not discontinuity(packet)


def pcr_of(packet: bytes) -> int | None:
    """The program clock reference, in ticks of 27 MHz; None where there is none."""
    if len(packet) < PACKET or not packet[3] & 0x20 or packet[4] < 7 or not packet[5] & 0x10:
        return None
    return (int.from_bytes(packet[6:11], "big") >> 7) * 300 + ((packet[10] & 1) << 8 | packet[11])


# ------ how they are made


def adaptation_field(size: int, pcr: int | None = None, flags: int = 0) -> bytes:
    """An adaptation field of so many bytes, with its length: with flags that ask for nothing behind them, with a PCR or without, and
    stuffing."""
    if size == 1:
        return b"\0"
    base, extension = divmod(pcr or 0, 300)
    clock = b"" if pcr is None else (base << 15 | 0x7E00 | extension).to_bytes(6, "big")
    return (bytes([size - 1, flags | (0x10 if clock else 0)]) + clock).ljust(size, b"\xff")


def packet(pid: int, counter: int, payload: bytes = b"", start: bool = False, field: bytes = b"") -> bytes:
    """A packet, with an adaptation field where one is given, and behind its payload bytes 0xFF, as behind a section."""
    control = (0x20 if field else 0) | (0x10 if len(field) < ROOM else 0)
    head = bytes([SYNC, start << 6 | pid >> 8, pid & 0xFF, control | counter % 16])
    if len(field) + len(payload) > ROOM:
        raise ValueError(f"a packet has room for {ROOM} bytes")
    return (head + field + payload).ljust(PACKET, b"\xff")


def full_packet(pid: int, counter: int, payload: bytes, start: bool = False) -> bytes:
    """A packet that its payload fills, with stuffing in front where it is shorter, as of a PES packet."""
    if not 1 <= len(payload) <= ROOM:
        raise ValueError(f"a payload has 1 to {ROOM} bytes")
    over = ROOM - len(payload)
    return packet(pid, counter, payload, start, adaptation_field(over) if over else b"")


def section_packets(pid: int, section: bytes, counter: int = 0) -> list[bytes]:
    """The packets of a section, the first of which has the counter and the pointer_field 0."""
    data = b"\0" + section
    payloads = [data[at : at + ROOM] for at in range(0, len(data), ROOM)]
    return [packet(pid, counter + place, payload, place == 0) for place, payload in enumerate(payloads)]


NULL_PACKET = packet(LAST_PID, 0)
