"""Sections: how they are made, and how a PID's packets are cut into them (ISO/IEC 13818-1, 2.4.4 and annex A)."""
from __future__ import annotations

import zlib
from typing import TYPE_CHECKING, NamedTuple

from . import packets

if TYPE_CHECKING:
    from typing import Iterable, Iterator

# section_length is at most 4093: the bytes behind it, the CRC_32 among them.
LONGEST, FILL = 4093, 0xFF
MIRROR = bytes(int(f"{byte:08b}"[::-1], 2) for byte in range(256))


def crc(data: bytes) -> int:
    """The CRC_32 of bytes; 0 of a section with its own. It is zlib's in the mirror image, without the last inversion."""
    mirrored = zlib.crc32(data.translate(MIRROR)) ^ 0xFFFFFFFF
    return int.from_bytes(mirrored.to_bytes(4, "little").translate(MIRROR), "big")


def is_intact(section: bytes) -> bool:
    """Whether a section's CRC_32 is right, or it has none, as its section_syntax_indicator says."""
    return not section[1] & 0x80 or crc(section) == 0


# ------ how they are made


def with_crc(data: bytes) -> bytes:
    """Bytes and their CRC_32."""
    return data + crc(data).to_bytes(4, "big")


def with_length(data: bytes, behind: int = 0) -> bytes:
    """A section whose section_length is that of what stands behind it here, and of so many bytes more."""
    if len(data) < 3:
        raise ValueError("a section has at least its table_id and its length, 3 bytes")
    length = len(data) - 3 + behind
    if length > LONGEST:
        raise ValueError(f"a section has at most {LONGEST} bytes behind its length")
    return bytes([data[0], data[1] & 0xF0 | length >> 8, length & 0xFF]) + data[3:]


def whole(data: bytes) -> bytes:
    """A section with its section_length, and, where its section_syntax_indicator is 1, its CRC_32 behind."""
    return with_crc(with_length(data, 4)) if data[1:2] >= b"\x80" else with_length(data)


def section(table_id: int, extension: int, body: bytes, version: int = 0, number: int = 0, last: int = 0, current: int = 1) -> bytes:
    """A section whose section_syntax_indicator is 1: body is what stands between its last_section_number and its CRC_32. The bit behind
    that indicator is 0 in the tables of ISO/IEC 13818-1, and 1 in those of DVB, where it is reserved."""
    flags = 0xB0 if table_id < 0x40 else 0xF0
    head = bytes([table_id, flags, 0, extension >> 8, extension & 0xFF, 0xC0 | version << 1 | current, number, last])
    return whole(head + body)


def short_section(table_id: int, body: bytes) -> bytes:
    """A section whose section_syntax_indicator is 0."""
    return with_length(bytes([table_id, 0x70, 0]) + body)


# ------ how packets are cut into them


class Found(NamedTuple):
    """A section, and the places of the packets that it came in: in the last of them it ends."""

    data: bytes
    packets: list[int]


class Cutter:
    """The sections of a PID whose packets are taken one by one, by the rules of docs/BEHAVIOUR.md ('Sections')."""

    def __init__(self) -> None:
        self.last: bytes | None = None
        self.open: bytearray | None = None
        # (where in what is open the bytes of each packet end, and its place)
        self.ends: list[tuple[int, int]] = []

    def take(self, packet: bytes, place: int = 0) -> list[Found]:
        """The sections that end in the next packet of the PID, which has this place."""
        payload = packets.payload_of(packet)
        if packets.error_bit(packet) or payload is None:
            return []
        last, self.last = self.last, packet
        if last is not None and packets.counter_of(last) == packets.counter_of(packet) and packets.payload_of(last) == payload:
            return []
        if last is not None and not packets.joins(last, packet):
            self.open = None
        if not packets.unit_start(packet):
            return self.extend(payload, place)
        behind = 1 + payload[0]
        found = self.extend(payload[1:behind], place) if behind <= len(payload) else []
        self.open, self.ends = bytearray() if behind <= len(payload) else None, []
        return found + self.extend(payload[behind:], place)

    def extend(self, data: bytes, place: int) -> list[Found]:
        """The sections that are whole with further bytes of what is open, which ends where no section can follow."""
        if self.open is None:
            return []
        self.open += data
        self.ends.append((len(self.open), place))
        found, at = [], 0
        while (after := end_of_section(self.open, at)) and after <= len(self.open):
            found.append(Found(bytes(self.open[at:after]), [packet for end, packet in self.ends if end > at]))
            at = after
        del self.open[:at]
        self.ends = [(end - at, packet) for end, packet in self.ends if end > at]
        if after is None:
            self.open = None
        return found


def end_of_section(data: bytearray, at: int) -> int | None:
    """Where the section ends that begins here; 0 where that isn't known yet, and None where none can begin."""
    head = data[at : at + 3]
    if head[:1] == bytes([FILL]):
        return None
    if len(head) < 3:
        return 0
    length = (head[1] & 0x0F) << 8 | head[2]
    return at + 3 + length if length <= LONGEST else None


def sections_of(of_pid: Iterable[bytes]) -> Iterator[Found]:
    """The sections of packets of one PID, with the places of their packets among these."""
    cutter = Cutter()
    for place, packet in enumerate(of_pid):
        yield from cutter.take(packet, place)
