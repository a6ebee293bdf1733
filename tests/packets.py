"""Packets and sections that tests are made of, and sessions of them."""
from __future__ import annotations

from dvbemu.stream.packets import packet


def in_packets(pid: int, data: bytes, count: int) -> bytes:
    """So many packets, each with this section."""
    return b"".join(packet(pid, counter, b"\0" + data, True) for counter in range(count))


def session_of(script: str, stream: bytes = b"") -> bytes:
    """A session of a script, whose lines are parted by `|`, and a stream."""
    return script.replace("|", "\n").encode() + b"\nstream\n" + stream


# A section of table_id 0x02, table_id_extension 2 and version 0, with a right CRC_32 (by zlib, of which it is the mirror image),
# and packets of it and of the same with a wrong one.
PMT = bytes.fromhex("02b00d0002c10000e100f00089177a69")
PMTS, WRONG = in_packets(256, PMT, 4), in_packets(256, PMT[:-1] + b"\0", 4)
# Packets that begin PES packets of video, of which a section filter makes sections of 483 bytes: 00 is their pointer_field, 00
# their table_id and 1e0 their section_length.
PES = b"".join(packet(256, counter, bytes.fromhex("000001e0000080"), not counter % 4) for counter in range(8))
