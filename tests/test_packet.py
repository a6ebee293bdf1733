"""`dvbemu packet`: packets worked out by hand from ISO/IEC 13818-1, and sections read back by the second program."""
import pytest
from oracle import second

# The words, and the packet by hand. The PAT, with the CRC_32 of its own, is that of many muxers for one service.
PACKETS = [
    ("256 0 payload " + "00" * 184, "47010010" + "00" * 184),
    ("--start 256 15 payload " + "07" * 184, "4741001f" + "07" * 184),
    ("256 0 payload " + "00" * 183, "4701003000" + "00" * 183),
    ("257 0 payload " + "00" * 182, "470101300100" + "00" * 182),
    ("256 1 payload aa", "47010031b600" + "ff" * 181 + "aa"),
    ("8191 2 payload AA bb", "471fff32b500" + "ff" * 180 + "aabb"),
    ("0 3 section 00 b0 00 00 01 c1 00 00 00 01 e1 00", "474000130000b00d0001c100000001e100e8f95e7d" + "ff" * 167),
    ("256 0 section 42 00 05 01 02 03 04 05", "4741001000" + "4200050102030405" + "ff" * 175),
    ("20 0 section 707fff c079124500", "4740141000" + "707005c079124500" + "ff" * 175),
]
# Bytes behind table_id and length, and the packets that a section of so many needs.
SECTIONS = [
    (0x80, 0, 1), (0x00, 0, 1), (0x80, 176, 1), (0x80, 177, 2), (0x00, 180, 1), (0x00, 181, 2), (0x80, 4089, 23), (0x00, 4093, 23)
]  # fmt: skip
# The words, and what is told.
REFUSED = [
    ("1 0 payload a", "bytes are two hexadecimal digits each"),
    ("1 0 payload 0 0", "bytes are two hexadecimal digits each"),
    ("1 0 payload 0x47", "bytes are two hexadecimal digits each"),
    ("1 0 payload " + "00" * 185, "a payload has 1 to 184 bytes"),
    ("1 0 section 0000", "a section has at least its table_id and its length, 3 bytes"),
    ("1 0 section 008000" + "00" * 4090, "a section has at most 4093 bytes behind its length"),
    ("1 0 section 000000" + "00" * 4094, "a section has at most 4093 bytes behind its length"),
]
USAGES = ["8192 0 payload 00", "-1 0 payload 00", "0 16 payload 00", "0 0 packet 00", "0 0 payload", "0 payload 00"]


@pytest.mark.parametrize("words, packet", PACKETS)
def test_bytes(tool, words, packet):
    assert tool("packet", *words.split()) == (0, packet + "\n", "")
    assert len(packet) == 376


@pytest.mark.parametrize("syntax, count, packets", SECTIONS)
def test_section_is_read_back(tool, syntax, count, packets):
    body = bytes(place * 7 % 251 for place in range(count))
    digits = tool("packet", *f"16 15 section 42{syntax:02x}00 {body.hex()}".split()).out
    found, skipped, rest = second.cut(bytes.fromhex(digits))
    assert (len(found), skipped, rest) == (packets, 0, 0)
    assert [second.counter_of(one) for one in found] == [(15 + place) % 16 for place in range(packets)]
    [section] = second.sections(found, 16)
    assert section[3 : 3 + count] == body and len(section) == 3 + count + (4 if syntax else 0)
    assert not syntax or second.crc(section) == 0


@pytest.mark.parametrize("words, line", REFUSED)
def test_refused(tool, words, line):
    assert tool("packet", *words.split()) == (1, "", f"dvbemu packet: {line}\n")


@pytest.mark.parametrize("words", USAGES)
def test_usage(tool, words):
    assert tool("packet", *words.split())[:2] == (2, "")
