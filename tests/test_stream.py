"""Packets, sections and tables of dvbemu.stream: made and read as they were worked out by hand from ISO/IEC 13818-1, 2.4.3 and
2.4.4, and EN 300 468, 5.2, and cut out of made streams as by the oracle.

The CRC of the nine digits is that of the catalogues of checksums (CRC-32/MPEG-2)."""
import datetime
import random

import pytest
from dvbemu.stream import packets, sections, tables
from dvbemu.stream.tables import Descriptor, Part, Table
from oracle import fuzz, second

HEX = bytes.fromhex
PACKETS = [
    (packets.packet(256, 5, HEX("aabb")), "47010015aabb" + "ff" * 182),
    (packets.packet(0x1FFF, 17), "471fff11" + "ff" * 184),
    (packets.packet(17, 0, b"\0" + HEX("42"), True), "474011100042" + "ff" * 182),
    (packets.packet(256, 1, HEX("07"), False, packets.adaptation_field(1)), "470100310007" + "ff" * 182),
    (packets.packet(256, 1, b"", False, packets.adaptation_field(184, 300 * 0x1_2345_6789 + 0x101, 0x80)),
     "47010021" + "b790" + "91a2b3c4ff01" + "ff" * 176),
    (packets.full_packet(256, 1, HEX("000001e0"), True), "47410031" + "b300" + "ff" * 178 + "000001e0"),
]  # fmt: skip
# A section's making, and its bytes but for the CRC_32.
SECTIONS = [
    (sections.section(0x00, 0x1234, HEX("0101e100")), "00b00d1234c10000" + "0101e100", 4),
    (sections.section(0x42, 1, b"", 31, 2, 3, 0), "42f0090001fe0203", 4),
    (sections.short_section(0x70, HEX("ee31193015")), "707005ee31193015", 0),
    (sections.whole(HEX("80c000aabb")), "80c006aabb", 4),
    (sections.whole(HEX("803000aabb")), "803002aabb", 0),
]  # fmt: skip
TIME = datetime.datetime(2023, 2, 25, 19, 30, 15)  # the Modified Julian Date is 60000, 0xEA60
# Tables as records, and their sections by hand, but for the CRC_32; without a length that lies a table is read again as it was.
TABLES = [
    (Table(0x00, {"transport_stream_id": 0x1234, "version_number": 3}, [], [
        Part({"program_number": 0, "PID": 16}, []), Part({"program_number": 257, "PID": 0x1000}, [])]),
     "00b0111234c70000" + "0000e010" + "0101f000"),
    (Table(0x01, {}, [Descriptor(9, HEX("0500e123"))], []), "01b00fffffc10000" + "09040500e123"),
    (Table(0x02, {"program_number": 257, "PCR_PID": 256}, [Descriptor(0x0E, HEX("c00000"))], [
        Part({"stream_type": 0x1B, "PID": 256}, []), Part({"stream_type": 6, "PID": 258}, [Descriptor(0x6A, b"\0")])]),
     "02b01f0101c10000" + "e100f005" + "0e03c00000" + "1be100f000" + "06e102f003" + "6a0100"),
    (Table(0x40, {"network_id": 1, "section_number": 1, "last_section_number": 2}, [Descriptor(0x40, b"N")], [
        Part({"transport_stream_id": 2, "original_network_id": 3}, [Descriptor(0x41, HEX("010101"))])]),
     "40f01b0001c10102" + "f003" + "40014e" + "f00b" + "00020003f005" + "4103010101"),
    (Table(0x42, {"transport_stream_id": 2, "original_network_id": 3}, [], [
        Part({"service_id": 257, "EIT_present_following_flag": 1, "running_status": 4}, [Descriptor(0x48, HEX("010000"))])]),
     "42f0160002c10000" + "0003ff" + "0101fd8005" + "4803010000"),
    (Table(0x4E, {"service_id": 257, "transport_stream_id": 2, "original_network_id": 3, "segment_last_section_number": 1,
                  "last_table_id": 0x4E},
           [], [Part({"event_id": 7, "start_time": tables.moment(TIME), "duration": 0x013000, "free_CA_mode": 1}, [])]),
     "4ef01b0101c10000" + "00020003014e" + "0007" + "ea60193015" + "013000" + "1000"),
    (Table(0x70, {"UTC_time": tables.moment(TIME)}, [], []), "707005ea60193015"),
    (Table(0x73, {"UTC_time": tables.moment(TIME)}, [Descriptor(0x58, b"")], []), "73700dea60193015" + "f002" + "5800"),
]  # fmt: skip
# Lengths that lie: those of descriptors and of what is listed, which have 12 bits.
LIES = [
    (Table(0x02, {"PCR_PID": 1, "descriptors_length": 4095}, [], []), "02b00d0000c10000" + "e001ffff"),
    (Table(0x42, {}, [], [Part({"descriptors_length": 9}, [Descriptor(0x48, b"")])]), "42f0130000c10000" + "0000ff" + "0000fc0009"
     + "4800"),
    (Table(0x40, {"parts_length": 1}, [], []), "40f00d0000c10000" + "f000f001"),
]
SHORT, LONG = HEX("4230020102"), HEX("42303a") + bytes(58)


def behind_crc(section, of_crc=4):
    """A section without its CRC_32, which has to be right."""
    assert not of_crc or second.crc(section) == 0
    return section[: len(section) - of_crc].hex()


@pytest.mark.parametrize("made, wanted", PACKETS)
def test_packet(made, wanted):
    assert made.hex() == wanted


@pytest.mark.parametrize("made, wanted, of_crc", SECTIONS)
def test_section(made, wanted, of_crc):
    assert behind_crc(made, of_crc) == wanted


@pytest.mark.parametrize("table, wanted", TABLES)
def test_table(table, wanted):
    made = tables.made(table)
    assert behind_crc(made, 0 if table.table_id == 0x70 else 4) == wanted
    again = tables.read(made)
    assert again and tables.made(again) == made and again.descriptors == table.descriptors
    assert table.fields.items() <= again.fields.items()
    assert [one.descriptors for one in again.parts] == [one.descriptors for one in table.parts]
    assert all(one.fields.items() <= other.fields.items() for one, other in zip(table.parts, again.parts))


@pytest.mark.parametrize("table, wanted", LIES)
def test_lengths_that_lie(table, wanted):
    made = tables.made(table)
    assert behind_crc(made) == wanted and tables.read(made) is None


def test_crc():
    assert sections.crc(b"123456789") == 0x0376E6E7


@pytest.mark.parametrize("asked", [
    lambda: packets.packet(1, 0, bytes(185)), lambda: packets.packet(1, 0, bytes(184), False, b"\0"),
    lambda: packets.full_packet(1, 0, b""),
    lambda: sections.section(0x42, 0, bytes(4085)), lambda: sections.short_section(0x70, bytes(4094)),
])  # fmt: skip
def test_no_room(asked):
    with pytest.raises(ValueError):
        asked()


def test_times():
    assert tables.moment(TIME) == 0xEA60193015
    assert tables.moment_text(0xEA60193015) == "2023-02-25 19:30:15"
    assert tables.moment_text(0xFFFFFFFFFF) is None


def test_sections_and_their_packets():
    """A long section ends in the packet behind, two short ones stand in one packet, and what a break parts is none."""
    stream = [
        packets.packet(256, 0, b"\0" + SHORT * 30 + LONG[:33], True),
        packets.packet(256, 1, bytes([28]) + LONG[33:] + SHORT + SHORT, True),
        packets.packet(256, 2, b"\0" + LONG[:60].rjust(183, b"\xfe"), True), packets.packet(256, 4, LONG[60:]),
        packets.packet(256, 5, b"\0" + SHORT, True),
    ]  # fmt: skip
    found = list(sections.sections_of(stream))
    assert [one.data for one in found] == [SHORT] * 30 + [LONG, SHORT, SHORT, SHORT]
    assert [one.packets for one in found] == [[0]] * 30 + [[0, 1], [1], [1], [4]]


def test_packets_of_a_section():
    for size in (0, 1, 178, 179, 180, 4081):
        section = sections.section(0x42, 7, bytes(size))
        made = packets.section_packets(17, section, 15)
        assert [packets.counter_of(one) for one in made] == [(15 + place) % 16 for place in range(len(made))]
        assert [(one.data, one.packets) for one in sections.sections_of(made)] == [(section, list(range(len(made))))]


def stream_of(seed):
    """The stream of a made session."""
    rng = random.Random(seed)
    made = fuzz.Stream(rng, 16 * (seed % 2))
    for _ in range(120):
        made.add()
    return bytes(made.out), 188 + 16 * (seed % 2)


@pytest.mark.parametrize("seed", range(20))
def test_as_by_the_oracle(seed):
    """What is cut, what packets say, and the sections of each PID are as by the plain second program."""
    stream, size = stream_of(seed)
    found = packets.cut(stream, size)
    assert found == second.cut(stream, size)
    for one in found.packets:
        said = (packets.pid_of, packets.error_bit, packets.unit_start, packets.counter_of, packets.discontinuity,
                packets.payload_of, packets.pcr_of)
        asked = (second.pid_of, second.error_bit, second.unit_start, second.counter_of, second.discontinuity, second.payload_of,
                 second.clock_reference)
        assert [of(one) for of in said] == [of(one) for of in asked]
    for pid in set(map(second.pid_of, found.packets)):
        mine = [one for one in found.packets if second.pid_of(one) == pid]
        cut = list(sections.sections_of(mine))
        assert [one.data for one in cut] == second.sections(mine, pid)
        assert all(sections.is_intact(one.data) == (not one.data[1] & 0x80 or second.crc(one.data) == 0) for one in cut)
