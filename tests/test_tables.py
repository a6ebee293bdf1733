"""What `dvbemu explain` says of the tables in sections: of PAT, CAT, PMT, NIT, BAT, SDT, EIT, TDT and TOT in words that were
worked out by hand from ISO/IEC 13818-1, 2.4.4, and EN 300 468, of sections that are none of them, and of texts in each character
table.

Where tshark is installed, its dissection of the same sections must have the same numbers, names and times; where iconv knows
ISO_6937, its letters must be those of the default table.
"""
import os
import re
import subprocess

import pytest
from dvbemu.psi import descriptors, letters, tables
from dvbemu.psi.fields import TABLES
from dvbemu.stream.packets import packet
from dvbemu.stream.sections import section as section_of, with_crc
from dvbemu.stream.tables import Descriptor, made, moment_text, read


def section(table, extension, version, number, last, body):
    """A section."""
    return section_of(table, extension, body, version, number, last)


def descriptor(tag, data):
    """A descriptor."""
    return bytes([tag, len(data)]) + data


def loop(data, status=0xF000):
    """Descriptors behind their length of 12 bits, above which four others stand."""
    return (status | len(data)).to_bytes(2, "big") + data


def text(data):
    """A text behind its length."""
    return bytes([len(data)]) + data


HEX = bytes.fromhex
TERRESTRIAL = descriptor(0x5A, HEX("02d34d60 1f81 00 ffffffff"))
SATELLITE, CABLE = descriptor(0x43, HEX("01138000 0192 a1 02750003")), descriptor(0x44, HEX("03460000 fff2 03 00690002"))
TIME = HEX("ee31193015")  # 0xee31 is day 60977, 977 days behind 60000, which is 2023-02-25
# The PID of each section, the section, and what is said of it.
SAID = [
    (0, section(0x00, 0x1234, 3, 0, 0, HEX("0000e010 0101f000 0102f001")),
     "PAT of transport stream 4660, version 3: NIT on PID 16 (0x10, NIT); program 257 with its PMT on PID 4096 (0x1000); program "
     "258 with its PMT on PID 4097 (0x1001)"),
    (1, section(0x01, 0xFFFF, 1, 0, 0, descriptor(9, HEX("0500e123")) + descriptor(9, HEX("0b00e124"))),
     "CAT, version 1: CA system 0x0500 on PID 291 (0x123); CA system 0x0B00 on PID 292 (0x124)"),
    (4096,
     section(0x02, 257, 5, 0, 0, HEX("e100") + loop(descriptor(9, HEX("0500e200"))) + HEX("1be100") + loop(b"") + HEX("03e101")
             + loop(descriptor(10, b"deu\0")) + HEX("06e102") + loop(descriptor(0x6A, b"\0")) + HEX("06e103")
             + loop(descriptor(0x59, b"fra\x10\0\1\0\2")) + HEX("90e104") + loop(b"")),
     "PMT of program 257, version 5, PCR on PID 256 (0x100): CA system 0x0500 on PID 512 (0x200); H.264 video (stream_type 0x1B) "
     "on PID 256 (0x100); "
     "MPEG-1 audio (stream_type 0x03) on PID 257 (0x101), language deu; AC-3 audio (stream_type 0x06) on PID 258 (0x102); "
     "subtitles (stream_type 0x06) on PID 259 (0x103), subtitles fra; a stream (stream_type 0x90) on PID 260 (0x104)"),
    (16, section(0x40, 0x3001, 2, 0, 0, loop(descriptor(0x40, b"Netz")) + loop(
        HEX("12345678") + loop(TERRESTRIAL + descriptor(0x41, HEX("010101 010202"))) + HEX("22225678") + loop(SATELLITE)
        + HEX("33335678") + loop(CABLE))),
     "NIT actual of network 12289, version 2: 'Netz'; transport stream 4660 of the original network 22136, terrestrial 474.023 "
     "MHz, 8 MHz "
     "wide, services 257 (digital television), 258 (digital radio); transport stream 8738 of the original network 22136, "
     "satellite 19.2° E, "
     "11380 MHz V, 27500 kBd; transport stream 13107 of the original network 22136, cable 346 MHz, 64-QAM, 6900 kBd"),
    (17, section(0x42, 0x1234, 4, 1, 2,
                 HEX("5678ff 0101fc") + loop(descriptor(0x48, b"\x19" + text(b"ZDF") + text(b"Stra\xfbe \xc8uber")), 0x8000)
     + HEX("0102fc") + loop(descriptor(0x48, b"\x02" + text(b"") + text(b"\x05T\xfcrk \xfe")), 0x2000)),
     "SDT actual of transport stream 4660, version 4, section 1 of 0 to 2: service 257 'Straße über' of 'ZDF', H.264 HD "
     "television, running; service 258 'Türk ş', digital radio, not running"),
    (17,
     section(0x4A, 32, 1, 0, 0, loop(descriptor(0x47, b"Paket")) + loop(HEX("12345678") + loop(descriptor(0x41, HEX("010101"))))),
     "BAT of bouquet 32, version 1: 'Paket'; transport stream 4660 of the original network 22136, services 257 (digital "
     "television)"),
    (18, section(0x4E, 257, 6, 0, 1, HEX("12345678 014e 0007 ee31193000 013000")
     + loop(descriptor(0x4D, b"deu" + text(b"Tagesschau") + text(b"Nachrichten")), 0x8000)),
     "EIT p/f actual of service 257, version 6, the present event: event 7 from 2025-10-29 19:30:00 UTC for 01:30:00, running: "
     "'Tagesschau', 'Nachrichten'"),
    (18, section(0x4E, 257, 6, 1, 1, HEX("12345678 014e 0008 ee31210000 000500")
     + loop(descriptor(0x4D, b"deu" + text(b"\x15W\xc3\xb6rter") + text(b"")), 0x2000)),
     "EIT p/f actual of service 257, version 6, the following event: event 8 from 2025-10-29 21:00:00 UTC for 00:05:00, not "
     "running: 'Wörter'"),
    (18, section(0x4F, 513, 7, 1, 1, HEX("12345678 014f")), "EIT p/f other of service 513, version 7: no following event"),
    (18, section(0x60, 513, 7, 8, 16, HEX("12345678 1060")),
     "EIT schedule other of service 513, version 7, section 8 of 0 to 16: no event"),
    (20, HEX("707005") + TIME, "TDT: 2025-10-29 19:30:15 UTC"),
    (20, with_crc(HEX("73701a") + TIME + loop(descriptor(0x58, b"DEU" + HEX("02 0100 ee5c010000 0200")))),
     "TOT: local time DEU +01:00; 2025-10-29 19:30:15 UTC"),
]  # fmt: skip
PAT = SAID[0][1]
# Sections that are none of these tables: a wrong CRC, bytes too many or too few, no room for a program, a loop that goes on
# behind the end, a short section with another length, a PAT with section_syntax_indicator 0, and the bytes of a PES packet.
NONE = [
    PAT[:-1] + b"\0", PAT + b"\0", PAT[:-1], b"", b"\0", section(0x00, 1, 0, 0, 0, HEX("0000e010 01")),
    section(0x02, 1, 0, 0, 0, HEX("e100 f006 09")),
    section(0x42, 1, 0, 0, 0, HEX("5678ff 0101fc 8005 4803")), section(0x4E, 1, 0, 0, 0, b"\0"), HEX("707006") + TIME + b"\0",
    HEX("00300d1234c900000101f000be2ff0fa"),
    HEX("0001e0") + bytes(480), section(0x43, 1, 0, 0, 0, b""), section(0x40, 1, 0, 0, 0, HEX("f000 f005 12345678 f0")),
]  # fmt: skip
# Bytes of texts and their letters, by EN 300 468, annex A.
TEXTS = [
    (b"", ""), (b"plain", "plain"), (b"\xa45", "€5"), (b"\xc8a\xc2e\xcbc\xcfs\xcaA", "äéçšÅ"),
    (b"\x01\xbf\xe0\xd8\xd2\xd5\xe2", "Привет"),
    (b"\x10\0\x02\xa3\xf3d\xbc", "Łódź"), (b"\x10\0\x01\xe9", "é"), (b"\x11\x03\xa9\x20\xac", "Ω€"), (b"\x15\xe2\x82\xac", "€"),
    (b"\x05\xfe", "ş"), (b"\x0b\xa4", "€"), (b"a\x86b\x87c\x8ad", "abc d"), (b"\x01\x86\xbf\x87", "П"),
    (b"\x15a\xee\x82\x8ab\xee\x82\x86c", "a bc"),
    (b"\x1f\x01ab", "\ufffd" * 4), (b"\x08ab", "\ufffd" * 3), (b"\xa6", "\ufffd"),
]  # fmt: skip
# Descriptors, and what is said of them: a bandwidth of 5 MHz and a reserved one, one that is too short, and one without a name.
DESCRIBED = [
    (0x5A, HEX("02d34d60 7f81 00 ffffffff"), "terrestrial 474.023 MHz, 5 MHz wide"),
    (0x5A, HEX("02d34d60 9f81 00 ffffffff"), "terrestrial 474.023 MHz"),
    (0x5A, HEX("02d34d60"), "terrestrial_delivery_system, which is too short"),
    (0xC0, b"", "descriptor 0xC0"),
]


@pytest.mark.parametrize("pid, data, wanted", SAID, ids=[wanted.split(":")[0] for *_, wanted in SAID])
def test_said(pid, data, wanted):
    assert tables.text_of(data) == wanted


@pytest.mark.parametrize("data", NONE)
def test_no_table(data):
    assert tables.text_of(data) is None


@pytest.mark.parametrize("data", [data for _, data, _ in SAID], ids=[TABLES[data[0]] for _, data, _ in SAID])
def test_made_of_what_was_read(data):
    """A table is made into the section that it was read from, but for reserved bits."""
    table = read(data)
    assert read(made(table)) == table and len(made(table)) == len(data)


@pytest.mark.parametrize("tag, data, wanted", DESCRIBED)
def test_descriptor(tag, data, wanted):
    assert descriptors.texts_of([Descriptor(tag, data)]) == [wanted]


@pytest.mark.parametrize("data, wanted", TEXTS)
def test_letters(data, wanted):
    assert letters.text_of(data) == wanted


# ------ tshark


def stream():
    """The sections in packets, each PID's with its counter, three times."""
    packets, counters = [], {}
    for pid, data, _ in SAID * 3:
        counters[pid] = counters.get(pid, -1) + 1
        packets.append(packet(pid, counters[pid], b"\0" + data, True))
    return b"".join(packets)


@pytest.fixture(scope="module")
def dissected(tmp_path_factory):
    """What tshark prints of each section, by its first lines."""
    path = tmp_path_factory.mktemp("tshark") / "sections.ts"
    path.write_bytes(stream())
    try:
        ran = subprocess.run(["tshark", "-r", path, "-V"], capture_output=True, check=False,
                             env={**os.environ, "HOME": "/nonexistent"})
    except OSError:
        pytest.skip("tshark is missing (Debian: apt-get install tshark)")
    blocks = re.split(r"^(?=\S)", ran.stdout.decode("utf-8", "replace"), flags=re.M)
    return [block for block in blocks if re.match("(MPEG2|DVB) .* Table\n", block)]


def numbers(pattern, block):
    """The numbers in hexadecimal that a pattern finds."""
    return [int(found, 16) for found in re.findall(pattern, block)]


def parts_of(table, name):
    """A number of all that a table lists."""
    return [part.fields[name] for part in table.parts]


def times(block):
    """The times of a block, as tables has them."""
    months = "Jan Feb Mar Apr May Jun Jul Aug Sep Oct Nov Dec".split()
    found = re.findall(r"UTC (?:Start )?Time: (\w+) +(\d+), (\d+) ([\d:]+)", block)
    return [f"{year}-{months.index(month) + 1:02}-{int(day):02} {clock}" for month, day, year, clock in found]


# What a table has by name, and how tshark prints it.
PRINTED = {
    "version_number": r"Version Number: (0x\w+)", "program_number": r"Program Number: (0x\w+)", "PCR_PID": r"PCR PID: (0x\w+)",
    "transport_stream_id": r"Transport Stream ID: (0x\w+)", "original_network_id": r"Original Network ID: (0x\w+)",
    "service_id": r"Service ID: (0x\w+)", "network_id": r"(?<!Original )Network ID: (0x\w+)",
    "bouquet_id": r"Bouquet ID: (0x\w+)",
    "PID": r"(?:Program Map PID|Elementary PID): (0x\w+)", "stream_type": r"Stream type: .*\((0x\w+)\)",
    "event_id": r"Event ID: (0x\w+)", "running_status": r"Running Status: .*\((0x\w+)\)",
}  # fmt: skip


def test_tshark_has_all_sections(dissected):
    assert len(dissected) == 3 * len(SAID)


def both(table, block):
    """What a table has, by name, and what tshark has in its block of as many."""
    own, found = {}, {}
    for name, pattern in PRINTED.items():
        own[name] = [table.fields[name]] if name in table.fields else []
        own[name] += parts_of(table, name) if table.parts and name in table.parts[0].fields else []
        found[name] = numbers(pattern, block)[: len(own[name])]
    if "UTC_time" in table.fields:
        starts = [table.fields["UTC_time"]]
    else:
        starts = parts_of(table, "start_time") if table.table_id in range(0x4E, 0x70) else []
    own["times"] = list(map(moment_text, starts))
    found["times"] = times(block)
    found["durations"] = re.findall(r"Duration: 0x(\w+)", block)
    own["durations"] = [f"{length:06x}" for length in parts_of(table, "duration")] if found["durations"] else []
    return own, found


@pytest.mark.parametrize("place", range(len(SAID)))
def test_section_by_tshark(dissected, place):
    data, block = SAID[place][1], dissected[place]
    own, found = both(read(data), block)
    assert own == found
    names = re.findall(r"(?:Network|Bouquet|Service|Provider|Event) (?:Name|Text): (.+)", block)
    said = tables.text_of(data)
    assert [name for name in names if "\ufffd" not in name and f"'{name}'" not in said] == [], said


# ------ iconv

# The default table, but for 0xA4, which is EN 300 468's sign of the euro, and 0xE2, whose letter stands for two; and letters with
# each accent.
LETTERS = {"alone": [bytes([byte]) for byte in letters.DEFAULT if byte not in (0xA4, 0xE2)]}
LETTERS["accented"] = [bytes([accent, letter]) for accent in letters.ACCENTS for letter in b"aceinosuzAEGLNOSUZ"]


@pytest.fixture(scope="module")
def by_iconv():
    """What iconv makes of bytes of ISO_6937: nothing, where it knows none."""
    given = [b"a", *(data for group in LETTERS.values() for data in group)]
    try:
        ran = subprocess.run(["iconv", "-c", "-f", "ISO_6937", "-t", "UTF-8"], input=b"\n".join(given), capture_output=True,
                             check=False)
    except OSError:
        pytest.skip("iconv is missing")
    found = ran.stdout.decode().split("\n")
    if found[0] != "a":
        pytest.skip("iconv doesn't know ISO_6937")
    assert len(found) == len(given)
    return dict(zip(given, found))


@pytest.mark.parametrize("group", LETTERS)
def test_letters_by_iconv(by_iconv, group):
    known = {data: by_iconv[data] for data in LETTERS[group] if by_iconv[data]}
    assert known
    # (a space that can't be broken is told as a space)
    assert {data: letters.text_of(data) for data in known} == {data: found.replace("\u00a0", " ") for data,
                                                               found in known.items()}
