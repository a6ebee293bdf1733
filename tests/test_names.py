"""The names that `dvbemu explain` gives to what stands in filters, sections and payloads, and its words --node and --client.

What is expected was worked out by hand from ISO/IEC 13818-1, 2.4.4.11 and 2.4.3.7: filter place 0 stands against section byte 0
and place i against byte i + 2; byte 5 has version_number in the bits 3e and current_next_indicator in the bit 01, the bytes 3 and
4 are table_id_extension, 6 is section_number and 7 last_section_number.
"""
import pytest
from conftest import EXAMPLES
from dvbemu import reports
from dvbemu.psi import fields
from dvbemu.stream.packets import packet

FILTERS = [
    ("0=00/ff/00", "table_id 0x00 (PAT)"),
    ("0=43/ff/00", "table_id 0x43"),
    ("0=40/c0/00", "table_id & 0xC0 is 0x40"),
    ("0=42/ff/ff", "table_id isn't 0x42 (SDT actual)"),
    ("0=02/ff/00 3=06/3e/3e", "table_id 0x02 (PMT), version_number isn't 3"),
    ("3=06/3e/00", "version_number 3"),
    ("3=c7/3e/00", "version_number 3"),
    ("3=01/01/00", "current_next_indicator 1"),
    ("3=0a/3f/3e", "current_next_indicator 0, version_number isn't 5"),
    ("3=06/3e/06", "version_number & 0x1C is 0x00, version_number & 0x03 isn't 0x03"),
    ("3=c0/c0/00", "section byte 5 & 0xC0 is 0xC0"),
    ("1=12/ff/00 2=34/ff/00", "table_id_extension 4660"),
    ("1=12/ff/00", "table_id_extension & 0xFF00 is 0x1200"),
    ("2=34/0f/00", "table_id_extension & 0x000F is 0x0004"),
    ("4=02/ff/00 5=07/ff/00", "section_number 2, last_section_number 7"),
    ("3=06/3e/3e 4=01/ff/ff", "version_number isn't 3 or section_number isn't 1"),
    ("6=1f/ff/00 15=80/80/00", "section byte 8 is 0x1F, section byte 17 & 0x80 is 0x80"),
    ("0=70/ff/00 1=c0/ff/00", "table_id 0x70 (TDT), section byte 3 is 0xC0"),
    ("0=ff/00/00 3=ff/00/ff", ""),
]
SECTIONS = [
    ("02b017", "table_id 0x02"),
    ("02b0170101", "table_id 0x02, table_id_extension 257"),
    (
        "02b0170101c70102",
        "table_id 0x02, table_id_extension 257, version_number 3, current_next_indicator 1, section_number 1, "
        "last_section_number 2",
    ),
    (
        "4ff0170101fe00ff",
        "table_id 0x4F, table_id_extension 257, version_number 31, current_next_indicator 0, section_number 0, "
        "last_section_number 255",
    ),
    ("707005c0ffee112233", "table_id 0x70"),
    ("43", "table_id 0x43"),
]
STREAMS = [
    ("000001e0000080", [0xE0]),
    ("000001b300000101000001bc", [0xBC]),
    ("ff00000001c0ff000001bd", [0xC0, 0xBD]),
    ("0000010000", []),
]


def section(counter, version, extension=7):
    """A packet of PID 256 with a section of 12 bytes of table_id 0x02, this table_id_extension and this version_number."""
    return packet(256, counter, bytes.fromhex("0002b00900") + bytes([extension, 0xC1 | version << 1]) + bytes(6), True)


PES = bytes.fromhex("000001e0000080")
# A script, its stream, words of the command line, and what must stand in the page and mustn't; spaces count once.
PAGES = [
    (
        "c0 open n0|c0 section n0 256 0 4 0=02/ff/00 3=06/3e/3e|feed 3|c0 read n0 99|c0 read n0 5|c0 read n0 99",
        section(0, 3) + section(1, 4) + section(2, 5),
        [],
        [
            "sets a section filter on n0 (PID 256 (0x100), table_id 0x02 (PMT), version_number isn't 3, no timeout",
            "line 4: reads at most 99 bytes from n0: Data of 12 bytes, a section: table_id 0x02, table_id_extension 7, "
            "version_number 4, current_next_indicator 1, section_number 0, last_section_number 0.",
            "line 5: reads at most 5 bytes from n0: Data of 5 bytes, a part of a section: table_id 0x02, "
            "table_id_extension 7.",
            "line 6: reads at most 99 bytes from n0: Data of 7 bytes, the end of a section.",
            "2 sections read to the end: table_id 0x02, table_id_extension 7, version_number 4 and 5,",
        ],
        ["version_number 3,"],
    ),
    (
        "c0 open n0|c0 pes n0 18 frontend tap 20 4|c0 open n1|feed 2|c0 read n0 2|c0 read n0 999|c1 open n1",
        packet(18, 0, PES, True) + packet(18, 1, PES, True),
        [],
        ["PID 18 (0x12, EIT): 2 packets", "sets a PES filter on n0 (PID 18 (0x12, EIT), output TAP",
         "Data of 366 bytes, in which the stream_id of 2 PES packets stands: 0xE0 (video stream 0).",
         "payloads, with 2 PES packets of stream_id 0xE0 (video stream 0)."],
        [],
    ),
    (
        "c0 open n0|c0 section n0 256 0 4|c0 drain n0 4096",
        b"".join(section(counter, counter % 2, 40 + counter) for counter in range(7)),
        [],
        [
            "7 sections read to the end: table_id 0x02, table_id_extension 40, 41, 42, 43, 44 and 2 more up to 46, "
            "version_number 0 and 1, current_next_indicator 1, section_number 0, last_section_number 0.",
        ],
        [],
    ),
    ("c0 open n0|c0 open n1|c0 read n1 9|c1 open n1", b"", ["--node", "n1"],
     ["Client 0", "line 2: opens n1", "n1 without a filter", "Client 1", "line 3, n1: a read gives no bytes"],
     ["The stream", "line 1:"]),
    ("c0 open n0|c0 open n1|c0 read n1 9|c1 open n1", b"", ["--client", "c1"],
     ["Client 1", "line 4: opens n1: Busy, client 0 is its owner.", "No hints."],
     ["The stream", "Client 0", "line 3"]),
    ("c0 open n0|c0 open n1|c1 open n1", b"", ["--node", "1", "--client", "0"], ["Client 0", "line 2: opens n1: Done."],
     ["Client 1", "line 1:"]),
]
# Words that are refused, for programs/two-clients.report, and what is told.
REFUSED = [
    (["--node", "n3"], "dvbemu explain: no client called n3\n", 1),
    (["--client", "2"], "dvbemu explain: the report has no client 2\n", 1),
    (["--node", "n32"], "dvbemu explain: error: argument --node: expected n0 to n31 or dvr, got 'n32'\n", 2),
    (["--client", "c8"], "dvbemu explain: error: argument --client: expected c0 to c7, got 'c8'\n", 2),
]


@pytest.mark.parametrize("words, wanted", FILTERS)
def test_filter(words, wanted):
    assert ", ".join(fields.filter_texts(reports.filter_bytes(words.split(" ")))) == wanted


@pytest.mark.parametrize("digits, wanted", SECTIONS)
def test_section_head(digits, wanted):
    assert fields.head_text(fields.head_of(bytes.fromhex(digits))) == wanted


@pytest.mark.parametrize("digits, wanted", STREAMS)
def test_stream_ids(digits, wanted):
    assert fields.streams_in(bytes.fromhex(digits)) == wanted


@pytest.mark.parametrize("script, stream, words, there, absent", PAGES)
def test_page(tool, report_of, script, stream, words, there, absent):
    page = " ".join(tool("explain", *words, stdin=report_of(script, stream)).out.split())
    assert [text for text in there if text not in page] == []
    assert [text for text in absent if text in page] == []


@pytest.mark.parametrize("words, told, status", REFUSED)
def test_refused(tool, words, told, status):
    ran = tool("explain", *words, str(EXAMPLES / "programs" / "two-clients.report"))
    assert (ran.status, ran.out) == (status, "") and ran.err.endswith(told)
