"""`dvbemu words`, both ways against what `dvbemu calls` writes: a line with names is written as the command that the structure of
linux/dvb/dmx.h with these values is, and what is plain, as each script of examples/, is written as it stands.

Filters with names are held against the plain second program's matching, over each value that a field has. Words that can't be
read are told with line and word."""
import struct

import pytest
import test_calls
from conftest import EXAMPLES
from dvbemu import naming
from dvbemu.commands import calls
from oracle import second

SET_FILTER, SET_PES, SET_SIZE, ADD_PID, REMOVE_PID, START = 0x403C6F2B, 0x40146F2C, 0x6F2D, 0x40026F33, 0x40026F34, 0x6F29


def section(pid, timeout, flags, **rows):
    """A struct dmx_sct_filter_params. The rows are the bytes filter, mask and mode from the first on."""
    bytes_in = (bytes.fromhex(rows.get(row, "")).ljust(16, b"\0") for row in ("filter", "mask", "mode"))
    return struct.pack("<H16s16s16s2xII", pid, *bytes_in, timeout, flags)


def pes(pid, source, output, kind, flags):
    """A struct dmx_pes_filter_params, by the header's numbers."""
    return struct.pack("<H2x4I", pid, source, output, kind, flags)


# A line behind its target, and the request and its argument that a program in C would make for it, with the numbers of
# linux/dvb/dmx.h: DMX_CHECK_CRC 1, DMX_ONESHOT 2, DMX_IMMEDIATE_START 4; DMX_IN_FRONTEND 0; DMX_OUT_DECODER 0 to
# DMX_OUT_TSDEMUX_TAP 3; DMX_PES_OTHER 20.
NAMED = [
    ("section {} 0x1000 0 5 0=0x02/0xFF/0x00", SET_FILTER, section(4096, 0, 5, filter="02", mask="ff")),
    ("section {} 0 500 CHECK_CRC+IMMEDIATE_START table_id=0x00", SET_FILTER, section(0, 500, 5, mask="ff")),
    ("section {} 17 0 DMX_CHECK_CRC|DMX_ONESHOT|4 table_id=66", SET_FILTER, section(17, 0, 7, filter="42", mask="ff")),
    ("section {} 0 0 oneshot version_number!=3", SET_FILTER,
     section(0, 0, 2, filter="00000006", mask="0000003e", mode="0000003e")),
    ("section {} 0 0 KEEP version_number=3 current_next_indicator=1", SET_FILTER,
     section(0, 0, 256, filter="00000007", mask="0000003f")),
    ("section {} 18 0 0 table_id=0x50/0xf0 service_id=0x0102", SET_FILTER, section(18, 0, 0, filter="500102", mask="f0ffff")),
    ("section {} 18 0 0 section_number=2 last_section_number=3", SET_FILTER,
     section(18, 0, 0, filter="000000000203", mask="00000000ffff")),
    ("section {} 16 0 0 network_id!=12289", SET_FILTER, section(16, 0, 0, filter="003001", mask="00ffff", mode="00ffff")),
    ("pes {} 0x100 frontend tsdemux_tap OTHER 0", SET_PES, pes(256, 0, 3, 20, 0)),
    ("pes {} 256 DMX_IN_DVR DMX_OUT_TAP DMX_PES_VIDEO1 IMMEDIATE_START", SET_PES, pes(256, 1, 1, 6, 4)),
    ("pes {} 8192 dvr OUT_TS_TAP PCR 4+KEEP", SET_PES, pes(8192, 1, 2, 4, 260)),
    ("pes {} 257 frontend DECODER audio0 0", SET_PES, pes(257, 0, 0, 0, 0)),
    ("size {} 0x10000", SET_SIZE, struct.pack("<I", 65536)),
    ("add {} 0x101", ADD_PID, struct.pack("<H", 257)),
    ("remove {} 0x101", REMOVE_PID, struct.pack("<H", 257)),
    ("start {}", START, b""),
]
# Ways to write the same node, and lines that are written anew.
NODES = {"n1": "n1", "demux1": "n1", "/dev/dvb/adapter0/demux1": "n1", "H31": "h31", "dvr0": "dvr",
         "/dev/dvb/adapter0/dvr0": "dvr"}
LINES = [
    ("c0\topen  demux0 \r", "c0 open n0"), ("C0 Open N0 # the first", "c0 open n0"), ("# 0x10 as it is", "# 0x10 as it is"),
    ("", ""),
    ("   # alone", "# alone"), ("feed 0x64", "feed 100"), ("TICK 10", "tick 10"),
    ("c0 ioctl n0 0x6F29 -", "c0 ioctl n0 00006f29 -"),
    ("c0 write dvr0 0x47AA", "c0 write dvr 47aa"), ("c0 strat n0", "c0 strat n0"), ("c9 read n0 0x10", "c9 read n0 16"),
    ("c0 read n0 1 2", "c0 read n0 1 2"), ("c0 section n0 0", "c0 section n0 0"),
]  # fmt: skip
FAULTS = [
    ("c0 add n0 0x1g", "number", "word 4 is '0x1g'; expected PID, 0 to 65535, as 4096 or 0x1000"),
    ("c0 add n0 0x10000", "number", "word 4 is '0x10000'; expected PID"),
    ("c0 open demux32", "target", "word 3 is 'demux32'; expected n0 to n31"),
    ("c0 section n0 0 0 CHECK_CR", "number", "word 6 is 'CHECK_CR'; expected FLAGS"),
    ("c0 section n0 0 0 5 version!=3", "bytes", "word 7 is 'version!=3'; expected I=FF/MM/DD"),
    ("c0 section n0 0 0 5 table_id=0x100", "bytes", "word 7 is 'table_id=0x100'; expected table_id= and a number from 0 to 255"),
    ("c0 section n0 0 0 5 table_id=0 0=00/01/00", "bytes", "word 8 is '0=00/01/00'; expected bits of byte 0"),
    ("c0 section n0 0 0 5 version_number!=3 section_number!=0", "bytes", "word 8 is 'section_number!=0'; expected one `!=`"),
    ("c0 pes n0 256 front tap OTHER 0", "name", "word 5 is 'front'; expected INPUT: frontend, dvr"),
    ("c0 pes n0 256 frontend tap VIDEO4 0", "number", "word 7 is 'VIDEO4'; expected TYPE"),
    ("feed many", "number", "word 2 is 'many'; expected N"),
]
# For each field the bits of a section of 14 bytes that it has: the first bit from the left, and how many.
BITS = {"table_id": (0, 8), "table_id_extension": (24, 16), "version_number": (42, 5), "current_next_indicator": (47, 1),
        "section_number": (48, 8), "last_section_number": (56, 8)}  # fmt: skip

VALUES = [(field, sign, value) for field, (_, width) in BITS.items() for value in (0, 1, 2**width - 1, 2**width // 3)
          for sign in ("=", "!=")]
SESSIONS = sorted(EXAMPLES.glob("*/*.session"))


@pytest.mark.parametrize("named, target", NODES.items())
@pytest.mark.parametrize("line, number, argument", NAMED)
def test_names(line, number, argument, named, target):
    assert naming.plain_line(f"c0 {line.format(named)}") == calls.line_of(target, number, argument)


@pytest.mark.parametrize("line, wanted", LINES)
def test_lines(line, wanted):
    assert naming.plain_line(line) == wanted


@pytest.mark.parametrize("path", SESSIONS, ids=[f"{path.parent.name}/{path.stem}" for path in SESSIONS])
def test_plain(path):
    session = path.read_bytes()
    script = session[: session.find(b"\nstream\n") + 1]
    assert naming.plain_script(script) == script


@pytest.mark.parametrize("written", ["PLAIN", "wanted"])
def test_plain_of_calls(written):
    """What `calls` writes of a program, plain and with numbers and bytes."""
    script = getattr(test_calls, written)
    script = (script if written == "PLAIN" else script()).encode().removesuffix(b"stream\n")
    assert script.count(b"\n") > 20 and naming.plain_script(script) == script


def test_a_session(files_room):
    session = files_room.read("session")
    assert files_room.run("words", session) == (0, session, "")


@pytest.mark.parametrize("field, sign, value", VALUES)
def test_filters(field, sign, value):
    """A filter with a name takes just the sections whose field has this value, or another one for !=."""
    first, width = BITS[field]
    places = {}
    for word in naming.plain_filter([f"{field}{sign}{value}"]):
        place, _, rest = word.partition("=")
        places[int(place)] = tuple(int(part, 16) for part in rest.split("/"))
    mask = (2**width - 1) << (112 - first - width)
    for other in {0, 1, value, value ^ 1, 2**width - 1}:
        for ground in 0, 2**112 - 1:
            bits = ground & ~mask | (other << (112 - first - width))
            assert second.matches(places, bits.to_bytes(14, "big")) == ((other == value) == (sign == "="))


@pytest.mark.parametrize("line, kind, told", FAULTS)
def test_faults(room, line, kind, told):
    status, out, text = room.call("words", f"c0 open n0\n{line}\nstream\n".encode())
    first, more = (text.split("\n") + [""])[:2]
    assert (status, out, first) == (3, b"", f"dvbemu words: script line 2: {kind}") and more.startswith("  " + told)


def test_a_mark_and_a_stream(room):
    behind = b"Stream\r\nG\t\r\nSTREAM\n\xff"
    found = room.call("words", b"\xef\xbb\xbfc0 open demux0\r\n\r\n" + behind)
    assert found == (0, b"c0 open n0\n\nstream\n" + behind[8:], "")
