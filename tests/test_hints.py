"""The hints of `dvbemu explain`: sessions that must give just the hints named here, and sessions that come near and mustn't.

The reports are those of the plain second program. Each rule that a hint quotes must stand in docs/BEHAVIOUR.md.
"""
import io
import random
import re

import pytest
from conftest import EXAMPLES, ROOT
from dvbemu import reports
from dvbemu.explain import hints, told
from dvbemu.explain.sentences import lost_text, many, reply_text, wrapped
from dvbemu.explain.story import Story
from dvbemu.stream.packets import packet
from oracle import second
from packets import PES, PMT, PMTS, WRONG, session_of


def section(counter):
    """A packet of PID 256 with one section of 8 bytes."""
    return packet(256, counter, bytes.fromhex("004200050102030405"), True)


PLAIN = b"".join(packet(256, counter) for counter in range(50))
# Packets with a payload of one byte, behind an adaptation field.
SINGLE = b"".join(bytes([0x47, 1, 0, 0x30 | counter, 182, 0]).ljust(188, b"\xff") for counter in range(2))
SECTIONS = b"".join(map(section, range(4)))
BREAK = section(0) + section(5)
DUPLICATE = section(0) + section(0) + section(1)
BREAKS = b"".join(map(section, (0, 5, 10, 0)))
TAP, WHOLE, PLAYED = "frontend ts_tap 20", "frontend tsdemux_tap 20", "dvr tsdemux_tap 20"
# A PMT of program 1 with MPEG-2 video on PID 256 (its CRC_32 by zlib too).
PROGRAM = bytes.fromhex("02b0120001c10000e100f00002e100f0009e8b23d1")

# Every other packet has a section.
MIXED = b"".join(section(counter % 16) + packet(300, counter % 16) for counter in range(24))

# What is tried, the script's lines, the stream, and the hints: kind, client, node, lines.
SESSIONS = [
    ("a read after a set call", "c0 open n0|c0 section n0 256 0 0|c0 read n0 9|c0 start n0", SECTIONS,
     [("no capture", 0, 0, [3])]),
    ("a read of nothing", "c0 open n0|c0 section n0 256 0 0|c0 read n0 0|c0 start n0", SECTIONS, []),
    ("a read behind a Start", "c0 open n0|c0 section n0 256 0 0|c0 start n0|feed 1|c0 read n0 9", SECTIONS, []),
    ("reads before the first packet", "c0 open n0|c0 section n0 256 0 0|c0 start n0|c0 read n0 9|c0 poll n0|c0 read n0 9",
     SECTIONS, [("no feed", 0, 0, [4, 6])]),
    ("a read before the first packet and one behind it", "c0 open n0|c0 section n0 256 0 4|c0 read n0 9|feed 1|c0 read n0 9",
     SECTIONS, []),
    ("reads before the first packet of `run`", "tick 7|c0 open n0|c0 section n0 256 0 4|c0 read n0 9", SECTIONS, []),
    ("polls alone before the first packet", "c0 open n0|c0 section n0 256 0 4|c0 poll n0", SECTIONS, []),
    ("a wait before the first packet", "c0 open n0|c0 section n0 256 0 4|c0 readw n0 9", SECTIONS, []),
    ("another table_id", "c0 open n0|c0 section n0 256 0 4 0=43/ff/00|feed 4|c0 read n0 9", SECTIONS,
     [("selects nothing", 0, 0, [2])]),
    ("the table_id of the sections", "c0 open n0|c0 section n0 256 0 4 0=42/ff/00|feed 4|c0 read n0 9", SECTIONS, []),
    ("another table_id, and nobody looks", "c0 open n0|c0 section n0 256 0 4 0=43/ff/00", SECTIONS, []),
    ("another table_id, told by a close", "c0 open n0|c0 section n0 256 0 4 0=43/ff/00|feed 4|c0 close n0", SECTIONS,
     [("selects nothing", 0, 0, [2])]),
    ("a mask on the byte before", "c0 open n0|c0 section n0 256 0 4 1=02/ff/00|feed 4|c0 read n0 9", PMTS,
     [("selects nothing", 0, 0, [2])]),
    ("a mask on the byte", "c0 open n0|c0 section n0 256 0 4 2=02/ff/00|feed 4|c0 read n0 99", PMTS, []),
    ("a byte two places off", "c0 open n0|c0 section n0 256 0 4 5=c1/ff/00|feed 4|c0 read n0 9", PMTS,
     [("selects nothing", 0, 0, [2])]),
    ("the byte at its place", "c0 open n0|c0 section n0 256 0 4 3=c1/ff/00|feed 4|c0 read n0 99", PMTS, []),
    ("a wrong CRC", "c0 open n0|c0 section n0 256 0 5|feed 4|c0 read n0 9", WRONG, [("selects nothing", 0, 0, [2])]),
    ("a wrong CRC without flag 1", "c0 open n0|c0 section n0 256 0 4|feed 4|c0 read n0 99", WRONG, []),
    ("a right CRC", "c0 open n0|c0 section n0 256 0 5|feed 4|c0 read n0 99", PMTS, []),
    ("fewer packets than may lie outside", "feed 2|c0 open n0|c0 section n0 256 0 4 0=43/ff/00|feed 2|c0 read n0 9",
     SECTIONS[:376] + packet(300, 0) + packet(300, 1), []),
    ("a section filter on PES packets", "c0 open n0|c0 section n0 256 0 4|feed 4|c0 read n0 4096", PES,
     [("packets as sections", 0, 0, [4])]),
    ("a PES filter on PES packets", "c0 open n0|c0 pes n0 256 frontend tap 20 4|feed 4|c0 read n0 4096", PES, []),
    ("nobody writes", f"c0 open dvr|c0 open n0|c0 pes n0 256 {PLAYED} 4|c0 read n0 9", b"", [("nothing written", 0, 0, [3])]),
    ("somebody writes", f"c0 open dvr|c0 open n0|c0 pes n0 256 {PLAYED} 4|c0 write dvr {PLAIN[:188].hex()}|c0 read n0 188", b"",
     []),
    ("somebody writes another PID",
     f"c0 open dvr|c0 open n0|c0 pes n0 257 {PLAYED} 4|c0 write dvr {PLAIN[:188].hex()}|c0 read n0 188", b"",
     [("nothing written", 0, 0, [3])]),
    ("a read without a filter", "c0 open n0|c0 read n0 9|c0 read n0 9", SECTIONS, [("no capture", 0, 0, [2, 3])]),
    ("never started", "c0 open n0|c0 pes n0 256 frontend tap 20 0|feed 2", PLAIN, [("never started", 0, 0, [2])]),
    ("started at once", "c0 open n0|c0 pes n0 256 frontend tap 20 4|feed 2", PLAIN, []),
    ("replaced before a Start", "c0 open n0|c0 section n0 256 0 0|c0 section n0 256 0 0|c0 start n0", SECTIONS,
     [("never started", 0, 0, [2])]),
    ("timed out, told by a read", "c0 open n0|c0 section n0 256 5 4|tick 5|c0 read n0 9", SECTIONS, [("timed out", 0, 0, [4])]),
    ("timed out, told by a poll", "c0 open n0|c0 section n0 256 5 4|tick 5|c0 poll n0", SECTIONS, [("timed out", 0, 0, [4])]),
    ("timed out, told by a poll and then a read", "c0 open n0|c0 section n0 256 5 4|tick 5|c0 poll n0|c0 read n0 9", SECTIONS,
     [("timed out", 0, 0, [5])]),
    ("a section in time", "c0 open n0|c0 section n0 256 5 4|feed 1|tick 5|c0 read n0 9", SECTIONS, []),
    ("another table_id and a timeout", "c0 open n0|c0 section n0 256 5 4 0=43/ff/00|feed 4|tick 5|c0 read n0 9", SECTIONS,
     [("timed out", 0, 0, [5]), ("selects nothing", 0, 0, [2])]),
    ("timed out, no packets", "c0 open n0|c0 section n0 300 5 4|tick 5|c0 read n0 9", SECTIONS, [("no packet", 0, 0, [2])]),
    ("an item above the buffer", f"c0 open n0|c0 size n0 188|c0 pes n0 256 {WHOLE} 4|feed 1|c0 read n0 9", PLAIN,
     [("larger", 0, 0, [5])]),
    ("an item that fits once", f"c0 open n0|c0 size n0 189|c0 pes n0 256 {WHOLE} 4|feed 2|c0 read n0 9", PLAIN,
     [("overflow", 0, 0, [5])]),
    ("the first size", f"c0 open n0|c0 pes n0 256 {WHOLE} 4|feed 44|c0 read n0 9", PLAIN, [("first size", 0, 0, [4])]),
    ("the first size of the dvr node", f"c0 open dvr|c0 open n0|c0 pes n0 256 {TAP} 4|feed 10240|c0 read dvr 9",
     PLAIN[: 48 * 188] * 214, [("first size", 0, 32, [5])]),
    ("another size", f"c0 open n0|c0 size n0 8000|c0 pes n0 256 {WHOLE} 4|feed 44|c0 read n0 9", PLAIN,
     [("overflow", 0, 0, [5])]),
    ("another size that is enough", f"c0 open n0|c0 size n0 8273|c0 pes n0 256 {WHOLE} 4|feed 44|c0 read n0 9", PLAIN, []),
    ("up to the first size", f"c0 open n0|c0 pes n0 256 {WHOLE} 4|feed 43|c0 read n0 9", PLAIN, []),
    ("a break of sections", "c0 open n0|c0 section n0 256 0 4|feed 9", BREAK, [("break of sections", 0, 0, [2])]),
    ("a break of packets", f"c0 open n0|c0 pes n0 256 {WHOLE} 4|feed 9", BREAK, [("break of packets", 0, 0, [2])]),
    ("a break of all", f"c0 open n0|c0 pes n0 8192 {WHOLE} 4|feed 9", BREAK, [("break of packets", 0, 0, [2])]),
    ("a break elsewhere", f"c0 open n0|c0 pes n0 300 {WHOLE} 4|feed 9", BREAK + packet(300, 0), []),
    ("a duplicate of sections", "c0 open n0|c0 section n0 256 0 4", DUPLICATE, [("duplicate of sections", 0, 0, [2])]),
    ("a duplicate of an added PID", f"c0 open n0|c0 pes n0 300 {WHOLE} 0|c0 add n0 256|c0 start n0", DUPLICATE + packet(300, 0),
     [("duplicate of packets", 0, 0, [2])]),
    ("unread at a Start", "c0 open n0|c0 section n0 256 0 4|feed 1|c0 start n0", SECTIONS, [("dropped", 0, 0, [4])]),
    ("unread at a set call", f"c0 open n0|c0 section n0 256 0 4|feed 1|c0 pes n0 256 {WHOLE} 4", SECTIONS,
     [("dropped", 0, 0, [4])]),
    ("read before a Start", "c0 open n0|c0 section n0 256 0 4|feed 1|c0 read n0 9|c0 start n0", SECTIONS, []),
    ("unread at a Close", "c0 open n0|c0 section n0 256 0 4|feed 1|c0 close n0", SECTIONS, []),
    ("Busy and goes on", "c0 open n0|c1 open n0|c1 read n0 9|c1 poll n0", SECTIONS, [("busy", 1, 0, [3, 4])]),
    ("Busy and comes again", "c0 open n0|c1 open n0|c0 close n0|c1 open n0|c1 poll n0", SECTIONS, []),
    ("Busy and later closed", "c0 open n0|c1 open n0|c0 close n0|c1 open n0|c1 close n0|c1 poll n0", SECTIONS, []),
    ("Busy by itself", "c0 open n0|c0 open n0|c0 close n0|c0 poll n0", SECTIONS, []),
    ("EBADF without Busy", "c0 open n0|c1 poll n0", SECTIONS, []),
    ("a tap and no dvr", f"c0 open n0|c0 pes n0 256 {TAP} 4|feed 2|c0 open dvr", PLAIN, [("free tap", 0, 32, [2])]),
    ("a tap and dvr in time", f"c0 open n0|c0 pes n0 256 {TAP} 4|c0 open dvr|feed 2", PLAIN, []),
    ("a tap and dvr before", f"c0 open dvr|c0 open n0|c0 pes n0 256 {TAP} 4|feed 2|c0 close dvr|feed 2", PLAIN, []),
    ("a read of the tapped node", f"c0 open dvr|c0 open n0|c0 pes n0 256 {TAP} 4|feed 2|c0 read n0 9|c0 read dvr 9", PLAIN,
     [("read of ts_tap", 0, 0, [5])]),
    ("a part", "c0 open n0|c0 section n0 256 0 4|feed 1|c0 read n0 3|c0 read n0 9", SECTIONS, [("part", 0, 0, [4])]),
    ("all but a byte", "c0 open n0|c0 section n0 256 0 4|feed 1|c0 read n0 7", SECTIONS, [("part", 0, 0, [4])]),
    ("parts of one byte", "c0 open n0|c0 section n0 256 0 4|feed 1|c0 read n0 1|c0 read n0 1", SECTIONS,
     [("part", 0, 0, [4, 5])]),
    ("a whole section", "c0 open n0|c0 section n0 256 0 4|feed 1|c0 read n0 8", SECTIONS, []),
    ("a slot without a node", "c0 open h0|c0 read h1 9", SECTIONS, [("unbound", 0, None, [2])]),
    ("set behind End", "feed 5|c0 open n0|c0 section n0 256 0 4", SECTIONS, [("late", 0, 0, [3])]),
    ("started twice behind End", "c0 open n0|c0 section n0 256 0 0|feed 5|c0 start n0|c0 start n0", SECTIONS,
     [("late", 0, 0, [4, 5])]),
    ("set before End", "c0 open n0|c0 section n0 256 0 4|feed 5|c0 read n0 9", SECTIONS, []),
    ("behind the last packet, before End", "feed 4|c0 open n0|c0 section n0 256 0 4", SECTIONS, []),
    ("the dvr node opened behind End", "feed 5|c0 open dvr", SECTIONS, [("late", 0, 32, [2])]),
    ("moments from 7 on", "tick 7|feed 5|c0 open n0|c0 section n0 256 0 4", SECTIONS, [("late in run", 0, 0, [4])]),
    ("timed out behind End", "feed 5|c0 open n0|c0 section n0 256 5 4|tick 5|c0 read n0 9", SECTIONS, [("late", 0, 0, [3])]),
    ("a break behind a Stop", "c0 open n0|c0 section n0 256 0 4|feed 1|c0 stop n0", BREAK, []),
    ("a break before the start", "feed 1|c0 open n0|c0 section n0 256 0 4", BREAK + section(6), []),
    ("more breaks than lie outside", "feed 1|c0 open n0|c0 section n0 256 0 4", BREAKS, [("break of sections", 0, 0, [3])]),
    ("no more breaks than lie outside", "feed 2|c0 open n0|c0 section n0 256 0 4", BREAKS, []),
    ("a break between two captures", "c0 open n0|c0 section n0 256 0 4|feed 1|c0 start n0|feed 1|c0 start n0", BREAK + section(6),
     [("dropped", 0, 0, [4, 6])]),
    ("a break behind a removal", f"c0 open n0|c0 pes n0 256 {WHOLE} 4|feed 1|c0 remove n0 256", BREAK, []),
    ("a break of a one-shot", "c0 open n0|c0 section n0 256 0 6", BREAK, []),
    ("a break behind a timeout", "c0 open n0|c0 section n0 256 5 4|tick 5", BREAK, []),
    ("a break before a timeout", "c0 open n0|c0 section n0 256 5 4|tick 4", BREAK, [("break of sections", 0, 0, [2])]),
    ("a duplicate behind a Stop", "c0 open n0|c0 section n0 256 0 4|feed 1|c0 stop n0", DUPLICATE, []),
    ("most bytes skipped", "c0 open n0", b"\0" * 189 + SECTIONS[:188], [("skipped", None, None, [])]),
    ("half of the bytes skipped", "c0 open n0", b"\0" * 188 + SECTIONS[:188], []),
    ("another table_id, over a part of the stream, told by polls",
     "feed 12|c0 open n0|c0 section n0 256 0 4 0=43/ff/00|feed 12|c0 poll n0|feed 12|c0 poll n0", MIXED,
     [("selects nothing", 0, 0, [3])]),
    ("reads of the dvr node without a tap", "c0 open dvr|feed 2|c0 read dvr 9|c0 read dvr 9", PLAIN, [("no tap", 0, 32, [3, 4])]),
    ("a read of the dvr node before the tap",
     f"c0 open dvr|feed 1|c0 read dvr 9|c0 open n0|c0 pes n0 256 {TAP} 4|feed 1|c0 read dvr 9", PLAIN, []),
    ("a tap that is attached before the dvr node is open", f"c0 open n0|c0 pes n0 300 {TAP} 4|c0 open dvr|feed 2|c0 read dvr 9",
     PLAIN + packet(300, 0), []),
    ("an open dvr node that nobody reads", "c0 open dvr|feed 2|c0 poll dvr", PLAIN, []),
    ("a tap and dvr, which is read", f"c0 open n0|c0 pes n0 256 {TAP} 4|feed 2|c0 open dvr|feed 1|c0 read dvr 188", PLAIN, []),
    ("a call before the open", "c0 section n0 256 0 4|c0 open n0|c0 start n0", SECTIONS, [("not open", 0, 0, [1])]),
    ("a section filter of PID 9000", "c0 open n0|c0 section n0 9000 0 4", SECTIONS, [("large pid", 0, 0, [2])]),
    ("a section filter of PID 8191", "c0 open n0|c0 section n0 8191 0 4|feed 1|c0 read n0 9",
     packet(8191, 0, bytes.fromhex("004200050102030405"), True), []),
    ("a section filter of PID 8192", "c0 open n0|c0 section n0 8192 0 4", SECTIONS, [("large pid", 0, 0, [2])]),
    ("a PES filter of PID 8193", f"c0 open n0|c0 pes n0 8193 {WHOLE} 4", PLAIN, [("large pid", 0, 0, [2])]),
    ("a PES filter of PID 8192", f"c0 open n0|c0 pes n0 8192 {WHOLE} 4", PLAIN, []),
    ("repeats unread at a Start", "c0 open n0|c0 section n0 256 0 4|feed 1|c0 read n0 9|feed 2|c0 start n0", SECTIONS, []),
    ("another section unread at a Start", "c0 open n0|c0 section n0 256 0 4|feed 1|c0 read n0 9|feed 1|c0 start n0",
     section(0) + packet(256, 1, bytes.fromhex("0042000a") + bytes(10), True), [("dropped", 0, 0, [6])]),
    ("a PID that isn't there", f"c0 open n0|c0 pes n0 7 {WHOLE} 4", PLAIN, [("no packet", 0, 0, [2])]),
]

# Streams of packets that take up 188 bytes or 204, what they are read as, and the hints.
STAMPED = b"".join(bytes(4) + packet(256, counter % 16) for counter in range(50))
RECORDING = second.read_script((EXAMPLES / "programs" / "scan.session").read_bytes())[1]
SPACED = b"".join(packet(256, counter % 16) + 16 * b"\1" for counter in range(50))
NOISE = random.Random(1).randbytes(20000)
READ_AS = [
    ("192 bytes read as 188", STAMPED, 188, [("other size", None, None, [])]),
    ("8 bytes in front of each packet", b"".join(8 * b"\1" + packet(256, counter % 16) for counter in range(50)), 188, []),
    ("a recording of 188 bytes read as 204", RECORDING, 204, [("other size", None, None, [])]),
    ("a recording of 188 bytes read as 188", RECORDING, 188, []),
    ("a PNG", b"\x89PNG\r\n\x1a\n\0\0\0\rIHDR" + NOISE, 188, [("skipped", None, None, [])]),
    ("a small PNG", b"\x89PNG\r\n\x1a\n\0\0\0\rIHDR" + NOISE[:90], 188, [("skipped", None, None, [])]),
    ("an MP4", b"\0\0\0 ftypisom\0\0\2\0isomiso2avc1mp41" + NOISE[1000:], 188, [("skipped", None, None, [])]),
    ("a recording with noise in front", NOISE[:3500] + RECORDING, 188, []),
    ("204 bytes read as 188", SPACED, 188, [("other size", None, None, [])]),
    ("204 bytes read as 204", SPACED, 204, []),
    ("188 bytes read as 204", PLAIN, 204, [("other size", None, None, [])]),
    ("three packets of 204 bytes read as 188", SPACED[: 3 * 204], 188, []),
    ("a few bytes between packets", PLAIN + b"\0" * 600, 188, []),
]


# What a hint says: a script, a stream, and words that must stand in it and mustn't.
SAID = [
    ("c0 open n0|c0 pes n0 100 frontend tap 20 4", PLAIN, ["100 read as hexadecimal is 256 (0x100), of which it has 50 packets"],
     ["wrote"]),
    ("c0 open n0|c0 pes n0 101 frontend tap 20 4", PLAIN, ["PID 101 (0x65), of which the stream has no packet"],
     ["hexadecimal is"]),
    (
        f"c0 open dvr|c0 open n0|c0 section n0 300 0 4|c0 write dvr {packet(300, 0).hex()}|c0 read n0 9",
        PLAIN,
        ["PID 300 (0x12C), of which the stream has no packet; 1 packet that clients wrote to the dvr device passed, which only a "
         "PES filter"],
        [],
    ),
    (
        "c0 open n0|c0 section n0 256 0 5 0=43/ff/00 3=06/3e/00|feed 4|c0 read n0 9",
        SECTIONS,
        ["4 packets of PID 256 (0x100) passed", "its filter bytes 0 and 3 or flag 1,", "`c0 section n0 256 0 4`",
         "dvbemu explain REPORT SESSION"],
        ["at least"],
    ),
    ("feed 1|c0 open n0|c0 section n0 256 0 0 0=43/ff/00|c0 start n0|feed 3|c0 read n0 9",
     SECTIONS + packet(300, 0) + packet(300, 1),
     ["at least 1 packet of PID 256 (0x100) passed", "the cause may be its filter byte 0; try"],
     ["flag 1"]),
    (
        "feed 12|c0 open n0|c0 section n0 256 0 4 0=43/ff/00|feed 24|c0 poll n0",
        MIXED,
        ["about 12 packets of PID 256 (0x100), by their share of the stream, passed while this filter ran, and it selected no "
         "section"],
        [],
    ),
    ("c0 open n0|c0 section n0 9000 0 4", PLAIN, ["PID 9000 is above 8191 (13 bits); SetFilter sets no filter"], []),
    ("c0 open n0|c0 section n0 256 0 4|feed 9|c0 read n0 9", PLAIN, ["though it takes every section"], ["try it"]),
    ("c0 open n0|c0 section n0 256 0 4|feed 4|c0 read n0 4096", PES,
     ["begins with 00 00 01 e0,", "PID 256 (0x100) carries a stream"], []),
    ("c0 open n0|c0 section n0 300 0 5|c0 open n1|c0 section n1 256 0 4 0=42/ff/00|c0 drain n0 99|c0 drain n1 99",
     packet(300, 0, b"\0" + PROGRAM, True) + PES,
     ["by the PMT that was read the PID carries MPEG-2 video (stream_type 0x02), which `pes` takes"], ["try it"]),
    (f"c0 open n0|c0 pes n0 256 {TAP} 4|c0 readw n0 9|c0 drain n0 9", PLAIN + packet(300, 0) * 9,
     [", and 50 packets of PID 256 (0x100) passed it then"], ["59"]),
    (f"c0 open n0|c0 pes n0 256 {TAP} 4|feed 20|c0 open dvr", PLAIN + packet(300, 0) * 9, ["up to 20 packets of PID 256"], []),
    ("c0 open n0|c0 section n0 256 0 4|c0 read n0 9", SECTIONS,
     ["all reads after line 2 came before a packet passed, with 4 packets"], []),
]
# What explain says of what was lost: a script, a stream, and the words.
LOST = [
    (f"c0 open n0|c0 size n0 377|c0 pes n0 256 {WHOLE} 4|feed 3|c0 read n0 188", PLAIN,
     "564 bytes, 0..564 of the capture, 3 packets, "
     "the stream's packets 0 to 2, everything unread"),
    (f"c0 open n0|c0 size n0 377|c0 pes n0 256 {WHOLE} 4|feed 1|c0 read n0 999|feed 4|c0 read n0 188", PLAIN,
     "752 bytes, 188..940 of the "
     "capture, 4 packets, the stream's packets 1 to 4, everything"),
    (f"c0 open n0|c0 size n0 377|c0 pes n0 256 {WHOLE} 260|feed 3|c0 readw n0 376|c0 read n0 188", PLAIN,
     "188 bytes, 376..564 of the "
     "capture, 1 packet, the stream's packet 2, all items from 2 on"),
    ("c0 open n0|c0 size n0 17|c0 section n0 256 0 4|feed 1|c0 read n0 8|feed 3|c0 read n0 8", SECTIONS,
     "24 bytes, 8..32 of the capture, "
     "at least 3 sections, brought by packets among the stream's packets 0 to 3, everything"),
    ("c0 open n0|c0 size n0 377|c0 pes n0 256 frontend tap 20 4|feed 3|c0 read n0 188", PLAIN,
     "552 bytes, 0..552 of the capture, brought by "
     "packets among the stream's packets 0 to 2, everything"),
    (f"c0 open dvr|c0 size dvr 377|c0 open n0|c0 pes n0 256 {TAP} 4|feed 3|c0 read dvr 188", PLAIN,
     "564 bytes, 0..564 of the capture, 3 "
     "packets, the stream's packets 0 to 2, everything"),
    (f"c0 open n0|c0 size n0 377|c0 pes n0 256 {WHOLE} 4|feed 9|c0 read n0 188", packet(300, 0) + PLAIN,
     "8 packets, among the stream's "
     "packets 0 to 8, everything"),
    (f"c0 open dvr|c0 open n0|c0 size n0 377|c0 pes n0 256 {PLAYED} 4|feed 9|c0 write dvr {PLAIN[:564].hex()}|c0 read n0 188",
     PLAIN, "564 bytes, 0..564 of the capture, 3 packets, everything unread"),
    ("c0 open n0|c0 size n0 2|c0 pes n0 256 frontend tap 20 260|feed 2|c0 read n0 9|c0 read n0 9", SINGLE,
     "line 6, n0: 1 byte, 1..2 of the "
     "capture, brought by packets among the stream's packets 0 to 1, all items from 1 on"),
]  # fmt: skip
# Sessions with Overflows, to which the hint tells a size that would have held what came, and the batch: it has to, and one of a
# byte less mustn't.
BLOCKS = b"".join(packet(256 if kept else 300, 0) for kept in (1, 1, 1, 0, 1, 1, 1, 1, 0, 0, 1, 1))
HELD = [
    (f"c0 open n0|c0 size n0 377|c0 pes n0 256 {WHOLE} 4|feed 1|c0 read n0 100|feed 3|c0 read n0 188", PLAIN, 1),
    (f"c0 open n0|c0 size n0 8192|c0 pes n0 256 {WHOLE} 4|feed 44|c0 read n0 9", PLAIN, 1),
    ("c0 open n0|c0 size n0 17|c0 section n0 256 0 4|feed 1|c0 read n0 8|feed 3|c0 read n0 8", SECTIONS, 1),
    ("c0 open n0|c0 size n0 185|c0 pes n0 256 frontend tap 20 4|feed 2|c0 read n0 188", PLAIN, 1),
    (f"c0 open n0|c0 size n0 377|c0 pes n0 256 {WHOLE} 4|feed 3|c0 read n0 188|feed 1|c0 read n0 188|feed 3|c0 read n0 188",
     PLAIN, 1),
    (f"c0 open n0|c0 size n0 377|c0 pes n0 256 {WHOLE} 4|c0 drain n0 9999", BLOCKS, 4),
]
# What the hint says of several Overflows, by the words of the script, the batch, and the words that must stand in it and mustn't.
PACED = [
    (HELD[4][0], 1, "one of 941 would have held all that came, at 2 Overflows; `dvbemu explain", "passes at once"),
    (HELD[5][0], 4,
     "one of 753 would have held all that came, at 2 Overflows; a batch of up to 4 packets passes at once, and no client reads "
     "in between: set that size, or try `--batch 1`", "none is told"),
    (HELD[5][0].replace("c0 drain", "feed 4|c0 drain"), 4,
     "one of 753 would have held all that came, at 2 Overflows; `dvbemu explain", "at once"),
]  # fmt: skip
# A report of `serve` of a recording that has begun again twice: breaks in place of @, of the third PID; and whether these are all
# the loop's.
LOOPED = """dvbemu 1
packets=9 skipped=0 rest=0
pid 16 packets=3 breaks=2 duplicates=0 errors=0
pid 17 packets=3 breaks=0 duplicates=0 errors=0
pid 256 packets=3 breaks=@ duplicates=0 errors=0
client 0
line 1 steps 0..1 done
line 2 steps 1..2 done
node 0
0 c0 0 open = done drop=0..0 tap=keep
1 c0 1 section pid=256 timeout=0 flags=4 at=7 = done drop=0..0 tap=keep
2 feed 0 pass input=frontend first=0 count=9 at=7 = passed
3 feed 1 end = passed
end
"""
LOOPS = [
    (LOOPED.replace("@", "2"), True),
    (LOOPED.replace("@", "3"), False),
    (LOOPED.replace("@", "2").replace("line 2", "line 3"), False),
    (LOOPED.replace("@", "2").replace("at=7", "at=0"), False),
    (LOOPED.replace("@", "2").replace("breaks=2", "breaks=0", 1), False),
]
# A report of `serve` where nobody has opened a device.
NOBODY = "dvbemu 1\npackets=1 skipped=0 rest=0\npid 256 packets=1 breaks=0 duplicates=0 errors=0\nclient 0\nclient 1\nend\n"
# A script in which clients look for a free node, and which of them were refused something, in which lines.
SEARCHES = [
    ("c0 open h0|c1 open h0|c1 open h1", {}),
    ("c0 open n0|c1 open n0", {1: [2]}),
    ("|".join(f"c0 open h{slot}" for slot in range(32)) + "|c1 open h0", {1: [33]}),
]


def story_of(report):
    """A report gone through."""
    return Story(reports.read(io.StringIO(report.decode())))


def hints_of(report):
    """The hints of a report."""
    return [(found.kind, found.client, found.node, found.lines) for found in story_of(report).stumbles.values()]


def said_of(report):
    """The words of a report's hints."""
    return " ".join(map(hints.hint_text, story_of(report).stumbles.values()))


def plain(text):
    """A text without marks and with single spaces."""
    return " ".join(text.replace("*", "").replace("|", " ").split())


@pytest.mark.parametrize("kind", hints.RULES)
def test_rule_stands_in_the_document(kind):
    text = (ROOT / "docs" / "BEHAVIOUR.md").read_text(encoding="utf-8")
    heading, quoted = hints.RULES[kind]
    assert plain(quoted) in plain(text)
    assert heading in plain("\n".join(line for line in text.split("\n") if line[:1] in ("#", "*")))


@pytest.mark.parametrize("name, script, stream, wanted", SESSIONS, ids=[name for name, *_ in SESSIONS])
def test_hints(report_of, name, script, stream, wanted):
    assert hints_of(report_of(script, stream)) == wanted


@pytest.mark.parametrize("name, stream, size, wanted", READ_AS, ids=[name for name, *_ in READ_AS])
def test_size_of_packets(report_of, name, stream, size, wanted):
    assert hints_of(report_of("", stream, 1, size)) == wanted


@pytest.mark.parametrize("script, stream, there, absent", SAID)
def test_said(report_of, script, stream, there, absent):
    said = said_of(report_of(script, stream))
    assert [words for words in there if words not in said] == [], said
    assert [words for words in absent if words in said] == [], said


@pytest.mark.parametrize("script, stream, words", LOST)
def test_lost(report_of, script, stream, words):
    line, call, span = story_of(report_of(script, stream)).clients[0].lost[0]
    assert words in lost_text(line, call, span)
    assert reply_text(call) == f"Overflow, {many(span[1] - span[0], 'byte is', 'bytes are')} lost"


def held(report):
    """The size that a hint tells would have held what came; None where it tells none."""
    found = re.findall(r"one of (\d+) would have held (?:what|all that) came", said_of(report))
    return max(map(int, found), default=None)


def overflows(script, stream, batch, size):
    """Whether a read is answered Overflow with a buffer of this size."""
    return "= overflow" in second.report(session_of(re.sub(r"size n0 \d+", f"size n0 {size}", script), stream), batch)


@pytest.mark.parametrize("script, stream, batch", HELD)
def test_least_size_that_holds(report_of, script, stream, batch):
    size = held(report_of(script, stream, batch))
    assert not overflows(script, stream, batch, size)
    assert overflows(script, stream, batch, size - 1)


@pytest.mark.parametrize("script, batch, there, absent", PACED)
def test_pace(report_of, script, batch, there, absent):
    said = said_of(report_of(script, BLOCKS if batch > 1 else PLAIN, batch))
    assert there in said and absent not in said


# Sections of 8 bytes and of 16, all of PID 256.
LONG_AND_SHORT = b"".join(section(counter) if counter % 3 else packet(256, counter, b"\0" + PMT, True) for counter in range(60))
# Scripts where a size was named that is too small, and their batch: the Overflows of a node are of several kinds, or reads wait
# behind one.
ONCE_TOO_SMALL = [
    ("c0 open n0|c0 size n0 13|c0 section n0 256 0 4|feed 4|c0 poll n0|feed 1|feed 3|c0 read n0 23|c0 drain n0 46|c0 read n0 45|"
     "feed 1", 4),
    ("c0 open n0|c0 size n0 543|c0 pes n0 256 frontend tap 20 4|c0 poll n0|c0 readw n0 564|feed 3|feed 2|c0 readw n0 10|c0 readw "
     "n0 812|feed 5|c0 poll n0|feed 3|feed 3|c0 readw n0 345", 1),
    (f"c0 open n0|c0 size n0 671|c0 pes n0 256 {WHOLE} 4|c0 read n0 29|feed 4|c0 read n0 16|c0 poll n0|c0 poll n0|c0 readw n0 "
     f"679|feed 4|"
     "c0 read n0 669|c0 poll n0|feed 3|feed 1", 1),
    (f"c0 open n0|c0 size n0 516|c0 pes n0 256 {WHOLE} 4|c0 read n0 341|feed 5|c0 poll n0|feed 4|c0 read n0 634|c0 readw n0 461|"
     f"feed 1|feed 3|"
     "c0 readw n0 63|feed 3|c0 poll n0|c0 readw n0 657", 1),
]  # fmt: skip
# Reads that wait behind an Overflow, and then a capture that begins at other packets than without it, or another node whose reads
# wait.
BEHIND = [
    f"c0 open n0|c0 size n0 579|c0 pes n0 256 {WHOLE} 4|feed 8|c0 read n0 749|c0 readw n0 264|c0 start n0|feed 9|c0 read n0 549",
    f"c1 open n1|c1 size n1 377|c1 pes n1 256 {WHOLE} 4|c0 open n0|c0 size n0 579|c0 pes n0 256 {WHOLE} 4|feed 8|c0 read n0 749|"
    f"c0 readw n0 264|"
    "c1 read n1 9|c1 readw n1 188",
]


def drawn(chosen, most):
    """A script and a batch; most of its reads wait, or none does."""
    kind = chosen.choice(("section n0 256 0", f"pes n0 256 {WHOLE}", "pes n0 256 frontend tap 20"))
    few = kind.startswith("section")
    calls = [f"c0 open n0|c0 size n0 {chosen.randrange(2, 60) if few else chosen.randrange(189, 900)}|c0 {kind} 4"]
    for _ in range(chosen.randrange(2, 14)):
        count = chosen.randrange(1, 50) if few else chosen.randrange(1, 900)
        words = chosen.choice(("read", most, "drain" if chosen.random() < 0.1 else most))
        again = chosen.choice((f"c0 {kind} 4", "c0 start n0")) if chosen.random() < 0.1 else "c0 poll n0"
        calls.append(chosen.choice((f"feed {chosen.randrange(1, 6)}", f"feed {chosen.randrange(1, 6)}", f"c0 {words} n0 {count}",
                                    again)))
    return "|".join(calls), chosen.randrange(1, 5)


@pytest.mark.parametrize("seed, most, count", [(2, "read", 150), (3, "readw", 300)])
def test_size_that_holds_in_drawn_sessions(report_of, seed, most, count):
    chosen, tried = random.Random(seed), 0
    for _ in range(count):
        script, batch = drawn(chosen, most)
        size = held(report_of(script, LONG_AND_SHORT, batch))
        if size is not None:
            tried += 1
            assert not overflows(script, LONG_AND_SHORT, batch, size), f"{script}, in batches of {batch}: a size of {size}"
    assert tried > count // 4


@pytest.mark.parametrize("script, batch", ONCE_TOO_SMALL)
def test_size_that_holds_all(report_of, script, batch):
    size = held(report_of(script, LONG_AND_SHORT, batch))
    assert size is not None and not overflows(script, LONG_AND_SHORT, batch, size)


@pytest.mark.parametrize("script", BEHIND)
def test_no_size_where_other_packets_would_have_passed(report_of, script):
    said = said_of(report_of(script, LONG_AND_SHORT))
    assert "no size is given, since later reads waited" in said and held(report_of(script, LONG_AND_SHORT)) is None


@pytest.mark.parametrize("text, is_loop", LOOPS)
def test_breaks_of_a_loop(text, is_loop):
    report = reports.read(io.StringIO(text))
    rows = [row.text for row in told.stream_lines(report, Story(report).joints > 0)[3:]]
    assert ("breaks where the loop begins again" in rows[2]) == is_loop
    assert [found.kind for found in Story(report).stumbles.values()] == ([] if is_loop else ["break of sections"])


def test_nobody_opened_a_device():
    kinds = {key[0]: hints.hint_text(found) for key, found in story_of(NOBODY.encode()).stumbles.items()}
    assert list(kinds) == ["nobody"] and kinds["nobody"].startswith("No program opened a device.")


@pytest.mark.parametrize("script, wanted", SEARCHES)
def test_searches_for_a_node(report_of, script, wanted):
    clients = story_of(report_of(script)).clients
    assert {number: sum(client.refused.values(), []) for number, client in clients.items() if client.refused} == wanted


def test_width_of_lines():
    assert max(map(len, wrapped("a word " * 99, 4))) <= 100
