"""What `dvbemu explain` says with the stream at hand, of filters that got nothing and of overflows, over sessions of which each
number was counted by hand.

The reports are those of the plain second program.
"""
import random
import time

import pytest
from conftest import EXAMPLES
from dvbemu.stream.packets import packet
from dvbemu.stream.sections import Cutter
from oracle import second
from packets import PES, PMT, PMTS, WRONG, in_packets, session_of


def clocked(pid, counter):
    """A packet whose PCR is its counter times a tenth of a second, with a payload."""
    ticks = counter * 2_700_000
    pcr = ((ticks // 300 << 15) | 0x7E00 | ticks % 300).to_bytes(6, "big")
    return (bytes([0x47, pid >> 8, pid & 0xFF, 0x30 | counter % 16, 7, 0x10]) + pcr).ljust(188, b"\0")


SHORT = in_packets(256, bytes.fromhex("420002aabb"), 4)
# A section of 284 bytes in two packets.
LONG = bytes.fromhex("004271190005").ljust(184, b"\1"), bytes(101)
HALVES = packet(256, 0, LONG[0], True) + packet(256, 1, LONG[1])
WHOLE = b"".join(clocked(256, counter) for counter in range(9))
OPEN = "c0 open n0|"
NOTHING = "Nothing to report: packets passed every filter, every section filter gave something, and no read got Overflow."
# A PAT of program 1, with a right CRC_32 (by zlib, of which it is the mirror image).
PAT = bytes.fromhex("00b00d0001c100000001e100e8f95e7d")
PATS = in_packets(0, PAT, 4)
# A script, the stream, and what must stand in the page, in words with single spaces.
SAID = [
    (OPEN + "c0 section n0 256 0 5 0=43/ff/00|feed 9|c0 read n0 99", PMTS, [
        "Client 0, line 2, n0: the section filter of PID 256 (0x100) gave nothing; 4 packets and 4 sections passed while it ran.",
        "0 of these sections match its bytes.",
        "4 sections: filter byte 0 asks for 0x43 in section byte 0 (table_id), and it is 0x02 (bits 0x41 differ).",
        "This would select 4 of them: `c0 section n0 256 0 5 0=02/ff/00`"]),
    (OPEN + "c0 section n0 256 0 5 0=02/ff/00|feed 9|c0 read n0 99", PMTS, [NOTHING]),
    (OPEN + "c0 section n0 256 0 5 0=02/ff/00|feed 9", PMTS + WRONG, [
        "8 packets and 8 sections passed while it ran. It selects 4 of these sections, and no read followed."]),
    (OPEN + "c0 section n0 256 0 4|feed 1|c0 start n0|feed 1|c0 read n0 99", HALVES, [
        "2 packets and 0 sections passed while it ran. They contain no complete section. Of these packets a section begins in 1 "
        "("]),
    (OPEN + "c0 section n0 256 0 0 0=02/ff/00 1=02/ff/00|feed 1|c0 start n0|feed 2|c0 read n0 99", PMTS, [
        "3 packets and 3 sections passed while it ran.",
        "3 sections: filter byte 1 asks for 0x02 in section byte 3 (table_id_extension), and it is 0x00 (bits 0x02 differ).",
        "This would select 3 of them: `c0 section n0 256 0 0 0=02/ff/00 1=00/ff/00`"]),
    (OPEN + "c0 section n0 256 0 4 5=c1/ff/00|feed 9|c0 read n0 99", PMTS, [
        "4 sections: filter byte 5 asks for 0xC1 in section byte 7 (last_section_number), and it is 0x00 (bits 0xC1 differ).",
        "This would select 4 of them: `c0 section n0 256 0 4 5=00/ff/00` If filter byte 5 is meant for section byte 5 "
        "(version_number, "
        "current_next_indicator), it is filter byte 3, and 0xC1 stands there; this would select 4: `c0 section n0 256 0 4 "
        "3=c1/ff/00`"]),
    (OPEN + "c0 section n0 256 0 5 0=02/ff/00|feed 9|c0 read n0 99", WRONG, [
        "4 of these sections match its bytes; their CRC_32 is wrong, and flag 1 rejects them.",
        "This would select 4 of them: `c0 section n0 256 0 4 0=02/ff/00`"]),
    (OPEN + "c0 section n0 256 0 4 3=c1/3f/3f|feed 9|c0 read n0 99", PMTS, [
        "4 sections: filter byte 3 wants one of the bits 0x3F of section byte 5 (version_number, current_next_indicator) to "
        "differ, and none does.",
        "This would select 4 of them: `c0 section n0 256 0 4 3=c1/3f/00`"]),
    (OPEN + "c0 section n0 256 0 4 0=42/ff/00 5=07/ff/00|feed 9|c0 read n0 99", SHORT, [
        "4 sections: filter byte 5 asks for 0x07 in section byte 7 (last_section_number), and the section ends before it.",
        "This would select 4 of them: `c0 section n0 256 0 4 0=42/ff/00`"]),
    (OPEN + "c0 section n0 256 0 4 0=42/ff/00|feed 9|c0 read n0 99", PES, [
        "8 packets and 2 sections passed while it ran. These are packets of a stream: PES packets begin in them (2 packets of "
        "stream_id 0xE0 (video stream 0)). `pes` takes them."]),
    (OPEN + "c0 section n0 256 0 4|feed 9|c0 read n0 99", packet(256, 0, b"\0", False) + b"\x47\xc1\0\x91".ljust(188, b"\0"), [
        "2 packets and 0 sections passed while it ran. They contain no complete section. Of these packets a section begins in 1 "
        "(payload_unit_start_indicator), the error bit is set in 1, the payload is scrambled in 1."]),
    (OPEN + "c0 section n0 300 0 4|feed 9|c0 read n0 99", PMTS, [
        "Client 0, line 2, n0: the section filter of PID 300 (0x12C) gave nothing: no packet of its PID passed while it ran; the "
        "stream has none."]),
    (OPEN + "feed 4|c0 pes n0 256 frontend tsdemux_tap 20 4|feed 1|c0 read n0 99", PMTS + PATS, [
        "line 3, n0: the PES filter of PID 256 (0x100) gave nothing: no packet of its PID passed while it ran; the stream has 4 "
        "packets of it."]),
    (OPEN + "c0 pes n0 256 frontend tsdemux_tap 20 4|c0 add n0 301|feed 9|c0 read n0 99", PMTS, [NOTHING]),
    (OPEN + "c0 section n0 256 0 0|feed 9", PMTS, ["Nothing to report: no filter ran."]),
    (OPEN + "c0 size n0 377|c0 pes n0 256 frontend tsdemux_tap 20 4|feed 3|c0 read n0 9|feed 6|c0 read n0 9", WHOLE, [
        "Client 0, line 5, n0: an overflow (bytes 0 to 563) lost 3 packets, of the stream's packets 0 to 2, 0.000 s to 0.200 s "
        "after the first PCR.",
        "Client 0, line 7, n0: an overflow (bytes 564 to 1691) lost 6 packets, of the stream's packets 3 to 8, 0.300 s to 0.800 "
        "s after the first PCR."]),
    (OPEN + "c0 size n0 377|c0 pes n0 256 frontend tsdemux_tap 20 260|feed 3|c0 readw n0 376|c0 read n0 9", WHOLE, [
        "Client 0, line 6, n0: an overflow (bytes 376 to 563) lost 1 packet, of the stream's packet 2, 0.200 s after the first "
        "PCR."]),
    (OPEN + "c0 size n0 20|c0 section n0 256 0 4|feed 1|c0 read n0 16|feed 3|c0 read n0 9", PMTS, [
        "Client 0, line 7, n0: an overflow (bytes 16 to 63) lost 3 sections, whose last bytes came by the stream's packets 1 to "
        "3."]),
    ("c0 open dvr|c0 size dvr 377|c0 open n0|c0 pes n0 256 frontend ts_tap 20 4|feed 3|c0 read dvr 9", WHOLE, [
        "Client 0, line 6, the dvr node: an overflow (bytes 0 to 563) lost 3 packets, of the stream's packets 0 to 2,"]),
]  # fmt: skip

# The same, and what mustn't stand in the page: a byte goes nowhere else because its value happens to stand there.
UNSAID = [
    (OPEN + "c0 section n0 0 0 5 0=01/ff/00|feed 9|c0 read n0 99", PATS,
     "This would select 4 of them: `c0 section n0 0 0 5 0=00/ff/00`", "=01/ff"),
    (OPEN + "c0 section n0 0 0 5 5=01/ff/00|feed 9|c0 read n0 99", PATS,
     "This would select 4 of them: `c0 section n0 0 0 5 5=00/ff/00`", "=01/ff"),
    (OPEN + "c0 section n0 0 0 5 3=01/ff/00|feed 9|c0 read n0 99", PATS,
     "This would select 4 of them: `c0 section n0 0 0 5 3=c1/ff/00`", "=01/ff"),
]  # fmt: skip
# A report of `serve`, where each client counts its lines from 1: the filter is the second one's.
SERVED = (
    "dvbemu 1\npackets=4 skipped=0 rest=0\npid 256 packets=4 breaks=0 duplicates=0 errors=0\n"
    "client 0\nline 1 steps 0..1 done\nline 2 steps 1..2 done\nclient 1\nline 1 steps 0..1 done\nline 2 steps 1..2 done\n"
    "line 3 steps 2..3 done\nnode 0\n0 c1 0 open = {0}\n1 c1 1 section pid=256 timeout=0 flags=4 at=9 0=43/ff/00 = {0}\n"
    "2 feed 0 pass input=frontend first=0 count=4 at=9 = passed\n3 c1 2 read 99 at=9 = again ended=0\n4 feed 1 end = passed\n"
    "node dvr\n0 c0 0 open = {0}\n1 feed 0 pass input=frontend first=0 count=4 at=9 = passed\n2 c0 1 close = {0}\n3 feed 1 end = "
    "passed\nend\n"
).format("done drop=0..0 tap=keep")  # fmt: skip
# How many packets one Overflow lies over, and the seconds of a processor that this may take.
MANY, SECONDS = 10000, 10


@pytest.fixture
def hint(tool, tmp_path):
    """What the word writes over a report and a session, of what it writes the part on the stream."""

    def over(report, session, *words):
        (tmp_path / "report").write_bytes(report)
        (tmp_path / "session").write_bytes(session)
        ran = tool("explain", *words, str(tmp_path / "report"), str(tmp_path / "session"))
        return ran._replace(out=ran.out.partition("What the stream says\n\n")[2])

    return over


@pytest.mark.parametrize("script, stream, wanted", SAID)
def test_said(hint, report_of, script, stream, wanted):
    ran = hint(report_of(script, stream), session_of(script, stream))
    page = " ".join(ran.out.split())
    assert [words for words in wanted if words not in page] == [], page + ran.err


@pytest.mark.parametrize("script, stream, wanted, unwanted", UNSAID)
def test_unsaid(hint, report_of, script, stream, wanted, unwanted):
    page = " ".join(hint(report_of(script, stream), session_of(script, stream)).out.split())
    assert wanted in page and unwanted not in page.partition("This would")[2]


def test_filter_of_a_served_client(hint):
    assert hint(SERVED.encode(), PMTS).out.startswith("  Client 1, line 2, n0: ")


@pytest.mark.parametrize("words, count",
                         [((), 2), (("--node", "n1"), 1), (("--client", "c0"), 1), (("--node", "n1", "--client", "c0"), 0)])
def test_parts(hint, report_of, words, count):
    script = "c0 open n0|c0 section n0 256 0 4 0=43/ff/00|c1 open n1|c1 size n1 20|c1 section n1 256 0 4|feed 4|c1 read n1 9"
    told = hint(report_of(script, PMTS), session_of(script, PMTS), *words).out
    assert told.count("Client ") == count and ("Nothing to report" in told) == (count == 0)


def test_the_word_that_it_was(tool):
    ran = tool("hint", "report", "session")
    assert (ran.status, ran.out) == (2, "")
    assert ran.err.endswith("\ndvbemu: error: `hint` is now part of `explain`: dvbemu explain REPORT SESSION\n")


def test_sections_come_packet_by_packet():
    """They are those of the plain second program, each with the packet that completes it."""
    chosen, tried = random.Random(1), 0
    for _ in range(200):
        packets, counter = [], 0
        for _ in range(chosen.randrange(1, 20)):
            counter += chosen.choice((0, 1, 1, 1, 1, 1, 1, 2))
            payload = bytes(chosen.choice((0, 0, 1, 3, 0xB0, 0xFF, 66, 183))
                            for _ in range(4)) + chosen.choice((bytes(180), PMT * 12))
            made = bytearray(packet(256, counter, payload[:184], chosen.random() < 0.3))
            made[1] |= 0x80 if chosen.random() < 0.05 else 0
            made[3] &= 0xCF if chosen.random() < 0.05 else 0xFF
            packets.append(chosen.choice(packets) if packets and chosen.random() < 0.1 else bytes(made))
        cutter, found = Cutter(), []
        for number, one in enumerate(packets):
            found += [whole.data for whole in cutter.take(one)]
            assert found == second.sections(packets[: number + 1], 256)
        tried += len(found)
    assert tried > 1000


def test_time_of_a_long_overflow(hint):
    stream = in_packets(256, PMT, MANY)
    head = f"dvbemu 1\npackets={MANY} skipped=0 rest=0\npid 256 packets={MANY} breaks=0 duplicates=0 errors=0\n"
    text = (
        head
        + "client 0\nline 1 steps 0..1 done\nline 2 steps 1..2 done\nline 3 steps 2..3 done\nline 5 steps 3..4 done\nnode 0\n"
        "0 c0 0 open = {0}\n1 c0 1 size 99 = {0}\n2 c0 2 section pid=256 timeout=0 flags=5 at=0 = {0}\n"
        "3 feed 0 pass input=frontend first=0 count={1} at=0 = passed\n4 c0 3 read 99 at=0 = overflow 0..{2} item=6 need=16 "
        "room=2\n5 feed 1 end = passed\nend\n"
    ).format("done drop=0..0 tap=keep", MANY, 16 * MANY)  # fmt: skip
    before = time.process_time()
    told = hint(text.encode(), stream).out
    assert f"lost {MANY:,} sections" in told
    assert time.process_time() - before < SECONDS


# A script, its report over a stream that was played twice, and the packets with 16 bytes behind each, or 4 in front.
SCRIPT = b"c0 open n0\nc0 section n0 256 0 4 0=43/ff/00\nfeed 9\nc0 read n0 99\nstream\n"
REPORT = second.report(SCRIPT + PMTS + PMTS, 1).encode()
SPACED = b"".join(PMTS[first : first + 188] + bytes(16) for first in range(0, len(PMTS), 188))
STAMPED = b"".join(bytes(4) + PMTS[first : first + 188] for first in range(0, len(PMTS), 188))


@pytest.mark.parametrize("given, report", [
    (PMTS + PMTS, REPORT), (PMTS, REPORT), (SPACED, REPORT), (STAMPED, REPORT),
    (SCRIPT + SPACED, second.report(SCRIPT + SPACED, 1, 204).encode()),
])  # fmt: skip
def test_recordings(hint, given, report):
    assert "section byte 0 (table_id), and it is 0x02" in hint(report, given).out


@pytest.mark.parametrize("given, report, told", [
    ((EXAMPLES / "rules" / "overflow.session").read_bytes(), REPORT, "no session of this report: it has 4 packets, the report 8"),
    (SCRIPT + PMTS + PATS, REPORT, "no session of this report: it has 4 packets of PID 0 (PAT) in 8, the report 0"),
    (PMTS + PATS, REPORT, "no recording of this report: it has 4 packets of PID 0 (PAT) in 8, the report 0"),
    (PMTS * 2 + PATS, second.report(SCRIPT + PMTS + PATS, 1).encode(), "it has 0 packets of PID 0 (PAT) in 8, the report 4"),
    (b"c0 open n0\n", REPORT, "no session, which has a line `stream`, and no recording"),
    (SCRIPT, b"no report\n", "line 1: expected `dvbemu 1`"),
])  # fmt: skip
def test_refused(hint, given, report, told):
    ran = hint(report, given)
    assert (ran.status, ran.out) == (1, "") and told in ran.err
