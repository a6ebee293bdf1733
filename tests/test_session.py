"""`dvbemu session` over served.report, which dvb_serve has written of dvbv5-scan over the stream of examples/programs/scan, and
over small reports that stand here: the script of each is worked out by hand. `steps` of the session, done by the second program,
must come to the same report but for the moments, and the judge must find the report right.
"""
import re

import pytest
from conftest import EXAMPLES, ROOT
from dvbemu.stream.packets import packet
from oracle import judge, second

SERVED = (ROOT / "tests" / "served.report").read_text()
STREAM = (EXAMPLES / "programs" / "scan.session").read_bytes().split(b"\nstream\n", 1)[1]
# The first table that dvbv5-scan looks for.
SCANNED = ("feed 64\nc1 open h0\nc1 section n0 0 0 5 0=00/ff/00\nc1 poll n0\nfeed 192\nc1 poll n0\nfeed 64\n"
           "c1 read n0 4096\nc1 stop n0\n")
HEAD = "dvbemu 1\npackets={} skipped=0 rest=0\n"
PASS = "{} feed {} pass input=frontend first={} count=1 at={} = passed\n"
END = "{} feed {} end = passed\n"
PID = "pid 256 packets={} breaks=0 duplicates={} errors=0\n"
DONE = "done drop=0..0 tap=keep"
NULLS = packet(256, 0, bytes(184))
# Two clients on one node, a search that finds the second node, a filter with a timeout, and a call behind the end.
TWO = (
    HEAD.format(2) + PID.format(2, 1)
    + "client 0\nline 1 steps 0..1 done\nline 2 steps 1..2 done\nclient 1\nline 1 steps 0..2 done\nline 2 steps 2..3 done\n"
    + "node 0\n0 c0 0 open = " + DONE + "\n1 c1 0 open = busy owner=c0\n" + PASS.format(2, 0, 0, 100)
    + "3 c0 1 section pid=0 timeout=7 flags=4 at=140 = " + DONE + "\n" + PASS.format(4, 1, 1, 145) + END.format(5, 2)
    + "node 1\n0 c1 1 open = " + DONE + "\n" + PASS.format(1, 0, 0, 100) + PASS.format(2, 1, 1, 145) + END.format(3, 2)
    + "4 c1 2 read 10 at=150 = data -\nend\n"
)  # fmt: skip
TWO_SCRIPT = """\
c0 open h0
c1 open h0
feed 1
tick 40
c0 section n0 0 7 4
tick 5
feed 2
tick 5
c1 read n1 10
"""
# A client calls node 0 behind a batch, and then node 1 in front of the same.
SKEWED = (
    HEAD.format(1) + PID.format(1, 0) + "client 0\nline 1 steps 0..1 done\nline 2 steps 1..2 done\n"
    + "node 0\n" + PASS.format(0, 0, 0, 0) + "1 c0 0 open = " + DONE + "\n" + END.format(2, 1)
    + "node dvr\n0 c0 1 open = " + DONE + "\n" + PASS.format(1, 0, 0, 0) + END.format(2, 1) + "end\n"
)  # fmt: skip
SKEWED_SCRIPT = "feed 1\nc0 open h0\nc0 open dvr\n"
# A call that attaches a tap.
TAPPED = (
    HEAD.format(1) + PID.format(1, 0) + "client 0\nline 1 steps 0..1 done\nline 2 steps 1..3 done\nnode 0\n0 c0 0 open = " + DONE
    + "\n1 c0 1 pes pid=256 input=frontend output=ts_tap type=20 flags=4 at=9 = done drop=0..0 tap=attach:256\n"
    + PASS.format(2, 0, 0, 9)
    + END.format(3, 1) + "node dvr\n0 c0 2 attach node=0 pids=256 = " + DONE + "\n"
    + PASS.format(1, 0, 0, 9) + END.format(2, 1) + "end\n"
)  # fmt: skip
TAPPED_SCRIPT = "c0 open h0\nc0 pes n0 256 frontend ts_tap 20 4\n"
# Two searches for a free node behind a third client's, of which the second overtakes the first on node 1. Who finds that node
# taken is the later one there, and in the script, so the other comes earlier on node 0 too.
CROSSED = (
    HEAD.format(0) + "client 0\nline 1 steps 0..3 done\nclient 1\nline 1 steps 0..2 done\nclient 2\nline 1 steps 0..1 done\n"
    + "node 0\n0 c2 0 open = " + DONE + "\n1 c0 0 open = busy owner=c2\n2 c1 0 open = busy owner=c2\n" + END.format(3, 0)
    + "node 1\n0 c1 1 open = " + DONE + "\n1 c0 1 open = busy owner=c1\n" + END.format(2, 0)
    + "node 2\n0 c0 2 open = " + DONE + "\n" + END.format(1, 0) + "end\n"
)  # fmt: skip
CROSSED_SCRIPT = "c2 open h0\nc1 open h0\nc0 open h0\n"
# A report of four packets of one PID, without a call.
FOUR = HEAD.format(4) + PID.format(4, 3) + "client 0\nend\n"
# A client writes: which bytes, no report tells.
WRITTEN = HEAD.format(0) + "client 0\nline 1 steps 0..33 done\nnode 0\n0 c0 1 pass input=dvr first=0 count=1 at=0 = passed\nend\n"
SPOILED = {
    WRITTEN: "a client has written",
    "": "not a report",
    "dvbemu 2\npackets=0 \n": "not a report", "dvbemu 1\n": "not a report", "\xff": "not a report: line 1: expected",
    SKEWED.replace("line 2", "line 3"): "not a report of `serve`: each client counts its commands from 1, and `line 3` stands "
                                        "where `line 2` would",
    TWO.replace("c1 0 open = busy owner=c0", "c1 0 poll at=0 = EBADF"): "not a report of `serve`: a command of c1 makes 2 calls",
    TWO.replace("line 1 steps 0..2 done\nline 2 steps 2..3 done\n",
                "line 1 steps 0..1 done\nline 2 steps 1..2 done\nline 3 steps 2..3 done\n"):
        "not a report of `serve`: an open of demux0 by c1 doesn't look for the first free node",
    SKEWED.removesuffix("end\n"): "`end` or `fault read`, found the end of the text",
    SKEWED.replace("steps 1..2", "steps 1..3"): "aren't those of a report",
}  # fmt: skip
# Packets that aren't those of a report of four of PID 256, and what is told.
FOREIGN = {
    NULLS + NULLS[:1] + b"\x1f\xff\x10"
    + bytes(184): "no recording of this report: it has 2 packets of PID 256 (0x100) in 4, the report 4",
    NULLS[:1] + b"\x01\1\x10" + bytes(184): "no recording of this report: it has 0 packets of PID 256 (0x100) in 4, the report 4",
    b"a text": "no recording of this report: it has no packet",
}


@pytest.fixture
def session(tool, tmp_path):
    """The word over a report and a stream."""

    def over(report, stream, *words):
        (tmp_path / "report").write_bytes(report.encode("latin-1"))
        (tmp_path / "stream").write_bytes(stream)
        return tool("session", *words, str(tmp_path / "report"), str(tmp_path / "stream"))

    return over


def plain(report):
    """A report without its moments."""
    return re.sub(r" at=\d+", "", report)


# A report, its stream, the batch, what its script is or begins with, and what is told of calls that come earlier than the report
# has them.
SCRIPTS = {
    "served.report": (SERVED, STREAM, 64, SCANNED, ""), "two clients": (TWO, NULLS, 1, TWO_SCRIPT + "stream\n", ""),
    "a tap": (TAPPED, NULLS, 1, TAPPED_SCRIPT + "stream\n", ""),
    "a batch between two calls": (SKEWED, NULLS, 1, SKEWED_SCRIPT + "stream\n", " 1 passes"),
    "searches that overtake each other": (CROSSED, NULLS, 1, CROSSED_SCRIPT + "stream\n", " 1 calls"),
}  # fmt: skip


@pytest.mark.parametrize("report, stream, batch, begins, told", SCRIPTS.values(), ids=SCRIPTS)
def test_script(session, report, stream, batch, begins, told):
    ran = session(report, stream)
    assert ran.status == 0 and ran.out.startswith(begins)
    assert told in ran.err if told else ran.err == ""
    again = session(report, stream, "--report").data
    assert judge.judge(ran.data, batch, again) is None
    # (what comes earlier in the script is answered as if it had)
    assert told or plain(second.report(ran.data, batch)) == plain(again.decode())
    count = int(re.search(r"packets=(\d+)", report)[1])
    assert ran.data.partition(b"stream\n")[2] == (stream * (count * 188 // len(stream) + 1))[: count * 188]


@pytest.mark.parametrize("stream", [
    pytest.param((NULLS + bytes(16)) * 6, id="packets of 204 bytes"), pytest.param((bytes(4) + NULLS) * 6, id="time stamps"),
    pytest.param(b"\1" + NULLS * 6, id="bytes in front"),
])  # fmt: skip
def test_packets(session, stream):
    assert session(FOUR, stream).data.partition(b"stream\n")[2] == NULLS * 4


@pytest.mark.parametrize("stream, wanted", FOREIGN.items())
def test_another_recording(session, stream, wanted):
    ran = session(FOUR, stream)
    assert (ran.status, ran.out) == (1, "") and wanted in ran.err


@pytest.mark.parametrize("report, wanted", SPOILED.items())
def test_no_report_of_serve(session, report, wanted):
    ran = session(report, NULLS)
    assert (ran.status, ran.out) == (1, "") and wanted in ran.err
