"""`dvbemu merge` over folders that are made of reports: of served.report, and of one of two programs that was worked out by hand.
Each becomes the same report again, byte for byte; folders with a line too few, torn or wrong are told."""
import io
import os
import re

import pytest
from conftest import SERVED
from dvbemu import reports

DONE = "done drop=0..0 tap=keep"
PASS = "{} feed {} pass input=frontend first={} count={} at={} = passed\n"
END = "{} feed {} end = passed\n"
# Two programs: one finds the second node free, records by the dvr node, and finds none free in the end; the third seat has had
# none.
HEAD = "dvbemu 1\npackets=65 skipped=0 rest=0\npid 256 packets=65 breaks=0 duplicates=0 errors=0\n"
CLIENTS = (
    "client 0\nline 1 steps 0..1 done\nline 2 steps 1..2 done\n"
    "client 1\nline 1 steps 0..2 done\nline 2 steps 2..3 done\nline 3 steps 3..5 done\nline 4 steps 5..6 done\nline 5 steps 6..8 "
    "done\nclient 2\n"
)
NODE_0 = ("node 0\n0 c0 0 open = " + DONE + "\n1 c1 0 open = busy owner=c0\n" + PASS.format(2, 0, 0, 64, 100)
          + "3 c0 1 close = " + DONE + "\n" + PASS.format(4, 1, 64, 1, 145) + END.format(5, 2))  # fmt: skip
NODE_1 = ("node 1\n0 c1 1 open = " + DONE + "\n" + PASS.format(1, 0, 0, 64, 100)
          + "2 c1 3 pes pid=256 input=frontend output=ts_tap type=20 flags=4 at=101 = done drop=0..0 tap=attach:256\n"
          + PASS.format(3, 1, 64, 1, 145) + "4 c1 6 close = done drop=0..0 tap=detach\n" + END.format(5, 2))  # fmt: skip
NODE_DVR = ("node dvr\n" + PASS.format(0, 0, 0, 64, 100) + "1 c1 2 open = " + DONE + "\n2 c1 4 attach node=1 pids=256 = " + DONE
            + "\n"
            + PASS.format(3, 1, 64, 1, 145) + "4 c1 5 read 188 at=146 = data 4701\n5 c1 7 detach node=1 = " + DONE + "\n"
            + END.format(6, 2))  # fmt: skip
TWO = HEAD + CLIENTS + NODE_0 + NODE_1 + NODE_DVR + "end\n"
# A program that finds all demux nodes busy.
FULL = ("dvbemu 1\npackets=0 skipped=0 rest=0\nclient 0\nline 1 steps 0..32 EMFILE\nline 2 steps 32..33 done\n"
        + "".join(f"node {node}\n0 c0 {node} open = busy owner=c1\n"
                  + (f"1 c0 32 open = {DONE}\n" if node == 0 else "") + END.format(2 if node == 0 else 1, 0)
                  for node in range(32))
        + "fault read\n")  # fmt: skip


def parts_of(text):
    """The files that a server writes whose report this is: lines of a server are taken from the last seat on."""
    report = reports.read(io.StringIO(text))
    seats = {f"c{client}": f"{len(report.clients) - client}.calls" for client in range(len(report.clients))}
    calls = sorted((entry.step, seats[entry.who], f"{reports.node_text(node)} {entry.text()}\n")
                   for node, entries in report.nodes.items() for entry in entries if entry.who != "feed")  # fmt: skip
    batches = re.findall(r"^\d+ feed \d+ pass input=frontend first=(\d+) count=(\d+) at=(\d+) ", text, re.M)
    files = {name: "".join(line for _, seat, line in calls if seat == name) for name in seats.values()}
    head = "".join(reports.write(report, (), ()))
    return {**files, "batches": "".join(" ".join(batch) + "\n" for batch in dict.fromkeys(batches)), "head": head}


def changed(name, old, new):
    """The files of the two programs with a change."""
    files = parts_of(TWO)
    assert old in files[name], (name, old)
    return {**files, name: files[name].replace(old, new, 1)}


WRONG = [
    (changed("3.calls", "0 3 c0 1", "0 9 c0 1"), "node 0: no file has the call at place 5"),
    (changed("3.calls", "0 3 c0 1", "0 1 c0 1"), "node 0: two calls at place 1"),
    (changed("2.calls", "1 0 c1 1 open = " + DONE + "\n", ""), "line 2 isn't call 1"),
    (changed("2.calls", "detach node=1 = " + DONE + "\n", "detach node=1 = do"), "line 8 isn't call 7"),
    (changed("2.calls", "1 0 c1 1 open", "33 0 c1 1 open"), "line 2 isn't call 1"),
    (changed("2.calls", "c1 2 open", "c0 2 open"), "c0 has made the calls of "),
    (changed("batches", "0 64 100\n", ""), "line 1 isn't the batch behind 0 packets"),
    (changed("batches", "64 1 145\n", "64 1 14"), "line 2 isn't the batch behind 64 packets"),
    (changed("batches", "64 1 145\n", ""), "tells of 64 packets, and the stream had 65"),
    (changed("head", "end\n", ""), "isn't complete"),
    (changed("head", HEAD + "end\n", ""), "isn't complete"),
    ({"1.calls": ""}, "has no file `head`"),
]

NO_FILES = {"a FIFO": os.mkfifo, "a folder": os.mkdir, "a device": lambda path: os.symlink("/dev/null", path)}


def merged(room, files):
    """What the word makes of a folder of these files."""
    room.write({f"kept/{name}": text.encode() for name, text in files.items()})
    return room.call("merge kept")


@pytest.mark.parametrize("report", [SERVED.read_text(), TWO, FULL], ids=["served.report", "two programs", "no node is free"])
def test_report(room, report):
    assert merged(room, parts_of(report)) == (0, report.encode(), "")


@pytest.mark.parametrize("files, line", WRONG, ids=[line for _, line in WRONG])
def test_refused(room, files, line):
    status, _, told = merged(room, files)
    assert status == 1 and line in told


@pytest.mark.parametrize("make", NO_FILES.values(), ids=NO_FILES)
@pytest.mark.parametrize("name", ["head", "batches", "2.calls"])
def test_no_file(room, name, make):
    room.write({f"kept/{other}": text.encode() for other, text in parts_of(TWO).items()})
    (room.folder / "kept" / name).unlink()
    make(room.folder / "kept" / name)
    status, _, told = room.run("merge kept")
    assert (status, told) == (1, f"dvbemu merge: kept/{name}: it is no file\n")
