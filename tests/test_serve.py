"""Own calls (preload/cases) on a served adapter, of each of which a kernel's answer is known: in processes of their own, in one,
several at once, waiting and killed; calls that are written into a folder, and those that aren't kept; what lasts and what ends: a
stream that is played once, files that can't be written or were there before, and many calls of a seat."""
from __future__ import annotations

import os
import shlex
import signal
import subprocess

import pytest
from conftest import EMPTY, PROGRAM, comes
from dvbemu import Report
from dvbemu.build import built_server
from dvbemu.stream.packets import NULL_PACKET
from serving import BAD, RATE, SERVE, SLOW, at_once, packets_of, passes, ran

# Many packets a second, and how often is waited.
FAST, TURNS = "50000", "1500"
# How long programs wait for nothing, in seconds; which part of a processor eight of them may take; and how many runs are
# measured, at least and at most.
WAIT, MOST_LOAD, RUNS = 5, 0.02, (2, 6)
# The cases of which the report is looked at.
TOLD = "sections", "doubled", "by_edge", "what_one_program_has_is_free", "killed_with_its_parents_device"
# The packets in front of the last section of a stream, which take some seconds, and those behind it: the last batch isn't whole.
AHEAD, BEHIND = 6000, 10
# How many calls a seat makes, and the blocks of 512 or 1024 bytes that a file may have where a folder is full.
MANY, BLOCKS = 20_000, 8
RINGS = """dd if=/dev/dvb/adapter0/demux0 iflag=nonblock count=1 2> read; test -s "$DVBEMU_DIR/bell.0" && echo early
for i in $(seq 100); do test -s "$DVBEMU_DIR/bell.0" && exec echo rung; sleep 0.1; done"""
OPENS = "exec 3< /dev/dvb/adapter0/demux0; echo opened"


def test_one_process(served):
    served.passed(served.cases, "+alone")
    served.is_right()
    lines = served.report.read_text().splitlines()
    assert [line for line in lines if line.startswith("client ")] == [f"client {seat}" for seat in range(8)]


def test_nothing_is_kept(served):
    assert "dvbemu 1" not in served.passed(served.cases, "+alone", keep="none")


def test_cases(served):
    served.passed(served.cases, keep="none", rate=SLOW)


def test_report_of_cases(served):
    served.passed("env", "ROUNDS=50", served.cases, *TOLD, rate=SLOW)
    served.is_right()


def test_ten_processes_on_eight_seats(served):
    """Those that find none are told so, and no other is harmed."""
    out, status = served.script(at_once(10))
    assert status == 0 and passes(out) >= 8, out
    served.is_right()


def test_turns_at_a_node(served):
    """A program that waits on a node which another one has just closed is told of its packets."""
    served.passed(served.cases, "+turns", TURNS, keep="none", rate=FAST)


def test_killed(served):
    """A program that is killed holds nothing: on one seat the next one finds all as it was."""
    served.by_script('"$0" +wait 100 & sleep 1; kill -9 $!; wait; exec "$0" +alone', seats="1")
    served.is_right()


def test_left(served):
    """What the command leaves running is ended, also where it is stopped, and keeps no report back."""
    assert served.script('"$0" +wait 100 & sleep 0.5; kill -STOP $!; exit 3')[1] == 3
    served.is_right()


@pytest.mark.parametrize("number, tell", [(signal.SIGTERM, os.kill), (signal.SIGINT, os.killpg)])
def test_told_to_end(served, number, tell):
    """Where dvbemu-serve is told to end, or all that belongs to a terminal, its command is, and the report comes."""
    words = [SERVE, "--packets", RATE, "--report", served.report, served.stream, "--", "sh", "-c",
             'touch there; exec "$0" +wait 100']
    with subprocess.Popen([*words, served.cases], start_new_session=True, cwd=served.folder) as child:
        assert comes(served.path("there").exists)
        tell(child.pid, number)
        assert child.wait() == 128 + number
    served.is_right()


def processor_time(served, waits):
    """That of a run of the wrapper in which eight programs wait for so many seconds, with all that it starts."""
    script = at_once(8, '"$0" +wait $1') + "; exec sleep $2"
    words = [SERVE, "--packets", SLOW, "--report", served.report, served.stream, "--", "sh", "-c", script, served.cases]
    words += [str(waits), str(WAIT - waits)]
    with open(served.path("written"), "wb") as out:
        child = subprocess.Popen(words, stdin=subprocess.DEVNULL, stdout=out, stderr=out, cwd=served.folder)
        _, status, used = os.wait4(child.pid, 0)
    child.returncode = os.waitstatus_to_exitcode(status)
    out = served.read("written").decode()
    assert (child.returncode, passes(out)) == (0, 8), out
    assert served.calls_told("poll") <= 16, "who waits makes no call"
    return used.ru_utime + used.ru_stime


@pytest.mark.alone
def test_who_waits_takes_no_time(served):
    """Eight programs that wait for what never comes make a call each, and take next to no time: of that of a run in which they
    wait, as long, the time goes off of one in which they have come and gone. What else the machine does makes a run's time more
    and none less, so the least counts."""
    idle, busy, more = [], [], WAIT
    while len(busy) < RUNS[0] or (len(busy) < RUNS[1] and more >= MOST_LOAD * WAIT):
        idle.append(processor_time(served, 0))
        busy.append(processor_time(served, WAIT))
        more = min(busy) - min(idle)
    assert more < MOST_LOAD * WAIT


def test_calls_in_a_folder(served):
    """Calls that are written into a folder make a report; a folder that isn't empty isn't taken."""
    served.by_script(at_once(3), count=3, keep="kept")
    merged = subprocess.run([PROGRAM, "merge", served.path("kept")], capture_output=True, check=False)
    assert merged.returncode == 0, merged.stderr
    served.put("report", merged.stdout)
    served.is_right()
    out, status = served.run("true", keep="kept")
    assert status == 1 and "isn't empty" in out


# ------ what ends


def test_once(served):
    """Who waits for what the last packets of a stream bring is told, though they make no whole batch."""
    pat = next(packet for packet in packets_of(served.stream.read_bytes()) if packet[1:3] == b"\x40\0")
    served.put("once", AHEAD * NULL_PACKET + pat + BEHIND * NULL_PACKET)
    served.passed(served.cases, "+last", air=["--once", "--packets", RATE, "once"])
    assert f"\npackets={AHEAD + 1 + BEHIND} skipped=0 rest=0\n" in served.report.read_text()
    served.is_right(stream=served.path("once"))


def test_last_bell(served):
    """The last bells ring behind the stream's end: here that of a node which has no filter, so that no packet rings it."""
    served.put("nulls", AHEAD * NULL_PACKET)
    assert served.run("sh", "-c", RINGS, air=["--once", "--packets", RATE, "nulls"]) == ("rung\n", 0)


def test_full(served):
    """Where a file can't be written the program is served on, and that is told at the end; no report is made of such a folder."""
    server = served.put("a server", f'#!/bin/sh\nulimit -f {BLOCKS}\nexec {shlex.join(built_server())} "$@"\n')
    os.chmod(server, 0o700)
    out = served.passed(served.cases, "+alone", status=1, keep="full", before=["env", f"DVBEMU_SERVER={shlex.quote(server)}"])
    assert "dvb_serve: what was called can't be written\n" in out
    assert BLOCKS * 512 <= max(path.stat().st_size for path in served.path("full").iterdir()) <= BLOCKS * 1024
    merged = ran([PROGRAM, "merge", served.path("full")])
    assert merged.returncode == 1 and "has no file `head`" in merged.stdout


def test_no_thread_can_be_made(served, compiled):
    """Where the server can make no thread, programs are served behind the stream's end, and the report is right."""
    library = compiled("tests/faults.c", "-shared", "-fPIC")
    server = served.put("server", f'#!/bin/sh\nNO_THREAD=1 LD_PRELOAD={library} exec {shlex.join(built_server())} "$@" 9>told\n')
    os.chmod(server, 0o700)
    words = ["--once", "--packets", RATE, "--report", served.report, served.stream]
    out, status = served.call(words, ["sh", "-c", OPENS], ["env", f"DVBEMU_SERVER={shlex.quote(server)}"])
    assert (out, status, served.read("told")[:1]) == ("opened\n", 0, b"r")
    entries = Report.load(str(served.report)).node("n0").entries
    passed = sum(entry.who == "feed" for entry in entries)
    assert [entry.who for entry in entries] == ["feed"] * passed + ["c7", "c7"] and passed > 1
    served.is_right()


def test_full_played(served):
    """Where what is played can't be kept all else goes on, and that is told at the end, by the file's name."""
    words = ["--report", served.report, "--played", "/dev/full", "--packets", RATE, served.stream]
    out, status = served.call(words, [served.cases, "+beside"])
    assert (status, passes(out)) == (1, 1) and out.endswith("\ndvbemu serve: /dev/full: No space left on device\n"), out
    served.is_right()


def test_files_of_before(served):
    """Files that stood in a folder before, and are longer than what is written, are emptied. The server is called itself, for the
    wrapper takes no folder that isn't empty; it has no program, since its door is a file without a name."""
    names = "1.calls", "batches", "head"
    for folder in "adapter", "old":
        served.path(folder).mkdir()
    served.put("adapter/door", b"")
    for name in names:
        served.put(f"old/{name}", 1000 * b"0 64 0\n")
    done = ran([*built_server(), served.path("adapter"), "1", served.path("old")])
    assert done.returncode == 0, done.stdout
    assert [served.read(f"old/{name}") for name in names] == [b"", b"", EMPTY]


def test_many_calls(served):
    served.passed(served.cases, "+many", str(MANY))
    assert served.calls_told("stop") == MANY
    served.is_right()


def test_beside_a_stopped_one(served):
    """A program beside one that is stopped within a request, where nothing is kept."""
    script = '"$1" stopped > stopped & until grep -q there stopped; do sleep 0.1; done; exec "$0" +beside'
    served.by_script(script, BAD, keep="none", seats="2")
