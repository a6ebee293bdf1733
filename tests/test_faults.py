"""The proved program where its ends fail, take less than is offered, or memory is refused; where it is asked wrongly; and against
the machine's clock, also as a client that waits.

Each case says which exit status, which line on standard error and which output the rules of docs/BEHAVIOUR.md give. A small
library in C, faults.c, refuses allocations one after another, and has calls interrupted, take few bytes or fail: each of these
runs is counted.
"""
from __future__ import annotations

import fcntl
import os
import socket
import statistics
import subprocess
import sys
import termios
import threading
import time
import tty

import pytest
from conftest import ENDS
from dvbemu import Data, Passed, Report, TimedOut
from dvbemu.stream.packets import NULL_PACKET, packet
from oracle import judge
from samples import BUILT, PROGRAM, ROOT, asked_of, changed_reports, example

pytestmark = pytest.mark.usefixtures("program")
ONE_TAP, WRONG = example("rules/one-tap"), next(case for case in changed_reports() if case[0] == "reports/polled-data")
RIGHT = asked_of(ONE_TAP.report, ONE_TAP.session)
# Two inputs of `check`, with the answers.
ASKED = {b"yes\n": RIGHT, b"no\n": asked_of(*WRONG[1:])}
# An input of each command.
GIVEN = {"steps": ONE_TAP.session, "run": ONE_TAP.session, "check": RIGHT}
READ, WRITE, MEMORY = (5, "dvbemu: read failed"), (6, "dvbemu: write failed"), (7, "dvbemu: out of memory")
# The most bytes of a read and of a write, and what stands behind as many in a message that is read.
PIECE, BEHIND = 65536, b"#" * 100
# So many reads of PIECE bytes have room for 312 MiB together, and find a section of eight bytes each; and the memory that they
# may take.
READS, MOST_MEMORY, SECTION = 5000, 128 << 20, bytes.fromhex("4270050000000000")
# All that a program allocates is written to, so that it takes memory: by the C library, or by the sanitizer, which keeps little
# of what is given back.
FILLED = {"MALLOC_PERTURB_": "165", "ASAN_OPTIONS": f"max_malloc_fill_size={PIECE}:quarantine_size_mb=1"}


def ran(words, program=PROGRAM, **more):
    """A run of the program."""
    return subprocess.run([program, *words], **{"stdout": subprocess.PIPE, "stderr": subprocess.PIPE, "check": False, **more})


def told(child):
    """The exit status, and the first line on standard error."""
    return child.returncode, child.stderr.decode().split("\n")[0]


@pytest.fixture(scope="module")
def large(program):
    """A large session."""
    return subprocess.run([PROGRAM, "make", "7"], stdout=subprocess.PIPE, check=True).stdout


# ------ ends


@pytest.mark.parametrize("command", GIVEN)
@pytest.mark.parametrize("end, wanted", [(">/dev/full", WRITE), (">&-", WRITE), ("<&-", READ), (f"<{ROOT}", READ)])
def test_end_that_fails(command, end, wanted):
    """Standard input and output that are closed, full, or no file of bytes."""
    child = ran(["-c", f'exec "$0" "$@" {end}', PROGRAM, command], "sh", input=GIVEN[command])
    assert (told(child), child.stdout) == (wanted, b"")


@pytest.mark.parametrize("command, taken", [("steps", 10), ("run", 10), ("check", 0)])
def test_reader_that_goes(large, command, taken):
    """A reader that takes some bytes and goes."""
    given = RIGHT if command == "check" else large
    with subprocess.Popen([PROGRAM, command], stdin=subprocess.PIPE, stdout=subprocess.PIPE, stderr=subprocess.PIPE) as child:
        feeding = threading.Thread(target=lambda: (child.stdin.write(given), child.stdin.close()))
        feeding.start()
        os.read(child.stdout.fileno(), taken)
        child.stdout.close()
        line = child.stderr.read()
        feeding.join()
        assert (child.wait(), line) == (6, b"dvbemu: write failed\n")


@pytest.mark.parametrize("words, given, output", [(ONE_TAP.words, ONE_TAP.session, ONE_TAP.report), (["check"], RIGHT, b"yes\n")])
def test_little_at_a_time(words, given, output):
    """Input that comes in pieces of few bytes, and output that is taken in pieces of few."""
    with subprocess.Popen([PROGRAM, *words], stdin=subprocess.PIPE, stdout=subprocess.PIPE, stderr=subprocess.PIPE) as child:

        def feed():
            for place in range(0, len(given), 7):
                os.write(child.stdin.fileno(), given[place : place + 7])
            child.stdin.close()

        feeding = threading.Thread(target=feed)
        feeding.start()
        taken = b"".join(iter(lambda: os.read(child.stdout.fileno(), 11), b""))
        feeding.join()
        assert (child.stderr.read(), child.wait(), taken) == (b"", 0, output)


def test_piece_by_piece(large):
    """Reads and writes of at most 65,536 bytes, between sockets that keep messages apart: what a read doesn't ask for of a
    message is lost, so it asks for no less and no more, and each write is a message."""
    (given, read), (written, taken) = (socket.socketpair(socket.AF_UNIX, socket.SOCK_SEQPACKET) for _ in range(2))
    with subprocess.Popen([PROGRAM, "steps"], stdin=read, stdout=written, stderr=subprocess.PIPE) as child:
        read.close()
        written.close()

        def feed():
            with given:
                for place in range(0, len(large), PIECE):
                    piece = large[place : place + PIECE]
                    given.send(piece + BEHIND * (len(piece) == PIECE))

        feeding = threading.Thread(target=feed)
        feeding.start()
        with taken:
            pieces = list(iter(lambda: taken.recv(2 * PIECE), b""))
        feeding.join()
        assert (child.stderr.read(), child.wait()) == (b"", 0)
    assert b"".join(pieces) == ran(["steps"], input=large).stdout and max(map(len, pieces)) == PIECE


@pytest.mark.parametrize("command", GIVEN)
def test_small_memory(large, command):
    """An address space of 4 MB."""
    given = asked_of(ran(["steps"], input=large).stdout, large) if command == "check" else large
    child = ran(["-c", 'ulimit -v 4096 && exec "$0" "$@"', BUILT, command], "sh", input=given)
    assert (told(child), child.stdout) == (MEMORY, b"")


# Starts a program from a small process, since what starts it counts as its memory, and writes its status and the KiB that it
# took.
STARTER = "import os, sys; _, status, used = os.wait4(os.spawnv(os.P_NOWAIT, sys.argv[1], sys.argv[1:]), 0); " \
    "print(os.waitstatus_to_exitcode(status), used.ru_maxrss, file=sys.stderr)"


def test_room_is_given_back(tmp_path):
    """Of a read the bytes that it gave are kept, and not the room that it had for them."""
    packets = (packet(256, number, b"\0" + SECTION, True) for number in range(READS))
    script = b"c0 open n0\nc0 size n0 65536\nc0 section n0 256 0 4\nfeed %d\n%sstream\n" % (READS, READS * b"c0 read n0 65536\n")
    (tmp_path / "given").write_bytes(script + b"".join(packets))
    with open(tmp_path / "given", "rb") as given, open(tmp_path / "told", "wb") as out:
        words = [sys.executable, "-S", "-c", STARTER, BUILT, "steps"]
        child = subprocess.run(words, stdin=given, stdout=out, stderr=subprocess.PIPE, check=False, env={**os.environ, **FILLED})
    status, most = map(int, child.stderr.split())
    assert (tmp_path / "told").read_bytes().count(b" = data " + SECTION.hex().encode() + b"\n") == READS
    assert status == 0 and most << 10 <= MOST_MEMORY


@pytest.mark.parametrize("words, given, output", [
    (ONE_TAP.words, ONE_TAP.session, ONE_TAP.report.removesuffix(b"end\n") + b"fault read\n"), (["check"], RIGHT, b""),
])  # fmt: skip
def test_terminal_that_goes(words, given, output):
    """Its reads give the bytes that were written to it, and then fail: the stream ends where it stands, and so does a session
    that is checked."""
    terminal, line = os.openpty()
    tty.setraw(line)
    os.write(line, given)
    os.close(line)
    child = ran(words, BUILT, stdin=terminal)
    os.close(terminal)
    assert (told(child), child.stdout) == (READ, output)


# ------ the clock

# A session whose client waits for a section with a timeout of 200 milliseconds.
TIMED = b"c0 open n0\nc0 section n0 0 200 0\nc0 start n0\nc0 readw n0 4096\nstream\n"
# How many packets come, each so many seconds behind the one before. A rest lasts a second where nobody ends it, so half of the
# reads that nothing wakes come about half a second late; and a read is a pause late whose packet passes at a moment before it
# came. The bound is in milliseconds.
COUNT, PAUSE, LATE = 10, 0.4, 250
# For how many seconds nothing comes, and the most processor time that a client may take that waits so long.
IDLE, MOST = 3, 0.15
TAPPED = b"c0 open n1\nc0 pes n1 256 frontend tsdemux_tap 20 4\n"
# Nodes of which none is the first: a client that rests at another node than its own doesn't rest.
WAITING = {"a demux node": TAPPED + b"c0 readw n1 188\nstream\n", "the dvr node": b"c0 open dvr\nc0 readw dvr 188\nstream\n"}


def take(child, piece):
    """Writes a piece to a program and waits until it is taken. Gives the last time at which it wasn't, and one at which it
    was."""
    left = bytearray(4)
    untaken = at = time.monotonic()
    last = at + ENDS
    child.stdin.write(piece)
    while at < last:
        at = time.monotonic()
        fcntl.ioctl(child.stdin, termios.FIONREAD, left)
        if not any(left):
            break
        untaken = at
        time.sleep(0.001)
    return untaken, time.monotonic()


def test_timeout():
    """A filter with a timeout of 200 milliseconds, over a pipe that is held open and gives a packet now and then. Its read is
    told so, and the next packet but one isn't taken before 200 milliseconds are over: till then the next had not passed."""
    with subprocess.Popen([PROGRAM, "run", "--batch", "1"], stdin=subprocess.PIPE, stdout=subprocess.PIPE, bufsize=0) as child:
        begun, _ = take(child, TIMED)
        taken = []
        while not taken or taken[-1] < begun + 2:
            taken.append(take(child, NULL_PACKET)[1])
            time.sleep(0.01)
        child.stdin.close()
        report = Report.parse(child.stdout.read())
    taken.append(time.monotonic())
    entry = next(entry for entry in report.node("n0") if isinstance(entry.reply, TimedOut))
    assert entry.reply.timeout == 200 and 200 <= entry.reply.now - entry.reply.started < 2000
    passed = sum(isinstance(before.reply, Passed) for before in report.node("n0").entries[: entry.place])
    assert taken[min(passed + 1, len(taken) - 1)] - begun > 0.199


def run_slowly(session, packets, pause, behind):
    """A run whose packets come one by one and whose input ends some seconds behind them: its report, and the processor time that
    it took. One that doesn't end is killed."""
    with subprocess.Popen([BUILT, "run", "--batch", "1"], stdin=subprocess.PIPE, stdout=subprocess.PIPE, bufsize=0) as child:
        child.stdin.write(session)
        for one in packets:
            time.sleep(pause)
            child.stdin.write(one)
        time.sleep(behind)
        before = os.times()
        try:
            report = child.communicate(timeout=ENDS)[0]
        finally:
            child.kill()
    after = os.times()
    return report, after.children_user + after.children_system - before.children_user - before.children_system


def test_woken():
    """Each packet that passes after the filter's start is read soon after its pass: the median time counts, since a loaded
    machine makes some of them long. There a packet or two may pass before the client has set its filter, and nobody reads
    those."""
    packets = [packet(256, place) for place in range(COUNT)]
    report, _ = run_slowly(TAPPED + COUNT * b"c0 readw n1 188\n" + b"stream\n", packets, PAUSE, 0)
    entries = Report.parse(report).node("n1").entries
    start = next(at for at, entry in enumerate(entries) if entry.call.name == "pes")
    passed = [entry.call.arguments["at"] for entry in entries if entry.call.name == "pass"]
    selected = [entry.call.arguments["at"] for entry in entries[start:] if entry.call.name == "pass"]
    given = [entry.call.arguments["at"] for entry in entries if isinstance(entry.reply, Data)]
    assert len(passed) == COUNT and len(given) == len(selected) > COUNT // 2
    assert 0 <= statistics.median(read - pass_ for pass_, read in zip(selected, given)) < LATE


@pytest.mark.parametrize("node", WAITING)
def test_rests(node):
    """While nothing comes a client that waits does nothing."""
    report, used = run_slowly(WAITING[node], [], 0, IDLE)
    assert report.endswith(b"\nend\n") and used < MOST


# ------ wrong input

NUMBER = "in decimal digits without leading zeros"
COMMANDS = "open, close, section, pes, add, remove, start, stop, size, read, readw, drain, poll, ioctl or write"
WRITTEN = "HEX: 1 to 12,032 bytes, two hexadecimal digits each, in lower case"
MANY, PACKET = 1 << 20, b"\x47" + bytes(187)
STREAM = "expected that line at the end of the script, and the packets behind it"
IN_FRONT = "the input begins with a packet: is there a script in front? cat SCRIPT STREAM | dvbemu steps"
BYTES = (b"#\nc0 section n0 0 0 0 0=0x02/ff/00\nstream\n", "2: bytes", "word 7 is '0=0x02/ff/00'; expected I=FF/MM/DD, "
         "two hexadecimal digits each, places rising (I from 0 to 15, digits in lower case)")  # fmt: skip
# Inputs with a fault, its line and kind, and the line behind that.
FAULTY = [
    (b"c8 open n0\nstream\n", "1: client", "word 1 is 'c8'; expected feed, tick, a client c0 to c7, or the line stream"),
    (b"#\nc0 strat n0\nstream\n", "2: command", f"word 2 is 'strat'; expected a command: {COMMANDS}"),
    (b"c0 open n32\nstream\n", "1: target", "word 3 is 'n32'; expected a target: n0 to n31, h0 to h31, or dvr"),
    (b"c0 add n0 0x1000\nstream\n", "1: number",
     f"word 4 is '0x1000'; expected PID, 0 to 65535 {NUMBER} (decimal: 0x1000 is 4096)"),
    (b"c0 pes n0 0 front tap 0 0\nstream\n", "1: name", "word 5 is 'front'; expected INPUT: frontend or dvr"),
    BYTES,
    (b"c0 size n0\nstream\n", "1: count",
     f"the line ends in front of word 4; expected N, 0 to 4294967295 {NUMBER}; the line is cK size T N"),
    (b"c0 poll n0 1\nstream\n", "1: count", "word 4 is '1'; expected the end of the line; the line is cK poll T"),
    (b"c0 write n0 47\nstream\n", "1: target", "word 3 is 'n0'; expected dvr, to which a client writes"),
    (b"c0 write dvr 470\nstream\n", "1: bytes", f"word 4 is '470'; expected {WRITTEN}"),
    (b"c0 write dvr " + 12_033 * b"47" + b"\nstream\n", "1: bytes", f"word 4 is '{20 * '47'}...'; expected {WRITTEN}"),
    (b"c0 write dvr\nstream\n", "1: count",
     f"the line ends in front of word 4; expected {WRITTEN}; the line is cK write dvr HEX"),
    (b"c0 write dvr 47 01\nstream\n", "1: count", "word 5 is '01'; expected the end of the line; the line is cK write dvr HEX"),
    (b"#\n", "2: nostream", f"no line is 'stream'; {STREAM}"), (100 * PACKET, "1: nostream", IN_FRONT),
    (PACKET + b"\x47\n" + bytes(186), "1: client", IN_FRONT),
    (2 * MANY * b"#\n", f"{MANY // 2 + 1}: nostream", f"no line in the first 1048576 bytes is 'stream'; {STREAM}"),
]  # fmt: skip
# Inputs of `check` without a report in front.
NO_NUMBER = [
    b"", b"report 0", b"report\n", b"report \n", b"report 00\nstream\n", b"report -1\nstream\n", b"report +1\nstream\n",
    b"report 1 \nstream\n", b"report 0\r\nstream\n", b" report 0\nstream\n", b"Report 0\nstream\n", b"report  0\nstream\n",
    b"report 0x10\nstream\n", b"report 4294967296\nstream\n", b"report 18446744073709551616\nstream\n",
    b"report " + 33 * b"0" + b"\nstream\n", b"\nreport 0\nstream\n", b"stream\n",
    b"dvbemu 1\npackets=0 skipped=0 rest=0\nend\nstream\n",
]  # fmt: skip
NO_STREAM = [b"report 5\nabc", b"report 1\n", b"report 4294967295\nabc"]
# Sessions with a fault, and its line and kind.
NO_SESSIONS = [(b"", "1: nostream"), (b"#\n", "2: nostream"), (b"stream", "1: nostream"),
               (b"#\nc0 strat n0\nstream\n", "2: command")]  # fmt: skip
# Texts that are no report, each with the line that shows it: no line, odd bytes, lines of a megabyte.
NO_TEXTS = [
    (b"", 1), (b"\n", 1), (bytes(1000), 1), (1000 * b"\xff", 1), (MANY * b"1", 1), (MANY * b"1" + b"\n", 1),
    (b"dvbemu 1\n" + MANY * b"p" + b"\nend\n", 2),
]  # fmt: skip


@pytest.mark.parametrize("words", [
    "", "steps --", "run --batch 65", "make 01", "--help", "check 7", "check --", "check --batch 64", "check check", "check -h",
    "steps check",
])  # fmt: skip
def test_wrong_words(words):
    child = ran(words.split(), BUILT, input=b"report 0\nstream\n")
    assert (told(child), child.stdout) == ((2, "dvbemu: usage"), b"")


@pytest.mark.parametrize("command", ["steps", "run"])
@pytest.mark.parametrize("given, line, more", FAULTY)
def test_faulty_script(command, given, line, more):
    child = ran([command], input=given)
    assert (child.returncode, child.stdout, child.stderr.decode()) == (3, b"", f"dvbemu: script line {line}\n  {more}\n")


@pytest.mark.parametrize("given, fault", [
    *((given, "0: number") for given in NO_NUMBER), *((given, "0: nostream") for given in NO_STREAM),
    *((asked_of(report, session), fault)
      for session, fault in NO_SESSIONS for report in (b"", b"stream\n", b"\n" * 100, ONE_TAP.report)),
])  # fmt: skip
def test_check_that_asks_nothing(given, fault):
    """Input without a report in front, and sessions with a fault behind a report of any bytes."""
    child = ran(["check"], input=given)
    assert (told(child), child.stdout) == ((3, f"dvbemu: script line {fault}"), b"")


@pytest.mark.parametrize("text, line", NO_TEXTS)
def test_no_text_of_a_report(text, line):
    child = ran(["check"], input=asked_of(text, ONE_TAP.session))
    assert (told(child), child.stdout) == ((0, f"dvbemu: report line {line}: text"), b"no\n")


# ------ faults.c

REFUSED = "rules/one-tap", "rules/overflow", "rules/timeout", "rules/played", "programs/two-clients"
# Reads and writes of so few bytes that there are many of them.
FEW_READ, FEW_WRITTEN = "50", "1"


@pytest.fixture(scope="module")
def library(compiled):
    """The environment in which the library is preloaded."""
    return {**os.environ, "LD_PRELOAD": compiled("tests/faults.c", "-shared", "-fPIC", "-O1", "-Wall", "-Wextra")}


@pytest.fixture(params=[(name, word) for name in REFUSED for word in ("as it says", "run", "check")], ids=" ".join)
def attempt(request):
    """The words of an example, of a run of its session by threads, or of a check of its report, with the input and a test of what
    is written: on one thread the report is the example's, by threads its order is open, so it is judged."""
    name, word = request.param
    case = example(name)
    if word == "check":
        return ["check"], asked_of(case.report, case.session), lambda written: written == b"yes\n"
    if word == "run":
        return ["run", "--batch", "1"], case.session, lambda written: judge.judge(case.session, 1, written) is None
    return case.words, case.session, lambda written: written == case.report


def run_told(words, given, env):
    """A run, and whether the library told on descriptor 9 that it did what it is for."""
    was, tell = os.pipe()
    with open(was, "rb") as end:
        child = ran(words, BUILT, input=given, env=env, preexec_fn=lambda: os.dup2(tell, 9), pass_fds=(9,), timeout=ENDS)
        os.close(tell)
        return child, end.read(1) == b"r"


def run_each(words, given, name, env):
    """Runs with the numbers from 1 on in the environment variable of this name, up to the first in which nothing was told."""
    number, was = 0, True
    while was:
        number += 1
        child, was = run_told(words, given, {**env, name: str(number)})
        yield child


def refused_each(words, given, env):
    """The same where allocations are refused, of which there is one at least."""
    children = list(run_each(words, given, "REFUSE", env))
    if len(children) == 1 and b"__asan_init" in BUILT.read_bytes():
        pytest.skip("the sanitizer of an unproved program allocates by itself, so no allocation is refused")
    assert len(children) > 1
    return children


def test_each_allocation_is_refused(attempt, library, tried):
    """Want of memory and nothing written, or the whole report."""
    words, given, is_report = attempt
    for child in tried(refused_each(words, given, library)):
        if child.returncode == 0:
            assert child.stderr == b"" and is_report(child.stdout)
        else:
            assert (told(child), child.stdout) == (MEMORY, b"")


# Sessions for `run`: of examples, and some whose clients read with a wait, which would never end if the stream came behind them.
UNTHREADED = {**{name: example(name).session for name in REFUSED}, **{
    node: session + b"".join(packet(256, place) for place in range(COUNT)) for node, session in WAITING.items()}}  # fmt: skip


@pytest.mark.parametrize("name", UNTHREADED)
def test_no_thread_can_be_made(library, name):
    """The clients come behind the stream: on each node the feeder's entries stand in front of theirs, and the report is right."""
    child, was = run_told(["run", "--batch", "1"], UNTHREADED[name], {**library, "NO_THREAD": "1"})
    assert (child.returncode, child.stderr, was) == (0, b"", True)
    assert judge.judge(UNTHREADED[name], 1, child.stdout) is None
    assert ran(["check"], BUILT, input=asked_of(child.stdout, UNTHREADED[name])).stdout == b"yes\n"
    for node in Report.parse(child.stdout).nodes:
        callers = [entry.who for entry in node]
        assert callers == sorted(callers, key=lambda who: who != "feed"), node.name


@pytest.mark.parametrize("more", [{"INTERRUPT": "1"}, {"SHORTEN": "1"}, {"SHORTEN": "1000"}])
def test_calls_that_are_interrupted_or_short(attempt, library, more):
    """A signal interrupts every other read and write: each is made again. Each takes few bytes of those that are offered. The
    report is the same."""
    words, given, is_report = attempt
    child = ran(words, BUILT, input=given, env={**library, **more})
    assert (child.returncode, child.stderr) == (0, b"") and is_report(child.stdout)


def test_each_allocation_behind_a_fault_is_refused(library, tried):
    """Want of memory, or the fault's line, and the line behind it or none."""
    script, line, more = BYTES
    for child in tried(refused_each(["steps"], script, library)):
        lines = [f"dvbemu: script line {line}", f"  {more}"]
        assert (child.returncode, child.stderr.decode().splitlines()) in [(3, lines), (3, lines[:1]), (7, [MEMORY[1]])]
        assert child.stdout == b""


@pytest.mark.parametrize("command", GIVEN)
def test_no_call_is_long(large, library, command):
    """No read asks for more than 65,536 bytes, and no write has more: where longer ones would fail, none does."""
    given = asked_of(ran(["steps"], input=large).stdout, large) if command == "check" else large
    child, was = run_told([command], given, {**library, "FAIL_ABOVE": "65536"})
    assert (child.returncode, was) == (0, False)


@pytest.mark.parametrize("output, given", ASKED.items())
def test_each_call_of_check_fails(library, tried, output, given):
    """Each read, and each write: nothing is written, or what the writes before took."""
    *failed, last = tried(run_each(["check"], given, "FAIL_READ", {**library, "SHORTEN": FEW_READ}))
    assert {(told(child), child.stdout) for child in failed} == {(READ, b"")}
    assert len(failed) >= len(given) // int(FEW_READ) and last.stdout == output
    *failed, last = tried(run_each(["check"], given, "FAIL_WRITE", {**library, "SHORTEN": FEW_WRITTEN}))
    assert [(told(child), child.stdout) for child in failed] == [(WRITE, output[:number]) for number in range(len(output))]


@pytest.mark.parametrize("output, given", ASKED.items())
def test_each_allocation_of_check_is_refused(library, tried, output, given):
    """Want of memory and nothing written, or the answer, behind `no` without what was expected where there is no memory to write
    it."""
    whole = ran(["check"], BUILT, input=given).stderr
    for child in tried(refused_each(["check"], given, library)):
        if child.returncode == 0:
            assert child.stdout == output and child.stderr in (whole, whole.partition(b"expected ")[0])
        else:
            assert (told(child), child.stdout) == (MEMORY, b"")
