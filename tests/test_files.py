"""The words of `dvbemu` that take files: steps, run, check, bytes and test.

Over the sessions of examples/, cut into a script and a stream in each way, what comes of the files is what comes of the session.
A file that is broken is named, and nothing is written; a script's fault that `words` knows is told so. `bytes` writes
what a script of one read gives, and `test` tells what differs."""
import io
import os
import re
import subprocess

import pytest
from conftest import SERVED
from dvbemu import inputs
from dvbemu.stream.packets import NULL_PACKET
from samples import EXAMPLES, PROGRAM, asked_of, example, examples

PACKET = b"\x47\x01\x00\x10" + 184 * b"\xaa"
SCRIPT = b"c0 open n0\nc0 pes n0 256 frontend tsdemux_tap 20 4\nfeed 100\nc0 read n0 4096\n"
# A script's fault, the beginning of its stream, and the line behind what the program tells.
FAULTS = [
    (b"c0 add n0 0x1000\n", "`dvbemu words script` translates it to 'c0 add n0 4096'"),
    (b"c0 section n0 0 0 CHECK_CRC+KEEP\n", "`dvbemu words script` translates it to 'c0 section n0 0 0 257'"),
    (b"c0 section n0 0 0 5 version_number!=3\n", "`dvbemu words script` translates it to 'c0 section n0 0 0 5 3=06/3e/3e'"),
    (b"c0\topen\tn0\n", "`dvbemu words script` translates it to 'c0 open n0'"),
    (b"\xef\xbb\xbfc0 open n0\n", "`dvbemu words script` translates it to 'c0 open n0'"),
    (b"c0 open demux0\n", "`dvbemu words script` translates it to 'c0 open n0'"),
    (b"c0 open n0\r\n", "`dvbemu words script` translates it to 'c0 open n0'"),
    (b"Stream\n", "`dvbemu words script` translates it to 'stream'"),
    (b"c0 open n0\n" + PACKET + b"\n", "a packet begins with G, 0x47: is the line `stream` missing in front of it?"),
    (PACKET, "script: a script comes first, and then the streams: dvbemu WORD SCRIPT script"),
    (b"dvbemu 1\npackets=0 skipped=0 rest=0\nend\n",
     "script: this is a report, not a script: `dvbemu explain script` explains it"),
    (b"c0 section n0 0 5 0=00/ff/00\n", "the line is cK section T PID TIMEOUT FLAGS BYTE..; it seems that TIMEOUT is missing"),
    (b"c0 section n0 0 table_id=2\n",
     "the line is cK section T PID TIMEOUT FLAGS BYTE..; it seems that TIMEOUT and FLAGS are missing"),
    (b"sleep 1\n", "time passes by `tick 1000`, in milliseconds"),
    (b"sleep 0.25\n", "time passes by `tick 250`, in milliseconds"),
    (b"usleep 5\n", "time passes by `tick N`, in milliseconds"), (b"fed 3\n", "did you mean feed?"),
    (b"c0 opne n0\n", "did you mean open?"), (b"c0 strat n0\n", "did you mean start?"), (b"c0 xyz n0\n", None),
    (b"c0 add n0 0x1g\n", None), (b"c0 size n0\n", None), (b"c0 open n0 n1\n", None),
]  # fmt: skip

STREAMS = sorted(EXAMPLES.glob("*/*.ts"))
# The files of a session, and what stands on standard input: `session`, or a part of the stream, or of the script.
WAYS = [("session", ""), ("script one two", ""), ("bare one two", ""), ("whole one two", ""), ("cut one two", ""),
        ("-", "session"),
        ("script one -", "two"), ("- one two", "script")]  # fmt: skip


def write_parts(room, session):
    """Writes a session, and its script and its stream in pieces."""
    at = 0 if session.startswith(b"stream\n") else session.find(b"\nstream\n") + 1
    script, stream = session[:at], session[at + 7 :]
    room.write({"session": session, "script": script, "bare": script.removesuffix(b"\n"), "whole": script + b"stream\n",
                "cut": script + b"stream", "one": stream[:300], "two": stream[300:]})  # fmt: skip


@pytest.mark.parametrize("path", STREAMS, ids=[path.stem for path in STREAMS])
def test_recording_is_the_stream_of_its_session(path):
    assert path.with_suffix(".session").read_bytes().endswith(b"\nstream\n" + path.read_bytes())


@pytest.mark.parametrize("number, name", enumerate(examples(".session")))
def test_session(room, number, name):
    """A session in one file, in two, without its line `stream`, with streams in pieces, and by standard input: a way for each in
    turn."""
    case, (way, given) = example(name), WAYS[number % len(WAYS)]
    write_parts(room, case.session)
    assert room.run(f"{' '.join(case.words)} {way}", room.read(given) if given else b"") == (0, case.report, "")


@pytest.mark.parametrize("name", examples(".session")[::4])
def test_check_of_a_session(room, name):
    case = example(name)
    write_parts(room, case.session)
    room.write({"report": case.report})
    assert room.run(f"check --packet {case.packet} report script one two") == (0, b"yes\n", "")


# ------ check over files: the answer no has the status 1, and the line is told; over standard input it is that of the program


@pytest.fixture
def overflow(room):
    """A wrong report, and its session, as files too; and what is told of it."""
    case = example("rules/overflow")
    other = case.report.replace(b"item=2", b"item=1")
    room.write({"report": other, "session": case.session})
    return other, case.session, "dvbemu: report line 19: reply\nexpected overflow 0..564 item=2 need=188 room=0\n"


def test_check_of_a_wrong_report(room, overflow):
    other, session, told = overflow
    assert room.run("check report session") == (1, b"no\n", told)
    assert room.run("check - session", other) == (1, b"no\n", told)
    assert room.run("check", asked_of(other, session)) == (0, b"no\n", told)


@pytest.mark.usefixtures("overflow")
def test_check_of_no_report(room):
    room.write({"report": b""})
    assert room.run("check report session") == (1, b"no\n", "dvbemu: report line 1: text\nexpected dvbemu 1\n")


def test_why_is_check(room):
    told = "`dvbemu check REPORT SESSION [STREAM ..]` now says what is wrong with a report, and what was expected\n"
    ran = room.run("why report session")
    assert (ran.status, ran.out) == (2, b"") and ran.err.endswith(f"\ndvbemu: error: {told}")


# ------ faults of a script: the program's own lines, and behind them what is known of it


@pytest.mark.parametrize("words", ["steps", "run", "check report"])
@pytest.mark.parametrize("script, line", FAULTS)
def test_faults(room, script, line, words):
    room.write({"script": script, "stream": 10 * NULL_PACKET, "report": b"any"})
    own = room.run("steps", script + b"stream\n" * (b"\x47" not in script) + 10 * NULL_PACKET)
    found, word = room.run(f"{words} script stream"), words.partition(" ")[0]
    told = (line or "").replace("WORD", "check REPORT" if word == "check" else word)
    if word == "check" and script.startswith(b"dvbemu 1\n"):
        told = "script: this is a report, which comes first: dvbemu check script SCRIPT stream"
    assert found[:2] == own[:2] == (3, b"")
    assert found.err.startswith(own.err if b"\x47" not in script else "dvbemu: script line ")
    assert found.err.endswith(f"\n  {told}\n" if told else own.err)


@pytest.mark.parametrize("words", ["steps", "run", "check report"])
def test_no_stream(room, words):
    """A script without its line `stream`, behind which no stream is named."""
    room.write({"script": SCRIPT, "report": b"any"})
    found = room.run(f"{words} script", PACKET)
    called = f"dvbemu {words} script".replace("report", "REPORT")
    assert found[:2] == (3, b"") and "no line is 'stream'" in found.err
    assert found.err.endswith(f"\n  for a stream from a file: {called} STREAM; for one from standard input: {called} -\n")


@pytest.mark.parametrize("files, likely", [
    ("script text", "dvbemu: text: this is text, not a transport stream\n"),
    ("behind stream", "dvbemu: behind: line 6, 'c0 close n0', follows `stream`, so it is part of the stream, not a call\n"),
    ("script stream", ""),
])  # fmt: skip
def test_likely(room, files, likely):
    """What is likely a mistake, though it is none by the rules: the report stays, and standard error has a line."""
    text = b"[channel]\n\tFREQUENCY = 474000000\n" * 3000
    room.write({"script": SCRIPT, "behind": SCRIPT + b"stream\nc0 close n0\nfeed 3\n", "text": text, "stream": 400 * PACKET})
    first, second = files.split()
    own = room.run("steps", room.read(first) + b"stream\n" * (first == "script") + room.read(second))
    assert own.err == "" and room.run(f"steps {files}") == (0, own.out, likely)
    room.write({"report": own.out})
    assert room.run(f"check report {files}") == (0, b"yes\n", likely)


# ------ a file that ends in the middle of a read, or can't be read, is named; then nothing is written


class Shortened(inputs.Input):
    """A file that has become shorter since it was opened, or whose reading fails, behind so many bytes."""

    def __init__(self, name, most, fails):
        super().__init__(name)
        self.most, self.fails = most, fails

    def read(self, most=inputs.PIECE):
        if self.taken < self.most:
            return super().read(min(most, self.most - self.taken))
        if self.fails:
            os.close(self.file)
        return super().read(0)


@pytest.mark.parametrize("fails, line", [
    (False, "it ended after 500 of its 1,880 bytes"), (True, "reading failed after 500 bytes: Bad file descriptor"),
])  # fmt: skip
def test_broken(room, fails, line):
    room.write({"script": SCRIPT, "stream": 10 * PACKET})
    path, taken = str(room.folder / "stream"), io.BytesIO()
    with pytest.raises(inputs.InputError) as fault:
        for piece in inputs.session_pieces([inputs.Input(str(room.folder / "script")), Shortened(path, 500, fails)]):
            taken.write(piece)
    assert (str(fault.value), taken.getvalue()) == (f"{path}: {line}", SCRIPT + b"stream\n" + (10 * PACKET)[:500])


@pytest.mark.parametrize("line", ["steps script stream /proc/self/mem", "run script /proc/self/mem",
                                  "check stream script /proc/self/mem"])
def test_unreadable(room, line):
    room.write({"script": SCRIPT, "stream": 10 * PACKET})
    assert room.run(line) == (1, b"", "dvbemu: /proc/self/mem: reading failed after 0 bytes: Input/output error\n")


@pytest.mark.parametrize("ends", [">/dev/full", ">&-"])
@pytest.mark.parametrize("line", ["session", "script stream", "script stream /dev/null"])
def test_unwritable(room, line, ends):
    room.write({"script": SCRIPT, "stream": 10 * PACKET, "session": SCRIPT + b"stream\n"})
    words = ["sh", "-c", f"exec \"$0\" steps {line} {ends}", PROGRAM]
    ran = subprocess.run(words, cwd=room.folder, stderr=subprocess.PIPE, check=False)
    assert (ran.returncode, ran.stderr) == (6, b"dvbemu: write failed\n")


@pytest.mark.parametrize("line, report",
                         [("steps - -", b""), ("explain - -", SERVED.read_bytes()), ("session - -", SERVED.read_bytes())])
def test_standard_input_twice(room, line, report):
    teller = "dvbemu" if line.startswith("steps") else f"dvbemu {line.partition(' ')[0]}"
    assert room.run(line, report) == (1, b"", f"{teller}: -: standard input can be given only once\n")


# ------ bytes: what a node gave as a file, and what was lost in between

MORE = "`dvbemu explain` says more"
TS_TAP = b"c0 open dvr\nc0 open n0\nc0 pes n0 256 frontend ts_tap 20 4\nc0 add n0 257\nc0 add n0 256\nc0 drain dvr 4096\n"
TWO = SCRIPT.replace(b"100", b"5") + b"c1 open n1\nc1 pes n1 256 frontend tap 20 4\nfeed 5\nc1 read n1 4096\n"
ALL_LOST = "dvbemu bytes: n0: 1,880 bytes are lost after byte 0 (place {}: overflow 0..1880 item=1 need=188 room=11)\n"
REFUSED_PID = ("dvbemu bytes: n0: refused, and not among these bytes: "
               "add 257 (place 2: EINVAL: only TSDEMUX_TAP takes more than one PID)\n")
# A script over ten packets, the words, and what is written and told.
BYTES = [
    (SCRIPT, "bytes", (0, 10 * PACKET, "")),
    (SCRIPT, "bytes --node demux0", (0, 10 * PACKET, "")),
    (SCRIPT, "bytes --node 1", (1, b"", "dvbemu bytes: no client called n1\n")),
    (b"c0 open n0\nc0 read n0 10\n", "bytes", (1, b"", f"dvbemu bytes: no byte was read; {MORE}\n")),
    (SCRIPT.replace(b"c0 pes", b"c0 size n0 200\nc0 pes"), "bytes",
     (1, b"", f"{ALL_LOST}dvbemu bytes: no byte was read; {MORE}\n")),
    (TS_TAP, "bytes --node dvr", (0, 10 * PACKET, REFUSED_PID)),
    (TWO, "bytes", (1, b"", "dvbemu bytes: n0, n1 were read; choose one with --node\n")),
]


def reported(room, script):
    """The report of a script over ten packets."""
    room.write({"script": script, "stream": 10 * PACKET})
    return room.run("steps script stream").out


@pytest.mark.parametrize("script, line, wanted", BYTES)
def test_bytes(room, script, line, wanted):
    status, out, told = room.call(line, reported(room, script))
    # (the table names the place of a refusal, but not of a loss)
    assert (status, out, re.sub(r"place \d+(?=: overflow)", "place {}", told)) == wanted


def test_bytes_into_a_file(room):
    assert room.call("bytes --node n0 -o out -", reported(room, SCRIPT)) == (0, b"", "")
    assert room.read("out") == 10 * PACKET


def test_explain_of_a_node(room):
    report = reported(room, SCRIPT)
    explained = room.call("explain --node demux0", report)
    assert explained.status == 0 and explained == room.call("explain --node n0", report)


def test_bytes_of_an_overflow(room):
    status, _, told = room.call("bytes", example("rules/overflow-kept").report)
    assert status == 0 and "bytes are lost after byte" in told


# ------ a folder of tests: a right one, a wrong one, one by threads, one without a report, one that can't be run; and --update

WRONG = "report line 19: reply; expected overflow 0..564 item=2 need=188 room=0"
FAULTY = "not ok 1 - faulty\n# steps exited with status 3: dvbemu: script line 1: command word 2 is 'strat'; expected a command: "
REST = f"""ok 2 - right
not ok 3 - threads
# there is no report: --update writes t/threads.report
not ok 4 - wrong
# {WRONG}
# 3 of 4 failed
"""


@pytest.fixture
def tests(room):
    """The folder `t`, and the right report of its two sessions."""
    _, session, report, *_ = example("rules/overflow")
    room.write({"t/right.session": session, "t/right.words": b"steps --batch 1\n", "t/right.report": report,
                "t/wrong.session": session, "t/wrong.words": b"steps --batch=1",
                "t/wrong.report": report.replace(b"item=2", b"item=1"),
                "t/threads.script": SCRIPT, "t/threads.ts": 9 * PACKET, "t/threads.words": b"run --batch 1",
                "t/faulty.script": b"c0 strat n0\nstream\n", "t/faulty.report": b"x"})  # fmt: skip
    return report


def test_test(room, tests):
    status, out, told = room.run("test t")
    head, first, second, rest = out.decode().split("\n", 3)
    # (the fault has two lines, and the rest of the commands behind its first)
    assert (status, head, rest, told) == (1, "1..4", REST, "") and f"{first}\n{second}".startswith(FAULTY)


def test_test_update(room, tests):
    os.remove(room.folder / "t" / "faulty.script")
    lines = f"1..3\nok 1 - right\nok 2 - threads\n# updated: there is no report\nok 3 - wrong\n# updated: {WRONG}\n"
    assert room.run("test --update t") == (0, lines.encode(), "")
    assert room.read("t/wrong.report") == tests
    # (another valid report of threads passes too)
    room.write({"t/threads.report": room.run("steps --batch 2 t/threads.script t/threads.ts").out})
    assert room.run("test t")[:2] == (0, b"1..3\nok 1 - right\nok 2 - threads\nok 3 - wrong\n")


def test_test_of_other_batches(room, tests):
    room.write({"t/right.words": b"steps"})
    status, out, _ = room.run("test t/right.session")
    # (its three packets come one by one in the report, and by `steps` in one batch)
    told = "feed 0 pass input=frontend first=0 count={} at=0 = passed"
    assert status == 1 and f"# line 16: 4 {told.format(1)}; steps gives 4 {told.format(3)}\n" in out.decode()


def test_test_of_a_report(room, tests):
    status, _, told = room.run("test t/right.report")
    assert (status, told) == (1, "dvbemu test: t/right.report: not a session or script\n")
