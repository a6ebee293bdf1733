"""The pace of a stream: when packets are due, worked out by hand (ISO/IEC 13818-1, 2.4.2.2: between two PCRs the bytes come
evenly; 27,000,000 ticks are a second), for `dvbemu pace` and for a recording that is served alike; and what `pace` writes over
the stream of examples/programs, compared with the PCRs that stand there. No packet may come before it is due; how late one may
come is asked loosely, since the machine may be busy."""
import os
import subprocess
import time

import pytest
from conftest import EXAMPLES, PROGRAM
from dvbemu.server.recording import Recording, Unplayable
from dvbemu.stream import pace
from dvbemu.stream.packets import DISCONTINUITY, adaptation_field, packet, pcr_of

SECOND, TENTH = 27_000_000, 2_700_000
WRAP = 2**33 * 300
SLACK, FAST = 5.0, 8


def plain(pid=256):
    """A packet without a PCR."""
    return packet(pid, 0, bytes(184))


def with_pcr(pcr, pid=256, is_new=False):
    """A packet with a PCR."""
    return packet(pid, 0, bytes(176), field=adaptation_field(8, pcr, DISCONTINUITY if is_new else 0))


# What is tried, the stream's pieces, the PID that is named, and the seconds at which the pieces are due; None without a clock.
DUE = [
    ("evenly between two PCRs, and on at the same pace",
     [plain(), with_pcr(0), plain(), plain(), plain(), with_pcr(TENTH), plain()], None,
     [-0.025, 0, 0.025, 0.05, 0.075, 0.1, 0.125]),
    ("two paces", [with_pcr(9), plain(), with_pcr(9 + TENTH), with_pcr(9 + SECOND)], None, [0, 0.05, 0.1, 1]),
    ("over the clock's end", [with_pcr(WRAP - TENTH), plain(), with_pcr(TENTH), plain()], None, [0, 0.1, 0.2, 0.3]),
    ("a new clock, told by the stream",
     [with_pcr(0), plain(), with_pcr(TENTH), plain(), with_pcr(SECOND, is_new=True), plain(), with_pcr(SECOND + TENTH)], None,
     [0, 0.05, 0.1, 0.15, 0.2, 0.25, 0.3]),
    ("a leap by more than ten seconds, one back",
     [with_pcr(99 * SECOND), with_pcr(99 * SECOND + TENTH), with_pcr(0), with_pcr(SECOND)], None, [0, 0.1, 0.2, 1.2]),
    ("the first PID's clock", [with_pcr(0), with_pcr(5, 257), with_pcr(SECOND), with_pcr(6, 257)], None, [0, 0.5, 1, 1.5]),
    ("the clock of a PID that is named", [with_pcr(0), with_pcr(5, 257), plain(), with_pcr(5 + SECOND, 257)], 257,
     [-0.5, 0, 0.5, 1]),
    ("a clock that stands still", [with_pcr(0), with_pcr(TENTH), with_pcr(TENTH), plain(), with_pcr(2 * TENTH)], None,
     [0, 0.1, 0.2, 0.25, 0.3]),
    ("in front of the first step of a clock",
     [plain(), with_pcr(0), with_pcr(99 * SECOND), plain(), with_pcr(99 * SECOND + SECOND)], None, [-0.5, 0, 0.5, 1, 1.5]),
    ("bytes between packets take time", [with_pcr(0), bytes(188), plain(), bytes(188), with_pcr(SECOND)], None,
     [0, 0.25, 0.5, 0.75, 1]),
    ("no PCR", [plain(), plain()], None, None),
    ("one PCR", [with_pcr(0), plain(), with_pcr(SECOND, 257)], None, None),
    ("a leap alone", [with_pcr(0), with_pcr(99 * SECOND), plain()], None, None),
    ("nothing", [], None, None),
]


def due_of(chunks, pid):
    """The pieces of a stream and when they are due."""
    try:
        return [(round(at, 9), piece) for at, piece in pace.timed(chunks, pid)]
    except pace.ClockError:
        return None


def length_of(path):
    """The seconds that a recording takes; None where it can't be played."""
    try:
        return round(Recording(str(path)).length(), 9)
    except Unplayable:
        return None


def stream_of_examples():
    """The stream of examples/programs."""
    with open(os.path.join(EXAMPLES, "programs", "two-services.hex"), encoding="ascii") as file:
        return b"".join(bytes.fromhex(line) for line in file if not line.startswith("#"))


def pcrs_of(stream):
    """The places in bytes, and the seconds, of the PCRs of PID 256, read field by field."""
    found = []
    for place in range(0, len(stream), 188):
        packet = stream[place : place + 188]
        bits = "".join(f"{byte:08b}" for byte in packet[:12])
        if int(bits[11:24], 2) == 256 and bits[26] == "1" and packet[4] > 6 and bits[43] == "1":
            found.append((place, (int(bits[48:81], 2) * 300 + int(bits[87:96], 2)) / SECOND))
    return found


def arrivals(words, stream):
    """What `pace` writes, how many bytes had come by which second since it was started, and its status."""
    begin, told, written = time.monotonic(), [], b""
    with subprocess.Popen([PROGRAM, "pace", *words, "-"], stdin=subprocess.PIPE, stdout=subprocess.PIPE) as ran:
        ran.stdin.write(stream)
        ran.stdin.close()
        while chunk := os.read(ran.stdout.fileno(), 65536):
            written += chunk
            told.append((time.monotonic() - begin, len(written)))
    return written, told, ran.returncode


@pytest.mark.parametrize("stream, pid, wanted", [row[1:] for row in DUE], ids=[row[0] for row in DUE])
def test_due(stream, pid, wanted):
    whole = b"".join(stream)
    right = None if wanted is None else list(zip(wanted, stream))
    assert due_of([whole], pid) == right
    assert due_of([whole[place : place + 7] for place in range(0, len(whole), 7)], pid) == right


def length_by(wanted):
    """The seconds from the first packet of a row to the end of the last, which takes as long as the one before, or is one of two
    alone."""
    return None if wanted is None else round(wanted[-1] - wanted[0] + wanted[-1] - wanted[-2], 9)


# The rows of packets alone, with no PID that is named.
SERVED = [row for row in DUE if row[2] is None and all(piece[0] == 0x47 for piece in row[1])]


@pytest.mark.parametrize("stream, wanted", [(row[1], row[3]) for row in SERVED], ids=[row[0] for row in SERVED])
def test_served_alike(tmp_path, stream, wanted):
    (tmp_path / "it.ts").write_bytes(b"".join(stream))
    assert length_of(tmp_path / "it.ts") == length_by(wanted)


def test_a_clock_that_goes_silent(tmp_path):
    """Behind 100,000 packets without a PCR the next PID that has one is the clock; a PID that is named stays."""
    clock = [with_pcr(9, 257), plain(), with_pcr(9 + TENTH, 257)]
    stream = [with_pcr(0), with_pcr(TENTH), with_pcr(5, 257), *[plain()] * 99_998, *clock]
    due = [at for at, _ in pace.timed(stream)]
    assert [round(at, 6) for at in due[:4] + due[-3:]] == [0, 0.1, 0.2, 0.3, 10000.1, 10000.15, 10000.2]
    assert round([at for at, _ in pace.timed(stream, 256)][-1], 6) == 10000.3
    assert round([at for at, _ in pace.timed(stream[:-4] + clock)][-1], 6) == 10000.2
    (tmp_path / "it.ts").write_bytes(b"".join(stream))
    assert round(length_of(tmp_path / "it.ts"), 6) == 10000.25


def test_the_largest_pcr():
    assert pcr_of(with_pcr(WRAP - 1)) == WRAP - 1


@pytest.mark.alone
def test_program():
    """The program over a stream of four seconds, eight times as fast."""
    stream = stream_of_examples()
    pcrs = pcrs_of(stream)
    written, told, status = arrivals(["--rate", str(FAST)], stream)
    assert (status, written) == (0, stream)
    first, whole = told[0][0], (pcrs[-1][1] - pcrs[0][1]) / FAST
    for place, second in pcrs:
        due = (second - pcrs[0][1]) / FAST
        came = next(at for at, count in told if count >= place + 188)
        assert due <= came <= first + due + SLACK, f"the packet at byte {place}"
    assert told[-1][0] - first >= whole / 2


@pytest.mark.parametrize("words, status", [("-", 1), ("--rate 0 -", 2), ("--pid 300 -", 1)])
def test_refused(room, words, status):
    found = room.call(f"pace {words}", plain() * 9)
    assert found[:2] == (status, b"") and found.err
