"""What is on the air: channels, delivery systems, adapters, recordings as they are and their clocks, what is wrong with words and
places, where reports go, and what a wrapper that is killed leaves."""
from __future__ import annotations

import os
import re
import shutil
import signal
import struct
import subprocess
import tempfile
import time
from pathlib import Path

import pytest
from conftest import ROOT, comes
from dvbemu.build import built_server
from dvbemu.server.adapters import MARK
from dvbemu.server.recording import Recording
from dvbemu.stream.pace import TICKS, WRAP
from dvbemu.stream.packets import NULL_PACKET, pcr_of
from serving import PACKET, RATE, SERVE, SERVED, TUNER, packets_of, ran
from stations import HERTZ, NAMES, RATE as EACH_SECOND, Station

SECONDS, ENDS, OLD = 2, 3, 3600
NONE = ["--keep", "none"]
PACED = [*NONE, "--packets", RATE]
# dvbemu-serve, which ends with a word where it would build.
UNBUILT = """import sys
from dvbemu import build
build.build_preload = build.built_server = lambda: sys.exit("built")
from dvbemu.cli import begin
begin("serve", *sys.argv[1:])
"""


@pytest.fixture(scope="module")
def air(tmp_path_factory):
    """The streams of three stations, each of which names the frequencies of all: the paths of Alpha.ts, Gamma.ts and
    Epsilon.ts."""
    folder = tmp_path_factory.mktemp("air")
    for number, names in enumerate(NAMES, 1):
        (folder / f"{names[0]}.ts").write_bytes(Station(number, names, HERTZ).stream(SECONDS))
    return [folder / f"{names[0]}.ts" for names in NAMES]


@pytest.fixture
def tuned(served, air):
    """Tunes over what is on the air, where {0}, {1} and {2} are the streams; what the tuner tells must be these lines, which
    begin with its words. Those of `cable` tell nothing."""

    def tunes(words, lines, **more):
        told = lines.replace("; ", "\n").splitlines()
        asked = [word for line in told for word in (line.split() if line.startswith("cable") else line.split()[:1])]
        out, status = served.call([*NONE, *words.format(*air).split()], [TUNER, *asked], **more)
        assert (out.splitlines(), status) == ([line for line in told if not line.startswith("cable")], 0)

    return tunes


def all_tuned(air):
    """The words of three channels."""
    return ["--tune", *(f"{hertz}={path}" for hertz, path in zip(HERTZ, air))]


def some(data):
    """The packets that aren't null packets."""
    return [packet for packet in packets_of(data) if packet != NULL_PACKET]


def test_channels(served, air):
    """Each frequency has its services, once, and none has those of another; elsewhere is no lock."""
    words = [*map(str, HERTZ), "491900000", "498000000", "474000000"]
    out, status = served.call(["--played", "played", "--report", served.report, *all_tuned(air)], [TUNER, *words])
    heard = ["Alpha Beta", "Gamma Delta", "Epsilon Zeta", "Epsilon Zeta", "status 0", "Alpha Beta"]
    assert (out, status) == ("".join(f"{word} {what}\n" for word, what in zip(words, heard)), 0)
    served.is_right(stream=served.path("played"))
    lines = served.read("report.tunings").decode().splitlines()
    assert [line.split(" ", 1)[1] for line in lines if "no lock" in line] == ["498000000 DVBT no lock"]
    places = [int(line.split()[0]) for line in lines]
    assert places == sorted(places) and len(places) == 6
    passes_alone(served.read("played"), lines, places)


def passes_alone(data, lines, places):
    """Behind each tuning that finds another stream, which these lines of a file of tunings tell, what was played is that stream
    alone from its beginning, or nothing; and it goes on where the same is tuned to again."""
    before, begin = None, 0
    for line, at, end in zip(lines, places, [*places[1:], len(data) // PACKET]):
        what = line.rsplit(" ", 1)[1]
        before, begin = what, begin if what == before else at
        passed, own = some(data[PACKET * begin : PACKET * end]), some(Path(what).read_bytes() if os.path.exists(what) else b"")
        both = min(len(passed), len(own))
        assert bool(passed) == bool(own) and passed[:both] == own[:both], line


# What is on the air, and what is heard where. 11,362 MHz is 1,612 MHz behind a converter's lower oscillator, and 12,188 MHz 1,588
# MHz behind its upper one. What a card puts on its cable stays behind DTV_CLEAR. What is refused is what a kernel's
# dvb_frontend_check_parameters refuses.
SATELLITES = "--tune 11362000:DVBS2:H={0} 12188000:DVBS:V={1}"
SYSTEMS = {
    "DVB-T and DVB-T2, of which a recording is the stream 0": (
        "--tune 474000000:DVB-T2={0} 482000000:DVBT={1}",
        "474000000:16 Alpha Beta; 474000000:3 status 1; 482000000:3 Gamma Delta; 474000000:16:2:1:0 Alpha Beta; "
        "474000000:16:2:1:1 status 1"),
    "satellites": (SATELLITES, "1612000:6:1:1 Alpha Beta; 1612000:6:0:1 status 0; 1612000:5:1:1 status 1; "
                   "1588000:5:0:0 Gamma Delta; 1588000:5:0:1 status 0"),
    "voltage and tone": (SATELLITES, "cable 1 1; 1612000:6 Alpha Beta; 1588000:5 status 0; cable 0 0; 1588000:5 Gamma Delta; "
                         "1612000:6 status 0; 1588000:5:0:1 status 0; 1588000:5 status 0"),
    "a satellite's limits": ("--tune=11362000:DVBS2={0}", "1612000:6::::999999 EINVAL; 1612000:6::::45000001 EINVAL; "
                             "1612000:5::::0 EINVAL; 949999:6 EINVAL; 2150001:6 EINVAL; 1612000:6::::1000000 Alpha Beta"),
}  # fmt: skip
CHANNELS = """# cable, ATSC and ISDB-T
346000000:DVBC={0}

57000000:ATSC={1}
473142857:ISDBT={2}
561000000:DVBCB={1}
"""
HEARD = """346000000:1 Alpha Beta; 57000000:11 Gamma Delta; 473142857:8 Epsilon Zeta; 473142857:1 status 1
561000000:2 Gamma Delta; 561000000:1 status 1; 346000000:1::::0 EINVAL; 57000000:11::::0 Gamma Delta"""


@pytest.mark.parametrize("name", SYSTEMS)
def test_systems(tuned, name):
    """A frontend locks to the delivery system of a recording alone, and to a satellite's by band and polarisation."""
    tuned(*SYSTEMS[name])


def test_voltage_and_tone_go_where_nobody_has_the_frontend_open(served, air):
    words = [*NONE, *SATELLITES.format(*air).split()]
    out, _ = served.call(words, ["sh", "-c", '"$0" cable 0 0 1612000:6; "$0" 1612000:6', TUNER])
    assert out.splitlines() == ["1612000:6 status 0", "1612000:6 Alpha Beta"]


def test_file_of_channels(served, air, tuned):
    served.put("channels", CHANNELS.format(*air))
    tuned("--channels channels", HEARD)


def test_megahertz(served, air):
    """A number that is too small for Hz, or for a satellite's kHz, is one of MHz, which is told."""
    words = f"474={air[0]}", f"11362:DVBS2:H={air[1]}"
    out, _ = served.call([*NONE, "--tune", *words], [TUNER, "474000000", "1612000:6:1:1"])
    told = [f"dvbemu serve: {word}: {number} is taken as {number} MHz" for word, number in zip(words, (474, 11362))]
    assert out.splitlines() == [*told, "474000000 Alpha Beta", "1612000:6:1:1 Gamma Delta"]


def test_beside_one_that_tunes(served, air):
    """A program sees its lock, and records what it has tuned to."""
    script = '"$0" 482000000 hold > held & until grep -sq held held; do sleep 0.1; done; "$0" look packets 300'
    out, status = served.call([*NONE, *all_tuned(air)], ["sh", "-c", script, TUNER])
    assert status == 0 and re.fullmatch(r"look 1f\n300 .* 480 481 8191\n", out), out


@pytest.mark.parametrize("live", [[], ["--live"]])
def test_live(served, air, live):
    """With --live a recording has gone on meanwhile: it doesn't begin anew where it is tuned to."""
    words = ["--played", "played", "--report", served.report, *live, "--tune", f"474000000={air[0]}"]
    served.call(words, ["sh", "-c", 'sleep 0.5; "$0" 474000000', TUNER])
    assert served.read("played").startswith(air[0].read_bytes()[: PACKET * 50]) != bool(live)


def test_adapters(served, air):
    """Two adapters at once, each with its own stream and report, and a program that has both."""
    served.put("channels", f"482000000={air[1]}\n")
    words = [TUNER, "474000000", "adapter", "1", "474000000", "482000000"]
    told = "474000000 Alpha Beta\n474000000 status 0\n482000000 Gamma Delta\n"
    assert served.call(["--report", served.report, "--adapter", air[0], "--adapter", "channels"], words) == (told, 0)
    words = ["--report", served.report, "--adapter", air[0], "--adapter", air[1]]
    out, _ = served.call(words, ["ls", "/dev/dvb", "/dev/dvb/adapter1"])
    assert out.split() == ["/dev/dvb:", "adapter0", "adapter1", "/dev/dvb/adapter1:", "demux0", "dvr0", "frontend0"]
    assert [served.read(f"report.{number}")[:8] for number in (0, 1)] == 2 * [b"dvbemu 1"]


# ------ recordings

# Packets of 192 and 204 bytes, bytes in front of the first, and a recording that is cut.
FORMS = {
    "m2ts": lambda packets: b"".join(b"\x12\x34\x56\x78" + packet for packet in packets),
    "rs": lambda packets: b"".join(packet + bytes(16) for packet in packets),
    "ahead": lambda packets: bytes(77) + b"".join(packets), "cut": lambda packets: b"".join(packets)[:-100],
}  # fmt: skip


@pytest.mark.parametrize("name", FORMS)
def test_forms(served, air, name):
    served.put(name, FORMS[name](packets_of(air[0].read_bytes())))
    out, status = served.call([*NONE, name], [TUNER, "474000000"])
    assert status == 0 and out.endswith("474000000 Alpha Beta\n"), out


@pytest.mark.parametrize("words", [f"--packets {EACH_SECOND}", f"--rate {EACH_SECOND * PACKET * 8}"])
def test_recording_without_a_clock(served, air, tuned, words):
    served.put("timeless", b"".join(NULL_PACKET if packet[3] & 0x20 else packet for packet in packets_of(air[0].read_bytes())))
    tuned(f"{words} timeless", "474000000 Alpha Beta")


def test_recording_by_standard_input(served, air, tuned):
    served.put("long", air[0].read_bytes() * 10)
    with open(served.path("long"), "rb") as file:
        tuned("-", "474000000 Alpha Beta", stdin=file)
    script = 'cat long | "$0" --keep none /dev/stdin -- "$1" 474000000'
    assert ran(["sh", "-c", script, SERVE, TUNER], cwd=served.folder).stdout.endswith("474000000 Alpha Beta\n")
    with subprocess.Popen(["sh", "-c", "cat long; exec sleep 1000"], stdout=subprocess.PIPE, cwd=served.folder) as source:
        tuned("-", "474000000 Alpha Beta", stdin=source.stdout)
        assert source.poll() is None
        source.kill()


def leaping(data, begin, leap, flag=0):
    """A stream whose clock is later by so many ticks, and leaps in the middle, where it gets this flag of an adaptation field."""
    packets, middle = packets_of(data), SECONDS * TICKS // 2
    for number, packet in enumerate(packets):
        if (ticks := pcr_of(packet)) is not None:
            base, rest = divmod((begin + ticks + (leap if ticks >= middle else 0)) % WRAP, 300)
            field = struct.pack(">BIH", packet[5] | (flag if ticks == middle else 0), base >> 1, (base & 1) << 15 | 0x7E00 | rest)
            packets[number] = packet[:5] + field + packet[12:]
    return b"".join(packets)


# What is made of a stream, and its length as a multiple of the stream's.
LEAP, OVER = 3 * TICKS, WRAP - SECONDS * TICKS // 2 - 1
JOINS = {
    "two": (lambda data: Station(2, NAMES[1], HERTZ).stream(3 * SECONDS) + data, 4),
    "halves": (lambda data: data[len(data) // 376 * 188 :] + data[: len(data) // 376 * 188], 1),
    "again": (lambda data: data * 3, 3), "leap": (lambda data: leaping(data, 0, LEAP), 2.5),
    "wrap": (lambda data: leaping(data, OVER, LEAP), 2.5), "another clock": (lambda data: leaping(data, 0, LEAP, 0x80), 1),
}  # fmt: skip


@pytest.mark.parametrize("name", JOINS)
def test_clocks(tmp_path, air, name):
    """A clock is followed PCR by PCR: also where recordings are joined, their halves exchanged, or it goes round, where a long
    step comes over 2^33, and where another clock begins, as a discontinuity_indicator says."""
    make, count = JOINS[name]
    (tmp_path / "joined").write_bytes(make(air[0].read_bytes()))
    assert abs(Recording(str(tmp_path / "joined")).length() - count * SECONDS) < 0.1


# ------ words and places


@pytest.fixture
def faulty(served, air):
    """A folder with files that are no recordings, a text of the user's, and channels."""
    shutil.copy(air[0], served.path("Alpha.ts"))
    os.link(served.path("Alpha.ts"), served.path("r.tunings"))
    for name, data in {
        "channels": "474000000=Alpha.ts\n", "wrong": "# two\n474000000:DVBT a.ts\n", "dvbemu.report": "a text of the user's\n",
        "noise": os.urandom(300_000).replace(b"\x47", b"\x48"), "timeless": NULL_PACKET * 1000, "empty": b"",
        "short": NULL_PACKET[:100],
    }.items():  # fmt: skip
        served.put(name, data)
    return served


@pytest.mark.parametrize("words, told", [
    ("noise", "isn't a transport stream"), ("timeless", "has no program clock"), ("nowhere", "No such file"),
    ("empty", "has no packet"), ("short", "has no packet"), (".", "is a folder"),
    ("--report Alpha.ts Alpha.ts", "is the recording: give --report another name"),
    ("--report /nowhere/r Alpha.ts", "No such file"), ("--tune 474=x:y", "No such file"),
    ("--tune 474000000:DVBX=Alpha.ts", "DVBX isn't one of"), ("--tune Alpha.ts", "argument --tune: expected HZ"),
    ("--channels Alpha.ts", "expected lines HZ[:SYSTEM][:H|V|L|R]=FILE, but it isn't text"),
    ("--channels wrong", "=FILE, but line 2 is '474000000:DVBT a.ts'"),
    ("--report - --adapter Alpha.ts --adapter Alpha.ts", "--report FILE"),
    ("--packets 0 Alpha.ts", "argument --packets: expected a number above 0"),
    ("", "arguments are required: STREAM"), ("--tune 474000000:DVBT:H=Alpha.ts", "has no polarisation"),
    ("--keep none --played /nowhere/p Alpha.ts", "/nowhere/p: No such file"),
    ("--keep none --played Alpha.ts Alpha.ts", "is the recording: give --played another name"),
    ("--keep . Alpha.ts", "isn't empty"), ("--keep noise/kept Alpha.ts", "Not a directory"),
    ("--report r --tune 474000000=Alpha.ts", "r.tunings is the recording"),
    ("--report channels --channels channels", "channels is the file of channels"),
    ("--keep none --played channels --adapter channels", "channels is the file of channels"),
    ("--report both --played both Alpha.ts", "both is written already"), ("Alpha.ts", "dvbemu.report isn't a report"),
    ("--keep none Alpha.ts", "built\n"),
])  # fmt: skip
def test_faults(faulty, words, told):
    """What is wrong with the words, the stream or the place of what is written is told before anything is built, and nothing is
    lost."""

    def sizes():
        return {(path.name, path.stat().st_size) for path in faulty.folder.iterdir()}

    before = sizes()
    serve = ["env", f"PYTHONPATH={ROOT / 'python' / 'src'}", "python3", "-Bc", UNBUILT]
    out, status = faulty.call(words.split(), ["true"], serve=serve)
    assert status in (1, 2) and told in out and before <= sizes(), out
    assert "built" not in out or told == "built\n"


def test_report_that_no_word_names(served):
    words = ["--packets", RATE, served.stream]
    for _ in range(2):
        assert served.call(words, ["echo", "first"], stderr=subprocess.DEVNULL) == ("first\n", 0)
        assert served.read("dvbemu.report").startswith(b"dvbemu 1\n")
    assert "dvbemu serve: the report is dvbemu.report; `dvbemu explain " in served.call(words, ["true"])[0]
    served.path("dvbemu.report").unlink()
    served.path("dvbemu.report").symlink_to("/nowhere/r")
    told = "dvbemu serve: dvbemu.report: No such file or directory; give another name with --report FILE\n"
    assert served.call(words, ["true"]) == (told, 1)


def test_report_to_a_device(served):
    words = ["--packets", RATE, served.stream, "--report"]
    assert served.call([*words, "/dev/null", "--played", "/dev/null"], ["true"]) == ("", 0)
    out, status = served.call([*words, "/dev/full"], ["true"])
    assert status == 1 and "can't be written" in out


@pytest.mark.parametrize("where", ["-", "/dev/stdout"])
def test_report_into_a_pipe(served, where):
    out, status = served.call(["--packets", RATE, served.stream, "--report", where], ["echo", "first"])
    assert status == 0 and out.startswith("first\ndvbemu 1\n")


def test_report_in_place_of_another(served):
    served.put("report", "old" * 100_000)
    out, status = served.call(["--packets", RATE, served.stream, "--report", served.report], [TUNER, "474000000"])
    assert status == 0 and served.read("report").startswith(b"dvbemu 1\n") and b"old" not in served.read("report"), out
    served.is_right()


def test_libudev(served):
    """Of libudev the subsystem dvb has these adapters, and all else is as without them."""
    words = [SERVED / "devices.py", "net", "mem"]
    alone = ran(words).stdout
    if "no libudev" in alone:
        pytest.skip("libudev isn't there")
    out, status = served.call([*PACED, "--adapter", served.stream, "--adapter", served.stream], [*words, "dvb"])
    kinds = [(number, kind) for number in (0, 1) for kind in ("frontend", "demux", "dvr")]
    nodes = [f"dvb dvb{number}.{kind}0 /dev/dvb/adapter{number}/{kind}0 {kind}" for number, kind in kinds]
    lines = out.splitlines()
    assert status == 0 and [line for line in lines if line.startswith("dvb ")] == nodes
    assert [line for line in lines if not line.startswith("dvb ")] == alone.splitlines()


# ------ what is left


def is_there(pid):
    """Whether a process runs."""
    try:
        return Path(f"/proc/{pid}/stat").read_text().split(")")[1].split()[0] != "Z"
    except OSError:
        return False


@pytest.fixture
def place():
    """A folder for temporary files. (one of root's that is closed to others isn't taken)"""
    with tempfile.TemporaryDirectory() as folder:
        os.chmod(folder, 0o755)
        yield folder


def test_killed(served, place):
    """Where the wrapper is killed its server ends, programs that wait are told, those that don't end are ended, and its folder
    goes."""
    script = """ls -d "$TMPDIR"/dvbemu-*/ > folder; "$0" hold > held
        trap "" TERM; sleep 600 & echo $! > other; wait; exec sleep 600"""
    words = [SERVE, *PACED, served.stream, "--", "sh", "-c", script, TUNER]
    with subprocess.Popen(words, cwd=served.folder, env={**os.environ, "TMPDIR": place}, start_new_session=True) as child:
        assert comes(lambda: b"held" in served.read("held"))
        others = Path(f"/proc/{child.pid}/task/{child.pid}/children").read_text().split()
        server = os.fsencode(built_server()[0])
        servers = [pid for pid in others if server in Path(f"/proc/{pid}/cmdline").read_bytes().split(b"\0")]
        until = time.monotonic() + ENDS
        child.send_signal(signal.SIGKILL)
    assert len(servers) == 1 and comes(lambda: not any(map(is_there, servers)), until - time.monotonic()), others
    assert comes(lambda: served.read("held") == b"held\nEIO\n", until - time.monotonic()), served.read("held")
    assert comes(lambda: served.read("other"), ENDS)
    assert comes(lambda: not any(map(is_there, [*others, served.read("other").decode().strip()])), 20)
    assert comes(lambda: not os.path.exists(served.read("folder").decode().strip()), 20)


@pytest.mark.parametrize("mark, age, stays", [(MARK, 0, True), (MARK, OLD, False), (b"", OLD, True)])
def test_folder_that_was_left(served, place, mark, age, stays):
    """A folder that a wrapper has left the next one takes away, where it is old, nobody holds it, and it has the mark."""
    left = Path(place, "dvbemu-left")
    left.mkdir()
    (left / "held").write_bytes(mark)
    os.utime(left, (time.time() - age,) * 2)
    served.call([*PACED, served.stream], ["true"], env={**os.environ, "TMPDIR": place})
    assert left.exists() == stays


@pytest.mark.parametrize("name", ["a folder of mine", 250 * "l"])
def test_tmpdir_that_the_preload_cannot_have(served, place, name):
    folder = Path(place, name)
    folder.mkdir()
    out = served.call([*PACED, served.stream], ["ls", "/dev/dvb"], env={**os.environ, "TMPDIR": str(folder)})
    assert out == ("adapter0\n", 0)
