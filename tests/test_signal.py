"""`serve --tune ..:snr=DB:lock=MS:drop=S+S`: what a frontend tells, when it locks, and what a lock costs that is lost."""
import os
import re
import struct
import subprocess
import sys

import pytest

from conftest import EXAMPLES, PROGRAM
from dvbemu.server import channels

STREAM = EXAMPLES / "programs" / "scan.ts"
# A program that tunes to 474 MHz, notes when the status changes, for so many seconds, and meanwhile how many bytes a recording
# gets; an event each time too. Numbers and structures as linux/dvb/frontend.h and dmx.h have them.
LOOKS = """
import ctypes, fcntl, os, struct, sys, time
fd = os.open("/dev/dvb/adapter0/frontend0", os.O_RDWR | os.O_NONBLOCK)
def ask(number, *pairs):
    all = ctypes.create_string_buffer(b"".join(struct.pack("<I12xI52xI", key, value, 0) for key, value in pairs))
    fcntl.ioctl(fd, number, struct.pack("<IxxxxQ", len(pairs), ctypes.addressof(all)))
    return all.raw
demux, dvr = os.open("/dev/dvb/adapter0/demux0", os.O_RDWR), os.open("/dev/dvb/adapter0/dvr0", os.O_RDONLY | os.O_NONBLOCK)
fcntl.ioctl(demux, 0x40146F2C, struct.pack("<H2x4I", 0x2000, 0, 2, 20, 4))
ask(0x40106F52, (17, 3), (3, 474000000), (1, 0))
begun, last, got = time.monotonic(), None, 0
while time.monotonic() - begun < float(sys.argv[1]):
    status, = struct.unpack("=I", fcntl.ioctl(fd, 0x80046F45, bytes(4)))
    if status != last:
        ratio, = struct.unpack("=H", fcntl.ioctl(fd, 0x80026F48, bytes(2)))
        scale, value = struct.unpack_from("=Bq", ask(0x80106F53, (63, 0)), 17)
        event, tries = "none", 1 if last is None else 50  # an event may come a moment behind its status
        while event == "none" and tries:
            try:
                event = struct.unpack("=I", fcntl.ioctl(fd, 0x80286F4E, bytes(40))[:4])[0]
            except BlockingIOError:
                tries -= 1
                time.sleep(0.01)
        print(f"{time.monotonic() - begun:.2f}", status, ratio, scale, value, event, got, flush=True)
        last, got = status, 0
    try:
        got += len(os.read(dvr, 65536))
    except OSError:
        pass
    time.sleep(0.01)
"""


@pytest.fixture
def looks(server, tmp_path):
    """Looks for so many seconds: what was seen, a list of words a line, and the lines of the tunings."""

    def run(seconds, *words):
        source = tmp_path / "looks.py"
        source.write_text(LOOKS)
        command = [PROGRAM, "serve", "--packets", "3000", "--report", tmp_path / "r", *words, "--"]
        command += [sys.executable, "-S", source, str(seconds)]
        ran = subprocess.run(command, stdout=subprocess.PIPE, text=True, check=True, cwd=tmp_path)
        return [line.split() for line in ran.stdout.splitlines()], (tmp_path / "r.tunings").read_text().splitlines()

    return run


@pytest.mark.parametrize("quality, told", [
    ("", ["49152", "2", "49152"]), (":snr=12.5", ["125", "1", "12500"]), (":snr=7", ["70", "1", "7000"]),
])  # fmt: skip
def test_ratio(looks, quality, told):
    """In dB where it is known (FE_SCALE_DECIBEL is 1, in 0.001 dB), or else relative (2); without a lock not available (0)."""
    lines, _ = looks(1.5, "--tune", f"474000000{quality}={STREAM}")
    assert [line[1:5] for line in lines] == [["0", "0", "0", "0"], ["31", *told]]


@pytest.mark.alone
def test_lock(looks):
    lines, tunings = looks(3, "--tune", f"474000000:DVBT:lock=1500={STREAM}")
    assert [line[1] for line in lines] == ["0", "31"] and 1.5 <= float(lines[1][0]) < 2.9
    assert tunings == [f"0 474000000 DVBT {STREAM}"]


@pytest.mark.alone
def test_drop(looks):
    """The lock is there for 1 s and lost for 1.5 s, each told by an event; nothing is received while it is lost."""
    lines, tunings = looks(8, "--tune", f"474000000:snr=9:drop=1+1.5={STREAM}")
    assert [line[1] for line in lines] == ["0", "31", "0", "31"] and [line[5] for line in lines] == ["none", "31", "0", "31"]
    locked, lost, back = (float(line[0]) for line in lines[1:])
    # (on a busy machine the program looks late)
    assert 0.9 <= lost - locked < 4 and 1.2 <= back - lost < 3
    # (4,500 packets would be 1.5 s; what is read then are the last ones, and batches filled with null packets)
    assert int(lines[2][6]) > 188 * 1000 and int(lines[3][6]) < 188 * 1000
    first, second, third = (line.split(" ", 1) for line in tunings)
    here = f"474000000 DVBT {STREAM}"
    assert (first, second[1], third) == (["0", here], "474000000 DVBT lock lost", [second[0], here])
    assert int(second[0]) % 64 == 0


def test_a_file_of_channels(looks, tmp_path):
    (tmp_path / "on").mkdir()
    os.symlink(STREAM, tmp_path / "on" / "a=b:snr=1.ts")
    (tmp_path / "on" / "channels").write_text("# two\n474000000:snr=3=a=b:snr=1.ts\n490000000=a=b:snr=1.ts\n")
    lines, tunings = looks(1.5, "--channels", "on/channels")
    assert lines[1][1:4] == ["31", "30", "1"] and tunings == ["0 474000000 DVBT on/a=b:snr=1.ts"]


@pytest.mark.parametrize("word", [
    "474:snr=x=a.ts", "474:snr=100=a.ts", "474:lock=-1=a.ts", "474:drop=5=a.ts", "474:drop=5+2", "474:drop=+2=a.ts",
])  # fmt: skip
def test_wrong_words(word):
    ran = subprocess.run([PROGRAM, "serve", "--tune", word, "--", "true"], capture_output=True, text=True, check=False)
    assert ran.returncode == 2 and re.search(rf"--tune: .*{re.escape(word)}", ran.stderr)


@pytest.mark.parametrize("word, head, quality", [
    ("474=a.ts", ("474", None, None), (0, 0.1)), ("474:DVBT2:snr=12.34=a.ts", None, None),
    ("474:DVBT2:snr=12.3=a.ts", ("474", "DVBT2", None), (123, 0.1)),
    ("11362:DVBS2:H:lock=0:snr=8=a.ts", ("11362", "DVBS2", "H"), (80, 0)),
    ("11362:H:drop=1+2=a.ts", ("11362", "H", None), (0, 0.1)), ("474=x:snr=3=a.ts", ("474", None, None), (0, 0.1)),
])  # fmt: skip
def test_words(word, head, quality):
    found = channels.LINE.fullmatch(word)
    assert (found and found.groups()[:3]) == head
    assert not found or channels.quality_of(found[4])[:2] == quality


def test_page():
    """The page as preload/frontend.c has it: nine words, two more, packets at a place of eight bytes, systems, properties."""
    page = channels.Front
    assert (page.SEATLESS_AT, page.RATIO_AT) == (9 * 4, 10 * 4) and page.PACKETS_AT == struct.calcsize("@11IQ") - 8 == 48
    assert (page.SYSTEMS_AT, page.SYSTEM_AT) == (56, 56 + 8 * 4 + 17 * 4)
