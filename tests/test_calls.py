"""`dvbemu calls` over a small receiver, calls.c, with files in the places of the devices. The lines are worked out by hand from
its source."""
import platform
import subprocess

import pytest
from conftest import PROGRAM

PLAIN = """\
c0 open h0
c0 open h1
c0 open dvr
c0 section h0 17 5000 5 0=42/ff/00 15=00/00/0a
c0 pes h0 256 frontend tsdemux_tap 20 0
# c0 ioctl h0 40146f2c: no command of a script
c0 size h1 65536
c0 add h1 257
c0 remove h1 257
c0 start h0
c0 ioctl h0 c0106f32 01000000000000000000000000000000
# c0 ioctl h0 800a6f2f: no command of a script
c0 read h0 188
c0 readw h1 4096
# a read of 100000 bytes; one asks for 65536 at most
c0 readw dvr 65536
# the dvr device once more
c0 write dvr {12032}
c0 write dvr 00
# a write of 5 bytes, of which the program has 0
# a write of 1 byte to h0; a client writes to dvr alone
c0 poll h0
c0 poll h0
c0 stop h0
c0 read h0 1
c0 close h0
c0 open h0
c0 close h1
c0 close dvr
c0 close h0
stream
""".replace("{12032}", 12032 * "00")
# The same with request numbers and bytes. The receiver's structures hold a5 where nothing else is set: in the two bytes of
# padding.
SPELLED = {
    "section h0 17 5000 5 0=42/ff/00 15=00/00/0a": "403c6f2b 1100" + "42" + "00" * 15 + "ff" + "00" * 15 + "00" * 15 + "0a"
    + "a5a5" + "88130000" + "05000000",
    "pes h0 256 frontend tsdemux_tap 20 0": "40146f2c 0001" + "a5a5" + "00000000" + "03000000" + "14000000" + "00000000",
    "size h1 65536": "00006f2d 00000100",
    "add h1 257": "40026f33 0101",
    "remove h1 257": "40026f34 0101",
    "start h0": "00006f29 -",
    "stop h0": "00006f2a -",
}


def wanted():
    """The lines with request numbers."""
    lines = PLAIN.splitlines(keepends=True)
    spelled = {f"c0 {plain}\n": f"c0 ioctl {plain.split()[1]} {request}\n" for plain, request in SPELLED.items()}
    return "".join(spelled.get(line, line) for line in lines)


@pytest.fixture(scope="module")
def written(compiled, tmp_path_factory):
    """The script that `calls` with these words writes of the receiver, and its status."""
    if platform.machine() != "x86_64":
        pytest.skip("the machine isn't x86-64")
    receiver, path = compiled("tests/calls.c", "-w"), tmp_path_factory.mktemp("calls") / "script"

    def made(*words):
        words = [PROGRAM, "calls", *words, "--to", path, "--demux", "/dev/null", "--dvr", "/dev/zero", receiver, "/dev/null",
                 "/dev/zero"]
        told = subprocess.run(words, stdin=subprocess.DEVNULL, capture_output=True, text=True, check=False, timeout=60)
        if "ptrace" in told.stderr:
            pytest.skip("no leave to trace")
        assert path.exists(), told
        return path.read_text(), told.returncode

    return made


def test_requests(written):
    assert written()[0] == wanted()


def test_plain(written):
    assert written("--plain")[0] == PLAIN


def test_status(written):
    # (it is the receiver's)
    assert written()[1] == 3
