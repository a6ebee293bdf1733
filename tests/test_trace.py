"""`serve --trace`: what is told of calls whose order and results the program fixes, and ends that are closed, full or slow."""
import os
import pty
import re
import struct
import subprocess
import sys

import pytest

from conftest import EXAMPLES, PROGRAM
from test_fuse import why_no_mount

from dvbemu.server import trace

STREAM = EXAMPLES / "programs" / "scan.ts"
# A program in Python: names of requests and structures as linux/dvb/dmx.h and frontend.h have them.
HEAD = """
import fcntl, os, select, signal, struct, sys, time
DEMUX, DVR, TUNER = (f"/dev/dvb/adapter0/{name}0" for name in ("demux", "dvr", "frontend"))
START, STOP, SIZE, ADD, REMOVE, SECTION, PES = 0x6F29, 0x6F2A, 0x6F2D, 0x40026F33, 0x40026F34, 0x403C6F2B, 0x40146F2C
def ask(fd, number, argument=0):
    try:
        return fcntl.ioctl(fd, number, argument)
    except OSError as error:
        return error.errno
def section(pid, first=None, flags=4):
    part = bytes([first or 0]) + bytes(15), bytes([255 * (first is not None)]) + bytes(15), bytes(16)
    return struct.pack("<H16s16s16s2xII", pid, *part, 0, flags)
"""
# What one program calls, and what is told of it behind its name. A PAT is there at 3,000 packets a second within milliseconds. A
# second PID is for a filter with the output tsdemux_tap alone, and to take away one that it hasn't changes nothing (a kernel's
# dvb_dmxdev_add_pid and dvb_dmxdev_remove_pid).
CALLS = [
    ("fd = os.open(DEMUX, os.O_RDWR); ask(fd, SECTION, section(0, 0, 5)); select.select([fd], [], []); os.read(fd, 10)\n"
     "ask(fd, STOP)",
     ["demux0(n0) open = 0", "demux0(n0) DMX_SET_FILTER pid=0 0=00/ff/00 timeout=0 flags=DMX_CHECK_CRC+IMMEDIATE_START = 0",
      "select demux0(n0) without end = 1", "demux0(n0) read 10 = 10", "demux0(n0) DMX_STOP = 0", "demux0(n0) close = 0"]),
    ("a, b = os.open(DEMUX, os.O_RDWR), os.open(DEMUX, os.O_RDWR); ask(b, SIZE, 8192)\n"
     "ask(b, PES, struct.pack('<H2x4I', 256, 0, 2, 20, 4)); ask(b, ADD, struct.pack('<H', 257))\n"
     "ask(b, REMOVE, struct.pack('<H', 999)); ask(b, START); os.close(a)",
     ["demux0(n0) open = 0", "demux0(n1) open = 0", "demux0(n1) DMX_SET_BUFFER_SIZE size=8192 = 0",
      "demux0(n1) DMX_SET_PES_FILTER pid=256 input=frontend output=ts_tap type=20 flags=IMMEDIATE_START = 0",
      "demux0(n1) DMX_ADD_PID pid=257 = -1 EINVAL", "demux0(n1) DMX_REMOVE_PID pid=999 = 0", "demux0(n1) DMX_START = 0",
      "demux0(n0) close = 0", "demux0(n1) close = 0"]),
    ("fd = os.open(DEMUX, os.O_RDWR | os.O_NONBLOCK); ask(fd, SECTION, section(8176)); ask(fd, 0x6F99)\n"
     "p = select.poll(); p.register(fd, 1); p.poll(500); print(ask(fd, START) and 0)\n"
     "try:\n os.read(fd, 4096)\nexcept BlockingIOError:\n pass",
     ["demux0(n0) open = 0", "demux0(n0) DMX_SET_FILTER pid=8176 timeout=0 flags=IMMEDIATE_START = 0",
      "demux0(n0) ioctl 0x6f99 = -1 ENOTTY", "poll demux0(n0) 500 ms = 0", "demux0(n0) DMX_START = 0",
      "demux0(n0) read 4096 = -1 EAGAIN", "demux0(n0) close = 0"]),
    ("fd = os.open(DVR, os.O_RDONLY)\ntry:\n os.open(DVR, os.O_RDONLY)\nexcept OSError:\n pass\n"
     "e = select.epoll(); e.register(fd); e.poll(0.5)",
     ["dvr0 open = 0", "dvr0 open = -1 EBUSY", "epoll_wait dvr0 500 ms = 0", "dvr0 close = 0"]),
    ("fd = os.open(TUNER, os.O_RDWR)\n"
     "all = b''.join(struct.pack('<I12xI36xI16x', key, value, 0) for key, value in ((17, 3), (3, 474000000), (1, 0)))\n"
     "import ctypes; kept = ctypes.create_string_buffer(all)\n"
     "ask(fd, 0x40106F52, struct.pack('<IxxxxQ', 3, ctypes.addressof(kept)))\n"
     "select.select([fd], [], []); ask(fd, 0x80046F45, bytes(4)); ask(fd, 0x80026F48, bytes(2)); ask(fd, 0x6F43, 1)",
     ["frontend0 open = 0", "frontend0 FE_SET_PROPERTY DELIVERY_SYSTEM=3 FREQUENCY=474000000 TUNE = 0",
      "select frontend0 without end = 1", "frontend0 FE_READ_STATUS status=0x1f (lock) = 0",
      "frontend0 FE_READ_SNR 49152 = 0", "frontend0 FE_SET_VOLTAGE 1 = 0",
      "frontend0 close = 0"]),
]  # fmt: skip
# A section filter on a PID that brings none, and a read of it.
BLOCKS = "fd = os.open(DEMUX, os.O_RDWR); ask(fd, SECTION, section(8176))\n"
TOLD = ["demux0(n0) open = 0", "demux0(n0) DMX_SET_FILTER pid=8176 timeout=0 flags=IMMEDIATE_START = 0"]


@pytest.fixture(params=["--preload", "--fuse"])
def traced(server, tmp_path, request):
    """Runs a program, and gives its status, what is told of its calls without the moments, and what else it or `serve` writes."""
    if request.param == "--fuse" and (why := why_no_mount()):
        pytest.skip(why)

    def run(script, ends=""):
        source = tmp_path / "script.py"
        source.write_text(HEAD + script)
        words = [PROGRAM, "serve", request.param, "--packets", "3000", "--report", tmp_path / "report", "--trace", STREAM, "--"]
        shell = ["sh", "-c", f'exec "$@" {ends}', "sh", *words, sys.executable, "-S", source]
        ran = subprocess.run(shell, capture_output=True, text=True, check=False, timeout=100)
        lines = ran.stderr.splitlines()
        told = [line.split(" ", 1)[1] for line in lines if line.startswith("+")]
        rest = [line for line in lines if not re.match(r"\+|dvbemu serve: (started by root|no program)", line)]
        return ran.returncode, told, ran.stdout + "\n".join(rest)

    return run


def of_one(told):
    """What is told of one program, without its name, and without what only says that a call waits."""
    assert len({line.split(" ", 1)[0] for line in told}) == 1
    return [line.split(" ", 1)[1] for line in told if " .. waits" not in line]


@pytest.mark.parametrize("script, told", CALLS, ids=range(len(CALLS)))
def test_calls(traced, script, told):
    status, lines, rest = traced(script)
    assert (status, of_one(lines), rest.strip("0\n")) == (0, [line.replace("DMX_CHECK", "CHECK") for line in told], "")


def test_waits(traced):
    """A call that waits is told before it comes back, here never."""
    status, lines, _ = traced(BLOCKS + "signal.alarm(2)\nos.read(fd, 4096)")
    name = os.path.basename(os.path.realpath(sys.executable)) if not lines else lines[0].split(" ")[0]
    assert status == 128 + 14 and lines[:2] == [f"{name} {line}" for line in TOLD]
    assert re.fullmatch(rf"{re.escape(name)} demux0\(n0\) read 4096 \.\. waits since \+\d+\.\d{{3}}", lines[2])


@pytest.mark.parametrize("wait, text", [
    ("select.select([fd], [], [], 0.7)", "select demux0(n0) 700 ms"),
    ("p = select.poll(); p.register(fd); p.poll(700)", "poll demux0(n0) 700 ms"),
])  # fmt: skip
def test_waits_for_a_while(traced, wait, text):
    status, lines, _ = traced(BLOCKS + wait)
    told = [re.sub(r"^\S+ | since .*", "", line) for line in lines]
    assert (status, told) == (0, [*TOLD, f"{text} .. waits", f"{text} = 0", "demux0(n0) close = 0"])


def test_all_is_closed(traced):
    """Who closes all descriptors, also past the C library, is told on."""
    close_range = "import ctypes; ctypes.CDLL(None).syscall(436, 3, 0xFFFFFFFF, 0)\n"
    status, lines, _ = traced(f"os.closerange(3, 4096)\n{close_range}fd = os.open(DEMUX, os.O_RDWR); ask(fd, STOP); os.close(fd)")
    assert (status, of_one(lines)) == (0, ["demux0(n0) open = 0", "demux0(n0) DMX_STOP = 0", "demux0(n0) close = 0"])


def test_forks(traced):
    """A child, and what it becomes by exec, are told by their own names and numbers."""
    script = "fd = os.open(DEMUX, os.O_RDWR); pid = os.fork()\nif not pid:\n ask(fd, STOP)\n"
    script += " os.execlp('dd', 'dd', f'if={DVR}', 'count=0', 'status=none')\n"
    status, lines, rest = traced(script + "os.waitpid(pid, 0); print(pid)")
    name, pid = lines[0].split(" ")[0], rest.strip()
    told = [f"{name} demux0(n0) open = 0", f"{name}[{pid}] demux0(n0) DMX_STOP = 0", "dd dvr0 open = 0", "dd dvr0 close = 0"]
    assert (status, lines[:4]) == (0, told)


def test_is_killed(traced):
    status, lines, _ = traced("fd = os.open(DEMUX, os.O_RDWR); ask(fd, STOP); os.kill(os.getpid(), 9)")
    assert (status, of_one(lines)[:2]) == (137, ["demux0(n0) open = 0", "demux0(n0) DMX_STOP = 0"])


@pytest.mark.parametrize("ends", ["2>/dev/full", "2>&-", "2>&1 >/dev/null | true"])
def test_ends(traced, tmp_path, ends):
    """Standard error that takes nothing disturbs neither the program nor the report."""
    script = "fd = os.open(DEMUX, os.O_RDWR)\nfor i in range(500): ask(fd, STOP)\n"
    status, _, _ = traced(f"{script}open({str(tmp_path / 'done')!r}, 'w').write('500')", ends)
    assert status == 0 and (tmp_path / "done").read_text() == "500"
    assert len(re.findall(r"\bstop\b", (tmp_path / "report").read_text())) == 500


def test_a_slow_reader(traced, tmp_path):
    """A pipe that nobody reads for six seconds holds no program back; what isn't told is counted, in front of the next call."""
    script = "fd = os.open(DEMUX, os.O_RDWR); begun, count = time.monotonic(), 0\n"
    script += "while count < 4500 and time.monotonic() - begun < 15:\n ask(fd, SECTION, section(0, 0)); count += 1\n"
    script += f"time.sleep(8); ask(fd, STOP); open({str(tmp_path / 'made')!r}, 'w').write(str(count))"
    status, _, _ = traced(script, f"2>&1 >/dev/null | (sleep 6; cat > {tmp_path}/told)")
    told, made = (tmp_path / "told").read_text(), int((tmp_path / "made").read_text())
    missing = sum(int(count.replace(",", "")) for count in re.findall(r"^([\d,]+) calls? not told", told, re.M))
    assert status == 0 and told.count("DMX_SET_FILTER pid=0 0=00/ff/00 ") + missing == made and "DMX_STOP = 0" in told


def test_somebody_else_writes(traced):
    """Bytes that are no record end nothing."""
    garbage = "open(os.environ['DVBEMU_DIR'].split(':')[0] + '/trace', 'wb', 0).write(b'x' * 1000); time.sleep(0.5)\n"
    status, lines, rest = traced(f"{garbage}fd = os.open(DEMUX, os.O_RDWR); os.close(fd)")
    assert (status, of_one(lines), rest) == (0, ["demux0(n0) open = 0", "demux0(n0) close = 0"], "")


def test_without(server, tmp_path):
    words = [PROGRAM, "serve", "--packets", "3000", "--report", tmp_path / "report", STREAM, "--"]
    words += ["dd", "if=/dev/dvb/adapter0/dvr0", "count=0", "status=none"]
    ran = subprocess.run(words, capture_output=True, text=True, check=False)
    assert ran.returncode == 0 and not re.search(r"^\+", ran.stderr, re.M)


@pytest.mark.parametrize("env, is_coloured", [({}, True), ({"NO_COLOR": "1"}, False), ({"NO_COLOR": ""}, True)])
def test_colours(env, is_coloured, server, tmp_path):
    """On a terminal an error is red; where NO_COLOR has a value nothing is."""
    ours, theirs = pty.openpty()
    kept = {name: value for name, value in os.environ.items() if name != "NO_COLOR"}
    (tmp_path / "script.py").write_text(HEAD + CALLS[3][0])
    words = [PROGRAM, "serve", "--packets", "3000", "--keep", "none", "--trace", STREAM, "--"]
    words += [sys.executable, tmp_path / "script.py"]
    with subprocess.Popen(words, stderr=theirs, stdin=theirs, env={**kept, **env}) as child:
        child.wait(60)
    os.close(theirs)
    text = os.read(ours, 65536).decode()
    os.close(ours)
    told = "\x1b[31m = -1 EBUSY\x1b[0m" if is_coloured else " = -1 EBUSY"
    assert f"dvr0 open{told}\r\n" in text and "dvr0 close = 0\r\n" in text


# ------ what no program here calls

def record(call, node=0, number=0, argument=b"", result=0, adapter=0, name=b"it", lost=0):
    return trace.Record(0, 1, 1, lost, result, call, adapter, node, number, len(argument), name, argument.ljust(256, b"\0"))


TEXTS = [
    (record(trace.IOCTL, 3, 0x6F29, adapter=1), "adapter1/demux0(n3) DMX_START"),
    (record(trace.IOCTL, 32, 0x6F2D, struct.pack("<I", 5)), "dvr0 DMX_SET_BUFFER_SIZE size=5"),
    (record(trace.IOCTL, 0, 0x403C6F2B, bytes(10)), "demux0(n0) DMX_SET_FILTER"),
    (record(trace.IOCTL, 0, 0x40146F2C, struct.pack("<H2x4I", 8192, 1, 7, 0, 8)),
     "demux0(n0) DMX_SET_PES_FILTER pid=8192 input=dvr output=7 type=0 flags=0x8"),
    (record(trace.FRONTEND, 64, 0x80286F4E, struct.pack("<II", 0x1F, 474000000)),
     "frontend0 FE_GET_EVENT status=0x1f (lock) frequency=474000000"),
    (record(trace.FRONTEND, 64, 0x80106F53, struct.pack("<4I", 44, 9, 23, 9)), "frontend0 FE_GET_PROPERTY ENUM_DELSYS DTV_23=9"),
    (record(trace.FRONTEND, 64, 0x6F7F), "frontend0 ioctl 0x6f7f"),
    (record(trace.WAIT, 64, 2**32 - 1, struct.pack("<16s3I", b"ppoll", 2 << 8 | 4, 3 << 8 | 32, 1 << 16 | 1 << 8 | 64)),
     "ppoll demux0(n4) dvr0 adapter1/frontend0 without end"),
]  # fmt: skip


@pytest.mark.parametrize("of, text", TEXTS)
def test_texts(of, text):
    assert trace.call_text(of) == text


@pytest.mark.parametrize("result, text", [(0, "0"), (4096, "4096"), (-16, "-1 EBUSY"), (-9999, "-1 9999")])
def test_results(result, text):
    assert trace.result_text(result) == text
