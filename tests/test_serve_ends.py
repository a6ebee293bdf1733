"""How a served command is begun and how it ends: on a terminal, without one, with little around it, in another; what won't have
the preload, and seats."""
from __future__ import annotations

import os
import pty
import select
import signal
import struct
import subprocess
import sys
import tempfile
import time
from pathlib import Path

import pytest
from conftest import needs
from dvbemu.server.adapters import end_with
from dvbemu.server.clearing import VARIABLE, tell_program
from dvbemu.server.commands import unseen_as
from serving import DEMUX, HINTS, RATE, SERVE, TUNER, passes, ran
from stations import HERTZ, NAMES, Station

# The seconds in which a terminal tells what is waited for, and the byte that stands for Ctrl-C there.
TELLS, CTRL_C = 20, b"\x03"
PACED = ["--keep", "none", "--packets", RATE]
AS_ROOT = pytest.mark.skipif(os.geteuid() != 0, reason="not root")
# A program, made by Go where that is asked.
SMALL = r"""int main(void) { return 0; }
#ifdef GO
__asm__(".pushsection .note.go.buildid,\"a\",@note\n.long 4, 0, 4\n.ascii \"Go\\0\\0\"\n.popsection");
#endif
"""


class Terminal:
    """A shell on a terminal, in which all that it writes is kept."""

    def __init__(self, served):
        self.told, words = b"", [SERVE, *PACED, str(served.stream), "--", "bash", "--norc", "-i"]
        self.pid, self.end = pty.fork()
        if self.pid == 0:
            os.execvpe(words[0], words, dict(os.environ, PS1="> ", TERM="dumb", HISTFILE=""))

    def tells(self, text):
        """Whether this comes, behind what was waited for before."""
        until = time.monotonic() + TELLS
        while text not in self.told and time.monotonic() < until:
            try:
                self.told += os.read(self.end, 4096) if select.select([self.end], [], [], 0.1)[0] else b""
            except OSError:
                break
        _, found, self.told = self.told.partition(text)
        return bool(found)

    def ends(self):
        """How it ends; None where it doesn't."""
        until = time.monotonic() + TELLS
        while time.monotonic() < until:
            self.tells(b"\0")
            pid, status = os.waitpid(self.pid, os.WNOHANG)
            if pid:
                return os.waitstatus_to_exitcode(status)
        os.kill(self.pid, signal.SIGTERM)
        return None


@pytest.mark.skipif(not os.path.exists("/dev/ptmx"), reason="/dev/ptmx isn't there")
def test_terminal(served):
    """Ctrl-C ends the program and not the server, and the shell goes on and says how all ends."""
    needs("bash")
    terminal = Terminal(served)
    assert terminal.tells(b"> "), terminal.told
    os.write(terminal.end, f"echo beg''un; {served.cases} +wait 100; echo en''ded $?\n".encode())
    assert terminal.tells(b"begun"), terminal.told
    time.sleep(1)
    os.write(terminal.end, CTRL_C)
    os.write(terminal.end, f"{served.cases} +beside; echo st''atus $?\n".encode())
    assert terminal.tells(b" 0 failed") and terminal.tells(b"status 0"), terminal.told
    os.write(terminal.end, b"exit 4\n")
    assert terminal.ends() == 4
    os.close(terminal.end)


def test_without_standard_ends(served):
    script = f"\"$0\" --keep none --packets {RATE} \"$1\" -- sh -c '\"$0\" +beside > told' \"$2\" <&- >&- 2>&-"
    ended = ran(["sh", "-c", script, SERVE, served.stream, served.cases], cwd=served.folder)
    assert ended.returncode == 0 and passes(served.read("told").decode()) == 1


def test_few_descriptors(served):
    served.by_script('ulimit -n 64; exec "$0" +beside')


def test_all_but_temporary_files_is_read_only(served):
    """And /proc isn't there."""
    needs("bwrap")
    place = os.path.realpath(tempfile.gettempdir())
    bare = ["bwrap", "--unshare-all", "--ro-bind", "/", "/", "--dev", "/dev", "--bind", place, place]
    if ran([*bare, "true"]).returncode:
        pytest.skip("bwrap may not")
    served.passed(served.cases, "+beside", before=bare)


@pytest.mark.parametrize("command, wanted", [
    (["sh", "-c", "exit 77"], 77), (["sh", "-c", "kill -SEGV $$"], 139), (["sh", "-c", "kill -KILL $$"], 137),
    (["sh", "-c", "(trap '' TERM; sleep 100) & exit 5"], 5), (["false"], 1), (["/nowhere"], 127), (["/etc/passwd"], 127),
])  # fmt: skip
def test_status(served, command, wanted):
    """How the command ends is told, and what it leaves is ended, also what doesn't want to be."""
    assert served.run(*command, keep="none")[1] == wanted


def test_nested(served):
    """Of one command in another the inner one's programs have its adapter, and then the outer one's again."""
    outer, inner = (served.put(names[0], Station(number, names, HERTZ).stream(2)) for number, names in enumerate(NAMES[:2], 1))
    words = ["sh", "-c", '"$@" && "$0" 474000000', TUNER, SERVE, *PACED, inner, "--", TUNER, "474000000"]
    told = "".join(f"474000000 {' '.join(names)}\n" for names in (NAMES[1], NAMES[0]))
    assert served.call([*PACED, outer], words) == (told, 0)


def test_bells(served):
    """A bell's file is made when its node is opened for the first time, and not before, and once more with another."""
    bells = "ls \"$DVBEMU_DIR\" | grep -c '^bell'"
    script = f"{bells}; exec 3<{DEMUX}; {bells}; exec 3<&-; exec 3<{DEMUX} 4<{DEMUX}; {bells}"
    assert served.run("sh", "-c", script, keep="none")[0] == "0\n1\n2\n"


@AS_ROOT
@pytest.mark.parametrize("command, told", [
    (["ls", "/dev/dvb/adapter0"], "demux0\ndvr0\nfrontend0\n"), (["cat", DEMUX], f"cat: {DEMUX}: Permission denied\n"),
])  # fmt: skip
def test_without_rights_of_root(served, command, told):
    """A program that gives them up sees the adapter, and can't open it; and that is told."""
    script = "import os, sys; os.setgroups([]); os.setgid(65534); os.setuid(65534); os.execvp(sys.argv[1], sys.argv[1:])"
    served.path("closed").mkdir(0o700)
    words = ["env", f"TMPDIR={served.path('closed')}", SERVE, *PACED, served.stream, "--", sys.executable, "-c", script, *command]
    out = ran(words).stdout
    assert out.startswith("dvbemu serve: started by root: a program that gives up root's rights can't open")
    assert HINTS.sub("", out) == told


# ------ what won't have the preload


@pytest.fixture
def small(tmp_path):
    """Makes a small program in C: its path."""
    needs("cc")
    (tmp_path / "small.c").write_text(SMALL)

    def made(flag):
        assert subprocess.call(["cc", flag, "-o", tmp_path / "small", tmp_path / "small.c"]) == 0
        return str(tmp_path / "small")

    return made


@pytest.mark.parametrize("flag, told", [
    ("-O0", "None"), ("-static", "is linked statically"), ("-static-pie", "is linked statically"), ("-DGO", "is written in Go"),
    ("-Wl,--dynamic-linker=/lib/ld-musl-x86_64.so.1", "uses the C library musl"),
])  # fmt: skip
def test_unseen(small, flag, told):
    assert str(unseen_as(small(flag))).startswith(told)


def test_unseen_are_told(served, small):
    """At the start, and at the end that nobody has opened the adapter."""
    path = small("-static")
    out = ran([SERVE, *PACED, served.stream, "--", path]).stdout
    assert out.startswith(f"dvbemu serve: {path} is linked statically, so it won't see the adapter: use dvbemu serve --fuse\n")
    assert "\ndvbemu serve: no program opened the adapter; " in out


@pytest.mark.parametrize("opened", [f"exec 3<{DEMUX}", "exec 3<>/dev/dvb/adapter0/frontend0"])
def test_an_opened_adapter_is_seen(served, opened):
    assert "no program opened" not in ran([SERVE, *PACED, served.stream, "--", "sh", "-c", opened]).stdout


def test_unseen_of_other_files(tmp_path, small):
    data = Path(small("-static")).read_bytes()
    (tmp_path / "other").write_bytes(data[:4] + b"\1" + data[5:])
    assert unseen_as(str(tmp_path / "other")) == "is a 32-bit program"
    assert unseen_as(str(tmp_path / "small.c")) is None


@AS_ROOT
def test_unseen_of_another_user(small):
    path = small("-static")
    os.chown(path, 65534, -1)
    os.chmod(path, 0o4755)
    assert unseen_as(path) == "is setuid or setgid"


@AS_ROOT
def test_unseen_with_capabilities(small, monkeypatch):
    """A file with a capability (CAP_NET_RAW, as of capability.h), which for root changes nothing."""
    path = small("-O0")
    os.setxattr(path, "security.capability", struct.pack("<5I", 0x02000000, 1 << 13, 0, 0, 0))
    assert unseen_as(path) is None
    monkeypatch.setattr(os, "geteuid", lambda: 65534)
    assert unseen_as(path) == "has file capabilities"


def test_quoted_command(served, small):
    """A command of one word that isn't there is asked for its quotes, and no report is begun."""
    ended = ran([SERVE, "--packets", RATE, "--report", served.report, served.stream, "--", f"{small('-O0')} x"])
    assert ended.returncode == 127 and ended.stdout.endswith("; is the command quoted as one word?\n")
    assert not served.report.exists()


# ------ seats and processes


@pytest.mark.parametrize("seats, told", [
    ("1", "dvbemu serve: 2 programs got EIO, since only 1 can be served at a time (--seats)\n"), ("3", ""),
])  # fmt: skip
def test_seatless(served, seats, told):
    """How many programs have found no seat is told at the end, each once."""
    script = '"$0" +wait 12 & sleep 1; (exec 3<$1; exec 3<$1) & "$0" +beside & wait'
    out, status = served.script(script, DEMUX, keep="none", seats=seats)
    assert status == 0 and "".join(out.partition("dvbemu serve: ")[1:]) == told


@pytest.mark.parametrize("parent, wanted", [(None, 0), (1, -signal.SIGKILL)])
def test_parent(parent, wanted):
    """A server ends at once where its parent has gone before it could say so, and else it begins."""
    number = parent or os.getpid()
    assert subprocess.run(["true"], preexec_fn=lambda: end_with(number), check=False).returncode == wanted


def test_number_of_a_process(tmp_path):
    """Only who finds the adapters is ended, and not who has got its number since."""
    with subprocess.Popen(["sleep", "100"], env={VARIABLE: str(tmp_path)}) as child:
        tell_program(child.pid, "/another", signal.SIGKILL)
        time.sleep(0.1)
        assert child.poll() is None
        tell_program(child.pid, str(tmp_path), signal.SIGKILL)
        assert child.wait() == -signal.SIGKILL
