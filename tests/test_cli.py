"""Each word of `dvbemu`: --help, --version, no word behind it, a file that isn't there, a folder, random bytes, an option that it
doesn't know, a reader that goes, Ctrl-C, and, where it reads standard input, a terminal. Each says in one form what it has to
say, and none shows where in its code it was. A word of the tables of dvbemu.cli that isn't tried in each of these ways fails."""
import contextlib
import fcntl
import os
import pty
import re
import signal
import subprocess
import termios
import time

import pytest
from conftest import ENDS, PROGRAM, SERVER
from dvbemu import cli
from dvbemu import tool as form

WORDS = [*cli.PROVED, *cli.TOOLS]
# With no word behind them: the status over an empty standard input, and the beginning of what is told, or the words that are
# missing.
ALONE = {
    "steps": (3, "dvbemu: script line 1: nostream"), "run": (3, "dvbemu: script line 1: nostream"),
    "check": (3, "dvbemu: script line 0: number"), "make": (2, "N"), "selftest": (2, "N"),
    "explain": (1, "dvbemu explain: standard input: line 1: expected"),
    "picture": (1, "dvbemu picture: standard input: line 1: expected"),
    "bytes": (1, "dvbemu bytes: standard input: line 1: expected"),
    "pace": (1, "dvbemu pace: standard input: fewer than two PCRs"),
    "json": (1, "dvbemu json: standard input: line 1: expected"), "page": (1, "dvbemu page: standard input: line 1: expected"),
    "serve": (2, "STREAM, COMMAND; put -- before COMMAND"), "words": (0, ""),
    "beside": (3, "dvbemu: script line 1: nostream"), "fuzz": (2, "RECORDING, COMMAND; put -- before COMMAND"),
    "test": (2, "PATH"), "session": (2, "REPORT, STREAM"), "merge": (2, "FOLDER"),
    "packet": (2, "PID, COUNTER, KIND, BYTES"), "calls": (2, "PROGRAM"), "build": (2, "PROGRAM"),
}  # fmt: skip
# A word in the place of which a file stands, and the status where that isn't there, is a folder, or has random bytes. Those that
# read no file take it for a number.
READS = {
    "steps {}": (1, 1, 3), "steps script {}": (1, 1, 0), "run {}": (1, 1, 3), "run script {}": (1, 1, 0),
    "check {} session": (1, 1, 1),
    "check report {}": (1, 1, 3), "check report script {}": (1, 1, 1), "make {}": (2, 2, 2), "selftest {}": (2, 2, 2),
    "explain {}": (1, 1, 1), "picture {}": (1, 1, 1), "page {}": (1, 1, 1), "json {}": (1, 1, 1), "json --back {}": (1, 1, 1),
    "beside {}": (1, 1, 3), "beside {} session": (1, 1, 3), "beside report {}": (1, 1, 3), "beside script {}": (1, 1, 0),
    "explain {} session": (1, 1, 1), "explain report {}": (1, 1, 1), "bytes {}": (1, 1, 1),
    "session {} session": (1, 1, 1), "session report {}": (1, 1, 1), "pace {}": (1, 1, 1), "words {}": (1, 1, 0),
    "merge {}": (1, 1, 1),
    "test {}": (1, 1, 1), "calls {}": (127, 127, 127), "packet {} 0 payload 00": (2, 2, 2), "packet 0 0 payload {}": (1, 1, 1),
    "serve {} -- true": (1, 1, 1), "serve --channels {} -- true": (1, 1, 1), "build {}": (2, 2, 2),
    "fuzz {} -- true": (1, 1, 1),
}  # fmt: skip
# Those that write: what they are given by standard input.
WRITES = {
    "steps -": "session", "run -": "session", "make 7": None, "selftest 7": None, "explain": "report", "picture": "report",
    "page": "report",
    "json": "report", "explain - session": "report", "beside": "session", "bytes": "report", "session - stream": "served",
    "words": "session", "pace --rate 1000": "stream",
    "packet 0 0 payload 00": None, "test a.session": None, "check - session": "report", "calls true": None,
    "merge kept": None, "build dvbemu": None, "serve --help": None, "fuzz --help": None, "--help": None, "--version": None,
}  # fmt: skip
# Those that are done by the program alone.
OWN = "make 7", "selftest 7"
# Those that wait for standard input.
WAITS = (
    "steps", "steps -", "steps script -", "run", "run -", "check", "check - session", "check report -",
    "beside", "beside -", "beside report -", "explain", "explain -", "picture", "page", "json", "json --back",
    "explain - session", "bytes", "session - session", "pace", "pace -", "words",
    "serve - -- true",
)  # fmt: skip
# What they are given then, so that they wait for more: those that read a report, and others.
REPORTS = "explain", "picture", "page", "json", "bytes", "session", "check -"
BEGINS = {"check": b"report 9\n", "json --back": b"{"}
# Those that wait for a reader, and for a program that has begun.
FULL = "make 7", "selftest 7", "packet 0 0 payload 00", "merge kept", "build dvbemu", "fuzz --help"
READY = "-- sh -c echo${IFS}ready>&2;exec${IFS}sleep${IFS}600"
BEGUN = f"calls {READY}", f"serve --packets 1500 --report r stream {READY}"
INTERRUPTED = [line for line in WAITS if not line.startswith("serve ")]
# Which lines try the words in which way.
WAYS = {"no word": ALONE, "a file": READS, "a reader that goes": WRITES, "Ctrl-C": [*INTERRUPTED, *FULL, *BEGUN, "test fifo"]}


def is_quiet(told):
    """Whether nothing shows where in its code a command was."""
    return not re.search(r"Traceback|Errno|File \"|Exception ignored", told)


def see_server(line):
    """Skips a line that needs the server, where that isn't built."""
    if line.startswith("serve -") and not SERVER.exists():
        pytest.skip("dvb_serve isn't built")


@pytest.fixture
def started(files_room):
    """Starts a line in a group of its own, as a shell does; it is killed at the end."""
    children = []

    def start(line, **ends):
        ends = {"stdin": subprocess.PIPE, "stdout": subprocess.PIPE, **ends}
        children.append(subprocess.Popen([PROGRAM, *line.split()], cwd=files_room.folder, stderr=subprocess.PIPE,
                                         start_new_session=True, **ends))
        return children[-1]

    yield start
    for child in children:
        if child.poll() is None:
            os.killpg(child.pid, signal.SIGKILL)
            child.wait()
        for end in filter(None, (child.stdin, child.stdout, child.stderr)):
            with contextlib.suppress(BrokenPipeError):
                end.close()


@pytest.mark.parametrize("way", WAYS)
def test_each_word_is_tried(way):
    assert set(WORDS) - {line.split()[0] for line in WAYS[way]} == set()


# ------ --help, --version, no word, and an option that isn't known


@pytest.mark.parametrize("word", WORDS)
def test_help(files_room, word):
    status, out, told = files_room.quick(f"{word} --help")
    page = out.decode()
    assert (status, told) == (0, "") and page.startswith(f"usage: dvbemu {word}")
    assert all(re.search(rf"^{part} +\S", page, re.M) for part in form.PARTS)
    assert max(map(len, page.split("\n"))) <= 145


@pytest.mark.parametrize("line", [*(f"{word} --version" for word in WORDS), "--version", "version", "-V"])
def test_version(files_room, line):
    status, out, _ = files_room.quick(line)
    assert (status, out.decode()) == (0, form.version() + "\n")


@pytest.mark.parametrize("word", WORDS)
def test_unknown_option(files_room, word):
    status, out, told = files_room.quick(f"{word} --nothing")
    usage, wrong = told.splitlines()
    assert (status, out) == (2, b"") and usage.startswith(f"usage: dvbemu {word}") and is_quiet(usage)
    assert re.match(rf"dvbemu {word}: error: (unrecognized arguments: --nothing|the following arguments are required: )", wrong)


def test_help_of_all(files_room):
    page = files_room.run("--help").out.decode()
    groups = re.split(r"^(?:proved|tested)\b", page, flags=re.M | re.I)
    assert len(groups) == 3 and all(re.search(rf"^ +(dvbemu )?{word}\b", groups[1], re.M) for word in cli.PROVED)


@pytest.mark.parametrize("word, status, line", [(word, *wanted) for word, wanted in ALONE.items()], ids=ALONE)
def test_no_word(files_room, word, status, line):
    found = files_room.quick(word)
    assert found[:2] == (status, b"") and is_quiet(found.err)
    if status == 2:
        assert found.err.endswith(f"\ndvbemu {word}: error: the following arguments are required: {line}\n")
    else:
        assert found.err.startswith(line)


def test_a_word_that_has_moved(monkeypatch, tool):
    monkeypatch.setitem(cli.MOVED, "told", "`explain REPORT SESSION` tells it")
    status, out, told = tool("told", "r", "s")
    assert (status, out) == (2, "") and told.startswith("usage: dvbemu WORD ..") and told.endswith("\ndvbemu: error: `explain "
                                                                                                   "REPORT SESSION` tells it\n")


# ------ a file that isn't there, a folder, and random bytes


@pytest.mark.parametrize("line, file, status", [
    (line, file, status) for line, statuses in READS.items() for file, status in zip(("no.such", "folder", "random"), statuses)
])  # fmt: skip
def test_file(files_room, line, file, status):
    found = files_room.quick(line.format(file))
    # (of what stands in a script the program tells no name, of a stream's packets the line of the report, and of bytes the form)
    told_else = "dvbemu: script line ", "dvbemu: report line ", "dvbemu: report: line ", "dvbemu packet: bytes are "
    assert found.status == status and is_quiet(found.err)
    assert not found.err or file in found.err or found.err.startswith(told_else)
    # (behind wrong words stands their usage, behind `no` what was expected)
    assert (found.err.count("\n") if status != 3 else 1) <= 1 + (status == 2 or "\nexpected " in found.err)
    assert status in (0, 3) or found.err or found.out


@pytest.mark.parametrize("line, given", WRITES.items())
def test_a_reader_that_goes(files_room, started, line, given):
    """No line is told, but by the program itself."""
    child = started(line)
    child.stdout.close()
    try:
        child.stdin.write(files_room.read(given) if given else b"")
        child.stdin.close()
    except BrokenPipeError:
        pass
    told = child.stderr.read().decode()
    assert (child.wait(), told) == ((6, "dvbemu: write failed\n") if line in OWN else (-signal.SIGPIPE, ""))


# ------ Ctrl-C while a command waits for its input, for a reader, or for a program


def taken(child, piece):
    """Writes a piece to a command and waits until it has taken that."""
    left = bytearray(4)
    child.stdin.write(piece)
    child.stdin.flush()
    last = time.monotonic() + ENDS
    while time.monotonic() < last:
        fcntl.ioctl(child.stdin, termios.FIONREAD, left)
        if not any(left):
            return
        time.sleep(0.01)


def see_interrupted(child):
    """Ctrl-C: a command ends within a while, as a shell sees it with the status 130, and says nothing."""
    os.killpg(child.pid, signal.SIGINT)
    _, told = child.communicate(timeout=ENDS)
    assert child.returncode in (-signal.SIGINT, 130) and told == b""


@pytest.fixture
def full_pipe():
    """The end of a pipe that takes no byte more."""
    reader, writer = os.pipe()
    os.set_blocking(writer, False)
    try:
        while True:
            os.write(writer, bytes(1 << 16))
    except BlockingIOError:
        os.set_blocking(writer, True)
    yield writer
    os.close(reader)
    os.close(writer)


def waits_for_reader(child):
    """Waits until a command sleeps, as in a write to a full pipe: some looks long, and with no child of its own."""
    last, slept = time.monotonic() + ENDS, 0
    while slept < 5 and time.monotonic() < last:
        with open(f"/proc/{child.pid}/stat", encoding="ascii") as file:
            is_asleep = file.read().rpartition(")")[2].split()[0] == "S"
        with open(f"/proc/{child.pid}/task/{child.pid}/children", encoding="ascii") as file:
            slept = slept + 1 if is_asleep and not file.read() else 0
        time.sleep(0.02)


@pytest.mark.parametrize("line", INTERRUPTED)
def test_ctrl_c_in_a_read(started, line):
    child = started(line)
    taken(child, BEGINS.get(line, b"dvbemu 1\n" if line.startswith(REPORTS) else b"stream\n"))
    see_interrupted(child)


@pytest.mark.parametrize("line", FULL)
def test_ctrl_c_in_a_write(started, full_pipe, line):
    child = started(line, stdout=full_pipe)
    waits_for_reader(child)
    see_interrupted(child)


@pytest.mark.parametrize("line", BEGUN, ids=["calls", "serve"])
def test_ctrl_c_beside_a_program(started, line):
    see_server(line)
    child = started(line)
    # (root is told of its rights before)
    assert b"ready\n" in iter(child.stderr.readline, b"")
    see_interrupted(child)


def test_ctrl_c_in_test(files_room, started):
    os.makedirs(files_room.folder / "fifo", exist_ok=True)
    os.mkfifo(path := files_room.folder / "fifo" / "a.session")
    child = started("test fifo")
    # (this waits until the command reads it)
    with open(path, "wb"):
        see_interrupted(child)


@pytest.mark.parametrize("number", range(12))
def test_an_early_ctrl_c(started, number):
    """Ctrl-C while a command begins. Where `env` can't hold it back, Python says where it was."""
    if subprocess.run(["env", "--block-signal=INT", "true"], stderr=subprocess.DEVNULL, check=False).returncode:
        pytest.skip("this env has no --block-signal")
    child = started(("explain", "steps -", "words")[number % 3])
    time.sleep(0.01 * number)
    see_interrupted(child)


@pytest.mark.parametrize("line", WAITS)
def test_a_terminal(started, line):
    """What waits for a terminal says so in one line."""
    see_server(line)
    keys, terminal = pty.openpty()
    told = started(line, stdin=terminal).stderr.readline().decode()
    os.close(keys)
    os.close(terminal)
    word = line.split()[0]
    teller = "dvbemu" if word in cli.PROVED else f"dvbemu {word}"
    assert told.startswith(f"{teller}: reading standard input, which is a terminal; Ctrl-D ends it")
