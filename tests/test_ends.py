"""Each word of `dvbemu` where standard input, output or errors are closed, full or a folder, and where the program is killed:
each ends by an exact status with one line that names what failed, and none shows where in its code it was. A word of the tables
of dvbemu.cli that has no line here fails. The program's place is taken by one that ends by each signal that ends a process."""
import os
import random
import re
import shutil
import signal
import subprocess
import sys
import time

import pytest
from conftest import ENDS, EXAMPLES, PROGRAM, ROOT, SERVER
from dvbemu import cli
from dvbemu.commands import test as tests_word

SOURCE = str(ROOT / "python" / "src")
# What a run of `serve` as root begins with on standard error, and what it ends with where no program opened the adapter.
ROOT_LINE, UNOPENED = re.compile("dvbemu serve: started by root: .*\n"), re.compile("dvbemu serve: no program opened the "
                                                                                    "adapter; .*\n")
# A line of each word that exited with status 0 and has written something.
LINES = {
    "steps": "steps session", "run": "run session", "check": "check report session", "make": "make 7", "selftest": "selftest 7",
    "serve": "serve --help", "explain": "explain report", "beside": "beside session", "picture": "picture report",
    "page": "page report",
    "json": "json report", "bytes": "bytes report", "session": "session served recording", "fuzz": "fuzz --help",
    "test": "test tests", "words": "words session", "packet": "packet 0 0 payload 00", "pace": "pace --rate 1000 stream",
    "calls": "calls true", "merge": "merge kept", "build": "build dvbemu", "--help": "--help", "--version": "--version",
}  # fmt: skip
# Those whose output is the program's own, and the program's line where it can't be written.
OWN, OWN_LINE = ("steps", "run", "make", "selftest"), "dvbemu: write failed\n"
FULL, CLOSED = "No space left on device", "Bad file descriptor"
# What a shell makes of standard output, and why it takes nothing then. And with which of these the help of a word is asked.
OUTPUTS = {">/dev/full": FULL, ">&-": CLOSED, ">/dev/full </tmp": FULL, ">&- <&-": CLOSED, "1</tmp": CLOSED}
HELPS = ">/dev/full", ">&-"
# What it makes of the other ends, so that a word does all the same.
OTHERS = "<&-", "</tmp", "2>/dev/full", "2>&-", "<&- 2>&-", "</tmp 2>&-", "2</tmp", "9</dev/null </tmp"
# The words that read standard input, and what that is called where it can't be read.
READS = {
    "steps -": "dvbemu: standard input", "run -": "dvbemu: standard input", "check - session": "dvbemu: standard input",
    "check report -": "dvbemu: standard input", "explain": "dvbemu explain: standard input",
    "picture": "dvbemu picture: standard input",
    "page": "dvbemu page: standard input", "json": "dvbemu json: standard input", "json --back": "dvbemu json: standard input",
    "explain - session": "dvbemu explain: standard input", "explain report -": "dvbemu explain: standard input",
    "bytes": "dvbemu bytes: standard input", "words": "dvbemu words: standard input",
    "session - session": "dvbemu session: standard input", "session report -": "dvbemu session: standard input",
    "pace": "dvbemu pace: standard input", "beside": "dvbemu beside: standard input",
    "beside report -": "dvbemu beside: standard input",
}  # fmt: skip
UNREADABLE = {"</tmp": "Is a directory", "<&-": "it is closed"}
# Statuses of a program, and the signals that don't end a process, and those by which a command ends quietly too.
# (nor do 32 and 33, which the C library keeps for itself)
STATUSES = 0, 4, 7, 127, 128, 129, 130, 137, 141, 147, 148, 192, 193, 255
HARMLESS = {32, 33, signal.SIGCHLD, signal.SIGCONT, signal.SIGSTOP, signal.SIGTSTP, signal.SIGTTIN, signal.SIGTTOU,
            signal.SIGURG, signal.SIGWINCH}  # fmt: skip
QUIET = {signal.SIGINT, signal.SIGPIPE}
# Those that the wrapper passes on to the program as they are, which takes seconds for them: here it is another one.
PASSED = "make 7", "selftest 7"
WRITES = """#!/bin/sh
{ echo "$*"; } 2>/dev/null && exit
echo "dvbemu: write failed" >&2
exit 6
"""
# A program that a signal ends.
KILLED = """#!/usr/bin/env -S python3 -S
import os, signal, sys
number = int(os.environ["ENDS_BY"])
if sys.argv[1] == os.environ.get("IN", sys.argv[1]):
    if number != signal.SIGKILL:
        signal.signal(number, signal.SIG_DFL)
    os.kill(os.getpid(), number)
os.execv(os.environ["REAL"], [os.environ["REAL"], *sys.argv[1:]])
"""
# Faults that no command looks after, their statuses and what is told of them.
FAULTS = [
    ("MemoryError()", 7, "out of memory"), ("OSError(28, 'No space left on device', 'a')", 1, "a: No space left on device"),
    ("OSError(24, 'Too many open files')", 1, "Too many open files"),
    ("IndexError('a\\nb')", 70, "internal error, at <string>:3: IndexError: a b"),
]
FAULTY = """
from dvbemu import standard
def fails(): raise {}
standard.run("dvbemu it", fails)
"""
# A hang-up that comes just behind the look that finds the program's end.
HUNG_UP = """
import os, signal
from dvbemu import child
reap = os.waitpid
def waitpid(*words):
    found = reap(*words)
    os.kill(os.getpid(), signal.SIGHUP)
    return found
os.waitpid = waitpid
run = child.Run("/bin/cat", ["steps"], True)
run.feed([b"x"])
"""
ASKED = "check report session", "run session", "steps tests/a.session"
# Ends that a word doesn't need, and the lines of the words, and others whose status isn't 0.
OTHER_LINES = [*LINES.values(), "check wrong session", "steps -- no.such", "stepz"]


@pytest.fixture(scope="session")
def stand_in(tmp_path_factory):
    """Copies of the wrapper, each with another program: the path of one."""

    def made(text):
        top = tmp_path_factory.mktemp("top")
        program = top / "crates" / "dvbemu" / "out" / "dvbemu"
        program.parent.mkdir(parents=True)
        shutil.copy2(PROGRAM, top)
        shutil.copytree(ROOT / "python", top / "python", ignore=shutil.ignore_patterns("__pycache__"))
        program.write_text(text)
        program.chmod(0o755)
        return str(top / "dvbemu")

    tops = {"killed": made(KILLED), "writes": made(WRITES), "exits": made("#!/bin/sh\nexit $STATUS\n")}
    return tops.__getitem__


@pytest.fixture(scope="session")
def shell(files_room, stand_in):
    """Runs a line by a shell with these ends: its status as the shell sees it, what it wrote and what it told."""

    def run(line, ends="", program=None, folder=files_room.folder, **more):
        program = program or (stand_in("writes") if line in PASSED else PROGRAM)
        ran = subprocess.run(["sh", "-c", f"\"$0\" {line} {ends}\nexit $?", program], cwd=folder, stdin=subprocess.DEVNULL,
                             capture_output=True,
                             check=False, timeout=ENDS, env={**os.environ, **more})  # fmt: skip
        return ran.returncode, ran.stdout, ran.stderr.decode()

    return run


@pytest.fixture(scope="session")
def plain(shell):
    """What comes of a line whose ends are as ever."""
    kept = {}
    return lambda line: kept[line] if line in kept else kept.setdefault(line, shell(line))


def test_each_word_has_a_line():
    assert {*cli.PROVED, *cli.TOOLS, "--help", "--version"} ^ set(LINES) == set()


@pytest.mark.parametrize("ends, why", OUTPUTS.items())
@pytest.mark.parametrize("word, line", LINES.items(), ids=LINES)
def test_output(shell, word, line, ends, why):
    """Standard output that takes nothing: the status 6, and a line that names it. The help of a word is the same."""
    teller = f"dvbemu {word}" if word in cli.TOOLS else "dvbemu"
    told = f"{teller}: standard output: {why}\n"
    assert shell(line, ends) == (6, b"", OWN_LINE if word in OWN else told)
    if ends in HELPS and line != f"{word} --help":
        assert shell(f"{word} --help", ends) == (6, b"", told)


@pytest.mark.parametrize("ends", OTHERS)
@pytest.mark.parametrize("line", OTHER_LINES)
def test_other_ends(shell, plain, line, ends):
    """Ends that a word doesn't need: all is as it is without. What can't be told changes no status."""
    (status, out, told), found = plain(line), shell(line, ends)
    # (of a run by threads the report is another each time)
    assert (found[0], found[2]) == (status, "" if "2" in ends else told)
    assert line.startswith("run") or found[1] == out


@pytest.mark.parametrize("ends, why", UNREADABLE.items())
@pytest.mark.parametrize("line, named", READS.items())
def test_input(shell, line, named, ends, why):
    """Standard input that can't be read: the status 1, and a line that names it."""
    assert shell(line, ends) == (1, b"", f"{named}: {why}\n")


@pytest.mark.parametrize("number", sorted(set(range(1, 65)) - HARMLESS))
@pytest.mark.parametrize("line", ASKED)
def test_killed(shell, stand_in, line, number):
    """A program that a signal has ended: 128 and its number as a shell sees it, and a line; but none for Ctrl-C, and a reader
    that goes."""
    told = "" if number in QUIET else f"dvbemu: the program was killed by signal {number}\n"
    assert shell(line, "", stand_in("killed"), ENDS_BY=str(number), REAL="/bin/true") == (128 + number, b"", told)


@pytest.mark.parametrize("status", STATUSES)
@pytest.mark.parametrize("line", ASKED)
def test_status(shell, stand_in, line, status):
    """A program that ends with a status, also one that a shell has for a signal: it stays."""
    assert shell(line, "", stand_in("exits"), STATUS=str(status))[:2] == (status, b"")


# ------ what doesn't answer is no test that passes, nor a report that is right


@pytest.fixture
def two_tests(room, files_room):
    """A folder of two tests, and where the program stands."""
    room.write({f"tests/a{ending}": files_room.read(f"tests/a{ending}") for ending in (".session", ".report")})
    room.write({"tests/b.session": b"c0 open n0\nstream\n" + 2 * files_room.read("stream")})
    room.write({"tests/b.report": room.run("steps --batch 1 tests/b.session").out})
    return {"folder": room.folder, "REAL": str(ROOT / "crates" / "dvbemu" / "out" / "dvbemu"), "ENDS_BY": "9"}


@pytest.mark.parametrize("word", ["check", "steps"])
def test_test_of_a_killed_program(shell, stand_in, two_tests, word):
    status, out, _ = shell("test tests", "", stand_in("killed"), IN=word, **two_tests)
    assert status == 1 and f"not ok 2 - b\n# {word} was killed by signal 9\n" in out.decode()


# ------ files that can't be written are told by their names


@pytest.mark.parametrize("line", ["bytes -o /dev/full report", "calls --to /dev/full true"])
def test_full_file(shell, line):
    assert shell(line) == (1, b"", f"dvbemu {line.split()[0]}: /dev/full: {FULL}\n")


def test_report_that_cannot_be_kept():
    with pytest.raises(tests_word.TestError, match=f"^/dev/full: {FULL}$"):
        tests_word.keep("/dev/full", b"x")


@pytest.mark.parametrize("line", ["steps big", "steps session", "run big", "explain report"])
def test_a_reader_that_goes(files_room, line):
    """A reader of files' report that goes: all words end quietly, as a shell sees it by SIGPIPE."""
    words = ["bash", "-c", f"\"$0\" {line} | true; exit ${{PIPESTATUS[0]}}", PROGRAM]
    for _ in range(3):
        ran = subprocess.run(words, cwd=files_room.folder, stdin=subprocess.DEVNULL, stderr=subprocess.PIPE, check=False)
        # (a short one may have been written before the reader has gone)
        assert (ran.returncode, ran.stderr) in ([(141, b"")] if line == "steps big" else [(141, b""), (0, b"")])


# ------ signals of a group, of the wrapper alone, and those that the caller passes over


def test_a_hang_up_behind_the_end():
    ran = subprocess.run([sys.executable, "-c", HUNG_UP], capture_output=True, check=False, timeout=ENDS,
                         env={**os.environ, "PYTHONPATH": SOURCE})
    assert (ran.returncode, ran.stderr) == (-signal.SIGHUP, b"")


def told_by(child):
    """What a process tells that has to end now."""
    try:
        return child.communicate(timeout=ENDS)[1]
    except subprocess.TimeoutExpired:
        os.killpg(child.pid, signal.SIGKILL)
        raise


@pytest.mark.parametrize("number", range(24))
def test_a_signal_of_a_group(files_room, number):
    """A hang-up of a whole group, at any time: no line, and the program has ended too."""
    name = (signal.SIGHUP, signal.SIGTERM, signal.SIGUSR1, signal.SIGQUIT)[number % 4]
    with subprocess.Popen([PROGRAM, "run", "big"], cwd=files_room.folder, stdin=subprocess.DEVNULL, stdout=subprocess.DEVNULL,
                          stderr=subprocess.PIPE, start_new_session=True) as child:  # fmt: skip
        time.sleep(0.06 + random.Random(number).random() * 0.2)
        os.killpg(child.pid, name)
        told = told_by(child)
    assert child.returncode in (-name, 0) and told == b""


@pytest.mark.parametrize("name", [signal.SIGHUP, signal.SIGTERM, signal.SIGUSR1, signal.SIGALRM, signal.SIGPWR],
                         ids=lambda name: name.name)
def test_a_signal_of_the_wrapper(files_room, name):
    """A signal that ends the wrapper alone, while it waits for more of its input: the program doesn't take what came for the
    whole."""
    with subprocess.Popen([PROGRAM, "steps", "-"], cwd=files_room.folder, stdin=subprocess.PIPE, stdout=subprocess.PIPE,
                          stderr=subprocess.PIPE) as child:  # fmt: skip
        child.stdin.write(b"c0 open n0\nstream\n")
        child.stdin.flush()
        children, last = "", time.monotonic() + ENDS
        while not children and time.monotonic() < last:
            with open(f"/proc/{child.pid}/task/{child.pid}/children", encoding="ascii") as file:
                children = file.read()
            with open(f"/proc/{child.pid}/comm", encoding="ascii") as file:
                children = children if "python" in file.read() else ""
        time.sleep(0.1)
        child.send_signal(name)
        assert child.wait(ENDS) == -name
        assert (child.stdout.read(), child.stderr.read()) == (b"", b"")


def test_signals_that_are_passed_over(files_room):
    """Signals that the caller passes over stay so, and its children are waited for all the same."""
    words = ["sh", "-c", "trap '' HUP CHLD; exec \"$0\" check report session", PROGRAM]
    ran = subprocess.run(words, cwd=files_room.folder, capture_output=True, check=False,
                         preexec_fn=lambda: signal.signal(signal.SIGCHLD, signal.SIG_IGN))  # fmt: skip
    assert (ran.returncode, ran.stdout, ran.stderr) == (0, b"yes\n", b"")


def test_nohup(files_room):
    with subprocess.Popen(["nohup", PROGRAM, "check", "-", "session"], cwd=files_room.folder, stdin=subprocess.PIPE,
                          stdout=subprocess.PIPE,
                          stderr=subprocess.PIPE) as child:  # fmt: skip
        time.sleep(0.5)
        child.send_signal(signal.SIGHUP)
        out, _ = child.communicate(files_room.read("report"))
    assert (child.returncode, out) == (0, b"yes\n")


# ------ what a command doesn't look after itself is one line and a status, whatever the ends are; an end that doesn't wait is
# waited for


@pytest.mark.parametrize("ends", ["", "2>&-", ">&-", "<&- >/dev/full 2>/dev/full"])
@pytest.mark.parametrize("fault, status, told", FAULTS)
def test_faults(fault, status, told, ends):
    words, place = ["sh", "-c", f"exec \"$0\" -c \"$1\" {ends}", sys.executable, FAULTY.format(fault)], {"PYTHONPATH": SOURCE}
    ran = subprocess.run(words, stdin=subprocess.DEVNULL, capture_output=True, text=True, check=False,
                         env={**os.environ, **place})
    assert (ran.returncode, ran.stdout, ran.stderr) == (status, "", "" if "2" in ends else f"dvbemu it: {told}\n")


def test_a_pipe_that_does_not_wait():
    reader, writer = os.pipe()
    os.set_blocking(writer, False)
    with subprocess.Popen([PROGRAM, "json", EXAMPLES / "programs" / "recording.report"], stdout=writer,
                          stderr=subprocess.PIPE) as child:
        os.close(writer)
        time.sleep(0.5)
        with open(reader, "rb") as pipe:
            size = len(pipe.read())
        told = child.stderr.read()
    assert (child.returncode, told) == (0, b"") and size > 65536


# ------ CDPATH leads no script of the repository into another folder

@pytest.mark.parametrize("name", [".ci/run"])
def test_cdpath(tmp_path, name):
    top, decoy = tmp_path / "cloned", tmp_path / "decoy"
    for folder in top, decoy:
        (folder / ".ci").mkdir(parents=True)
        for program in "dvbemu", "rt":
            (folder / program).write_text("#!/bin/sh\npwd -P >&2\nexit 1\n")
            (folder / program).chmod(0o755)
    shutil.copy2(ROOT / name, top / name)
    env = {"PATH": f"{top}:/usr/bin:/bin", "CDPATH": str(decoy)}
    ran = subprocess.run([name, "--counted"], cwd=top, env=env, capture_output=True, text=True, check=False)
    assert ran.stderr.splitlines()[-1:] == [os.path.realpath(top)]


# ------ a report of `serve` that can't be written, and standard input that is a folder


@pytest.fixture
def served(shell):
    """Runs `serve` with these words and ends; what it tells of root and of the adapter is left out."""
    if not SERVER.exists():
        pytest.skip("dvb_serve isn't built")

    def run(words, ends):
        status, out, told = shell(f"serve --packets 3000 --report - stream -- {words}", ends)
        return status, out, UNOPENED.sub("", ROOT_LINE.sub("", told))

    return run


@pytest.mark.parametrize("ends", [">/dev/full", ">&-"])
def test_serve_output(served, ends):
    lost = "dvb_serve: what was called can't be written\ndvbemu serve: the server ended with status 1\n"
    assert served("true", ends) == (1, b"", lost)


def test_serve_input(served):
    status, out, told = served("ls /dev/stdin/", "</tmp")
    assert (status, told) == (0, "") and b"\nend\n" in out


# ------ --version tells what the program is that runs: a proved one, or where none is built and it is to be hurried, one that
# isn't

NUMBER, PROVED = (ROOT / "VERSION").read_text().splitlines()[:2]
HASTY = "not proved: built with DVBEMU_UNPROVED"


@pytest.mark.parametrize("line", ["--version", "steps --version", "explain --version"])
@pytest.mark.parametrize("made, env, wanted", [
    ((), {}, PROVED), ((), {"DVBEMU_UNPROVED": "1"}, HASTY), (("haste/dvbemu",), {"DVBEMU_UNPROVED": "1"}, HASTY),
    (("haste/dvbemu",), {"DVBEMU_UNPROVED": "0"}, PROVED), (("haste/dvbemu", "dvbemu"), {"DVBEMU_UNPROVED": "1"}, PROVED),
])  # fmt: skip
def test_version(shell, tmp_path, made, env, wanted, line):
    shutil.copytree(ROOT / "python", tmp_path / "python")
    for name in "dvbemu", "VERSION", "crates.txt":
        shutil.copy2(ROOT / name, tmp_path)
    for name in made:
        path = tmp_path / "crates" / "dvbemu" / "out" / name
        path.parent.mkdir(parents=True, exist_ok=True)
        shutil.copyfile("/bin/true", path)
        path.chmod(0o755)
    assert shell(line, "", str(tmp_path / "dvbemu"), **env) == (0, f"dvbemu {NUMBER}\n{wanted}\n".encode(), "")
