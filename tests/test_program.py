"""How the proved program is started: with how much stack, and over small files, which the shell script hands over itself; and how
much memory `check` takes."""
import re
import subprocess
import sys

import pytest
from conftest import EXAMPLES, PROGRAM, ROOT
from packets import packet

SESSION, REPORT = EXAMPLES / "programs" / "scan.session", EXAMPLES / "programs" / "scan.report"
STREAM = EXAMPLES / "programs" / "scan.ts"
FEW = "dvbemu: the stack may have 64 KiB, and 256 are wanted (ulimit -s)\n"
# Commands that need the program, by standard input and over files.
LINES = [f"steps <{SESSION}", f"steps {SESSION}", f"run <{SESSION}", f"run {SESSION}", f"check {REPORT} {SESSION}"]


def ended(limit: str, line: str) -> "subprocess.CompletedProcess[str]":
    """A command line of `dvbemu` behind a limit of the stack."""
    return subprocess.run(["sh", "-c", f"ulimit {limit}; exec {PROGRAM} {line}"], capture_output=True, text=True, check=False)


@pytest.mark.parametrize("line", LINES)
def test_a_limit_that_may_be_raised_is_raised(line):
    done = ended("-S -s 64", line)
    assert (done.returncode, done.stderr) == (0, "")
    assert done.stdout == "yes\n" or done.stdout.startswith("dvbemu 1\n") and done.stdout.endswith("\nend\n")


@pytest.mark.parametrize("line", LINES)
def test_too_little_stack_is_told(line):
    done = ended("-s 64", line)
    assert (done.returncode, done.stdout, done.stderr) == (7, "", FEW)


def test_lines_behind_stream_are_told(cli, tmp_path):
    script = tmp_path / "script"
    script.write_text("c0 open n0\nstream\nc0 close n0\n")
    told = f"dvbemu: {script}: line 3, 'c0 close n0', follows `stream`, so it is part of the stream, not a call\n"
    assert (cli("steps", str(script), str(STREAM)).status, cli("steps", str(script), str(STREAM)).err) == (0, told)


def test_a_text_as_a_stream_is_told(cli, tmp_path):
    script, text = tmp_path / "script", EXAMPLES / "programs" / "dvbv5.conf"
    script.write_text("c0 open n0\n")
    done = cli("steps", str(script), str(text))
    assert (done.status, done.err) == (0, f"dvbemu: {text}: this is text, not a transport stream\n")


# Ends with the status of a program, and prints the most memory that it held, in KiB. What started it counts too, so it is started
# by a small one.
STARTER = """
import os, sys
_, status, used = os.wait4(os.posix_spawn(sys.argv[1], sys.argv[1:], os.environ), 0)
print(used.ru_maxrss)
sys.exit(status != 0)
"""
# Sessions with the most to keep for their bytes and those of their reports: many short calls, lines without any, and short reads
# of a stream.
READS = b"c0 open n0\nc0 size n0 20000\nc0 pes n0 256 frontend tsdemux_tap 20 4\nc0 drain n0 %d\nstream\n"
HEAVY = {
    "calls": b"c0 stop n0\n" * 95_000 + b"stream\n", "lines": b"tick 0\n" * 149_000 + b"stream\n",
    "short reads": READS % 1 + packet(256, 0) * 2_000, "long reads": READS % 65536 + packet(256, 0) * 20_000,
}  # fmt: skip


@pytest.mark.parametrize("kind", HEAVY)
def test_memory_of_check(tmp_path, kind):
    program = ROOT / "crates" / "dvbemu" / "out" / "dvbemu"
    if not program.exists() or b"__asan_init" in program.read_bytes():
        pytest.skip("the program isn't built, or in haste: its checks take memory of their own")
    report = subprocess.run([PROGRAM, "steps"], input=HEAVY[kind], stdout=subprocess.PIPE, check=True).stdout
    given = tmp_path / "given"
    given.write_bytes(b"report %d\n" % len(report) + report + HEAVY[kind])
    with given.open("rb") as source:
        words = [sys.executable, "-I", "-S", "-c", STARTER, PROGRAM, "check"]
        answer, held = subprocess.run(words, stdin=source, stdout=subprocess.PIPE, check=True).stdout.split()
    told = re.search(r"up to (\d) times the size of both files, plus (\d+) MB", (ROOT / "README.md").read_text(encoding="utf-8"))
    times, more = map(int, told.groups())
    assert answer == b"yes"
    assert int(held) * 1024 <= times * (len(report) + len(HEAVY[kind])) + more * 1_000_000
