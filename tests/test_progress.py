"""The line that tells how far long work is: on a terminal it comes behind the first second, with the bytes that are read, and
goes before anything else is told; where standard error is no terminal, or the work is short, nothing comes. The second half of
the input comes when the line is there, so that no case depends on how fast the machine is."""
import concurrent.futures
import os
import pty
import re
import select
import subprocess
import sys
from typing import NamedTuple

import pytest
from conftest import EMPTY, EXAMPLES, PROGRAM, ROOT, all_of

SCAN = str(EXAMPLES / "programs" / "scan")
REPORT, SESSION = ((EXAMPLES / "programs" / f"scan{ending}").read_bytes() for ending in (".report", ".session"))
# How long a line is waited for, and how long one that mustn't come.
MOST, QUIET = 60, 2
BYTES = r"([\d,]+ bytes|[\d.]+ MB) read"
# The calls of a program that opens a node and closes it, over and over.
DONE, TIMES = "done drop=0..0 tap=keep", 20_000
CALLS = "".join(f"0 {step} c0 {step} {('open', 'close')[step % 2]} = {DONE}\n" for step in range(TIMES))
# `merge`, whose line comes at once.
MERGE = """
import sys
from dvbemu import cli, progress
progress.FIRST = 0.01
cli.begin("merge", sys.argv[1])
"""


class Case(NamedTuple):
    """A word: its command line, what is written to it, what the line says, how its standard output and status are."""

    name: str
    words: list
    given: bytes
    says: str
    status: int = 0


def tool(name, *words, given=REPORT, status=0):
    """A tool that reads a report."""
    return Case(name, [PROGRAM, name, *words], given, rf"dvbemu {name}: {BYTES} *", status)


CASES = [
    *(tool(name) for name in ("explain", "picture", "page", "json")), tool("explain", "-", SCAN + ".session"),
    tool("explain", given=REPORT[:-4] + b"nd\n", status=1),
    Case("steps", [PROGRAM, "steps", "-"], SESSION, rf"dvbemu: {BYTES} *"),
    Case("steps", [PROGRAM, "steps", "-"], b"# a line\n" * 900 + b"c0 opne n0\nstream\n", rf"dvbemu: {BYTES} *", 3),
    Case("check", [PROGRAM, "check", "-", SCAN + ".session"], REPORT, rf"dvbemu: {BYTES} *"),
]  # fmt: skip


def told_by(case, on_terminal=True, all_there=False):
    """What a word tells on standard error, its output and its status, where the second half of its input comes when a line is
    there. Both its ends may be one terminal."""
    ours, theirs = pty.openpty() if on_terminal else os.pipe()
    process = subprocess.Popen(case.words, stdin=subprocess.PIPE, stdout=theirs if all_there else subprocess.PIPE, stderr=theirs)
    os.close(theirs)
    half = len(case.given) // 2
    process.stdin.write(case.given[:half])
    process.stdin.flush()
    select.select([ours], [], [], MOST if on_terminal else QUIET)
    with concurrent.futures.ThreadPoolExecutor(1) as pool:
        said = pool.submit(all_of, ours)
        out, _ = process.communicate(case.given[half:])
        return said.result(), out, process.returncode


@pytest.mark.parametrize("case", CASES, ids=[f"{case.name}-{case.status}" for case in CASES])
def test_line(case):
    said, out, status = told_by(case)
    line, *others = said.split("\r")[1:] or [""]
    renewed = line.partition(":")[0] + ":"
    blank, *behind = [part for part in others if len(part) != len(line) or not part.startswith(renewed)] or [None]
    quiet, same, _ = told_by(case, False)
    assert status == case.status and re.fullmatch(case.says, line), said
    assert blank == " " * len(line) and "".join(behind).replace("\n", "") == quiet.replace("\n", "")
    assert same == out and "\r" not in quiet and (quiet == "") == (status == 0)


def test_one_terminal():
    """Where the output goes to the terminal of the line, a word that writes at its end takes the line away before."""
    said, _, _ = told_by(CASES[0], True, True)
    _, out, _ = told_by(CASES[0], False)
    assert said.endswith(" \r" + out.decode().replace("\n", "\r\n")) and re.match(rf"\r{CASES[0].says}\r", said)


@pytest.mark.parametrize("on_terminal, says", [(True, "\rdvbemu merge: [0-9,]+ calls read *(\r.*)?\r {78}\r"), (False, "")])
def test_merge(room, on_terminal, says):
    room.write({"0.calls": CALLS.encode(), "batches": b"", "head": EMPTY})
    ours, theirs = pty.openpty() if on_terminal else os.pipe()
    words, place = [sys.executable, "-c", MERGE, str(room.folder)], {"PYTHONPATH": str(ROOT / "python" / "src")}
    with subprocess.Popen(words, stdin=subprocess.DEVNULL, stdout=subprocess.PIPE, stderr=theirs,
                          env={**os.environ, **place}) as process:
        os.close(theirs)
        out, said = process.communicate()[0], all_of(ours)
    assert re.fullmatch(says, said, re.S) and process.returncode == 0
    assert out.endswith(f"\n{TIMES} feed 0 end = passed\nend\n".encode())
