"""The program over drawn sessions (oracle/fuzz.py), compared with the oracle, which knows only the rules of docs/BEHAVIOUR.md.

Each report of `steps`, or the line of a script's fault, must be that of the second program; each report of `run` is judged. Both
reports, and one of them with a change (oracle/changes.py), are then checked: `check` must answer as the judge does, with the same
line where the text is no report or its head is another, and the judge as is known of the report. And the oracle must have been
written from the rules as they stand (oracle/rules.py).

DRAWN_COUNT and DRAWN_FIRST in the environment say how many sessions, 500 without, and the number of the first. A session that
differs is kept in tests/found, made small.
"""
from __future__ import annotations

import os
import re
import subprocess
from typing import NamedTuple

import pytest
from oracle import changes, fuzz, judge, rules, second
from samples import PROGRAM, ROOT, asked_of

FIRST, COUNT = int(os.environ.get("DRAWN_FIRST", 1)), int(os.environ.get("DRAWN_COUNT", 500))
FOUND, ENDS = ROOT / "tests" / "found", 120
NAMED, SECTIONS = rules.named(), rules.sections()
# The lines of `check` where a report is wrong, and the kinds of which the judge has to tell the same line: of the others it may
# tell another first, as it goes through all of a report.
NO = re.compile(rf"(dvbemu: report line [1-9][0-9]*: ({'|'.join(judge.KINDS)})\n)(expected [ -~]+\n)?".encode())
SAME = b"text", b"head"


class Ended(NamedTuple):
    """How a run ends: its status, its output, and its line on standard error; and those behind that, which are for a reader."""

    status: int
    output: bytes
    line: bytes
    more: bytes = b""


def ended(status: int, output: bytes, lines: bytes) -> Ended:
    """How a run ends that wrote these lines on standard error."""
    line, sign, more = lines.partition(b"\n")
    return Ended(status, output, line + sign, more)


def ran(given: bytes, *words: str) -> Ended:
    """How the program ends over an input."""
    try:
        done = subprocess.run([PROGRAM, *words], input=given, capture_output=True, check=False, timeout=ENDS)
    except subprocess.TimeoutExpired:
        return Ended(-1, b"", b"no end")
    return ended(done.returncode, done.stdout, done.stderr)


# RULES: 67b408bd Statuses
def wanted_of(session: tuple[bytes, int, int]) -> Ended:
    """How `steps` ends."""
    try:
        return Ended(0, second.report(*session).encode(), b"")
    except second.Fault as fault:
        return Ended(3, b"", f"dvbemu: script line {fault.line}: {fault.kind}\n".encode())


# RULES: e1ee0954 The program
def options(number: int, packet: int, batch: int | None = None) -> list[str]:
    """The words of the options, in either order and in one word or two each; without `--packet` a packet takes up 188 bytes."""
    found = [] if batch is None else [["--batch", str(batch)]]
    if packet == 204 or number % 3 == 0:
        found.append(["--packet", str(packet)])
    if number % 2:
        found.reverse()
    return [word for option in found for word in (["=".join(option)] if number // 2 % 2 else option)]


# RULES: 8830e44b A report that is checked
def check_differs(text: bytes, packet: int, words: list[str], right: bool | None) -> str | None:
    """What differs in `check` over an input, or in the judge, where it is known whether the report is right."""
    judged = ended(*judge.answer(text, packet))
    if right is not None and judged.output != (b"yes\n" if right else b"no\n"):
        return f"the judge answers {judged}"
    found = ran(text, "check", *words)
    same = found[:2] == judged[:2]
    if judged.output == b"no\n":
        told, other = NO.fullmatch(found.line + found.more), NO.fullmatch(judged.line + judged.more)
        # (what is expected is left out for some entries that can't stand there, and for nothing else)
        same = same and bool(told) and bool(told[3] or told[2] == b"place")
        same = same and (told[2] not in SAME if told[1] != other[1] else told[2] == b"text" or told[3] == other[3])
    else:
        same = same and found.line == judged.line
    return None if same else f"check differs: {found}, the judge answers {judged}"


def differs(session: tuple[bytes, int, int], number: int) -> str | None:
    """What differs in a session, if something does; of check over both reports, one of them changed, or over none where the
    script has a fault. The number says how options are written, and which change is made."""
    data, batch, packet = session
    words, wanted = options(number, packet, batch), wanted_of(session)
    if (found := ran(data, "steps", *words))[:3] != wanted[:3]:
        return f"steps {' '.join(words)}: status {found.status}"
    found = ran(data, "run", *words)
    if wanted.status or found.status:
        wrong = None if found[:3] == wanted[:3] else f"status {found.status}"
    else:
        wrong = judge.judge(data, batch, found.output, packet)
    if wrong:
        return f"run {' '.join(words)}: {wrong}"
    given: list[tuple[bytes, bool | None]] = [(report, True) for report in (wanted.output, found.output) if report]
    given += [changes.changed(number, given[number % len(given)][0])] if given else [(b"", None)]
    words = options(number, packet)
    return next(filter(None, (check_differs(asked_of(report, data), packet, words, right) for report, right in given)), None)


def small(session: tuple[bytes, int, int], number: int) -> bytes:
    """What a session that differs needs for that: lines of its script, and packets, without those that can go, many at a time and
    then fewer."""
    data, batch, packet = session
    front, line, stream = data.partition(b"stream\n")
    pieces = [*front.splitlines(keepends=True), line, *(stream[at : at + packet] for at in range(0, len(stream), packet))]
    count = len(pieces) // 2
    while count:
        for at in reversed(range(0, len(pieces), count)):
            fewer = pieces[:at] + pieces[at + count :]
            if differs((b"".join(fewer), batch, packet), number):
                pieces = fewer
        count //= 2
    return b"".join(pieces)


@pytest.mark.parametrize("seed", range(FIRST, FIRST + COUNT))
def test_session(program, seed):
    session = fuzz.session(seed)
    if wrong := differs(session, seed):
        FOUND.mkdir(exist_ok=True)
        (FOUND / f"{seed}.session").write_bytes(small(session, seed))
        kept = f"tests/found/{seed}.session (--batch {session[1]} --packet {session[2]})"
        pytest.fail(f"{wrong}; the session is kept: {kept}", pytrace=False)


@pytest.mark.parametrize("source, heading, checksum", NAMED)
def test_section_is_as_it_was_followed(source, heading, checksum):
    assert SECTIONS.get(heading) == checksum, f"read '{heading}', follow it in {source}, then tests/oracle/rules.py --accept"


@pytest.mark.parametrize("heading", SECTIONS)
def test_section_is_followed(heading):
    assert heading in {followed for _, followed, _ in NAMED}
