"""Programs on a served adapter: a folder in which `dvbemu serve` runs them, and what is told of such a run."""
from __future__ import annotations

import re
import subprocess
from pathlib import Path

from dvbemu import Report
from oracle import judge, second
from samples import BUILT, PROGRAM, ROOT, asked_of

SERVE, SERVED = str(ROOT / "dvbemu-serve"), ROOT / "tests" / "served"
TUNER, BAD = str(SERVED / "tuner.py"), str(SERVED / "bad.py")
PACKET, BATCH = 188, 64
# The packets a second; the seconds that a run may take; and the bytes of a session up to which it is done again: the second
# program is slow.
RATE, SLOW, MOST, AGAIN = "1500", "200", 300, 300_000
DEMUX = "/dev/dvb/adapter0/demux0"
HINTS = re.compile(r"^dvbemu serve: (started by root: |no program opened the adapter; ).*\n", re.M)


def passes(out: str) -> int:
    """How many programs have counted cases, of which none failed."""
    return len(re.findall(r"^\d+ passed, 0 failed$", out, re.M))


def ran(words: list[object], **more: object) -> "subprocess.CompletedProcess[str]":
    """A command that has run, with all that it wrote."""
    ends = {"stdin": subprocess.DEVNULL, "stdout": subprocess.PIPE, "stderr": subprocess.STDOUT, "timeout": MOST, **more}
    return subprocess.run(list(map(str, words)), text=True, errors="replace", check=False, **ends)


def at_once(count: int, program: str = '"$0" +beside') -> str:
    """A script that runs so many programs side by side."""
    return f"for i in {' '.join(map(str, range(count)))}; do {program} & done; wait"


def without_moments(report: str) -> str:
    """A report without its moments."""
    return re.sub(r" at=\d+", "", report)


def packets_of(data: bytes) -> list[bytes]:
    """The packets of a recording, without what is left over."""
    return [data[at : at + PACKET] for at in range(0, len(data) - PACKET + 1, PACKET)]


def following(packets: list[bytes], loop: list[bytes], breaks: int = 0) -> int:
    """How many packets at the end of these follow one another as in a stream that goes round, but for so many losses."""
    places, here, count = {}, None, 0
    for place, packet in enumerate(loop):
        places.setdefault(packet, set()).add(place)
    for packet in reversed(packets):
        at = places.get(packet, set())
        next_to = at if here is None else at & {(place - 1) % len(loop) for place in here}
        if not next_to and at and breaks:
            next_to, breaks = at, breaks - 1
        if not next_to:
            break
        here, count = next_to, count + 1
    return count


class Served:
    """A folder for the runs of a test, over a stream; `cases` is the program of preload/cases, and a run writes the file
    `report`."""

    def __init__(self, folder: str, stream: Path, cases: str) -> None:
        self.folder, self.stream, self.cases = Path(folder), stream, cases
        self.report = self.folder / "report"

    def path(self, name: str) -> Path:
        """The path of a file of this folder."""
        return self.folder / name

    def put(self, name: str, data: str | bytes) -> str:
        """Writes a file."""
        self.path(name).write_bytes(data if isinstance(data, bytes) else data.encode())
        return str(self.path(name))

    def read(self, name: str) -> bytes:
        """The bytes of a file; none where there is none."""
        return self.path(name).read_bytes() if self.path(name).exists() else b""

    def call(self, words, command, before=(), serve=(SERVE,), **more) -> tuple[str, int]:
        """What `dvbemu serve` writes with these words and a command, but for its lines on root and on an adapter that nobody
        opens; and its status. `before` are words in front of its own."""
        done = ran([*before, *serve, *words, "--", *command], cwd=self.folder, **more)
        return HINTS.sub("", done.stdout), done.returncode

    def run(self, *command, seats="8", rate=RATE, keep=None, air=None, before=()) -> tuple[str, int]:
        """The same over the stream, or over what is said, of which then is kept what was played. The calls are kept as is said,
        or else all, and the report is written."""
        kept = ["--keep", keep] if keep else ["--report", self.report]
        feed = ["--packets", rate, self.stream] if air is None else ["--played", self.path("played"), *air]
        return self.call(["--seats", seats, *kept, *feed], command, before)

    def script(self, text: str, *words: object, **more) -> tuple[str, int]:
        """A run of a script of the shell, whose $0 is the program of preload/cases."""
        return self.run("sh", "-c", text, self.cases, *words, **more)

    def passed(self, *command, count=1, status=0, **more) -> str:
        """What a command wrote that has counted cases by so many programs, of which none failed."""
        out, ended = self.run(*command, **more)
        assert (ended, passes(out)) == (status, count), out
        return out

    def by_script(self, text: str, *words: object, **more) -> str:
        """The same of a script."""
        return self.passed("sh", "-c", text, self.cases, *words, **more)

    def is_right(self, report=None, stream=None) -> None:
        """Sees that a report is that of a run of the session that it tells of: by the judge and by `check`, and by the second
        program where the session is short and all of its calls can be put into an order."""
        files = report or self.report, stream or self.stream
        lines = [PROGRAM, "session", *files], [PROGRAM, "session", "--report", *files]
        session, told = (subprocess.run(line, capture_output=True, check=False) for line in lines)
        assert (session.returncode, told.returncode) == (0, 0), session.stderr + told.stderr
        assert judge.judge(session.stdout, BATCH, told.stdout) is None
        if BUILT.exists():
            asked = asked_of(told.stdout, session.stdout)
            assert subprocess.run([BUILT, "check"], input=asked, capture_output=True, check=False).stdout == b"yes\n"
        if len(session.stdout) <= AGAIN and not told.stderr:
            assert without_moments(second.report(session.stdout, BATCH)) == without_moments(told.stdout.decode())

    def calls_told(self, name: str) -> int:
        """How many calls of this name the report tells."""
        return sum(len(node.replies(name)) for node in Report.load(str(self.report)).nodes)
