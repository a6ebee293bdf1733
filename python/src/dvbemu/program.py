"""Runs the program `dvbemu`: scripts over streams, and whether a report is valid."""
from __future__ import annotations

import os
import shutil
import subprocess
from dataclasses import dataclass, replace
from typing import Any, Iterable, Sequence, Union

from . import inputs
from .arguments import see, see_source, whole, within
from .errors import ProgramError, ScriptError
from .report import Report
from .script import Script

Path = Union[str, os.PathLike[str]]
Source = Union[Script, Path, bytes]
Stream = Union[Path, bytes]
HERE = os.path.dirname(os.path.realpath(__file__))
SCRIPT_ERROR, NOT_FOUND = 3, 127


@dataclass(frozen=True)
class Verdict:
    """The answer yes or no, as true or false, and for no the reason: the line, what is wrong there, and what was expected."""

    is_right: bool
    reason: str

    def __bool__(self) -> bool:
        return self.is_right


def steps(script: Source, *streams: Stream, batch: int = 64, packet: int = 188) -> Report:
    """Runs a script's calls in order, and returns the report, which is the same each time.

    The script is a Script, a file name or bytes. The streams, each a file name or bytes, follow one another. A session holds its
    stream, so it takes none. Packets pass in batches of at most `batch`, 1 to 64; each is `packet` bytes long, 188 or 204. Raises
    ScriptError if the script has an error, and ProgramError if there is no report for another reason.
    """
    return _report("steps", script, streams, batch, packet)


def run(script: Source, *streams: Stream, batch: int = 64, packet: int = 188) -> Report:
    """Runs a script with one thread per client and one for the stream. Reports differ from run to run, and all are valid."""
    return _report("run", script, streams, batch, packet)


def check(report: Union[Report, bytes], script: Source, *streams: Stream, packet: int = 188) -> Verdict:
    """Whether a report of `steps` or `run` is valid for a script and its streams."""
    see(report, (Report, bytes), "report", "a Report or a bytes object")
    text = report.text if isinstance(report, Report) else report
    ran = _run_over(["check", *_packet(packet)], text, _session(script, streams))
    if ran.stdout not in (b"yes\n", b"no\n"):
        raise _error(ran)
    return Verdict(ran.stdout == b"yes\n", ran.stderr.decode(errors="replace").strip().removeprefix("dvbemu: "))


def same_on_linux(report: Report, *source: Any) -> Verdict:
    """Whether Linux 6.1 gives all replies of a report, too. The source is its session, its script and streams, or the recording."""
    if not source:
        raise ValueError("name the report's session, or its script and streams, or the recording that was played")
    script, *streams = source
    ran = _run_over(["beside", *_packet(report.packet)], report.text, _session(script, streams))
    if ran.returncode > 1 or not ran.stdout:
        raise _error(ran)
    return Verdict(not ran.returncode, ran.stdout.decode(errors="replace").strip() if ran.returncode else "")


def explain(report: Report, *source: Any) -> str:
    """What `dvbemu explain` writes of a report; with its source, as for same_on_linux, also why filters got nothing."""
    if source:
        script, *streams = source
        ran = _run_over(["explain"], report.text, _session(script, streams))
    else:
        ran = _run(["explain"], [report.text])
    if ran.returncode:
        raise _error(ran)
    return ran.stdout.decode(errors="replace")


def command_of(name: str) -> str:
    """The path of `dvbemu` or `dvbemu-serve`: the one that DVBEMU or DVBEMU_SERVE names, beside this module, or in the PATH."""
    variable = name.upper().replace("-", "_")
    beside = [os.path.normpath(os.path.join(HERE, up, name)) for up in ("../../..", "../../../../dvbemu")]
    for path in filter(None, [os.environ.get(variable), *beside, shutil.which(name)]):
        if os.path.isfile(path) and os.access(path, os.X_OK):
            return path
    raise ProgramError(NOT_FOUND, f"{name} isn't in the PATH, and {variable} doesn't name it")


def _report(command: str, script: Source, streams: Sequence[Stream], batch: int, packet: int) -> Report:
    ran = _run([command, "--batch", str(within(batch, 1, 64, "batch")), *_packet(packet)], _session(script, streams))
    if ran.returncode:
        raise _error(ran)
    kept = _session(script, ())[0] if isinstance(script, Script) else script
    return replace(Report.parse(ran.stdout), source=(kept, *streams) if command == "steps" else (), packet=packet)


def _packet(size: int) -> list[str]:
    if whole(size, "packet") not in (188, 204):
        raise ValueError(f"packet: {size} isn't 188 or 204")
    return ["--packet", str(size)]


def _session(script: Source, streams: Sequence[Stream]) -> list[bytes]:
    """The bytes of a session. The line `stream` is added to a Script, and to another script that has none and has streams."""
    if isinstance(script, Script):
        return [str(script).encode("utf-8", "surrogateescape") + b"stream\n", *map(_bytes, streams)]
    see(script, (str, os.PathLike, bytes, bytearray), "script", "a Script, a file name or a bytes object")
    text = _bytes(script)
    return [inputs.with_line(text) if streams else text, *map(_bytes, streams)]


def _bytes(source: Stream) -> bytes:
    see_source(source, "stream")
    if isinstance(source, (bytes, bytearray)):
        return source
    with open(source, "rb") as file:
        return file.read()


def _run(argv: list[str], stdin: Iterable[bytes], files: tuple[int, ...] = ()) -> subprocess.CompletedProcess[bytes]:
    return subprocess.run([command_of("dvbemu"), *argv], input=b"".join(stdin), capture_output=True, check=False, pass_fds=files)


def _run_over(argv: list[str], report: bytes, session: list[bytes]) -> subprocess.CompletedProcess[bytes]:
    """Runs a command over a report and its session."""
    with open(os.memfd_create("report"), "wb") as file:
        file.write(report)
        file.flush()
        return _run([*argv, f"/dev/fd/{file.fileno()}", "-"], session, (file.fileno(),))


def _error(ran: subprocess.CompletedProcess[bytes]) -> ProgramError:
    kind = ScriptError if ran.returncode == SCRIPT_ERROR else ProgramError
    return kind(ran.returncode, ran.stderr.decode(errors="replace"))
