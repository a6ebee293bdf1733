"""Reads a job log of GNU parallel (--joblog): a line a job with its number, host, status, signal and command."""
from __future__ import annotations

from typing import NamedTuple

from .errors import Error

HEAD = "Seq\tHost\tStarttime\tJobRuntime\tSend\tReceive\tExitval\tSignal\tCommand"


class JobLogError(Error):
    """A text that is no log of jobs: the line, and what was expected there."""


class Job(NamedTuple):
    """A job: its number, the host that did it, its status, the signal that ended it or 0, and its command."""

    number: int
    host: str
    status: int
    signal: int
    command: str

    def fault(self) -> str:
        """How it failed; nothing where it didn't."""
        how = f"ended by the signal {self.signal}" if self.signal else f"ended with the status {self.status}" if self.status else ""
        return f"{how}, on {self.host}" if how else ""


def job_in(line: str, number: int) -> Job:
    """The job that a line tells."""
    parts = line.split("\t", 8)
    if len(parts) != 9 or not all(part.lstrip("-").isdecimal() for part in (parts[0], parts[6], parts[7])):
        raise JobLogError(f"line {number}: expected a job: {HEAD}")
    return Job(int(parts[0]), parts[1], int(parts[6]), int(parts[7]), parts[8])


def read(text: str) -> list[Job]:
    """The jobs of a log by their numbers. Of a job that was done again (--resume-failed, --retry-failed) the last line counts. A last line
    without its end is that of a job whose line is still written, and no job."""
    lines = text.split("\n")[:-1]
    if not lines or lines[0] != HEAD:
        raise JobLogError(f"line 1: expected the head of a log of GNU parallel: {HEAD}")
    jobs = (job_in(line, number) for number, line in enumerate(lines[1:], 2))
    return [job for _, job in sorted({job.number: job for job in jobs}.items())]
