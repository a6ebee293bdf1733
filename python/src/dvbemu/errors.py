"""The exceptions of the module: each is an Error. Files that can't be opened are Python's own OSError, wrong arguments its TypeError and
ValueError."""
from __future__ import annotations


class Error(Exception):
    """The base of all exceptions of this module."""


class ProgramError(Error):
    """A program of dvbemu failed: its exit status, and what it wrote on standard error."""

    def __init__(self, status: int, stderr: str) -> None:
        super().__init__(stderr.strip().removeprefix("dvbemu: ") or f"the program ended with status {status}")
        self.status, self.stderr = status, stderr


class ScriptError(ProgramError):
    """A script has an error; the message has its line and word."""


class AdapterError(Error):
    """There is no adapter, or no report of it; the message is that of dvbemu-serve."""
