"""The files that a command takes in the place of standard input: a script or a session, and the streams that come behind it."""
from __future__ import annotations

import os
import stat
import sys
from typing import TYPE_CHECKING

from .errors import Error

if TYPE_CHECKING:
    from typing import Iterator, Sequence

PIECE, SCRIPT, BEGINNING = 1 << 20, 1 << 20, 4096
LINE = b"stream\n"


def many(count: int, one: str, more: str | None = None) -> str:
    """A number of things: `1 read`, `2,000 reads`."""
    return f"{count:,} {one if count == 1 else more or one + 's'}"


class InputError(Error):
    """A file that can't be read to its end: its name, and why."""

    def __init__(self, name: str, why: str) -> None:
        super().__init__(f"{name}: {why}")


class Input:
    """A file that is open, or standard input for `-`."""

    def __init__(self, name: str) -> None:
        self.name = "standard input" if name == "-" else name
        try:
            self.file = sys.stdin.fileno() if name == "-" else os.open(name, os.O_RDONLY)
            status = os.fstat(self.file)
        except (OSError, AttributeError) as fault:
            raise InputError(self.name, getattr(fault, "strerror", None) or "it is closed") from None
        if stat.S_ISDIR(status.st_mode):
            raise InputError(self.name, "Is a directory")
        self.is_standard = name == "-"
        self.is_terminal = self.is_standard and os.isatty(self.file)
        # (how many bytes a file has; a pipe, a device and what the system makes up have no size)
        self.size = status.st_size - os.lseek(self.file, 0, os.SEEK_CUR) if stat.S_ISREG(status.st_mode) and status.st_size else None
        self.taken, self.beginning = 0, b""

    def read(self, most: int = PIECE) -> bytes:
        """The next bytes, as they come; none at the end. A file that has become shorter is broken."""
        try:
            piece = os.read(self.file, most)
        except OSError as fault:
            raise InputError(self.name, f"reading failed after {many(self.taken, 'byte')}: {fault.strerror}") from None
        self.beginning = self.beginning or piece[:BEGINNING]
        self.taken += len(piece)
        if not piece and self.size is not None and self.taken < self.size:
            raise InputError(self.name, f"it ended after {self.taken:,} of its {many(self.size, 'byte')}")
        return piece

    def pieces(self) -> Iterator[bytes]:
        """All that is left, as it comes."""
        while piece := self.read():
            yield piece

    def whole(self) -> bytes:
        """All that is left."""
        return b"".join(self.pieces())


def opened(names: list[str]) -> list[Input]:
    """These files, each of them open; none is named twice as standard input."""
    if names.count("-") > 1:
        raise InputError("-", "standard input can be given only once")
    return [Input(name) for name in names]


def stream_at(text: bytes) -> int:
    """Where the line `stream` stands in a text; -1 where it has none."""
    return 0 if text.startswith(LINE) else text.find(b"\n" + LINE) + 1 or -1


def head_of(script: Input) -> bytes:
    """The beginning of a script or session, with the line `stream`, if one comes in time."""
    head = b""
    while len(head) < SCRIPT and stream_at(head) < 0 and (piece := script.read()):
        head += piece
    return head


def with_line(head: bytes) -> bytes:
    """The beginning of a script, with the line `stream` behind it where it has none. Without its line feed that gets one."""
    if stream_at(head) >= 0 or len(head) >= SCRIPT:
        return head
    if head == LINE[:-1] or head.endswith(b"\n" + LINE[:-1]):
        return head + b"\n"
    return head + b"\n" * (head[-1:] not in (b"", b"\n")) + LINE


def session_pieces(files: Sequence[Input]) -> Iterator[bytes]:
    """The pieces of the session of a script and of the streams behind it. A script without the line `stream` gets it where a stream
    follows."""
    script, *streams = files
    head = head_of(script)
    yield with_line(head) if streams else head
    for file in files:
        yield from file.pieces()
