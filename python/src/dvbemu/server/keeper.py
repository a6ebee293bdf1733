"""The doorkeeper of a server: programs tell their names at the pipe `knock`, a line each, and it hands those on that name two
pipes."""
from __future__ import annotations

import os
import re
import stat
import threading
import time
from typing import TYPE_CHECKING

from .clearing import is_told

if TYPE_CHECKING:
    from subprocess import Popen
    from typing import Iterator

# The bytes of a name at the server's door, with zeros behind its digits; how much is read at once; the seconds in which a server
# opens its door, and those in which what was told is handed on; and a pause.
NAME, ROOM, OPENS, ENDS, PAUSE = 64, 1 << 16, 30, 5, 0.002
DIGITS = re.compile(rb"[0-9]{1,20}")


def is_pipe(path: str) -> bool:
    """Whether a path is a pipe of this user's, and no other name of a file: what a server reads then ends with who writes it."""
    try:
        there = os.lstat(path)
    except OSError:
        return False
    return stat.S_ISFIFO(there.st_mode) and there.st_nlink == 1 and there.st_uid == os.getuid()


def readers(pid: int, pipe: os.stat_result) -> int:
    """How often a process has a pipe open to be read. An error where the system doesn't tell."""
    if not is_told():
        raise FileNotFoundError(f"/proc/{pid}")
    count = 0
    for name in os.listdir(f"/proc/{pid}/fd"):
        try:
            with open(f"/proc/{pid}/fdinfo/{name}", encoding="ascii") as file:
                flags = re.search(r"flags:\s*(\d+)", file.read())
            is_read = flags is not None and int(flags[1], 8) & os.O_ACCMODE == os.O_RDONLY
            count += is_read and os.path.samestat(os.stat(f"/proc/{pid}/fd/{name}"), pipe)
        except OSError:
            pass
    return count


class Keeper(threading.Thread):
    """Hands names on to the door of a folder's server, whole and one by one, whatever else is written."""

    def __init__(self, folder: str) -> None:
        super().__init__(daemon=True)
        self.folder, self.ended, self.rest = folder, threading.Event(), b""
        self.ends: list[int] = []
        for name in "knock", "door":
            os.mkfifo(os.path.join(folder, name), 0o600)
            self.ends.append(os.open(os.path.join(folder, name), os.O_RDWR | os.O_CLOEXEC))

    def open_for(self, server: Popen[bytes], seats: int) -> None:
        """Begins once the server has the door."""
        self.wait_for(server, seats)
        self.start()

    def wait_for(self, server: Popen[bytes], seats: int) -> None:
        """Waits until the server has the door, for each of its seats. Then its name goes, so that nobody else writes there."""
        door, begun = os.fstat(self.ends[1]), time.monotonic()
        try:
            while server.poll() is None and readers(server.pid, door) < seats and time.monotonic() - begun < OPENS:
                time.sleep(PAUSE)
            if readers(server.pid, door) >= seats:
                os.unlink(os.path.join(self.folder, "door"))
        except OSError:
            # (the name stays)
            pass

    def names(self, told: bytes) -> Iterator[bytes]:
        """The names of programs in what was told."""
        *lines, rest = (self.rest + told).split(b"\n")
        self.rest = rest[-NAME:]
        for line in filter(DIGITS.fullmatch, lines):
            if all(is_pipe(os.path.join(self.folder, f"{line.decode()}.{end}")) for end in ("ask", "tell")):
                yield line

    def run(self) -> None:
        while not self.ended.is_set():
            for name in self.names(os.read(self.ends[0], ROOM)):
                os.write(self.ends[1], name.ljust(NAME, b"\0"))

    def end(self) -> None:
        """Ends the door, where no program is any more: seats that wait there end."""
        self.ended.set()
        os.write(self.ends[0], b"\n")
        self.join(ENDS)
        for end in self.ends:
            os.close(end)
