"""The command of dvbemu-serve: how it is begun, told of signals, and ended with all that it has left running."""
from __future__ import annotations

import math
import os
import signal
import stat
import struct
import subprocess
import sys
from typing import TYPE_CHECKING

from ..build import Stopped
from .clearing import VARIABLE, end_all, end_programs

if TYPE_CHECKING:
    from types import FrameType
    from typing import Collection, Mapping, Sequence

    from .adapters import Folder
    from .fuse import Mount

# Of an executable file: the kind of a segment that names the system's loader, the kind and name of a note of Go's linker, and the loader of musl.
SETUID, CAPABLE = "is setuid or setgid", "has file capabilities"
PT_INTERP, GO_NOTE, MUSL = b"\3\0\0\0", b"\4\0\0\0Go\0\0", b"/ld-musl-"


def children() -> list[int]:
    """The processes that this one has started, or has got from those that have ended."""
    with open(f"/proc/self/task/{os.getpid()}/children", encoding="ascii") as file:
        return [int(word) for word in file.read().split()]


def still_there(servers: Collection[int]) -> list[int]:
    """The children, other than the servers, that still run; none if the system doesn't list children."""
    try:
        return [child for child in children() if child not in servers and not os.waitpid(child, os.WNOHANG)[0]]
    except OSError:
        return []


def end_all_but(servers: Collection[int], folder: Folder) -> None:
    """Ends what the command has left running, for as long as that takes, and what else has found the adapters."""
    end_all(lambda: still_there(servers), math.inf)
    end_programs(folder.value())


def has_capabilities(path: str) -> bool:
    """Whether a file has capabilities, with which a program ignores preloads, as where it is setuid."""
    try:
        return "security.capability" in os.listxattr(path)
    except OSError:
        return False


def unseen_as(path: str) -> str | None:
    """Why a program won't have the preload, as far as its file tells; None where nothing says so."""
    try:
        with open(path, "rb") as file:
            head, there = file.read(4096).ljust(64, b"\0"), os.fstat(file.fileno())
    except OSError:
        return None
    if head[:4] != b"\x7fELF":
        return None
    if head[4] == 1:
        return "is a 32-bit program"
    if there.st_mode & stat.S_ISUID and there.st_uid != os.geteuid() or there.st_mode & stat.S_ISGID and there.st_gid != os.getegid():
        return SETUID
    if os.geteuid() and has_capabilities(path):
        return CAPABLE
    (begin,), (size, count) = struct.unpack_from("<Q", head, 32), struct.unpack_from("<HH", head, 54)
    kinds = [head[at:at + 4] for at in range(begin, begin + size * count, size or 1)]
    if GO_NOTE in head:
        return "is written in Go, which bypasses the C library"
    if MUSL in head:
        return "uses the C library musl, which can't load the preload"
    return None if PT_INTERP in kinds or len(head) < begin + size * count else "is linked statically"


class Interrupted(Stopped):
    """There is no report, since a signal has come."""

    def __init__(self, number: int) -> None:
        super().__init__(f"stopped by {signal.Signals(number).name}")
        self.status = 128 + number


class Signals:
    """What is done where this process is told to end: the command is, while it runs. A terminal tells the command itself of
    Ctrl-C."""

    def __init__(self) -> None:
        self.is_starting = False
        self.command: subprocess.Popen[bytes] | None = None
        self.missed: list[int] = []
        for number in signal.SIGINT, signal.SIGTERM, signal.SIGHUP:
            signal.signal(number, self.come)

    def start(self, command: Sequence[str], env: Mapping[str, str]) -> subprocess.Popen[bytes]:
        """Starts the command, and passes on a signal that came meanwhile."""
        self.is_starting = True
        try:
            running = self.command = subprocess.Popen(command, env=env)
        finally:
            self.is_starting = False
        for number in self.missed:
            self.come(number, None)
        return running

    def end_command(self) -> None:
        """Tells the command to end, while it runs."""
        if self.command:
            self.command.terminate()

    def come(self, number: int, _frame: FrameType | None) -> None:
        if self.is_starting:
            self.missed.append(number)
        elif self.command is None:
            raise Interrupted(number)
        elif number != signal.SIGINT and self.command.poll() is None:
            self.command.send_signal(number)


def environment(folder: Folder, mount: Mount | None = None) -> dict[str, str]:
    """The environment of the command, in which the user's own preloads come first. A sanitizer of gcc is told that this
    is meant; and libudev that by FUSE it is no kernel that tells of devices in /sys."""
    if mount:
        return {**os.environ, VARIABLE: folder.value(), "SYSTEMD_DEVICE_VERIFY_SYSFS": "0"}
    ours = {"LD_PRELOAD": folder.preload, "ASAN_OPTIONS": "verify_asan_link_order=0"}
    both = {name: ":".join(filter(None, [os.environ.get(name), word])) for name, word in ours.items()}
    return {**os.environ, VARIABLE: folder.value(), **both}


def run_command(command: Sequence[str], folder: Folder, mount: Mount | None, signals: Signals) -> int:
    """Runs the command, and says how it ended."""
    try:
        running = signals.start(mount.words(command) if mount else command, environment(folder, mount))
    except OSError as fault:
        print(f"dvbemu serve: {command[0]}: {fault.strerror}", file=sys.stderr)
        return 127
    status = running.wait()
    signals.command = None
    return status if status >= 0 else 128 - status
