"""What clears up behind a dvbemu-serve that is killed: a process of its own, which waits at a pipe that this one holds and whose
end the kernel brings however this one ends. By then the calls of programs are told EIO: those that haven't ended some seconds
later are ended, and the folder is removed. Where the folder is gone already there is nothing to do.
"""
from __future__ import annotations

import contextlib
import errno
import fcntl
import os
import shutil
import signal
import time
from typing import TYPE_CHECKING

if TYPE_CHECKING:
    from typing import Callable

# The seconds in which a program that was told to end must do so.
LEAVES = 2
VARIABLE = "DVBEMU_DIR"


def is_told() -> bool:
    """Whether the system tells of processes, by the numbers of this one's own name space."""
    try:
        return os.readlink("/proc/self") == str(os.getpid())
    except OSError:
        return False


def processes() -> list[int]:
    """The other processes, by number; none where the system doesn't tell."""
    return [int(name) for name in os.listdir("/proc") if name.isdecimal() and int(name) != os.getpid()] if is_told() else []


def finds(number: int, value: str) -> bool:
    """Whether a process of this user finds these adapters, or one of them alone, by what stands in its environment."""
    try:
        with open(f"/proc/{number}/environ", "rb") as file:
            words = set(file.read().split(b"\0"))
        return any(os.fsencode(f"{VARIABLE}={some}") in words for some in (value, *value.split(":")))
    except OSError:
        return False


def programs_of(value: str) -> list[int]:
    """The processes that find these adapters, but for this one."""
    return [number for number in processes() if finds(number, value)]


def end_all(those_left: Callable[[], list[int]], seconds: float, tell: Callable[[int, int], None] = os.kill) -> None:
    """Ends the processes that are left, which are asked for again and again: by SIGTERM, and from some seconds on by SIGKILL. One that
    stays for so many seconds is left."""
    begun = time.monotonic()
    while (gone := time.monotonic() - begun) < seconds and (left := those_left()):
        for number in left:
            with contextlib.suppress(OSError):
                tell(number, signal.SIGTERM if gone < LEAVES else signal.SIGKILL)
        time.sleep(0.05)


def tell_program(number: int, value: str, sent: int) -> None:
    """Sends a signal to a process that finds these adapters, and to none that has got its number since; a kernel before 5.3 can't tell."""
    try:
        held = os.pidfd_open(number)
    except (AttributeError, OSError) as fault:
        if getattr(fault, "errno", errno.ENOSYS) == errno.ENOSYS:
            os.kill(number, sent)
        return
    try:
        if finds(number, value):
            signal.pidfd_send_signal(held, sent)
    finally:
        os.close(held)


def end_programs(value: str) -> None:
    """Ends the processes that find these adapters; one that stays for some seconds behind SIGKILL is left."""
    end_all(lambda: programs_of(value), 2 * LEAVES, lambda number, sent: tell_program(number, value, sent))


def watch(pipe: int, path: str, value: str) -> None:
    """Waits for the end of the pipe, and clears up where it comes before the folder is removed."""
    while os.read(pipe, 1):
        pass
    until = time.monotonic() + LEAVES
    while os.path.exists(path) and time.monotonic() < until and programs_of(value):
        time.sleep(0.05)
    if os.path.exists(path):
        end_programs(value)
        shutil.rmtree(path, ignore_errors=True)


def watch_over(path: str, value: str) -> int:
    """Begins to watch over a folder, before there is a thread here. What watches is no child of this process, where another one
    takes it, and in a session of its own, so that what ends this one doesn't end it, and holds nothing that this process has open.
    Gives what this one has to keep open."""
    ours, end = os.pipe()
    # (never in the place of a standard file, which others write into and hand on)
    held = fcntl.fcntl(end, fcntl.F_DUPFD_CLOEXEC, 3)
    os.close(end)
    if child := os.fork():
        os.close(ours)
        os.waitpid(child, 0)
        return held
    try:
        os.setsid()
        if os.fork() == 0:
            for number in signal.SIGINT, signal.SIGTERM, signal.SIGHUP:
                signal.signal(number, signal.SIG_DFL)
            os.chdir("/")
            for file in {int(name) for name in os.listdir("/proc/self/fd")} - {ours}:
                # (the one by which these are listed is closed already)
                with contextlib.suppress(OSError):
                    os.close(file)
            watch(ours, path, value)
    finally:
        os._exit(0)
