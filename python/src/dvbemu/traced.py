"""Runs a program and tells its system calls, and those of its threads and of processes that it starts: ptrace, x86-64 Linux."""
from __future__ import annotations

import ctypes
import os
import signal
import struct
from typing import TYPE_CHECKING, NamedTuple

if TYPE_CHECKING:
    from typing import Iterator

TRACEME, SYSCALL, SETOPTIONS, GETEVENTMSG, GET_SYSCALL_INFO = 0, 24, 0x4200, 0x4201, 0x420E
# A mark on stops at system calls; forks, threads and exec are followed and reported; no process outlives this one.
OPTIONS = 0x01 | 0x02 | 0x04 | 0x08 | 0x10 | 0x100000
BORN, EXEC = (1, 2, 3), 4
X86_64 = 0xC000003E
ALL = 0x40000000  # __WALL: threads too

libc = ctypes.CDLL(None, use_errno=True)
libc.ptrace.argtypes = [ctypes.c_long, ctypes.c_long, ctypes.c_void_p, ctypes.c_void_p]
libc.ptrace.restype = ctypes.c_long


class Event(NamedTuple):
    """What a thread does: it enters or leaves a system call, has made another thread or process, begins a program, or has ended."""

    kind: str
    thread: int
    # The number of a system call and its six arguments; its result alone; the other's number; the exit status.
    words: tuple[int, ...] = ()


def ptrace(request: int, thread: int, at: int | None = None, data: int | None = None) -> int:
    """One request of ptrace; an OSError where it is refused."""
    answer: int = libc.ptrace(request, thread, at, data)
    if answer < 0:
        raise OSError(ctypes.get_errno(), f"ptrace: {os.strerror(ctypes.get_errno())}")
    return answer


class Traced:
    """A program that runs, and all that it starts."""

    def __init__(self, argv: list[str]) -> None:
        self.first = os.fork()
        if self.first == 0:
            try:
                ptrace(TRACEME, 0)
                os.execvp(argv[0], argv)
            except OSError as error:
                os.write(2, f"dvbemu calls: {argv[0]}: {error.strerror}\n".encode())
            os._exit(127)
        self.threads = {self.first}
        self.early: set[int] = set()
        self.fresh: set[int] = set()
        _, self.status = os.waitpid(self.first, 0)
        if os.WIFSTOPPED(self.status):
            ptrace(SETOPTIONS, self.first, None, OPTIONS)
            self.go_on(self.first)
        else:
            self.threads.clear()

    def go_on(self, thread: int, number: int = 0) -> None:
        """Lets a thread run to its next stop, with a signal. One that was killed meanwhile tells its end."""
        try:
            ptrace(SYSCALL, thread, None, number)
        except ProcessLookupError:
            pass

    def events(self) -> Iterator[Event]:
        """All events, in order. A thread stops until the next event is requested."""
        while self.threads:
            thread, status = os.waitpid(-1, ALL)
            if os.WIFSTOPPED(status):
                yield from self.stopped(thread, status >> 8)
            elif thread in self.threads:
                self.threads.discard(thread)
                if thread == self.first:
                    self.status = status
                yield Event("ended", thread)

    def stopped(self, thread: int, why: int) -> Iterator[Event]:
        """What a stop tells; then the thread goes on."""
        number, event = why & 0xFF, why >> 8
        if thread not in self.threads:
            self.early.add(thread)  # its maker's event hasn't come yet
            return
        if event in BORN:
            yield from self.born(thread, self.message(thread))
        elif event == EXEC:
            if (former := self.message(thread)) != thread:
                self.threads.discard(former)
            yield Event("began", thread, (former,))
        elif number == signal.SIGTRAP | 0x80:
            yield from self.called(thread)
        elif number == signal.SIGSTOP and thread in self.fresh:
            self.fresh.discard(thread)
        elif not event:
            self.go_on(thread, number)
            return
        self.go_on(thread)

    def born(self, maker: int, thread: int) -> Iterator[Event]:
        """A new thread or process, which stops once by itself before its first step."""
        self.threads.add(thread)
        yield Event("born", maker, (thread,))
        if thread in self.early:
            self.early.discard(thread)
            self.go_on(thread)
        else:
            self.fresh.add(thread)

    def message(self, thread: int) -> int:
        """The number that comes with an event."""
        number = ctypes.c_ulong()
        ptrace(GETEVENTMSG, thread, None, ctypes.addressof(number))
        return number.value

    def called(self, thread: int) -> Iterator[Event]:
        """The system call that a thread enters or leaves. Those of 32-bit programs are left out."""
        info = ctypes.create_string_buffer(88)
        ptrace(GET_SYSCALL_INFO, thread, len(info), ctypes.addressof(info))
        kind, machine = struct.unpack_from("<B3xI", info)
        if machine == X86_64 and kind == 1:
            yield Event("enters", thread, struct.unpack_from("<7Q", info, 24))
        elif machine == X86_64 and kind == 2:
            yield Event("leaves", thread, struct.unpack_from("<q", info, 24))


def bytes_at(thread: int, place: int, count: int) -> bytes:
    """Bytes of a stopped thread's memory; fewer, or none, where it has none there."""
    try:
        with open(f"/proc/{thread}/mem", "rb", buffering=0) as memory:
            memory.seek(place)
            return memory.read(count)
    except (OSError, OverflowError):
        return b""


def path_of(thread: int, descriptor: int) -> str | None:
    """The path of an open file; None where the descriptor is closed."""
    try:
        return os.readlink(f"/proc/{thread}/fd/{descriptor}")
    except OSError:
        return None


def waits(thread: int, descriptor: int) -> bool:
    """Whether reads of a descriptor wait for bytes: O_NONBLOCK isn't set."""
    try:
        with open(f"/proc/{thread}/fdinfo/{descriptor}", encoding="ascii") as file:
            flags = next(line for line in file if line.startswith("flags:"))
    except OSError:
        return True
    return not int(flags.split()[1], 8) & os.O_NONBLOCK
