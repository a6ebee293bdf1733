"""Standard input, output and errors where they are closed, full or a folder, and how a command ends by what it can't go on behind: by a
line that names that, and a status of its own, never by a look at its code. docs/BEHAVIOUR.md has the statuses of the program, which are
these too.
"""
from __future__ import annotations

import io
import os
import select
import signal
import sys
from typing import TYPE_CHECKING

from . import progress

if TYPE_CHECKING:
    from typing import Callable, NoReturn

    from _typeshed import ReadableBuffer


READ_WRONG, WRITE_FAULT, NO_MEMORY, INTERNAL = 1, 6, 7, 70
# Where the shell script keeps a folder that is standard input, with which Python doesn't begin, and the setting that says so.
FOLDER, FOLDER_SET = 9, "DVBEMU_FOLDER"


class NoOutput(SystemExit):
    """Standard output takes no more, and why. No handler of errors takes it for one of a file."""

    def __init__(self, why: str | None) -> None:
        super().__init__(WRITE_FAULT)
        self.why = why


class Output(io.FileIO):
    """Standard output. Where a write fails it ends the command; what is written behind that is dropped."""

    def __init__(self, end: int) -> None:
        super().__init__(end, "w", closefd=False)
        self.has_failed = False

    def write(self, data: ReadableBuffer) -> int:
        """Writes some of it. An end that doesn't wait is waited for."""
        size = memoryview(data).nbytes
        if self.has_failed:
            return size
        try:
            while (count := super().write(data)) is None:
                select.select([], [self], [])
            return count
        except OSError as fault:
            self.has_failed = True
            return self.fail(fault, size)

    def fail(self, fault: OSError, _: int) -> int:
        """A write has failed."""
        raise NoOutput(fault.strerror)


class Errors(Output):
    """Standard error. An error in writing to it can't be reported."""

    def fail(self, fault: OSError, count: int) -> int:
        return count


def text_of(raw: Output, old: object, errors: str) -> io.TextIOWrapper:
    """Text over one of these."""
    return io.TextIOWrapper(io.BufferedWriter(raw), getattr(old, "encoding", "utf-8"), errors, line_buffering=raw.isatty() or isinstance(raw, Errors))


def hold() -> None:
    """Keeps the place of each end that is closed, so that no other file comes there: what is read or written there fails as it would.
    Programs that are started find it closed."""
    if FOLDER_SET in os.environ:
        del os.environ[FOLDER_SET]
        os.dup2(FOLDER, 0)
        os.close(FOLDER)
    for end, mode in enumerate((os.O_WRONLY, os.O_RDONLY, os.O_RDONLY)):
        try:
            os.fstat(end)
        except OSError:
            os.open(os.devnull, mode)
    sys.stdout = text_of(Output(1), sys.stdout, "surrogateescape")
    sys.stderr = text_of(Errors(2), sys.stderr, "backslashreplace")


def reader_is_gone() -> bool:
    """Whether standard output is a pipe that nobody reads any more."""
    look = select.poll()
    look.register(1, 0)
    return any(event & (select.POLLERR | select.POLLHUP) for _, event in look.poll(0))


def end_by(number: int) -> int:
    """Ends by a signal, quietly."""
    signal.signal(number, signal.SIG_DFL)
    signal.pthread_sigmask(signal.SIG_UNBLOCK, {number})
    os.kill(os.getpid(), number)
    return 128 + number


def how(status: int) -> str:
    """How a process has ended that has this status."""
    return f"was killed by signal {-status}" if status < 0 else f"exited with status {status}"


def place_of(fault: BaseException) -> str:
    """Where in the code a fault was last."""
    step, place = fault.__traceback__, "an unknown place"
    while step:
        place, step = f"{os.path.basename(step.tb_frame.f_code.co_filename)}:{step.tb_lineno}", step.tb_next
    return place


def told_of(fault: BaseException) -> tuple[str, int]:
    """The message and status for an exception that a command doesn't handle."""
    if isinstance(fault, NoOutput):
        return f"standard output: {fault.why}", WRITE_FAULT
    if isinstance(fault, MemoryError):
        return "out of memory", NO_MEMORY
    if isinstance(fault, OSError):
        return ": ".join(str(part) for part in (fault.filename, fault.strerror or fault) if part), READ_WRONG
    return f"internal error, at {place_of(fault)}: {type(fault).__name__}: {fault}".replace("\n", " "), INTERNAL


def status_of(prog: str, main: Callable[..., int | None], *argv: str) -> int | str | None:
    """Runs a command over the ends as they stand, and gives its status."""
    status: int | str | None
    try:
        try:
            status = main(*argv)
        except SystemExit as asked:
            if isinstance(asked, NoOutput):
                raise
            status = asked.code
        if not sys.stdout.closed:
            sys.stdout.flush()
    except (NoOutput, Exception) as fault:  # pylint: disable=broad-exception-caught
        text, status = told_of(fault)
        progress.end()
        print(f"{prog}: {text}", file=sys.stderr)
    return status


def run(prog: str, main: Callable[..., int | None], *argv: str) -> NoReturn:
    """Runs a command, and exited with status that it gives."""
    hold()
    # (where the caller waits for no child, neither would this)
    signal.signal(signal.SIGCHLD, signal.SIG_DFL)
    sys.exit(status_of(prog, main, *argv))
