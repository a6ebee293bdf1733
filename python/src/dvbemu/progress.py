"""How far long work is: one line on standard error, renewed by a timer, behind the first second, and only where that is a terminal."""
from __future__ import annotations

import atexit
import io
import os
import signal
import stat
import sys
from typing import TYPE_CHECKING

from .inputs import many

if TYPE_CHECKING:
    from typing import BinaryIO, Callable, Sequence, TextIO

    from _typeshed import WriteableBuffer

    from .inputs import Input
    from .tool import Command

FIRST, EACH, WIDTH = 1.0, 0.5, 78
# Who tells of the work that is shown, and what; and what stands on the terminal. One of each, or none.
work: list[tuple[str, Callable[[], str]]] = []
shown: list[str] = []


def write(line: str) -> None:
    """Writes over the line. (This may come within any other write.)"""
    os.write(2, f"\r{line[:WIDTH]:{WIDTH}}".encode(errors="replace"))


def renew(*_: object) -> None:
    """Writes the line anew."""
    shown[:] = [f"{prog}: {text()}" for prog, text in work]
    for line in shown:
        write(line)


def is_terminal(end: TextIO | None) -> bool:
    """Whether one of the standard ends is a terminal."""
    return end is not None and end.isatty()


def show(prog: str, text: Callable[[], str]) -> None:
    """Shows what `text` gives until the program or the work ends; nothing where standard error is no terminal."""
    if is_terminal(sys.stderr):
        work[:] = [(prog, text)]
        signal.signal(signal.SIGALRM, renew)
        signal.setitimer(signal.ITIMER_REAL, FIRST, EACH)
        atexit.register(end)


def show_beside(prog: str, text: Callable[[], str]) -> None:
    """The same of work that writes as it goes: nothing where what it writes goes to a terminal too."""
    if not is_terminal(sys.stdout):
        show(prog, text)


def end() -> None:
    """Erases the line, so that something else can be written."""
    if work:
        signal.setitimer(signal.ITIMER_REAL, 0)
        signal.signal(signal.SIGALRM, signal.SIG_DFL)
        work.clear()
    if shown:
        shown.clear()
        write("")
        os.write(2, b"\r")


def clear() -> None:
    """Takes the line away where what is written now goes to a terminal."""
    if is_terminal(sys.stdout):
        end()


def bytes_text(count: int) -> str:
    """A number of bytes: `900 bytes`, `44.1 MB`."""
    return f"{count / 1e6:,.1f} MB" if count >= 100_000 else many(count, "byte")


class Work:
    """Work in parts over files: how far their reading is, and behind that what is done."""

    def __init__(self, files: Sequence[Input | Counted], what: str) -> None:
        self.files, self.what, self.has_read = files, what, False

    def begin(self, what: str) -> None:
        """All is read, and this is done now."""
        self.what, self.has_read = what, True

    def text(self) -> str:
        """How far it is."""
        taken, sizes = bytes_text(sum(file.taken for file in self.files)), [file.size for file in self.files]
        if self.has_read:
            return f"{taken} read, {self.what} .."
        return taken + ("" if None in sizes else f" of {bytes_text(sum(filter(None, sizes)))}") + " read"


class Counted(io.FileIO):
    """An open file whose bytes are counted as they are read, and the text on its progress."""

    def __init__(self, file: BinaryIO, what: str) -> None:
        super().__init__(file.fileno(), closefd=False)
        status = os.fstat(file.fileno())
        self.file, self.taken, self.size = file, 0, status.st_size if stat.S_ISREG(status.st_mode) else None
        self.work = Work([self], what)

    def readinto(self, buffer: WriteableBuffer) -> int | None:
        """Reads, and counts."""
        count = super().readinto(buffer)
        self.taken, self.work.has_read = self.taken + (count or 0), not count
        return count


def reading(parser: Command, name: str | None, what: str) -> BinaryIO:
    """The file of this name, or standard input, as `parser.opened` returns it. On a terminal a line shows the progress of reading, and then
    that `what` is done."""
    file = parser.opened(name)
    if not is_terminal(sys.stderr):
        return file
    counted = Counted(file, what)
    show(parser.teller, counted.work.text)
    return io.BufferedReader(counted, 1 << 20)
