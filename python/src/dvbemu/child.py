"""The proved program as a child: its environment, and a run over pieces of input."""
from __future__ import annotations

import os
import signal
import subprocess
import sys
from typing import TYPE_CHECKING

from . import build
from . import progress
from . import standard

if TYPE_CHECKING:
    from types import FrameType
    from typing import BinaryIO, Iterable, NoReturn, Sequence

# Fresh memory comes in large pages, except for `run`, whose threads gain nothing by it, and if the caller sets it otherwise. The shell script
# sets the same.
SETTING = {"GLIBC_TUNABLES": "glibc.malloc.hugetlb=1"}
# The signals that may end this before the program has.
ENDS = {signal.SIGHUP, signal.SIGINT, signal.SIGQUIT, signal.SIGTERM, signal.SIGUSR1, signal.SIGUSR2, signal.SIGALRM, signal.SIGVTALRM,
        signal.SIGPROF, signal.SIGXCPU, signal.SIGIO, signal.SIGPWR}  # fmt: skip


def environment(word: str) -> dict[str, str]:
    """The environment of the program for this word."""
    return dict(os.environ) if word == "run" else {**SETTING, **os.environ}


def program() -> str:
    """The path of the program, which is built if it isn't there. Exits if it can't be."""
    try:
        return build.path_of("dvbemu")
    except build.Stopped as why:
        print(f"dvbemu: {why}", file=sys.stderr)
        sys.exit(1)


def in_memory(pieces: Iterable[bytes] = ()) -> BinaryIO:
    """A file in memory with these bytes, at its beginning: no thread need look after a child that reads or writes it."""
    file = open(os.memfd_create("dvbemu"), "w+b")  # pylint: disable=consider-using-with
    file.writelines(pieces)
    file.seek(0)
    return file


def ran(argv: Sequence[str], pieces: Iterable[bytes]) -> subprocess.CompletedProcess[bytes]:
    """The output, messages and status of a command over these pieces of input."""
    with in_memory(pieces) as file:
        return subprocess.run(argv, stdin=file, capture_output=True, check=False, env=environment(argv[1]))


class Run:
    """A run of the program over input that is written to it: its standard error, its standard output if that is wanted, and its status. A
    signal that ends this process ends the program first, so it never takes incomplete input for complete."""

    def __init__(self, path: str, argv: Sequence[str], takes_output: bool = False) -> None:
        self.ends = in_memory() if takes_output else None, in_memory()
        self.child = subprocess.Popen([path, *argv], stdin=subprocess.PIPE, stdout=self.ends[0], stderr=self.ends[1],
                                      env=environment(argv[0]))  # fmt: skip
        for number in ENDS:
            if signal.getsignal(number) not in (signal.SIG_IGN, progress.renew):
                signal.signal(number, self.end)
        self.stdout, self.stderr = b"", b""

    def end(self, number: int, _frame: FrameType | None) -> NoReturn:
        """Ends the program, and then this."""
        self.child.kill()
        os._exit(standard.end_by(number))

    def feed(self, pieces: Iterable[bytes]) -> int:
        """Writes all pieces to the program, waits for its end, and returns its status. If a piece can't be read, the program is killed."""
        assert self.child.stdin
        signal.signal(signal.SIGPIPE, signal.SIG_IGN)
        try:
            for piece in pieces:
                self.child.stdin.write(piece)
                self.child.stdin.flush()
        except BrokenPipeError:
            # (a script with a fault isn't read to its end)
            pass
        except BaseException:
            self.child.kill()
            raise
        finally:
            self.child.communicate()
            signal.signal(signal.SIGPIPE, signal.SIG_DFL)
        self.stdout, self.stderr = (self.taken(end) for end in self.ends)
        return self.child.returncode

    @staticmethod
    def taken(end: BinaryIO | None) -> bytes:
        """What the program has written into a file in memory."""
        if end is None:
            return b""
        with end:
            end.seek(0)
            return end.read()
