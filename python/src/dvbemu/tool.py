"""What the commands of dvbemu share: the form of --help, --version and errors, files or standard input, and exit statuses.

A command is a module of `commands`, which `dvbemu WORD` runs. Its exit status is 0; 1 if a file can't be read or is of the wrong kind; 2 for
a usage error; and others that its help names. An error is one line on standard error, `dvbemu WORD: ..`. standard.py handles what no command
does itself: 6 if standard output can't be written, 7 if out of memory, 70 for a bug. If a reader of its output goes away, or on Ctrl-C, a
command ends without a message; a shell sees Ctrl-C as the status 130.
"""
from __future__ import annotations

import argparse
import os
import signal
import sys
from typing import TYPE_CHECKING

from . import progress

if TYPE_CHECKING:
    from typing import BinaryIO, Callable, Iterable, NoReturn, TypeVar

    T = TypeVar("T")

ROOT = os.path.normpath(os.path.join(os.path.dirname(os.path.realpath(__file__)), "..", "..", ".."))
PARTS = ("reads", "writes", "status", "example")
WIDTH = 120
# What --version prints if the program isn't proved.
HASTY = "not proved: built with DVBEMU_UNPROVED"

# (set on import, so that the imports that follow end quietly too)
signal.signal(signal.SIGPIPE, signal.SIG_DFL)
if signal.getsignal(signal.SIGINT) is signal.default_int_handler:
    signal.signal(signal.SIGINT, signal.SIG_DFL)
# (a Ctrl-C that came since the wrapper started takes effect here)
signal.pthread_sigmask(signal.SIG_UNBLOCK, {signal.SIGINT})


def nearest(word: str, known: Iterable[str]) -> str:
    """The end of a message with the known word that is most like a wrong one; empty if none is."""
    import difflib  # pylint: disable=import-outside-toplevel
    found = difflib.get_close_matches(word, known, 1, 0.6)
    return f"; did you mean {found[0]}?" if found else ""


def version() -> str:
    """The version in the file VERSION, the commit if there is one, and the toolchain that proved the program."""
    from . import build  # pylint: disable=import-outside-toplevel
    with open(os.path.join(ROOT, "VERSION"), encoding="utf-8") as file:
        number, proved = file.read().splitlines()[:2]
    commit = ""
    if os.path.exists(os.path.join(ROOT, ".git")):
        import subprocess  # pylint: disable=import-outside-toplevel
        words = ["git", "-C", ROOT, "describe", "--always", "--dirty=, changed", "--exclude=*"]
        try:
            commit = subprocess.run(words, capture_output=True, text=True, check=False).stdout.strip()
        except OSError:
            pass
    return f"dvbemu {number}" + (f" (commit {commit})" if commit else "") + f"\n{HASTY if build.is_unproved() else proved}"


class Version(argparse.Action):
    """The option --version."""

    def __call__(self, parser: argparse.ArgumentParser, namespace: argparse.Namespace, values: object, option_string: str | None = None) -> NoReturn:
        print(version())
        parser.exit()


class Once(argparse.Action):
    """An option that can be given once."""

    def __call__(self, parser: argparse.ArgumentParser, namespace: argparse.Namespace, values: object, option_string: str | None = None) -> None:
        if getattr(namespace, self.dest) is not None:
            raise argparse.ArgumentError(self, "given twice")
        setattr(namespace, self.dest, values)


class Page(argparse.RawDescriptionHelpFormatter):
    """A help whose width doesn't depend on the terminal."""

    def __init__(self, prog: str) -> None:
        super().__init__(prog, width=WIDTH)


class Command(argparse.ArgumentParser):
    """The parser of a command: its word, its usage, what it does; and for its help what it reads and writes, its exit statuses, and an
    example."""

    # The statuses of all tools, which follow their own.
    others = "; 6 if standard output can't be written; 7 if out of memory; 70 for a bug in the tool"

    def __init__(self, word: str, usage: str, about: str, teller: str | None = None, **sections: str) -> None:
        self.teller = teller or f"dvbemu {word}"
        self.sections = sections
        super().__init__(prog=f"dvbemu {word}", usage=f"dvbemu {word} {usage}", description=about, add_help=False, formatter_class=Page,
                         allow_abbrev=False)  # fmt: skip
        self.add_argument("-h", "--help", action="help", help="show this help")
        self.add_argument("--version", action=Version, nargs=0, help="show the version, its commit, and the toolchain that proved it")

    def statuses(self) -> str:
        """The exit statuses, and what they mean."""
        return self.sections["status"] + ("" if self.teller == "dvbemu" else self.others)

    def format_help(self) -> str:
        """The help, with its sections at the end."""
        import textwrap  # pylint: disable=import-outside-toplevel
        sections = {**self.sections, "status": self.statuses()}
        rows = (textwrap.wrap(sections[part], WIDTH - 9, break_on_hyphens=False) for part in PARTS)
        self.epilog = "\n".join(f"{part:8} " + "\n         ".join(row) for part, row in zip(PARTS, rows))
        return super().format_help()

    def exit(self, status: int = 0, message: str | None = None) -> NoReturn:
        """Exits, with a message if there is one."""
        progress.end()
        super().exit(status, message)

    def fail(self, text: object) -> NoReturn:
        """Exits with an error message and status 1."""
        self.exit(1, f"{self.teller}: {text}\n")

    def fail_on(self, name: str | None, fault: Exception | str) -> NoReturn:
        """Exits with a message on a file and status 1."""
        reason = fault.strerror if isinstance(fault, OSError) and fault.strerror else str(fault)
        self.fail(f"{'standard input' if name in (None, '-') else name}: {reason}")

    def opened(self, name: str | None) -> BinaryIO:
        """The file of this name, opened for its bytes; standard input for None and `-`."""
        if name is not None and name != "-":
            try:
                return open(name, "rb")  # pylint: disable=consider-using-with
            except OSError as fault:
                self.fail_on(name, fault)
        if sys.stdin is None:
            self.fail("standard input: it is closed")
        if sys.stdin.closed:
            self.fail("-: standard input can be given only once")
        self.tell_waiting()
        return sys.stdin.buffer

    def tell_waiting(self, more: str = "") -> None:
        """Says on a terminal that standard input is read."""
        if sys.stdin is not None and sys.stdin.isatty():
            print(f"{self.teller}: reading standard input, which is a terminal; Ctrl-D ends it{more}", file=sys.stderr)

    def bytes_of(self, name: str | None) -> bytes:
        """The bytes of a file, or of standard input for None and `-`."""
        try:
            with self.opened(name) as file:
                return file.read()
        except OSError as fault:
            return self.fail_on(name, fault)


def reader(function: Callable[[str], T], expected: str) -> Callable[[str], T]:
    """A function for `type=` of an argument. A ValueError or KeyError of the given function becomes a message with what is expected."""

    def read(word: str) -> T:
        try:
            return function(word)
        except (ValueError, KeyError):
            raise argparse.ArgumentTypeError(f"expected {expected}, got '{word}'") from None

    return read


def number(least: int, most: int, is_plain: bool = False) -> Callable[[str], int]:
    """A `type=` for a decimal number in a range; unless it has to be plain, also a hexadecimal one after 0x, and with leading zeros."""

    def read(word: str) -> int:
        value = int(word, 16) if word.lower().startswith("0x") and not is_plain else int(word)
        if not least <= value <= most or is_plain and word != str(value):
            raise ValueError
        return value

    return reader(read, f"a number from {least} to {most}")
