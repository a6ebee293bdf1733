"""Runs a program and writes its calls on demux and dvr devices as lines of a script: `dvbemu calls --help`.

All calls are those of client c0; each demux device that is opened is a slot. Calls of threads and of processes that the program
starts are written too, in the order in which they are made. Structures are read from the stopped program's memory (x86-64 Linux)
and written as they are, as lines `ioctl`; --plain writes the commands that these stand for. A call that no command spells stands
behind `#`. The script ends with the line `stream`, behind which a stream may be put; `feed`
and `tick` are for the user to write. epoll, descriptors that are sent through sockets and programs of 32 bits aren't followed.
--demux PATH and --dvr PATH name other files that are taken for the devices. The exit status is the program's.
"""
from __future__ import annotations

import argparse
import os
import re
import signal
import struct
import sys
from typing import TYPE_CHECKING

from .. import abi
from .. import tool
from ..inputs import many
from ..naming import LARGEST_WRITE, command_text
from ..reports import DVR, MOST_BYTES
from ..traced import Traced, bytes_at, path_of, waits

if TYPE_CHECKING:
    from typing import Sequence, TextIO

READ, WRITE, OPEN, CLOSE, POLL, IOCTL, SELECT, DUP, DUP2, CLONE, FCNTL = 0, 1, 2, 3, 7, 16, 23, 32, 33, 56, 72
OPENAT, PSELECT, PPOLL, DUP3, CLONE3, CLOSE_RANGE, OPENAT2 = 257, 270, 271, 292, 435, 436, 437
CLONE_FILES, CLOSE_RANGE_CLOEXEC = 0x400, 4
DUPLICATES = 0, 1030  # F_DUPFD, F_DUPFD_CLOEXEC
INPUTS, OUTPUTS = [one.value for one in abi.Input], [one.value for one in abi.Output]


def argument_of(thread: int, number: int, word: int) -> bytes:
    """The bytes that a request has as its argument, read from the stopped program's memory; the size of a buffer is the word itself."""
    if number == abi.SET_BUFFER_SIZE.number:
        return (word & 0xFFFFFFFF).to_bytes(4, "little")
    size = abi.REQUESTS[number].layout.size if number in abi.REQUESTS else 0
    return bytes_at(thread, word, size) if size else b""


def line_of(target: str, number: int, argument: bytes) -> str | None:
    """The plain line of a request with this argument; None where no command spells it."""
    request = abi.REQUESTS.get(number)
    if request is None or len(argument) != request.layout.size:
        return None
    found = request.values(argument)
    if request is abi.GET_STC:
        return f"c0 ioctl {target} {number:08x} {request.layout.pack(*found.values()).hex()}"
    if request is abi.SET_FILTER:
        rows = zip(found.pop("filter"), found.pop("mask"), found.pop("mode"))
        found["bytes"] = {place: row for place, row in enumerate(rows) if any(row)}
    if request is abi.SET_PES_FILTER:
        if found["input"] >= len(INPUTS) or found["output"] >= len(OUTPUTS):
            return None
        found["input"], found["output"] = INPUTS[found["input"]], OUTPUTS[found["output"]]
    return command_text("c0", target, {"name": request.command, **found})


class Handle:
    """A device that is open. Several descriptors may name it."""

    def __init__(self, target: str) -> None:
        self.target = target


class Script:
    """The descriptors of each thread that name devices, and the lines so far."""

    def __init__(self, first: int, out: TextIO, demux: re.Pattern[str], dvr: re.Pattern[str], plain: bool) -> None:
        self.out, self.demux, self.dvr, self.plain = out, demux, dvr, plain
        # A table of descriptors a thread; threads of a process share one. What each thread asks for meanwhile.
        self.tables: dict[int, dict[int, Handle]] = {first: {}}
        self.asked: dict[int, tuple[int, tuple[int, ...]]] = {}

    def line(self, text: str) -> None:
        self.out.write(text + "\n")

    def open_targets(self) -> set[str]:
        """The targets of the devices that are open."""
        return {handle.target for table in self.tables.values() for handle in table.values()}

    def slot(self) -> str | None:
        """The first slot that no open device has."""
        used = self.open_targets()
        return next((f"h{i}" for i in range(DVR) if f"h{i}" not in used), None)

    def opened(self, thread: int, descriptor: int) -> None:
        """A file was opened: a device gets a line."""
        path = path_of(thread, descriptor) or ""
        target = self.slot() if self.demux.fullmatch(path) else "dvr" if self.dvr.fullmatch(path) else ""
        if target is None:
            self.line("# a demux device more than there are slots")
        elif target:
            # (the dvr device may be open twice, to be read and to be written to; it is one node)
            self.line("# the dvr device once more" if target in self.open_targets() else f"c0 open {target}")
            self.tables[thread][descriptor] = Handle(target)

    def closed(self, table: dict[int, Handle], descriptor: int) -> None:
        """A descriptor was closed: the last one of a device closes it."""
        handle = table.pop(descriptor, None)
        if handle and handle.target not in self.open_targets():
            self.line(f"c0 close {handle.target}")

    def copied(self, table: dict[int, Handle], old: int, new: int) -> None:
        """A descriptor names what another names."""
        if old != new:
            self.closed(table, new)
        if old in table:
            table[new] = table[old]

    def polled(self, thread: int, call: int, args: Sequence[int]) -> list[int]:
        """The descriptors that a call asks after."""
        if call in (POLL, PPOLL):
            rows = bytes_at(thread, args[0], 8 * min(args[1], 1024))
            return [descriptor for descriptor, _, _ in struct.iter_unpack("<ihh", rows[: len(rows) // 8 * 8])]
        bits = [bytes_at(thread, place, (args[0] + 7) // 8) for place in args[1:4] if place]
        return [i for i in range(min(args[0], 1024)) if any(row[i // 8] >> i % 8 & 1 for row in bits if i // 8 < len(row))]

    def read(self, thread: int, target: str, descriptor: int, count: int) -> None:
        """A read: that of a client that waits, unless the device is open without waiting."""
        if count > MOST_BYTES:
            self.line(f"# a read of {count} bytes; one asks for {MOST_BYTES} at most")
        verb = "readw" if waits(thread, descriptor) else "read"
        self.line(f"c0 {verb} {target} {min(count, MOST_BYTES)}")

    def written(self, thread: int, target: str, place: int, count: int) -> None:
        """A write to the dvr device, in lines of as many bytes as one takes."""
        if target != "dvr":
            self.line(f"# a write of {many(count, 'byte')} to {target}; a client writes to dvr alone")
            return
        for first in range(0, count, LARGEST_WRITE):
            piece = bytes_at(thread, place + first, min(LARGEST_WRITE, count - first))
            if not piece:
                self.line(f"# a write of {many(count, 'byte')}, of which the program has {first}")
                return
            self.line(f"c0 write dvr {piece.hex()}")

    def requested(self, target: str, number: int, argument: bytes) -> None:
        """A request: its number and its bytes, or the plain command."""
        line, spelled = line_of(target, number, argument), f"c0 ioctl {target} {number:08x}"
        if line is None:
            self.line(f"# {spelled}: no command of a script")
        else:
            self.line(line if self.plain else f"{spelled} {argument.hex() or '-'}")

    def enters(self, thread: int, call: int, *args: int) -> None:
        """A system call begins."""
        self.asked[thread] = (call, args)
        table, descriptor = self.tables[thread], args[0] & 0xFFFFFFFF
        if call == IOCTL and descriptor in table:
            number = args[1] & 0xFFFFFFFF
            self.requested(table[descriptor].target, number, argument_of(thread, number, args[2]))
        elif call == READ and descriptor in table:
            self.read(thread, table[descriptor].target, descriptor, args[2])
        elif call == WRITE and descriptor in table:
            self.written(thread, table[descriptor].target, args[1], args[2])
        elif call in (POLL, PPOLL, SELECT, PSELECT):
            for polled in self.polled(thread, call, args):
                if polled in table:
                    self.line(f"c0 poll {table[polled].target}")
        elif call == CLOSE:
            self.closed(table, descriptor)
        elif call == CLOSE_RANGE and not args[2] & CLOSE_RANGE_CLOEXEC:
            for descriptor in [known for known in table if args[0] <= known <= args[1]]:
                self.closed(table, descriptor)

    def leaves(self, thread: int, result: int) -> None:
        """A system call has its result."""
        call, args = self.asked.pop(thread, (None, ()))
        if result < 0:
            return
        if call in (OPEN, OPENAT, OPENAT2):
            self.opened(thread, result)
        elif call in (DUP, DUP2, DUP3) or call == FCNTL and args[1] in DUPLICATES:
            self.copied(self.tables[thread], args[0], result)

    def born(self, maker: int, thread: int) -> None:
        """A thread shares the table of its maker, a process has a copy."""
        call, args = self.asked.get(maker, (None, ()))
        flags = args[0] if call == CLONE else int.from_bytes(bytes_at(maker, args[0], 8), "little") if call == CLONE3 else 0
        table = self.tables[maker]
        self.tables[thread] = table if flags & CLONE_FILES else dict(table)

    def began(self, thread: int, former: int) -> None:
        """A process runs another program: what was to be closed then is closed."""
        table = dict(self.tables.pop(former))
        self.tables[thread] = table
        for descriptor in [known for known in table if path_of(thread, known) is None]:
            self.closed(table, descriptor)

    def ended(self, thread: int) -> None:
        """The last thread that shares a table closes its descriptors."""
        table = self.tables.pop(thread, {})
        if not any(other is table for other in self.tables.values()):
            for descriptor in list(table):
                self.closed(table, descriptor)


def literal(path: str) -> str:
    """The pattern of a path alone."""
    return re.escape(path)


def command() -> tool.Command:
    """The command line."""
    parser = tool.Command(
        "calls",
        "[--plain] [--to FILE] [--demux PATH] [--dvr PATH] PROGRAM ARGUMENT ..",
        "Runs a program on a real adapter and writes its calls on demux and dvr devices as a script (x86-64 Linux).",
        reads="the program's calls; its standard input is the program's",
        writes="the script, which ends with the line `stream`, into FILE or on standard output",
        status="that of the program, 128 plus the signal's number if one ended it; 127 if it doesn't exist; 1 if FILE "
        "can't be written; 2 for a usage error",
        example="dvbemu calls --to my.script my-receiver ..; dvbemu steps my.script my.ts",
    )
    parser.add_argument("--to", metavar="FILE", help="the output file; default: standard output")
    parser.add_argument("--demux", metavar="PATH", type=literal, default=r"/dev/dvb/adapter\d+/demux\d+",
                        help="another file to treat as the demux device")  # fmt: skip
    parser.add_argument("--dvr", metavar="PATH", type=literal, default=r"/dev/dvb/adapter\d+/dvr\d+",
                        help="another file to treat as the dvr device")  # fmt: skip
    parser.add_argument("--plain", action="store_true", help="plain commands in place of request numbers and bytes")
    parser.add_argument("program", metavar="PROGRAM", nargs=argparse.REMAINDER, help="the program and its arguments")
    return parser


def main() -> int:
    parser = command()
    args = parser.parse_args()
    args.program = args.program[args.program[:1] == ["--"] :]
    if not args.program:
        parser.error("the following arguments are required: PROGRAM")
    if args.program[0].startswith("-"):
        parser.error(f"unrecognized arguments: {args.program[0]}")
    # (Ctrl-C is for the program: what it has called until it ends is written)
    signal.signal(signal.SIGINT, lambda *_: None)
    try:
        out = open(args.to, "w", encoding="ascii") if args.to else sys.stdout
    except OSError as fault:
        parser.fail_on(args.to, fault)
    program = Traced(args.program)
    try:
        with out:
            script = Script(program.first, out, re.compile(args.demux), re.compile(args.dvr), args.plain)
            for event in program.events():
                getattr(script, event.kind)(event.thread, *event.words)
            script.line("stream")
    except OSError as fault:
        # (what ptrace refuses says so itself)
        parser.fail(fault.strerror if fault.strerror.startswith("ptrace") else f"{args.to}: {fault.strerror}")
    code = os.waitstatus_to_exitcode(program.status)
    return code if code >= 0 else 128 - code
