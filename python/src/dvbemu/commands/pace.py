"""Writes a transport stream at the pace of its program clock, or a number of times as fast: `dvbemu pace --help`.

The clock is that of the PCRs of one PID: of the first PID that has one, or of P; stream/pace.py says what it is where these are missing or
make a leap. So a program that reads this meets the packets as a receiver would:

    dvbemu pace my.ts | dvbemu run my.script -

A stream with fewer than two PCRs is an error: nothing is written, and the status is 1.
"""
from __future__ import annotations

import sys
import time
from typing import TYPE_CHECKING

from .. import tool
from ..stream.pace import ClockError, timed

if TYPE_CHECKING:
    from typing import BinaryIO, Iterable, Iterator

CHUNK, LEAST_WAIT = 65536, 0.001


def rate(word: str) -> float:
    """A number above 0."""
    number = float(word)
    if not 0 < number < float("inf"):
        raise ValueError
    return number


def command() -> tool.Command:
    """The command line."""
    parser = tool.Command(
        "pace",
        "[--rate R] [--pid P] [STREAM]",
        "Writes a stream at the pace of its program clock (PCR), so that `run` gets it as from a broadcast.",
        reads="a transport stream, from the file STREAM; without it, or with `-`, from standard input",
        writes="the same bytes, each when it is due",
        status="0; 1 if STREAM can't be read or has fewer than two PCRs; 2 for a usage error",
        example="dvbemu pace --rate 2 my.ts | dvbemu run my.script -",
    )
    parser.add_argument("--rate", type=tool.reader(rate, "a number above 0"), default=1.0, metavar="R", help="play R times as fast; R is above 0")
    parser.add_argument("--pid", type=tool.number(0, 8191), metavar="P", help="the PID whose PCRs are the clock")
    parser.add_argument("stream", metavar="STREAM", nargs="?", help="a transport stream")
    return parser


def chunks_of(file: BinaryIO) -> Iterator[bytes]:
    """What a file gives, as it comes."""
    while chunk := file.read1(CHUNK):  # type: ignore[attr-defined]  # (files of `parser.opened` have it)
        yield chunk


def write(pieces: Iterable[tuple[float, bytes]], times: float, out: BinaryIO) -> None:
    """Writes each piece when it is due, and none before."""
    begin = None
    for at, piece in pieces:
        now = time.monotonic()
        begin = now - at / times if begin is None else begin
        early = begin + at / times - now
        if early > 0:
            out.flush()
            time.sleep(max(early, LEAST_WAIT))
        out.write(piece)
    out.flush()


def main() -> None:
    """Writes the named stream, or that on standard input."""
    parser = command()
    args = parser.parse_args()
    try:
        with parser.opened(args.stream) as file:
            write(timed(chunks_of(file), args.pid), args.rate, sys.stdout.buffer)
    except ClockError:
        of = "" if args.pid is None else f" on PID {args.pid}"
        parser.fail_on(args.stream, f"fewer than two PCRs{of}, so it has no usable clock")
    except OSError as wrong:
        parser.fail_on(args.stream, wrong)
