"""`dvbemu serve`: runs a command whose DVB programs find an emulated adapter that a recording feeds, and writes the report of all their
calls. Its --help tells of the words.

The server is dvb_serve, which the first call proves and builds; the preload, preload/*.c, or with
--fuse what mounts, fuse/*.c, is built at the first call by cc.
"""
from __future__ import annotations

import contextlib
import os
import shutil
import signal
import stat
import sys
from typing import TYPE_CHECKING


from .. import tool
from ..build import Stopped, build_fuse, build_preload, built_server
from ..server.adapters import Adapter, Folder, adopt
from ..server.channels import LINE, SATELLITE, SYSTEMS, channels_of, lines_in
from ..server.commands import CAPABLE, SETUID, Interrupted, Signals, end_all_but, run_command, unseen_as
from ..server.fuse import Mount
from ..server.recording import Unplayable
from ..server.trace import Trace
from ..stream.packets import PACKET

if TYPE_CHECKING:
    from argparse import Namespace
    from typing import BinaryIO, Callable, List, NoReturn, Optional, Sequence, Tuple

    from ..server.channels import Channel

    # Of an adapter the words of its channels, the file of such words, and the stream that is everywhere.
    Words = Tuple[List[str], Optional[str], Optional[str]]

# A stream passes by batches of 64 packets: with fewer packets a second than this a program waits too long for some tables. And the most
# packets a second, and the most adapters.
SLOW, FASTEST, MOST_ADAPTERS = 640, 10_000_000, 8
# The report that no word names, and how one begins.
REPORT, BEGINS = "dvbemu.report", b"dvbemu 1\n"
CHANNEL = "HZ[:SYSTEM][:POL][:snr=DB][:lock=MS][:drop=S+S]=STREAM"
EARTHLY = ", ".join(name for name, number in SYSTEMS.items() if number not in SATELLITE)
ABOUT = """\
Runs COMMAND and writes a report of its DVB calls. COMMAND and the programs that it starts find /dev/dvb/adapter0.

The recording loops in real time (by its PCR), whether or not a program tunes, and is found on every frequency. With
--tune or --channels it exists on its own frequency only, starts from its first packet, and locks after 0.1 s; other
frequencies don't lock. All programs of an adapter share one simulated frontend.

When COMMAND ends, also by Ctrl-C or SIGTERM, the programs it left running are ended, the stream ends, and the report is written. Its
calls are in memory until then: enough for minutes, not days. With --keep none or --keep FOLDER memory doesn't grow."""
READS = "STREAM, a recording of packets of 188, 192 or 204 bytes, in a file; or a pipe or `-`, standard input, which is played as it comes"
WRITES = "the report, into the file of --report, or dvbemu.report here; FILE.tunings beside it lists each tuning with its packet. With " \
    "several adapters .0, .1 and so on are appended to the names"
STATUS = "that of COMMAND, 128 plus the signal's number if one ended it, or 127 if it doesn't exist; 1 if a file can't be " \
    "read or isn't a stream, or there is no report; 2 for a usage error"


def rate(most: float) -> Callable[[str], float]:
    """A reader of a rate above 0."""

    def read(word: str) -> float:
        number = float(word)
        if not 0 < number <= most:
            raise ValueError
        return number

    return tool.reader(read, f"a number above 0, at most {most}")


def channel(word: str) -> str:
    """A word HZ[:SYSTEM][:POL]=STREAM."""
    if not LINE.fullmatch(word):
        raise ValueError
    return word


class Serve(tool.Command):
    """The command. Where no word is `--`, a wrong word may be one of COMMAND."""

    has_command = True
    others = "; 70 for a bug in `serve`"

    def error(self, message: str) -> NoReturn:
        super().error(message + ("" if self.has_command else "; put -- before COMMAND"))


def command() -> Serve:
    """The command and its words: those in front of `--`."""
    words = Serve("serve", "[OPTION ..] [STREAM] -- COMMAND [WORD ..]", ABOUT, reads=READS, writes=WRITES, status=STATUS,
                  example="dvbemu serve --packets 3000 --report r my.ts -- dvbv5-scan -o channels dvbv5.conf")  # fmt: skip
    pace = words.add_mutually_exclusive_group()
    pace.add_argument("--packets", type=rate(FASTEST), metavar="N", help="play N packets a second, ignoring the clock")
    pace.add_argument("--rate", type=rate(FASTEST * PACKET * 8), metavar="N", help="play N bits a second")
    words.add_argument("--once", action="store_true", help="play the stream once")
    words.add_argument("--seats", type=tool.number(1, 8), default=8, metavar="N", help="the maximum number of programs at the same time, 1 to 8; default 8")
    words.add_argument("--report", metavar="FILE", help="where to write the report; - is standard output; default dvbemu.report")
    words.add_argument("--keep", default="all", metavar="all|none|FOLDER", help="where to keep the calls: all of them in memory; none of them, "
                       "without a report; or in a new or empty folder, from which `dvbemu merge` makes the report")  # fmt: skip
    words.add_argument("--tune", action="append", nargs="+", default=[], metavar=CHANNEL, type=tool.reader(channel, CHANNEL),
                       help=f"a recording on a frequency in Hz (the program may tune 2 MHz away), for a delivery system ({EARTHLY}; DVBS and "
                       "DVBS2, with kHz and H, V, L or R); a number below 100,000 is MHz; snr is the signal to noise ratio in dB, lock how "
                       "many ms a lock takes, drop after how many seconds it is lost, and for how many")  # fmt: skip
    words.add_argument("--channels", metavar="FILE", help="a file with such lines")
    words.add_argument("--live", action="store_true", help="recordings keep running while not tuned")
    words.add_argument("--adapter", action="append", default=[], metavar="STREAM|CHANNELS", help="add an adapter: adapter0, adapter1 and so on")
    words.add_argument("--trace", action="store_true", help="print each call of a program on standard error when it returns, or while "
                       "it waits")  # fmt: skip
    way = words.add_mutually_exclusive_group()
    way.add_argument("--fuse", action="store_true", help="mount /dev/dvb by FUSE in a namespace of its own: for every program, also if "
                     "linked statically")  # fmt: skip
    way.add_argument("--preload", action="store_true", help="load a library into each program that replaces calls of the C library (default)")  # fmt: skip
    words.add_argument("--played", metavar="FILE", help="save the packets as they were played")
    words.add_argument("stream", nargs="?", metavar="STREAM", help="a transport stream; `-` is standard input")
    return words


def adapters_in(options: Namespace) -> list[Words]:
    """Of each adapter the words of its channels, the file of such words, and the stream that is everywhere."""
    first = [(options.tune, options.channels, options.stream)] if options.tune or options.channels or options.stream is not None else []
    return first + [([], word, None) if lines_in(word) else ([], None, word) for word in options.adapter]


def asked(words: list[str], known: Serve) -> tuple[Namespace, list[str]]:
    """The words in front of `--`, and the command behind it."""
    known.has_command = "--" in words
    at = words.index("--") if known.has_command else len(words)
    options, command = known.parse_args(words[:at]), words[at + 1:]
    options.tune = [word for some in options.tune for word in some]
    if options.rate is not None:
        options.packets = options.rate / 8 / PACKET
    missing = [name for name, there in (("STREAM", adapters_in(options)), ("COMMAND", command)) if not there]
    if missing:
        known.error(f"the following arguments are required: {', '.join(missing)}")
    if options.keep != "all" and options.report:
        known.error(f"--report: with --keep {options.keep} no report is written")
    if len(adapters_in(options)) > MOST_ADAPTERS:
        known.error(f"--adapter: there are {MOST_ADAPTERS} adapters at most")
    see_command(command[0], known, options.fuse)
    return options, command


def see_command(name: str, known: Serve, is_mount: bool = False) -> None:
    """Exits if the command doesn't exist, and warns if it won't see the adapter."""
    path = name if os.sep in name else shutil.which(name)
    if path is None or not os.path.exists(path):
        quoted = "; is the command quoted as one word?" if len(name.split()) > 1 else ""
        known.exit(127, f"{known.teller}: {name}: No such file or directory{quoted}\n")
    why = unseen_as(path) if os.path.isfile(path) else None
    if why and not is_mount:
        print(f"{known.teller}: {name} {why}, so it won't see the adapter: use dvbemu serve --fuse", file=sys.stderr)
    elif why in (SETUID, CAPABLE) and os.geteuid():
        print(f"{known.teller}: {name} {why}: with --fuse it runs without these rights, unless root starts it", file=sys.stderr)


def air_of(options: Namespace) -> list[list[Channel]]:
    """The channels of each adapter."""
    return [channels_of(*words, options.packets) for words in adapters_in(options)]


def tell_paces(channels: Sequence[Channel]) -> None:
    """Says what was seen of the recordings, and where their packets are few what comes of that."""
    for recording in [channel.recording for channel in channels]:
        for line in recording.told:
            print(f"dvbemu serve: {line}", file=sys.stderr)
        if not recording.is_pipe and (rate := recording.speed()) < SLOW:
            print(f"dvbemu serve: {recording.path}: {rate:.0f} packets a second, of which 64 pass at a time: a program may give up before a "
                  "table comes; --packets 3000 plays the stream faster", file=sys.stderr)


def named(path: str | None, number: int, count: int) -> str | None:
    """The file of an adapter, where there are several."""
    return path if path is None or count == 1 else f"{path}.{number}"


class Outs:
    """What is written of an adapter: the files of its report (None is standard output), of what is played and of when programs
    tune, or None; and what is kept of its calls."""

    def __init__(self, report: BinaryIO | None, played: BinaryIO | None, tunings: BinaryIO | None, keep: str) -> None:
        self.report, self.played, self.tunings, self.keep = report, played, tunings, keep

    def empty(self) -> None:
        """Empties its files, which are made anew; a device and a pipe have nothing to lose."""
        for file in filter(None, (self.report, self.played, self.tunings)):
            if stat.S_ISREG(os.fstat(file.fileno()).st_mode):
                file.truncate(0)


def not_written(options: Namespace, air: Sequence[Sequence[Channel]]) -> list[tuple[os.stat_result, str]]:
    """What nothing is written over: each file, and what it is."""
    recordings = [(os.fstat(one.recording.file), "the recording") for channels in air for one in channels]
    return recordings + [(os.stat(file), "the file of channels") for _, file, _ in adapters_in(options) if file is not None]


def made(path: str, option: str, others: list[tuple[os.stat_result, str]], opened: contextlib.ExitStack) -> BinaryIO:
    """Opens a file to be written, which is none of these others, and from now on one of them. A device or a pipe may be."""
    file = opened.enter_context(open(path, "ab", buffering=0))
    there = os.fstat(file.fileno())
    for other, what in others:
        if stat.S_ISREG(there.st_mode) and os.path.samestat(there, other):
            raise Stopped(f"{path} is {what}: give {option} another name")
    others.append((there, "written already"))
    return file


def report_of(options: Namespace) -> str | None:
    """Where the report goes; None where there is none, or on standard output. Where no word says so an older report is written over, and
    nothing else."""
    if options.keep != "all" or options.report == "-":
        return None
    named_so: str | None = options.report
    return named_so or REPORT


def see_old(path: str) -> None:
    """Sees that a file which no word names may be written: what is there is a report."""
    try:
        is_report = stat.S_ISREG(os.stat(path).st_mode)
        if is_report:
            with open(path, "rb") as file:
                is_report = file.read(len(BEGINS)) in (b"", BEGINS)
    except FileNotFoundError:
        is_report = True
    if not is_report:
        raise Stopped(f"{path} isn't a report, and isn't overwritten: give another name with --report FILE")


def keep_of(options: Namespace, number: int, count: int) -> str:
    """What is kept of an adapter's calls: where a folder is, it is made, and has to be empty."""
    keep: str = options.keep
    if keep in ("all", "none"):
        return keep
    path = os.path.abspath(keep if count == 1 else os.path.join(keep, str(number)))
    os.makedirs(path, exist_ok=True)
    if os.listdir(path):
        raise Stopped(f"{path} isn't empty")
    return path


def outs_of(options: Namespace, air: Sequence[Sequence[Channel]], opened: contextlib.ExitStack) -> list[Outs]:
    """What is written of each adapter. It is opened before anything is built, and emptied behind that."""
    if options.report == "-" and len(air) > 1:
        raise Stopped("with several adapters --report FILE is required")
    others, count = not_written(options, air), len(air)
    outs: list[Outs] = []
    for number, channels in enumerate(air):
        keep = keep_of(options, number, count)
        report, played = (named(path, number, count) for path in (report_of(options), options.played))
        if report and not options.report:
            see_old(report)
        tunings = f"{report}.tunings" if report and any(channel.frequency is not None for channel in channels) else None
        files = (made(path, option, others, opened) if path else None
                 for path, option in ((report, "--report"), (played, "--played"), (tunings, "--report")))  # fmt: skip
        report_file, played_file, tunings_file = files
        outs.append(Outs(report_file, played_file, tunings_file, keep))
    return outs


def tell_end(options: Namespace, count: int, adapters: Sequence[Adapter], status: int) -> None:
    """Says where the report is, where no word has, and of a command that no signal has ended that nobody has opened an adapter."""
    if status < 128 and not any(adapter.was_opened() for adapter in adapters):
        unseen = "" if options.fuse else "; statically linked, Go, musl, 32-bit and setuid programs can't see it (but by --fuse)"
        print(f"dvbemu serve: no program opened the adapter{unseen}", file=sys.stderr)
    if seatless := sum(adapter.front.seatless() for adapter in adapters):
        print(f"dvbemu serve: {seatless} program{'s' * (seatless > 1)} got EIO, since only {options.seats} can be served at a time (--seats)", file=sys.stderr)
    last = f".0 to .{count - 1}" if count > 1 else ""
    if options.keep not in ("all", "none"):
        print(f"dvbemu serve: `dvbemu merge {options.keep}{'/N' if count > 1 else ''}` writes the report", file=sys.stderr)
    elif options.keep == "all" and not options.report:
        print(f"dvbemu serve: the report is {REPORT}{last}; `dvbemu explain {REPORT}{last[:2]}` explains it", file=sys.stderr)


def mounted(options: Namespace, folder: Folder) -> Mount | None:
    """The mount by FUSE, where it is asked for."""
    try:
        return Mount(folder) if options.fuse else None
    except Stopped as fault:
        raise Stopped(f"--fuse: {fault}; --preload needs no mount") from None


def serve(options: Namespace, command: Sequence[str], air: Sequence[Sequence[Channel]], folder: Folder, outs: Sequence[Outs], server: Sequence[str]) -> int:
    """Runs the command beside the servers, and says how it ended."""
    signals = Signals()
    adapters: list[Adapter] = []
    adopt()
    mount = mounted(options, folder)
    for out in outs:
        out.empty()
    try:
        for place, channels, out in zip(folder.adapters, air, outs):
            adapters.append(Adapter(server, place, channels, options, out))
        for adapter in adapters:
            adapter.feeder.on_fault = signals.end_command
            adapter.start()
        trace = Trace(folder.adapters[0], sys.stderr) if options.trace else None
        status = run_command(command, folder, mount, signals)
        end_all_but({adapter.server.pid for adapter in adapters} | ({mount.pid} if mount else set()), folder)
        if mount:
            mount.end()
        if trace:
            trace.end()
        for adapter in adapters:
            adapter.end()
    except BaseException:
        for adapter in adapters:
            adapter.kill()
        if mount:
            mount.kill()
        end_all_but(set(), folder)
        raise
    tell_end(options, len(air), adapters, status)
    for adapter in adapters:
        adapter.see_kept()
    return status


def main() -> int:
    """Does what the words ask for. The server and what feeds it are told of a program that has gone by a write that fails."""
    for end in range(3):
        # (where one is closed nothing else comes in its place in what is started either)
        os.set_inheritable(end, True)
    known = command()
    options, words = asked(sys.argv[1:], known)
    signal.signal(signal.SIGPIPE, signal.SIG_IGN)
    folder = None
    try:
        with contextlib.ExitStack() as opened:
            air = air_of(options)
            if any(one.recording.path == "-" for channels in air for one in channels):
                known.tell_waiting()
            outs = outs_of(options, air, opened)
            for channels in air:
                tell_paces(channels)
            (build_fuse if options.fuse else build_preload)()
            server = built_server()
            folder = Folder(len(air), not options.fuse)
            status = serve(options, words, air, folder, outs, server)
        return status
    except Interrupted as fault:
        known.exit(fault.status, f"{known.teller}: {fault}\n")
    except OSError as fault:
        other = "; give another name with --report FILE" if not options.report and str(fault.filename).startswith(REPORT) else ""
        known.fail(": ".join(filter(None, [fault.filename, fault.strerror or str(fault)])) + other)
    except (Stopped, Unplayable) as fault:
        known.fail(fault)
    finally:
        if folder:
            folder.remove()
