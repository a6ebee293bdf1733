"""`serve --trace`: the calls of programs as they come, a line each on standard error. preload/trace.c writes a record of each
call into a pipe, and a thread reads them here. What goes wrong here ends the telling, and nothing else."""
from __future__ import annotations

import contextlib
import errno
import fcntl
import os
import select
import struct
import threading
import time
from typing import TYPE_CHECKING, NamedTuple

from .. import abi
from ..progress import is_terminal
from ..reports import filter_words

if TYPE_CHECKING:
    from typing import TextIO

# The layout of a record; the result of a call that waits, and of one whose end isn't known; how many seconds it waits until that is told; how many records are read
# at once; the bytes of the pipe.
LAYOUT, WAITS, ENDS, PATIENCE, MANY, ROOM = struct.Struct("<QIIIiHHIII16s256s"), -(2**31), 1 - 2**31, 0.2, 200, 1 << 20
OPEN_DEMUX, OPEN_DVR, CLOSE, IOCTL, READ, POLL, WAIT, FRONTEND, OPEN_FRONTEND, CLOSE_FRONTEND = range(1, 11)
DVR, NO_NODE = 32, 64
CALLS = {OPEN_DEMUX: "open", OPEN_DVR: "open", OPEN_FRONTEND: "open", CLOSE: "close", CLOSE_FRONTEND: "close", READ: "read"}
# The requests of a demux and of a frontend, and the properties of the latter, as their headers call them.
DEMUX = {one.number: f"DMX_{name}" for name, one in vars(abi).items() if isinstance(one, abi.Request)}
TUNER = {
    61: "GET_INFO", 62: "DISEQC_RESET_OVERLOAD", 63: "DISEQC_SEND_MASTER_CMD", 64: "DISEQC_RECV_SLAVE_REPLY",
    65: "DISEQC_SEND_BURST", 66: "SET_TONE", 67: "SET_VOLTAGE", 68: "ENABLE_HIGH_LNB_VOLTAGE", 69: "READ_STATUS", 70: "READ_BER",
    71: "READ_SIGNAL_STRENGTH", 72: "READ_SNR", 73: "READ_UNCORRECTED_BLOCKS", 76: "SET_FRONTEND", 77: "GET_FRONTEND",
    78: "GET_EVENT", 81: "SET_FRONTEND_TUNE_MODE", 82: "SET_PROPERTY", 83: "GET_PROPERTY",
}  # fmt: skip
PROPERTIES = {
    first + at: name
    for first, names in (
        (1, "TUNE CLEAR FREQUENCY MODULATION BANDWIDTH_HZ INVERSION DISEQC_MASTER SYMBOL_RATE INNER_FEC VOLTAGE TONE"),
        (12, "PILOT ROLLOFF"),
        (17, "DELIVERY_SYSTEM"),
        (35, "API_VERSION CODE_RATE_HP CODE_RATE_LP GUARD_INTERVAL TRANSMISSION_MODE HIERARCHY ISDBT_LAYER_ENABLED STREAM_ID"),
        (43, "DVBT2_PLP_ID_LEGACY ENUM_DELSYS"),
        (60, "INTERLEAVING LNA STAT_SIGNAL_STRENGTH STAT_CNR STAT_PRE_ERROR_BIT_COUNT STAT_PRE_TOTAL_BIT_COUNT"),
        (66, "STAT_POST_ERROR_BIT_COUNT STAT_POST_TOTAL_BIT_COUNT STAT_ERROR_BLOCK_COUNT STAT_TOTAL_BLOCK_COUNT"),
    )
    for at, name in enumerate(names.split())
}
SET_FRONTEND, GET_EVENT, READ_STATUS, HAS_LOCK, LISTS = 76, 78, 69, 0x10, (82, 83)
# The properties whose value is no number: no value, a list, and statistics.
NO_NUMBER = {1, 2, 44, *range(62, 70)}
KINDS = {"input": [one.value for one in abi.Input], "output": [one.value for one in abi.Output]}
RED, YELLOW, PLAIN = "\x1b[31m", "\x1b[33m", "\x1b[0m"


class Record(NamedTuple):
    """A call, as preload/trace.c has written it."""

    nanoseconds: int
    pid: int
    thread: int
    lost: int
    result: int
    call: int
    adapter: int
    node: int
    number: int
    length: int
    name: bytes
    argument: bytes

    @property
    def bytes(self) -> bytes:
        """The bytes of the argument."""
        return self.argument[:min(self.length, len(self.argument))]


def word(data: bytes, at: int = 0) -> int:
    """A word of an argument; 0 where there is none."""
    return int.from_bytes(data[at:at + 4], "little")


def device(adapter: int, node: int, is_frontend: bool = False) -> str:
    """A device with its node, as the report names it; the adapter stands in front where it isn't the first."""
    name = "frontend0" if is_frontend else "dvr0" if node == DVR else "demux0" if node == NO_NODE else f"demux0(n{node})"
    return f"adapter{adapter}/{name}" if adapter else name


def flags_text(value: int) -> str:
    """The flags of a filter by their names."""
    known = [flag for flag in abi.Flag if value & flag]
    left = value - sum(known)
    return "+".join([str(flag.name).removeprefix("DMX_") for flag in known] + ([f"{left:#x}"] if left or not known else []))


def value_text(field: str, value: int) -> str:
    """The value of a field by its name, where it has one."""
    names = KINDS.get(field, [])
    return names[value] if value < len(names) else flags_text(value) if field == "flags" else str(value)


def demux_text(number: int, data: bytes) -> str:
    """A request of a demux or of the dvr device with its argument's fields."""
    request, name = abi.REQUESTS.get(number), DEMUX.get(number, f"ioctl {number:#x}")
    if not request or len(data) < request.layout.size:
        return name
    fields, words = request.values(data[:request.layout.size]), [name]
    if request is abi.SET_FILTER:
        places = zip(*(fields.pop(part) for part in ("filter", "mask", "mode")))
        words += [f"pid={fields.pop('pid')}", *filter_words((at, place) for at, place in enumerate(places) if any(place))]
    return " ".join([*words, *(f"{field}={value_text(field, value)}" for field, value in fields.items())])


def frontend_text(number: int, data: bytes) -> str:
    """A request of the frontend with what it sets or tells."""
    place = number & 0xFF
    name = f"FE_{TUNER[place]}" if place in TUNER else f"ioctl {number:#x}"
    if place in LISTS:
        pairs = [struct.unpack_from("<II", data, at) for at in range(0, len(data) - 7, 8)]
        names = [(PROPERTIES.get(one, f"DTV_{one}"), "" if one in NO_NUMBER else f"={value}") for one, value in pairs]
        return " ".join([name, *map("".join, names)])
    if place in (SET_FRONTEND, SET_FRONTEND + 1):
        return f"{name} frequency={word(data)}"
    if place in (READ_STATUS, GET_EVENT):
        frequency = f" frequency={word(data, 4)}" if place == GET_EVENT else ""
        return f"{name} status={word(data):#x}{' (lock)' * bool(word(data) & HAS_LOCK)}{frequency}"
    return f"{name} {word(data)}" if place in (66, 67, 70, 71, 72, 73) else name


def call_text(record: Record) -> str:
    """A call with its device and its arguments."""
    data = record.bytes
    if record.call == WAIT:
        name = data[:16].rstrip(b"\0").decode(errors="replace")
        words = [word(data, at) for at in range(16, len(data) - 3, 4)]
        time_of = record.number - 2**32 if record.number >= 2**31 else record.number
        devices = [device(one >> 16, one & 0xFF, one >> 8 & 0xFF == 1) for one in words]
        return " ".join([name, *devices, f"{time_of} ms" if time_of >= 0 else "without end"])
    is_frontend = record.call in (FRONTEND, OPEN_FRONTEND, CLOSE_FRONTEND) and record.node == NO_NODE
    where = device(record.adapter, DVR if record.call == OPEN_DVR else record.node, is_frontend)
    if record.call == FRONTEND:
        return f"{where} {frontend_text(record.number, data)}"
    if record.call == IOCTL:
        return f"{where} {demux_text(record.number, data)}"
    return f"{where} {CALLS.get(record.call, record.call)}{f' {record.number}' * (record.call == READ)}"


def result_text(result: int) -> str:
    """What a call gives: a number, or -1 with the error's name."""
    if result == ENDS:
        return "?"
    return str(result) if result >= 0 else f"-1 {errno.errorcode.get(-result, -result)}"


class Trace:
    """The telling of calls, from now until end()."""

    def __init__(self, folder: str, out: TextIO | None) -> None:
        path = os.path.join(folder, "trace")
        os.mkfifo(path, 0o600)
        self.pipe = os.open(path, os.O_RDWR | os.O_NONBLOCK | os.O_CLOEXEC)
        with contextlib.suppress(OSError):
            # (a user may have but so much room in pipes)
            fcntl.fcntl(self.pipe, fcntl.F_SETPIPE_SZ, ROOM)
        self.out = out.fileno() if out else -1
        self.is_coloured = is_terminal(out) and not os.environ.get("NO_COLOR")
        self.begun, self.rest = time.monotonic(), b""
        self.names: dict[str, int] = {}
        # (of each thread the call that waits, and whether that was told)
        self.waiting: dict[tuple[int, int], tuple[Record, bool]] = {}
        self.ended = threading.Event()
        self.thread = threading.Thread(target=self.run, daemon=True)
        self.thread.start()

    def run(self) -> None:
        """Reads records until the end, behind which none is left."""
        while True:
            ready, _, _ = select.select([self.pipe], [], [], PATIENCE / 4)
            is_over = self.ended.is_set() and not ready
            self.rest += os.read(self.pipe, LAYOUT.size * MANY) if ready else b""
            while len(self.rest) >= LAYOUT.size:
                record, self.rest = Record(*LAYOUT.unpack_from(self.rest)), self.rest[LAYOUT.size:]
                if record.call not in range(OPEN_DEMUX, CLOSE_FRONTEND + 1):
                    # (somebody else has written into the pipe)
                    self.rest = b""
                    break
                self.take(record)
            self.tell_waiting(is_over)
            if is_over:
                return

    def tell_waiting(self, is_over: bool) -> None:
        """Tells which calls have waited for a moment, or at the end which wait."""
        for thread, (record, is_told) in self.waiting.items():
            since = record.nanoseconds / 1e9
            if not is_told and (is_over or time.monotonic() - since > PATIENCE):
                self.waiting[thread] = record, True
                self.tell(min(since + PATIENCE, time.monotonic()), record, f" .. waits since +{since - self.begun:.3f}", YELLOW)

    def take(self, record: Record) -> None:
        """Takes a record: a call that waits is told when it has done so for a moment."""
        if record.lost:
            self.write(f"{record.lost:,} call{'s' * (record.lost > 1)} not told: there was no room\n")
        if record.result == WAITS:
            self.waiting.setdefault((record.pid, record.thread), (record, False))
            return
        self.waiting.pop((record.pid, record.thread), None)
        self.tell(record.nanoseconds / 1e9, record, f" = {result_text(record.result)}", RED if record.result < 0 and record.result != ENDS else "")

    def name_of(self, record: Record) -> str:
        """The program's name, with the number of its process where another one has the name."""
        name = record.name.rstrip(b"\0").decode(errors="backslashreplace") or "?"
        name = "".join(letter if letter.isprintable() else "?" for letter in name)
        return name if self.names.setdefault(name, record.pid) == record.pid else f"{name}[{record.pid}]"

    def tell(self, moment: float, record: Record, how: str, colour: str) -> None:
        """Tells a call."""
        how = f"{colour}{how}{PLAIN}" if colour and self.is_coloured else how
        self.write(f"+{max(moment - self.begun, 0):.3f} {self.name_of(record)} {call_text(record)}{how}\n")

    def write(self, line: str) -> None:
        """Writes a line, while that goes."""
        left = line.encode(errors="backslashreplace")
        try:
            while left and self.out >= 0:
                select.select([], [self.out], [])
                left = left[os.write(self.out, left):]
        except BlockingIOError:
            pass
        except OSError:
            self.out = -1

    def end(self) -> None:
        """Tells what is left."""
        self.ended.set()
        self.thread.join(5)
