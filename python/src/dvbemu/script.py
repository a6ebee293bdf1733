"""Builds scripts: each call, named as in linux/dvb/dmx.h, adds a line (docs/BEHAVIOUR.md, 'The script')."""
from __future__ import annotations

import enum
import re

from . import naming
from .abi import DMX_CHECK_CRC, DMX_IMMEDIATE_START, DMX_IN_FRONTEND, DMX_OUT_TSDEMUX_TAP, GET_STC, Flag, Input, Output, PesType
from .arguments import mistyped, see, see_bytes, see_text, whole, within
from .naming import LARGEST_WRITE
from .reports import BITS_16, BITS_32, CLIENTS, MOST_BYTES, filter_words

PLACES = 16


class Script:
    """The lines of a script, in order. `str()` gives its text, without the line `stream`."""

    def __init__(self, text: str = "") -> None:
        self._lines: list[str] = []
        if text:
            self.lines(text)

    def __str__(self) -> str:
        return "".join(line + "\n" for line in self._lines)

    def lines(self, text: str) -> Script:
        """Adds lines as `dvbemu words` takes them, with names or without: `c0 section demux0 0x10 0 CHECK_CRC table_id=0x40`. Raises
        a ValueError with the line and the word that is wrong."""
        see_text(text, "text")
        try:
            plain = naming.plain_script(text.encode("utf-8", "surrogateescape")).decode("utf-8", "surrogateescape")
        except naming.WordError as fault:
            raise ValueError(fault.text()) from None
        added = plain.removesuffix("\n").split("\n")
        if "stream" in added:
            raise ValueError("leave out the line `stream`, which ends a script: it is added when the script runs")
        self._lines += added
        return self

    def feed(self, packets: int) -> Script:
        """Lets this many packets of the stream pass."""
        return self._add("feed", within(packets, 1, BITS_32, "packets"))

    def tick(self, milliseconds: int) -> Script:
        """Lets this much time pass."""
        return self._add("tick", within(milliseconds, 0, BITS_32, "milliseconds"))

    def client(self, number: int) -> Client:
        """A client by its number, 0 to 7."""
        return Client(self, within(number, 0, CLIENTS - 1, "a client"))

    def _add(self, *words: object) -> Script:
        self._lines.append(" ".join(map(str, words)))
        return self


class Client:
    """A client, whose calls are lines of the script."""

    def __init__(self, script: Script, number: int) -> None:
        self.script, self.number = script, number

    def open(self, device: str) -> Device:
        """open() of `demux0` to `demux31`, a node by its number; of `dvr0`; or of the first free demux node, which a slot of this
        client, `h0` to `h31`, then stands for."""
        found = Device(self, _target(device))
        found._call("open")
        return found


class Device:
    """A device that a client has opened: its calls are lines of the script."""

    def __init__(self, client: Client, target: str) -> None:
        self.client, self.target = client, target

    def _call(self, name: str, *words: object) -> None:
        self.client.script._add(f"c{self.client.number}", name, self.target, *words)

    def close(self) -> None:
        """close()."""
        self._call("close")

    def set_filter(
        self, pid: int, filter: bytes = b"", mask: bytes = b"", mode: bytes = b"", *, timeout: int = 0,
        flags: Flag = DMX_CHECK_CRC | DMX_IMMEDIATE_START, **fields: int | str,
    ) -> None:  # fmt: skip
        """DMX_SET_FILTER. The filter is the bytes of filter, mask and mode as in struct dmx_filter, up to 16 each; or fields of a
        section by name: `table_id=0x42` for this value, `table_id="0x40/0xf0"` for a value under a mask, and
        `version_number="!=3"` for any other value. The timeout is in milliseconds, 0 for none."""
        if fields and (filter or mask or mode):
            raise ValueError("give the filter's bytes, or fields by name, and not both")
        conditions = [_condition(name, value) for name, value in fields.items()]
        self._call("section", _pid(pid), within(timeout, 0, BITS_32, "timeout"), within(flags, 0, BITS_32, "flags"),
                   *_filter_words(filter, mask, mode, conditions))  # fmt: skip

    def set_pes_filter(
        self, pid: int, output: Output = DMX_OUT_TSDEMUX_TAP, *, input: Input = DMX_IN_FRONTEND,
        pes_type: int = PesType.DMX_PES_OTHER, flags: Flag = DMX_IMMEDIATE_START,
    ) -> None:  # fmt: skip
        """DMX_SET_PES_FILTER."""
        self._call("pes", _pid(pid), _value(input, DMX_IN_FRONTEND, "input"), _value(output, DMX_OUT_TSDEMUX_TAP, "output"),
                   within(pes_type, 0, BITS_32, "pes_type"), within(flags, 0, BITS_32, "flags"))  # fmt: skip

    def add_pid(self, pid: int) -> None:
        """DMX_ADD_PID."""
        self._call("add", _pid(pid))

    def remove_pid(self, pid: int) -> None:
        """DMX_REMOVE_PID."""
        self._call("remove", _pid(pid))

    def start(self) -> None:
        """DMX_START."""
        self._call("start")

    def stop(self) -> None:
        """DMX_STOP."""
        self._call("stop")

    def set_buffer_size(self, size: int) -> None:
        """DMX_SET_BUFFER_SIZE, in bytes."""
        self._call("size", within(size, 0, BITS_32, "size"))

    def get_stc(self, number: int = 0) -> None:
        """DMX_GET_STC: its result is the outcome of this line."""
        self._call("ioctl", f"{GET_STC.number:08x}", GET_STC.layout.pack(within(number, 0, BITS_32, "a counter")).hex())

    def read(self, count: int, waits: bool = False) -> None:
        """read() of at most this many bytes, with O_NONBLOCK; or one that waits for data, an error or the end."""
        self._call("readw" if waits else "read", within(count, 0, MOST_BYTES, "count"))

    def drain(self, count: int) -> None:
        """Reads of at most this many bytes each, until the stream has ended and nothing is left."""
        self._call("drain", within(count, 0, MOST_BYTES, "count"))

    def poll(self) -> None:
        """poll()."""
        self._call("poll")

    def write(self, data: bytes) -> None:
        """write() to the dvr device, of 1 to 12,032 bytes."""
        see_bytes(data, "data")
        if not 1 <= len(data) <= LARGEST_WRITE or self.target != "dvr":
            raise ValueError(f"a write takes 1 to {LARGEST_WRITE:,} bytes, and only the dvr device takes one")
        self._call("write", data.hex())


def _value(value: enum.Enum, like: enum.Enum, what: str) -> str:
    """An input or an output as a script has it: a value of the same enum as another."""
    see(value, type(like), what, f"an {type(like).__name__} such as {like.name}")
    return str(value.value)


def _condition(name: str, value: int | str) -> str:
    """A condition on a field, as a script has it: `table_id=66`, `version_number!=3`."""
    if isinstance(value, str):
        return name + (value if value.startswith(("=", "!=")) else f"={value}")
    try:
        return f"{name}={whole(value, name)}"
    except TypeError:
        raise mistyped(name, "a whole number, or a string such as '!=3' or '0x40/0xf0',", value) from None


def _pid(value: int) -> int:
    return within(value, 0, BITS_16, "a PID")


def _target(device: str) -> str:
    """A device as a script names it."""
    see_text(device, "device")
    try:
        target = naming.plain_target(device)
    except naming.WordError as fault:
        raise ValueError(f"{device}: expected {fault.expected}") from None
    if not re.fullmatch("dvr|[nh]([12]?[0-9]|3[01])", target):
        raise ValueError(f"{device}: expected demux0 to demux31, h0 to h31, or dvr0")
    return target


def _filter_words(filter: bytes, mask: bytes, mode: bytes, fields: list[str]) -> list[str]:
    """A filter as a script has it, without the bytes that are 0 in filter, mask and mode."""
    for part, what in (filter, "filter"), (mask, "mask"), (mode, "mode"):
        see_bytes(part, what)
    if max(len(filter), len(mask), len(mode)) > PLACES:
        raise ValueError(f"a filter has at most {PLACES} bytes")
    if fields:
        try:
            return naming.plain_filter(fields)
        except naming.WordError as fault:
            raise ValueError(f"{fault.word}: expected {fault.expected}") from None
    triples = zip(*(part.ljust(PLACES, b"\0") for part in (filter, mask, mode)))
    return filter_words((place, triple) for place, triple in enumerate(triples) if any(triple))
