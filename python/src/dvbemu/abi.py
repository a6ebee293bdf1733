"""What linux/dvb/dmx.h has for a demux device: the arguments of its calls, as a script writes them too, and its requests with the layout of
their structures."""
from __future__ import annotations

import enum
import struct
from typing import TYPE_CHECKING, NamedTuple

if TYPE_CHECKING:
    from typing import Any


class Flag(enum.IntFlag):
    """The flags of a filter. KEEP is none of the header's: with it an overflow leaves what is unread (docs/BEHAVIOUR.md, 'The
    ledger')."""

    DMX_CHECK_CRC = 1
    DMX_ONESHOT = 2
    DMX_IMMEDIATE_START = 4
    KEEP = 256


class Input(enum.Enum):
    """Where the packets of a PES filter come from."""

    DMX_IN_FRONTEND = "frontend"
    DMX_IN_DVR = "dvr"


class Output(enum.Enum):
    """Where the items of a PES filter go."""

    DMX_OUT_DECODER = "decoder"
    DMX_OUT_TAP = "tap"
    DMX_OUT_TS_TAP = "ts_tap"
    DMX_OUT_TSDEMUX_TAP = "tsdemux_tap"


class PesType(enum.IntEnum):
    """The types of a PES filter, of which a counter (DMX_GET_STC) asks for those of PCR."""

    DMX_PES_AUDIO0 = 0
    DMX_PES_VIDEO0 = 1
    DMX_PES_TELETEXT0 = 2
    DMX_PES_SUBTITLE0 = 3
    DMX_PES_PCR0 = 4
    DMX_PES_AUDIO1 = 5
    DMX_PES_VIDEO1 = 6
    DMX_PES_TELETEXT1 = 7
    DMX_PES_SUBTITLE1 = 8
    DMX_PES_PCR1 = 9
    DMX_PES_AUDIO2 = 10
    DMX_PES_VIDEO2 = 11
    DMX_PES_TELETEXT2 = 12
    DMX_PES_SUBTITLE2 = 13
    DMX_PES_PCR2 = 14
    DMX_PES_AUDIO3 = 15
    DMX_PES_VIDEO3 = 16
    DMX_PES_TELETEXT3 = 17
    DMX_PES_SUBTITLE3 = 18
    DMX_PES_PCR3 = 19
    DMX_PES_OTHER = 20


DMX_CHECK_CRC = Flag.DMX_CHECK_CRC
DMX_ONESHOT = Flag.DMX_ONESHOT
DMX_IMMEDIATE_START = Flag.DMX_IMMEDIATE_START
KEEP = Flag.KEEP
DMX_IN_FRONTEND = Input.DMX_IN_FRONTEND
DMX_IN_DVR = Input.DMX_IN_DVR
DMX_OUT_DECODER = Output.DMX_OUT_DECODER
DMX_OUT_TAP = Output.DMX_OUT_TAP
DMX_OUT_TS_TAP = Output.DMX_OUT_TS_TAP
DMX_OUT_TSDEMUX_TAP = Output.DMX_OUT_TSDEMUX_TAP


class Request(NamedTuple):
    """A request: the command of a script that makes it, its number, and the layout of its structure with the names of the fields."""

    command: str
    number: int
    layout: struct.Struct
    fields: tuple[str, ...]

    def values(self, argument: bytes) -> dict[str, Any]:
        """What the structure's fields have."""
        return dict(zip(self.fields, self.layout.unpack(argument)))


def _request(command: str, number: int, layout: str = "", *fields: str) -> Request:
    return Request(command, number, struct.Struct(f"<{layout}"), fields)


START = _request("start", 0x6F29)
STOP = _request("stop", 0x6F2A)
SET_FILTER = _request("section", 0x403C6F2B, "H16s16s16s2xII", "pid", "filter", "mask", "mode", "timeout", "flags")
SET_PES_FILTER = _request("pes", 0x40146F2C, "H2x4I", "pid", "input", "output", "type", "flags")
# (the size is the argument itself, and no structure)
SET_BUFFER_SIZE = _request("size", 0x6F2D, "I", "size")
GET_STC = _request("ioctl", 0xC0106F32, "I12x", "num")
ADD_PID = _request("add", 0x40026F33, "H", "pid")
REMOVE_PID = _request("remove", 0x40026F34, "H", "pid")
REQUESTS = {one.number: one for one in (START, STOP, SET_FILTER, SET_PES_FILTER, SET_BUFFER_SIZE, GET_STC, ADD_PID, REMOVE_PID)}
