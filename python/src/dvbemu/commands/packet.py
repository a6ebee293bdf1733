"""Prints the packets of a transport stream that hold a payload or a section: `dvbemu packet --help`.

BYTES are hexadecimal digits, with or without blanks between bytes. A payload is 1 to 184 bytes, and one packet; where it is
shorter than a packet has room for, an adaptation field stands in front, and with --start payload_unit_start_indicator is 1. A
section is named from its table_id on and without its CRC_32: its section_length is put in, and, where its
section_syntax_indicator is 1, its CRC_32 behind it. It takes as many packets as it needs; the first has the pointer_field 0, and
what is over in the last is 0xFF. COUNTER, 0 to 15, is the continuity_counter of the first packet, and rises (ISO/IEC 13818-1, 2.4.3
and 2.4.4). With --raw the packets themselves are written, as for the stream of a session, else each byte as two
hexadecimal digits. What can't be such packets is reported on standard error, and the status is 1.
"""
from __future__ import annotations

import sys
from typing import TYPE_CHECKING

from .. import tool
from ..stream.packets import LAST_PID, full_packet, section_packets
from ..stream.sections import whole

if TYPE_CHECKING:
    from argparse import Namespace


def command() -> tool.Command:
    """The command line."""
    parser = tool.Command(
        "packet",
        "[--raw] [--start] PID COUNTER payload|section BYTES ..",
        "Makes packets from a payload or a section, whose length and CRC_32 it fills in.",
        reads="nothing",
        writes="each byte as two hexadecimal digits, or, with --raw, the packets",
        status="0; 1 if no packets can hold these bytes; 2 for a usage error",
        example="dvbemu packet --raw 0 0 section 00b000 0001 c10000 0001e100 > pat.ts",
    )
    parser.add_argument("--raw", action="store_true", help="write the packets themselves")
    parser.add_argument("--start", action="store_true", help="set payload_unit_start_indicator, since a section or a PES packet begins here")
    parser.add_argument("pid", metavar="PID", type=tool.number(0, LAST_PID), help=f"the PID, 0 to {LAST_PID}, or 0x..")
    parser.add_argument("counter", metavar="COUNTER", type=tool.number(0, 15), help="continuity_counter of the first packet, 0 to 15; each next one has 1 more")
    parser.add_argument("kind", metavar="KIND", choices=["payload", "section"], help="payload: 1 to 184 bytes, one packet; section: from its "
                        "table_id on and without its CRC_32")  # fmt: skip
    parser.add_argument("bytes", metavar="BYTES", nargs="+", help="hexadecimal digits, with or without blanks between bytes")
    return parser


def packets_of(args: Namespace) -> bytes:
    """The packets that the arguments ask for."""
    try:
        data = bytes.fromhex(" ".join(args.bytes))
    except ValueError:
        raise ValueError("bytes are two hexadecimal digits each") from None
    if args.kind == "section":
        return b"".join(section_packets(args.pid, whole(data), args.counter))
    return full_packet(args.pid, args.counter, data, args.start)


def main() -> None:
    """Writes them."""
    parser = command()
    args = parser.parse_args()
    try:
        packets = packets_of(args)
    except ValueError as wrong:
        parser.fail(wrong)
    sys.stdout.buffer.write(packets if args.raw else packets.hex().encode() + b"\n")
