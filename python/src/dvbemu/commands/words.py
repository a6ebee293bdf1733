"""Writes a script with names and hexadecimal numbers as the plain one that the program reads: `dvbemu words --help`.

naming.py reads it; an error is reported with its line and word, as the program does. Behind the line
`stream` all bytes are written as they are.
"""
from __future__ import annotations

import sys

from .. import tool
from .. import naming


def command() -> tool.Command:
    """The command line."""
    parser = tool.Command(
        "words",
        "[SCRIPT]",
        "Translates names and hexadecimal numbers in a script to plain lines: 0x1000, CHECK_CRC+IMMEDIATE_START, table_id=0x42,\n"
        "version_number!=3, table_id=0x40/0xc0 (under a mask), demux0, OTHER for the type 20; tabs and comments at a line's end too.",
        reads="the script, from the file SCRIPT; without it, or with `-`, from standard input. A stream may follow its line `stream`",
        writes="the plain script, and the stream as it is",
        status="0; 1 if SCRIPT can't be read; 2 for a usage error; 3 if the script has an error, reported as by the program",
        example="dvbemu words my.script | dvbemu steps - my.ts",
    )
    parser.add_argument("script", metavar="SCRIPT", nargs="?", help="the script")
    return parser


def cut(text: bytes) -> tuple[bytes, bytes]:
    """The script in front of its line `stream`, in any spelling, and what stands from there on."""
    place = 0
    while place < len(text):
        after = text.find(b"\n", place) + 1 or len(text)
        if text[place:after].strip().lower() == b"stream":
            return text[:place], b"stream\n" + text[after:]
        place = after
    return text, b""


def main() -> None:
    """Writes the plain script."""
    parser = command()
    args = parser.parse_args()
    script, behind = cut(parser.bytes_of(args.script))
    try:
        plain = naming.plain_script(script)
    except naming.WordError as fault:
        parser.exit(3, f"{parser.prog}: {fault.text()}\n")
    sys.stdout.buffer.write(plain + behind)
    sys.stdout.flush()
