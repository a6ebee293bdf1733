"""Names of what stands in sections, in section filters and in payloads, for tools/explain.

The fields are those of ISO/IEC 13818-1, 2.4.4.11 (a section whose section_syntax_indicator is 1). The names of PIDs and tables are
those of its tables 2-3 and 2-31 and of ETSI EN 300 468, tables 1 and 2; the names of stream_ids those of its table 2-22.
"""
from __future__ import annotations

import re
from typing import TYPE_CHECKING, NamedTuple

if TYPE_CHECKING:
    from ..reports import FilterBytes

PIDS = {0: "PAT", 1: "CAT", 16: "NIT", 17: "SDT/BAT", 18: "EIT", 20: "TDT/TOT", 8191: "null packets"}
TABLES = {
    0x00: "PAT", 0x01: "CAT", 0x02: "PMT", 0x40: "NIT actual", 0x41: "NIT other", 0x42: "SDT actual", 0x46: "SDT other",
    0x4A: "BAT", 0x4E: "EIT p/f actual", 0x4F: "EIT p/f other", 0x70: "TDT", 0x71: "RST", 0x72: "ST", 0x73: "TOT",
    **dict.fromkeys(range(0x50, 0x60), "EIT schedule actual"), **dict.fromkeys(range(0x60, 0x70), "EIT schedule other"),
}  # fmt: skip
# Tables whose sections have section_syntax_indicator 0, so that data stands behind their length.
SHORT = (0x70, 0x71, 0x72, 0x73)
STREAMS = {
    0xBC: "program_stream_map", 0xBD: "private_stream_1", 0xBE: "padding_stream", 0xBF: "private_stream_2", 0xF0: "ECM_stream",
    0xF1: "EMM_stream", 0xF2: "DSMCC_stream", 0xFD: "extended_stream_id", 0xFF: "program_stream_directory",
    **{number: f"audio stream {number - 0xC0}" for number in range(0xC0, 0xE0)},
    **{number: f"video stream {number - 0xE0}" for number in range(0xE0, 0xF0)},
}  # fmt: skip
PES_START = re.compile(rb"\x00\x00\x01([\xbc-\xff])")
HEAD = 8


def pid_text(pid: int) -> str:
    """A PID, from 10 on in hexadecimal too, with its name where a standard fixes it: `0 (PAT)`, `17 (0x11, SDT/BAT)`, `256 (0x100)`."""
    told = ([f"0x{pid:X}"] if pid > 9 else []) + ([PIDS[pid]] if pid in PIDS else [])
    return f"{pid} ({', '.join(told)})" if told else str(pid)


def pid_name(pid: int) -> str:
    """A PID with its name where a standard fixes it: `17 (SDT/BAT)`, `256`."""
    return f"{pid} ({PIDS[pid]})" if pid in PIDS else str(pid)


def as_hex(pid: int) -> int:
    """The PID that the decimal digits of another one are in hexadecimal."""
    return int(str(pid), 16)


def is_pes_head(data: bytes) -> bool:
    """Whether what a section filter gives is a PES packet, whose first byte it has taken for a pointer_field: packet_start_code_prefix
    is 00 00 01, and a stream_id stands behind it."""
    return len(data) > 2 and data[:2] == b"\x00\x01" and data[2] >= 0xBC


def table_text(table: int) -> str:
    """A table_id with its name: `0x02 (PMT)`."""
    return f"0x{table:02X} ({TABLES[table]})" if table in TABLES else f"0x{table:02X}"


def stream_text(number: int) -> str:
    """A stream_id with its name: `0xE0 (video stream 0)`."""
    return f"0x{number:02X} ({STREAMS[number]})" if number in STREAMS else f"0x{number:02X}"


def streams_in(data: bytes) -> list[int]:
    """The stream_id behind each packet_start_code_prefix in these bytes that a stream_id can follow."""
    return [found[1][0] for found in PES_START.finditer(data)]


# ------ filters


class Field(NamedTuple):
    """A field of a section: its name, the bytes of the section that it lies in, its bits of these, and its lowest bit."""

    name: str
    places: tuple[int, ...]
    bits: int
    low: int = 0


TABLE_ID = Field("table_id", (0,), 0xFF)
LONG = (
    Field("table_id_extension", (3, 4), 0xFFFF),
    Field("section byte 5", (5,), 0xC0),
    Field("version_number", (5,), 0x3E, 1),
    Field("current_next_indicator", (5,), 0x01),
    Field("section_number", (6,), 0xFF),
    Field("last_section_number", (7,), 0xFF),
)
LAST_PLACE = 17


def fields_for(table: int | None) -> tuple[Field, ...]:
    """The fields that a filter's bytes stand against, by the only table_id that it lets through, or None."""
    named = () if table in SHORT else LONG
    first = 3 if table in SHORT else HEAD
    return (TABLE_ID, *named, *(Field(f"section byte {place}", (place,), 0xFF) for place in range(first, LAST_PLACE + 1)))


class Asked(NamedTuple):
    """What a filter asks of a field: its value, and the bits that have to be equal, and of which one has to differ."""

    field: Field
    value: int
    equal: int
    differs: int


def asked_of(field: Field, places: FilterBytes) -> Asked | None:
    """What a filter asks of a field, or None; the filter's bytes are given by the section's."""
    value, mask, mode = 0, 0, 0
    for place in field.places:
        one = places.get(place, (0, 0, 0))
        value, mask, mode = value << 8 | one[0], mask << 8 | one[1], mode << 8 | one[2]
    mask &= field.bits
    found = Asked(field, *(bits >> field.low for bits in (value & mask, mask & ~mode, mask & mode)))
    return found if mask else None


def value_text(asked: Asked, bits: int) -> tuple[str, str]:
    """A field, the bits of it that count, and their value."""
    field, value = asked.field, asked.value & bits
    is_byte = field.name.startswith("section byte")
    if bits != (0xFF if is_byte else field.bits >> field.low):
        digits = 2 * len(field.places)
        return f"{field.name} & 0x{bits:0{digits}X}", f"0x{value:0{digits}X}"
    if field is TABLE_ID:
        return field.name, table_text(value)
    return field.name, f"0x{value:02X}" if is_byte else str(value)


def filter_texts(places: FilterBytes) -> list[str]:
    """What a section filter asks, in words; places has value, mask and mode byte by the filter's place.

    Filter place 0 stands against section byte 0, and place i, from 1 on, against section byte i + 2.
    """
    by_byte = {place + 2 if place else 0: three for place, three in places.items()}
    value, mask, mode = by_byte.get(0, (0, 0, 0))
    table = value if (mask, mode) == (0xFF, 0) else None
    asked = [found for found in (asked_of(field, by_byte) for field in fields_for(table)) if found]
    texts = []
    for one in asked:
        name, wanted = value_text(one, one.equal)
        if one.equal:
            texts.append(f"{name} is {wanted}" if "&" in name or "byte" in name else f"{name} {wanted}")
    differing = [" isn't ".join(value_text(one, one.differs)) for one in asked if one.differs]
    return texts + ([" or ".join(differing)] if differing else [])


def places_text(place: int) -> str:
    """The byte of a section that a filter byte stands against, with the fields that lie in it: `section byte 0 (table_id)`."""
    at = place + 2 if place else 0
    names = [field.name for field in (TABLE_ID, *LONG) if at in field.places and "byte" not in field.name]
    return f"section byte {at}" + (f" ({', '.join(names)})" if names else "")


# ------ sections


class Head(NamedTuple):
    """The fields at a section's beginning; None where it has no such byte, or section_syntax_indicator is 0."""

    table: int
    extension: int | None = None
    version: int | None = None
    current: int | None = None
    number: int | None = None
    last: int | None = None


NAMES = ("table_id", "table_id_extension", "version_number", "current_next_indicator", "section_number", "last_section_number")


def head_of(data: bytes) -> Head:
    """The head of a section, of which these are the first bytes, at least one."""
    if len(data) < 2 or not data[1] & 0x80:
        return Head(data[0])
    extension = data[3] << 8 | data[4] if len(data) > 4 else None
    version, current = (data[5] >> 1 & 0x1F, data[5] & 1) if len(data) > 5 else (None, None)
    return Head(data[0], extension, version, current, *(data[place] if len(data) > place else None for place in (6, 7)))


def head_text(head: Head) -> str:
    """A section's head in words; its table_id is no table's by itself."""
    told = [f"0x{head.table:02X}", *head[1:]]
    return ", ".join(f"{name} {value}" for name, value in zip(NAMES, told) if value is not None)
