"""Tables, read from sections and made as sections, by one description of each: PAT, CAT and PMT of ISO/IEC 13818-1, 2.4.4, and NIT, BAT, SDT,
EIT, TDT and TOT of ETSI EN 300 468, clause 5.2.

A section is one of these tables where its table_id, its length, its form and its CRC_32 say so, and else none.
"""
from __future__ import annotations

from typing import TYPE_CHECKING, NamedTuple

from ..errors import Error
from .sections import crc, section, short_section, with_crc, with_length

if TYPE_CHECKING:
    import datetime
    from typing import Dict, Iterable, Mapping, Sequence, Tuple

    # The numbers of a table, or of one of the things that it lists, by their names in the standard.
    Fields = Dict[str, int]
    # A field's name, which is empty where its bits are reserved, and how many bits it has.
    Layout = Sequence[Tuple[str, int]]

# The first day of the Modified Julian Date, 1858-11-17, as a number that `datetime.date` counts days by.
EPOCH = 678576
# What stands behind its own length, and not in the fields.
LOOPS = "descriptors", "parts"


class TableError(Error):
    """A table or a descriptor that ends before what it has to have, or goes on behind it."""


class Descriptor(NamedTuple):
    """A descriptor: its tag and the bytes behind its length."""

    tag: int
    data: bytes


class Part(NamedTuple):
    """One of the things that a table lists: its numbers, and its descriptors."""

    fields: Fields
    descriptors: list[Descriptor]


class Table(NamedTuple):
    """A table's section: its table_id, its numbers with those of its head, its descriptors, and what it lists."""

    table_id: int
    fields: Fields
    descriptors: list[Descriptor]
    parts: list[Part]


class Form(NamedTuple):
    """What stands in a table's section: what its table_id_extension is, which is empty where it has a name in no standard and None where
    section_syntax_indicator is 0; its fields up to what it lists; and the fields of what it lists."""

    extension: str | None
    head: Layout
    part: Layout


def form(extension: str | None, head: str, part: str = "") -> Form:
    """A form, whose fields are written as `NAME:BITS`, or as `BITS` where they are reserved. `descriptors:12` is the length of descriptors,
    which stand behind it, and `parts:12` that of all that is listed; of 0 bits it is none, and they go on to the end."""
    layouts = [[(name, int(bits)) for name, _, bits in (word.rpartition(":") for word in text.split())] for text in (head, part)]
    return Form(extension, *layouts)


NIT_HEAD, NIT_PART = "4 descriptors:12 4 parts:12", "transport_stream_id:16 original_network_id:16 4 descriptors:12"
SDT = form(
    "transport_stream_id",
    "original_network_id:16 8",
    "service_id:16 6 EIT_schedule_flag:1 EIT_present_following_flag:1 running_status:3 free_CA_mode:1 descriptors:12",
)
EIT = form(
    "service_id",
    "transport_stream_id:16 original_network_id:16 segment_last_section_number:8 last_table_id:8",
    "event_id:16 start_time:40 duration:24 running_status:3 free_CA_mode:1 descriptors:12",
)
# The table_id of each: of the actual network, stream and events where there are several.
PAT_ID, CAT_ID, PMT_ID, NIT_ID, SDT_ID, BAT_ID, EIT_ID, SCHEDULE_ID, TDT_ID, TOT_ID = 0, 1, 2, 0x40, 0x42, 0x4A, 0x4E, 0x50, 0x70, 0x73
FORMS = {
    PAT_ID: form("transport_stream_id", "", "program_number:16 3 PID:13"),
    CAT_ID: form("", "descriptors:0"),
    PMT_ID: form("program_number", "3 PCR_PID:13 4 descriptors:12", "stream_type:8 3 PID:13 4 descriptors:12"),
    **dict.fromkeys((NIT_ID, 0x41), form("network_id", NIT_HEAD, NIT_PART)),
    BAT_ID: form("bouquet_id", NIT_HEAD, NIT_PART),
    **dict.fromkeys((SDT_ID, 0x46), SDT),
    **dict.fromkeys(range(EIT_ID, 0x70), EIT),
    TDT_ID: form(None, "UTC_time:40"),
    TOT_ID: form(None, "UTC_time:40 4 descriptors:12"),
}
# The tables whose section_syntax_indicator is 0 and that have a CRC_32 all the same.
SUMMED = (TOT_ID,)


# ------ descriptors


def number(data: bytes, first: int, after: int) -> int:
    """The number that some bytes are, which have to be there."""
    if after > len(data):
        raise TableError
    return int.from_bytes(data[first:after], "big")


def split(data: bytes) -> list[Descriptor]:
    """The descriptors that these bytes are, which have to be whole."""
    found, at = [], 0
    while at < len(data):
        after = at + 2 + number(data, at + 1, at + 2)
        if after > len(data):
            raise TableError
        found.append(Descriptor(data[at], data[at + 2 : after]))
        at = after
    return found


def joined(descriptors: Iterable[Descriptor]) -> bytes:
    """The bytes that descriptors are."""
    return b"".join(bytes([tag, len(data)]) + data for tag, data in descriptors)


# ------ times


def moment_text(time: int) -> str | None:
    """A time of 16 bits of Modified Julian Date and six decimal digits, as a text; None where all bits are 1, or it is no time."""
    days, digits = time >> 24, f"{time & 0xFFFFFF:06x}"
    if not digits.isdecimal():
        return None
    import datetime  # pylint: disable=import-outside-toplevel
    return f"{datetime.date.fromordinal(EPOCH + days)} {digits[:2]}:{digits[2:4]}:{digits[4:]}"


def moment(time: datetime.datetime) -> int:
    """A time as these bits."""
    return (time.date().toordinal() - EPOCH) << 24 | int(f"{time:%H%M%S}", 16)


# ------ reading


class Reader:
    """Bytes that are read by bits."""

    def __init__(self, data: bytes) -> None:
        self.data, self.at = data, 0

    def number(self, bits: int) -> int:
        """The next bits, as a number."""
        first, self.at = self.at, self.at + bits
        return number(self.data, first // 8, (self.at + 7) // 8) >> -self.at % 8 & (1 << bits) - 1

    def rest(self) -> int:
        """How many bytes are left."""
        return len(self.data) - self.at // 8

    def loop(self, bits: int) -> bytes:
        """The bytes behind a length of so many bits, which have to be there; all that are left where it has none."""
        size = self.number(bits) if bits else self.rest()
        first, self.at = self.at // 8, self.at + 8 * size
        if self.rest() < 0:
            raise TableError
        return self.data[first : first + size]


def read_fields(reader: Reader, layout: Layout, fields: Fields) -> tuple[list[Descriptor], list[Reader]]:
    """Reads fields, and gives the descriptors that stand there, and what is listed there behind a length."""
    descriptors, parts = [], []
    for name, bits in layout:
        if name == "descriptors":
            descriptors = split(reader.loop(bits))
        elif name == "parts":
            parts.append(Reader(reader.loop(bits)))
        elif name:
            fields[name] = reader.number(bits)
        else:
            reader.at += bits
    return descriptors, parts


def read_parts(reader: Reader, layout: Layout) -> list[Part]:
    """What a table lists, up to the end."""
    found = []
    while reader.rest():
        fields: Fields = {}
        descriptors, _ = read_fields(reader, layout, fields)
        found.append(Part(fields, descriptors))
    return found


def body_of(data: bytes, extension: str | None, fields: Fields) -> bytes:
    """The bytes of a section behind its head and before its CRC_32; the numbers of the head are put to the fields."""
    is_summed = extension is not None or data[0] in SUMMED
    if bool(data[1] & 0x80) != (extension is not None) or is_summed and crc(data):
        raise TableError
    if extension is None:
        return data[3:-4] if is_summed else data[3:]
    if len(data) < 12:
        raise TableError
    if extension:
        fields[extension] = number(data, 3, 5)
    fields["version_number"], fields["current_next_indicator"] = data[5] >> 1 & 0x1F, data[5] & 1
    fields["section_number"], fields["last_section_number"] = data[6], data[7]
    return data[8:-4]


def read(data: bytes) -> Table | None:
    """The table that a section is; None where it is none."""
    if len(data) < 3 or data[0] not in FORMS or len(data) != 3 + (number(data, 1, 3) & 0x0FFF):
        return None
    extension, head, part = FORMS[data[0]]
    fields: Fields = {}
    try:
        reader = Reader(body_of(data, extension, fields))
        descriptors, counted = read_fields(reader, head, fields)
        if reader.rest() and (counted or not part):
            return None
        parts = read_parts(counted[0] if counted else reader, part)
    except TableError:
        return None
    return Table(data[0], fields, descriptors, parts)


# ------ making


def made_of(layout: Layout, fields: Mapping[str, int], loops: Mapping[str, bytes]) -> bytes:
    """The bytes that fields are, with what stands behind a length. Reserved bits are 1, and a field that isn't named is 0. A length is that of
    what stands there, but where a field `descriptors_length` or `parts_length` says another one."""
    made, value, width = b"", 0, 0
    for name, bits in layout:
        loop = loops.get(name, b"")
        default = len(loop) if name in LOOPS else 0 if name else -1
        value = value << bits | fields.get(f"{name}_length" if name in LOOPS else name, default) & (1 << bits) - 1
        width += bits
        if name in LOOPS:
            made, value, width = made + value.to_bytes(width // 8, "big") + loop, 0, 0
    return made + value.to_bytes(width // 8, "big")


def made(table: Table) -> bytes:
    """The section of a table, with its length and its CRC_32. A number that isn't named is 0, but for current_next_indicator, which is 1."""
    extension, head, part = FORMS[table.table_id]
    parts = b"".join(made_of(part, one.fields, {"descriptors": joined(one.descriptors)}) for one in table.parts)
    body = made_of(head, table.fields, {"descriptors": joined(table.descriptors), "parts": parts})
    body += b"" if "parts" in dict(head) else parts
    if extension is None:
        section_of = short_section(table.table_id, body)
        return with_crc(with_length(section_of, 4)) if table.table_id in SUMMED else section_of
    fields = table.fields
    return section(table.table_id, fields.get(extension, 0xFFFF if not extension else 0), body, fields.get("version_number", 0),
                   fields.get("section_number", 0), fields.get("last_section_number", 0), fields.get("current_next_indicator", 1))  # fmt: skip
