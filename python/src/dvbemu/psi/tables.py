"""What tables say, in words: PAT, CAT, PMT, NIT, BAT, SDT, EIT, TDT and TOT."""
from __future__ import annotations

from typing import TYPE_CHECKING

from ..stream.tables import EIT, FORMS, moment_text, read
from .descriptors import PRIVATE, texts_of
from .fields import TABLES, pid_text

if TYPE_CHECKING:
    from typing import Container, Iterable

    from ..stream.tables import Descriptor, Part, Table

# How many things that a table lists are told.
MOST = 12
RUNNING = ("", "not running", "starts in a few seconds", "pausing", "running", "off air")
STREAMS = {
    0x01: "MPEG-1 video", 0x02: "MPEG-2 video", 0x03: "MPEG-1 audio", 0x04: "MPEG-2 audio", 0x05: "private sections",
    0x06: "private PES packets", 0x07: "MHEG", 0x08: "DSM-CC", 0x09: "H.222.1", 0x0A: "DSM-CC type A", 0x0B: "DSM-CC type B",
    0x0C: "DSM-CC type C", 0x0D: "DSM-CC type D", 0x0E: "auxiliary data", 0x0F: "AAC audio (ADTS)", 0x10: "MPEG-4 video",
    0x11: "AAC audio (LATM)", 0x12: "MPEG-4 in PES packets", 0x13: "MPEG-4 in sections", 0x14: "DSM-CC download", 0x15: "metadata in PES packets",
    0x16: "metadata in sections", 0x1B: "H.264 video", 0x1C: "AAC audio", 0x1D: "MPEG-4 text", 0x1E: "auxiliary video", 0x21: "JPEG 2000 video",
    0x24: "HEVC video", 0x33: "VVC video",
}  # fmt: skip

# The stream_types whose packets carry sections.
SECTIONS = (0x05, 0x08, 0x0A, 0x0B, 0x0C, 0x0D, 0x13, 0x14, 0x16)


def joined(texts: list[str]) -> str:
    """Texts in a row, of many the first ones."""
    more = len(texts) - MOST
    return "; ".join(texts[:MOST] + ([f"and {more:,} more"] if more > 0 else []))


def also(descriptors: Iterable[Descriptor], left_out: Container[int] = ()) -> str:
    """What descriptors say, behind a comma."""
    return "".join(f", {text}" for text in texts_of(descriptors, left_out))


def first_text(descriptors: Iterable[Descriptor], tag: int) -> str:
    """What the first descriptor with this tag says, before a comma."""
    return next((f"{texts_of([one])[0]}, " for one in descriptors if one.tag == tag), "")


def program_text(part: Part) -> str:
    """A program of a PAT."""
    pid = pid_text(part.fields["PID"])
    one = part.fields["program_number"]
    return f"program {one} with its PMT on PID {pid}" if one else f"NIT on PID {pid}"


def stream_text(part: Part) -> str:
    """A stream of a PMT."""
    kind, tags = part.fields["stream_type"], [one.tag for one in part.descriptors]
    name = next((PRIVATE[tag] for tag in tags if tag in PRIVATE), STREAMS[6]) if kind == 6 else STREAMS.get(kind, "a stream")
    told = also([one for one in part.descriptors if one.tag in (0x05, 0x09, 0x0A, 0x56, 0x59)])
    return f"{name} (stream_type 0x{kind:02X}) on PID {pid_text(part.fields['PID'])}{told}"


def transport_text(part: Part) -> str:
    """A transport stream of a NIT or a BAT."""
    numbers = part.fields
    return f"transport stream {numbers['transport_stream_id']} of the original network {numbers['original_network_id']}{also(part.descriptors)}"


def status_text(part: Part) -> str:
    """A running_status."""
    status = part.fields["running_status"]
    return f", {RUNNING[status]}" if 0 < status < len(RUNNING) else ""


def service_text(part: Part) -> str:
    """A service of an SDT."""
    name = first_text(part.descriptors, 0x48).removesuffix(", ")
    return f"service {part.fields['service_id']}{' ' if name else ''}{name}{status_text(part)}"


def event_text(part: Part) -> str:
    """An event of an EIT."""
    length, start = f"{part.fields['duration']:06x}", moment_text(part.fields["start_time"])
    lasts = f" for {length[:2]}:{length[2:4]}:{length[4:]}" if length.isdecimal() else ""
    begins = f"from {start} UTC" if start else "without a start"
    name = first_text(part.descriptors, 0x4D).removesuffix(", ")
    return f"event {part.fields['event_id']} {begins}{lasts}{status_text(part)}{': ' if name else ''}{name}"


OF = {
    "transport_stream_id": "transport stream", "program_number": "program", "network_id": "network", "bouquet_id": "bouquet",
    "service_id": "service",
}  # fmt: skip
SAY = {
    0x00: program_text, 0x02: stream_text, 0x40: transport_text, 0x41: transport_text, 0x4A: transport_text, 0x42: service_text,
    0x46: service_text,
}  # fmt: skip


def head_text(table: Table) -> str:
    """What a table is, and of what."""
    table_id, fields, name = table.table_id, table.fields, FORMS[table.table_id].extension
    text = TABLES[table_id] + (f" of {OF[name]} {fields[name]}" if name else "")
    if "version_number" in fields:
        text += f", version {fields['version_number']}" + ("" if fields["current_next_indicator"] else ", which applies next")
    if fields.get("last_section_number") and table_id not in (0x4E, 0x4F):
        text += f", section {fields['section_number']} of 0 to {fields['last_section_number']}"
    if FORMS[table_id] is EIT:
        which = ("present ", "following ")[fields["section_number"]] if table_id < 0x50 and fields["section_number"] < 2 else ""
        text += f": no {which}event" if not table.parts else f", the {which}event" if which else ""
    return text + (f", PCR on PID {pid_text(fields['PCR_PID'])}" if "PCR_PID" in fields else "")


def short_text(data: bytes) -> str | None:
    """Which table a section is, in words; None where it is none of these."""
    table = read(data)
    return None if table is None else head_text(table)


def carried_by(data: bytes) -> dict[int, str]:
    """What a section says of the PIDs that carry PES packets, by PID; nothing where it is no PMT."""
    table = read(data) if data[:1] == b"\x02" else None
    parts = table.parts if table else []
    return {part.fields["PID"]: stream_text(part).partition(" on PID")[0] for part in parts if part.fields["stream_type"] not in SECTIONS}


def text_of(data: bytes) -> str | None:
    """What a section says, in words; None where it is none of these tables."""
    table = read(data)
    if table is None:
        return None
    texts = [SAY.get(data[0], event_text)(part) for part in table.parts]
    if "UTC_time" in table.fields:
        time = moment_text(table.fields["UTC_time"])
        texts.append(f"{time} UTC" if time else "no time")
    texts = texts_of(table.descriptors) + texts
    return head_text(table) + (f": {joined(texts)}" if texts else "")
