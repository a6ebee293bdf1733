"""The descriptors of ISO/IEC 13818-1, 2.6, and of ETSI EN 300 468, clause 6: their names, and of those that tell a reader something what
they say."""
from __future__ import annotations

from typing import TYPE_CHECKING

from ..stream.tables import TableError, number
from .fields import pid_text
from .letters import text_of

if TYPE_CHECKING:
    from typing import Callable, Container, Iterable

    from ..stream.tables import Descriptor

NAMES = {
    0x02: "video_stream", 0x03: "audio_stream", 0x04: "hierarchy", 0x05: "registration", 0x06: "data_stream_alignment",
    0x07: "target_background_grid", 0x08: "video_window", 0x09: "CA", 0x0A: "ISO_639_language", 0x0B: "system_clock",
    0x0C: "multiplex_buffer_utilization", 0x0D: "copyright", 0x0E: "maximum_bitrate", 0x0F: "private_data_indicator",
    0x10: "smoothing_buffer", 0x11: "STD", 0x12: "IBP", 0x1B: "MPEG-4_video", 0x1C: "MPEG-4_audio", 0x28: "AVC_video",
    0x2A: "AVC_timing_and_HRD", 0x2B: "MPEG-2_AAC_audio", 0x38: "HEVC_video",
    0x40: "network_name", 0x41: "service_list", 0x42: "stuffing", 0x43: "satellite_delivery_system", 0x44: "cable_delivery_system",
    0x45: "VBI_data", 0x46: "VBI_teletext", 0x47: "bouquet_name", 0x48: "service", 0x49: "country_availability", 0x4A: "linkage",
    0x4B: "NVOD_reference", 0x4C: "time_shifted_service", 0x4D: "short_event", 0x4E: "extended_event", 0x4F: "time_shifted_event",
    0x50: "component", 0x51: "mosaic", 0x52: "stream_identifier", 0x53: "CA_identifier", 0x54: "content", 0x55: "parental_rating",
    0x56: "teletext", 0x57: "telephone", 0x58: "local_time_offset", 0x59: "subtitling", 0x5A: "terrestrial_delivery_system",
    0x5B: "multilingual_network_name", 0x5C: "multilingual_bouquet_name", 0x5D: "multilingual_service_name",
    0x5E: "multilingual_component", 0x5F: "private_data_specifier", 0x60: "service_move", 0x61: "short_smoothing_buffer",
    0x62: "frequency_list", 0x63: "partial_transport_stream", 0x64: "data_broadcast", 0x65: "scrambling", 0x66: "data_broadcast_id",
    0x67: "transport_stream", 0x68: "DSNG", 0x69: "PDC", 0x6A: "AC-3", 0x6B: "ancillary_data", 0x6C: "cell_list",
    0x6D: "cell_frequency_link", 0x6E: "announcement_support", 0x6F: "application_signalling", 0x71: "service_identifier",
    0x72: "service_availability", 0x73: "default_authority", 0x74: "related_content", 0x75: "TVA_id", 0x76: "content_identifier",
    0x79: "S2_satellite_delivery_system", 0x7A: "enhanced_AC-3", 0x7B: "DTS", 0x7C: "AAC", 0x7E: "FTA_content_management",
    0x7F: "extension",
}  # fmt: skip
SERVICES = {
    0x01: "digital television", 0x02: "digital radio", 0x03: "teletext", 0x0A: "digital radio, advanced codec", 0x0C: "data broadcast",
    0x11: "MPEG-2 HD television", 0x16: "H.264 SD television", 0x19: "H.264 HD television", 0x1F: "HEVC television",
}  # fmt: skip
# What a stream of stream_type 0x06 is, by its descriptors.
PRIVATE = {0x56: "teletext", 0x59: "subtitles", 0x6A: "AC-3 audio", 0x7A: "enhanced AC-3 audio", 0x7B: "DTS audio", 0x7C: "AAC audio"}


def decimal(data: bytes, first: int, after: int) -> int | None:
    """The number that some bytes are, four bits a decimal digit; a digit above 9 stands for none."""
    number(data, first, after)
    digits = data[first:after].hex()
    return int(digits) if digits.isdecimal() else None


def letters(data: bytes) -> str:
    """A code of three letters."""
    return data.decode("latin-1") if len(data) == 3 and data.isalpha() else data.hex()


def counted(data: bytes, place: int) -> tuple[bytes, int]:
    """The bytes behind their count, and the place behind them."""
    after = place + 1 + number(data, place, place + 1)
    if after > len(data):
        raise TableError
    return data[place + 1 : after], after


# ------ what they say


def ca(data: bytes) -> str:
    """CA: the system and the PID of its messages."""
    return f"CA system 0x{number(data, 0, 2):04X} on PID {pid_text(number(data, 2, 4) & 0x1FFF)}"


def languages(data: bytes) -> str:
    """ISO_639_language: the languages."""
    return "language " + ", ".join(letters(data[place : place + 3]) for place in range(0, len(data) - 3, 4))


def of_each(size: int, word: str) -> Callable[[bytes], str]:
    """A list of entries of so many bytes, each of which begins with a language."""
    return lambda data: f"{word} " + ", ".join(letters(data[place : place + 3]) for place in range(0, len(data) - size + 1, size))


def service(data: bytes) -> str:
    """service: its name, its provider and its type."""
    provider, place = counted(data, 1)
    name, _ = counted(data, place)
    kind = SERVICES.get(data[0], f"service_type 0x{data[0]:02X}")
    by = f" of '{text_of(provider)}'" if provider else ""
    return f"'{text_of(name)}'{by}, {kind}"


def short_event(data: bytes) -> str:
    """short_event: its name and what is said of it."""
    name, place = counted(data, 3)
    told, _ = counted(data, place)
    return f"'{text_of(name)}'" + (f", '{text_of(told)}'" if told else "")


def network_name(data: bytes) -> str:
    """network_name."""
    return f"'{text_of(data)}'"


def service_list(data: bytes) -> str:
    """service_list: the services with their types."""
    found = [(number(data, place, place + 2), number(data, place + 2, place + 3)) for place in range(0, len(data), 3)]
    return "services " + ", ".join(f"{one} ({SERVICES.get(kind, f'service_type 0x{kind:02X}')})" for one, kind in found)


def satellite(data: bytes) -> str:
    """satellite_delivery_system: frequency, position, polarisation and symbol rate."""
    frequency, position, rate = decimal(data, 0, 4), decimal(data, 4, 6), int(data[7:11].hex()[:7]) if data[7:11].hex()[:7].isdecimal() else 0
    number(data, 0, 11)
    east, way = "E" if data[6] & 0x80 else "W", "HVLR"[data[6] >> 5 & 3]
    return f"satellite {(position or 0) / 10:g}° {east}, {(frequency or 0) / 100:g} MHz {way}, {rate / 10:g} kBd"


def cable(data: bytes) -> str:
    """cable_delivery_system: frequency, modulation and symbol rate."""
    number(data, 0, 11)
    names = {1: "16-QAM", 2: "32-QAM", 3: "64-QAM", 4: "128-QAM", 5: "256-QAM"}
    rate = data[7:11].hex()[:7]
    modulation = names.get(data[6], f"modulation {data[6]}")
    return f"cable {(decimal(data, 0, 4) or 0) / 10000:g} MHz, {modulation}, {int(rate) / 10 if rate.isdecimal() else 0:g} kBd"


def terrestrial(data: bytes) -> str:
    """terrestrial_delivery_system: frequency and bandwidth, of which four values are reserved."""
    number(data, 0, 11)
    bandwidth = data[4] >> 5
    return f"terrestrial {number(data, 0, 4) * 10 / 1e6:g} MHz" + (f", {8 - bandwidth} MHz wide" if bandwidth < 4 else "")


def local_times(data: bytes) -> str:
    """local_time_offset: the country and its offset now."""
    found = []
    for place in range(0, len(data) - 12, 13):
        hours = data[place + 4 : place + 6].hex()
        sign = "-" if data[place + 3] & 1 else "+"
        found.append(f"{letters(data[place : place + 3])} {sign}{hours[:2]}:{hours[2:]}")
    return "local time " + ", ".join(found)


def registration(data: bytes) -> str:
    """registration: its four letters."""
    return "registration " + (data[:4].decode("latin-1") if data[:4].isalnum() else data[:4].hex())


SAY = {
    0x05: registration, 0x09: ca, 0x0A: languages, 0x40: network_name, 0x41: service_list, 0x43: satellite, 0x44: cable, 0x47: network_name,
    0x48: service, 0x4D: short_event, 0x56: of_each(5, "teletext"), 0x58: local_times, 0x59: of_each(8, "subtitles"), 0x5A: terrestrial,
}  # fmt: skip


def texts_of(descriptors: Iterable[Descriptor], left_out: Container[int] = ()) -> list[str]:
    """What descriptors say, in words; of those of which nothing is told their names, and of those that a standard doesn't name their tags."""
    found = []
    for tag, data in descriptors:
        if tag in left_out:
            continue
        try:
            found.append(SAY[tag](data) if tag in SAY else NAMES.get(tag, f"descriptor 0x{tag:02X}"))
        except (TableError, IndexError):
            found.append(f"{NAMES[tag]}, which is too short")
    return found
