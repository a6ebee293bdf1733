"""A stream as sections and packets, and changes of it: by the grammar of its tables, then of its packets, then of its bits.

A change is drawn: the same seed gives the same stream on each machine, as all draws are made of `random()`, whose sequence each
Python has.
"""
from __future__ import annotations

import random
from typing import TYPE_CHECKING, NamedTuple

from ..psi.descriptors import NAMES
from ..psi.fields import pid_text, table_text
from ..psi.tables import SECTIONS
from ..server.recording import Recording
from ..stream.packets import PACKET, form_of, pid_of, section_packets
from ..stream.sections import LONGEST, Cutter
from ..stream.tables import PAT_ID, PMT_ID, Descriptor, joined, read
from .grammar import Map, Region, has_crc, map_of, mended, number_at, put, with_bytes
from .right import EIT, NIT, PROGRAMS, RIGHT, SDT, TDT, Program, Right, tables_of

if TYPE_CHECKING:
    from typing import Callable, Collection, Optional, Sequence, Tuple, TypeVar

    T = TypeVar("T")
    # A section that is changed, and what was changed in words; None where there is nothing to change.
    Changed = Optional[Tuple[bytes, str]]
    Change = Callable[["Draw", bytes, Map], Changed]

# How many bytes of a recording are looked at, and how many sections of a table and other packets of it are in a stream.
LOOKED_AT, OF_TABLE, OTHERS = 16 << 20, 8, 64
FIXED = 0, 1, NIT, SDT, EIT, TDT
# How many changes a stream has, and the shares of streams that are changed by their packets and by their bits too, and of wrong
# CRC_32s.
COUNTS, BY_PACKETS, BY_BITS, UNMENDED = (1, 1, 2, 3, 5, 8, 12), 0.2, 0.08, 0.06
PIDS = 0, 1, NIT, SDT, EIT, TDT, 0x1FFF, 0x1FFE, 0x100, 0x1000
# What selects the tables of letters (EN 300 468, annex A), and letters with control codes and marks of emphasis.
ENCODINGS = [bytes.fromhex(text) for text in ",05,0b,100002,10000f,1000,10,11,12,13,14,15,1f01,1f,07".split(",")]
LETTERS = b"abc XYZ%s%n\\\"'&</;$(\x86\x87\x8a\x80\x9f\x00\x01\x1b\x7f\xc1\xc8\xcf\xa4\xd0\xe0\xff\xee\x80\xd8\x00\xf0\x9f"
# Where a descriptor's text begins, and whether a length stands in front of it.
TEXTS = {**dict.fromkeys((0x40, 0x47, 0x71, 0x73), (0, False)), **dict.fromkeys((0x4D, 0x5B, 0x5C, 0x5D), (3, True)),
         0x48: (1, True), 0x50: (6, False), 0x5E: (4, True)}  # fmt: skip


class Draw:
    """Draws of a seed, which is numbers or words."""

    def __init__(self, *seed: object) -> None:
        self.share = random.Random(" ".join(map(str, seed))).random

    def below(self, count: int) -> int:
        return int(self.share() * count)

    def of(self, some: Sequence[T]) -> T:
        return some[self.below(len(some))]

    def is_in(self, share: float) -> bool:
        return self.share() < share

    def bytes(self, count: int) -> bytes:
        return bytes(self.below(256) for _ in range(count))


class Item(NamedTuple):
    """A section on a PID, or a packet as it is; and what is changed of its packets."""

    pid: int
    data: bytes
    is_section: bool = True
    changes: tuple[tuple[str, int], ...] = ()

    def name(self) -> str:
        """What it is, in words."""
        return f"{table_text(self.data[0]) if self.is_section and self.data else 'a packet'} on PID {pid_text(self.pid)}"


# ------ a recording


def packets_in(path: str) -> list[bytes]:
    """The packets of a recording's beginning."""
    with open(path, "rb") as file:
        data = file.read(LOOKED_AT)
    size, first = form_of(data) or (PACKET, 0)
    whole, _ = Recording.unwrapped(data[first:], size)
    return [whole[at : at + PACKET] for at in range(0, len(whole), PACKET)]


def items_of(packets: Sequence[bytes]) -> list[Item]:
    """The sections of a recording's tables, each once, and some of its other packets, in their order."""
    cutters, seen, found = {pid: Cutter() for pid in FIXED}, set(), []
    counts: dict[tuple[int, int], int] = {}
    for packet in packets:
        pid = pid_of(packet)
        sections = [one.data for one in cutters[pid].take(packet)] if pid in cutters else []
        for item in [Item(pid, one) for one in sections] or [Item(pid, packet, False)]:
            kind = pid if item.is_section else -1, item.data[0] if item.is_section else 0
            counts[kind] = counts.get(kind, 0) + (item[:2] not in seen)
            if item[:2] not in seen and counts[kind] <= (OF_TABLE if item.is_section else OTHERS) and pid != 0x1FFF:
                found.append(item)
            seen.add(item[:2])
        for named in named_in(sections):
            cutters.setdefault(named, Cutter())
    return [item for item in found if item.is_section or item.pid not in cutters]


def named_in(sections: Sequence[bytes]) -> list[int]:
    """The PIDs of sections that a PAT or a PMT names."""
    tables = [table for table in map(read, sections) if table and table.table_id in (PAT_ID, PMT_ID)]
    numbers = [part.fields for table in tables for part in table.parts]
    return [fields["PID"] for fields in numbers if fields.get("stream_type", SECTIONS[0]) in SECTIONS]


def programs_in(items: Sequence[Item]) -> list[Program]:
    """The programs whose PMTs are there; those of a made stream where there are none."""
    found = {}
    for item in items:
        table = read(item.data) if item.is_section else None
        if table and table.table_id == PMT_ID:
            number = table.fields["program_number"]
            found[number] = Program(number, item.pid, [(part.fields["stream_type"], part.fields["PID"]) for part in table.parts])
    return list(found.values())[:8] or list(PROGRAMS)


def right_items(items: Sequence[Item], chosen: Sequence[Right]) -> list[Item]:
    """Tables that are right in form, with these descriptors, for the programs of a recording, and its other packets."""
    made = [Item(pid, data) for pid, data in tables_of(programs_in(items), chosen)]
    return made + [item for item in items if not item.is_section]


def with_lengths(items: Sequence[Item], tag: int) -> list[Item]:
    """The stream with another length of each descriptor of a tag: 0 and 255 by turns, so that each place of a table has both."""
    made: list[Item] = []
    count = 0
    for item in items:
        regions = regions_of(map_of(item.data), "descriptor") if item.is_section else []
        data = item.data
        for place, first in enumerate(region.first for region in regions if item.data[region.first] == tag):
            data = data[: first + 1] + bytes([(0, 255)[(count + place) % 2]]) + data[first + 2 :]
        count += data != item.data
        made.append(item._replace(data=mended(data) if data != item.data else data))
    return made


def listed(items: Sequence[Item], number: int) -> tuple[list[Item], str] | None:
    """The first streams, which no draw makes: tables that are right in form, without descriptors, with one of each, and with all;
    then with one of each of a wrong length. None behind the last."""
    few: list[list[Right]] = [*([one] for one in RIGHT), RIGHT, []]
    chosen = few[(number + len(few) - 1) % len(few)]
    what = "all descriptors" if len(chosen) > 1 else tag_text(chosen[0].descriptor.tag) if chosen else "no descriptor more"
    if number < len(few):
        return right_items(items, chosen), f"tables that are right in form, with {what}"
    if number < 2 * len(few) and len(chosen) == 1:
        return with_lengths(right_items(items, chosen), chosen[0].descriptor.tag), f"tables with {what}, of the lengths 0 and 255"
    return (list(items), "the recording's tables") if number < 2 * len(few) else None


def drawn_items(draw: Draw, items: Sequence[Item]) -> list[Item]:
    """Tables that are right in form, with some descriptors."""
    return right_items(items, [draw.of(RIGHT) for _ in range(draw.of((2, 8, 24)))])


def stream_of(items: Sequence[Item]) -> bytes:
    """The packets of a stream, with counters that go on."""
    counters: dict[int, int] = {}
    whole: list[bytes] = []
    for item in items:
        some = section_packets(item.pid, item.data, counters.get(item.pid, 0)) if item.is_section else [item.data]
        counters[item.pid] = counters.get(item.pid, 0) + len(some)
        for how, value in item.changes:
            some = PACKETS[how](some, value)
        whole += some
    return b"".join(whole)


def without(items: Sequence[Item], tags: Collection[int]) -> list[Item]:
    """The stream without the descriptors of these tags."""
    return [item._replace(data=without_tags(item.data, tags)) if item.is_section and tags else item for item in items]


def without_tags(data: bytes, tags: Collection[int]) -> bytes:
    """A section without the descriptors of these tags."""
    regions = [region for region in map_of(data).regions if region.kind == "descriptor" and data[region.first] in tags]
    for region in reversed(regions):
        data = with_bytes(data, region.first, region.after, b"", region.lengths) or data
    return data


def tag_text(tag: int) -> str:
    """A descriptor_tag with its name."""
    return f"descriptor 0x{tag:02X}{f' ({NAMES[tag]})' if tag in NAMES else ''}"


# ------ changes of a section


def regions_of(found: Map, *kinds: str) -> list[Region]:
    """The regions of these kinds."""
    return [region for region in found.regions if region.kind in kinds]


def length(draw: Draw, data: bytes, found: Map) -> Changed:
    """A length is another one: 0, too long, beyond the end."""
    sites = [site for site in found.sites if site.name.endswith("length")]
    kind = draw.of(sorted({site.name for site in sites}))
    site = draw.of([site for site in sites if site.name == kind])
    old, most = number_at(data, site), (1 << site.bits) - 1
    rest = len(data) - site.at // 8
    new = draw.of([0, 1, 2, most, most - 1, old + 1, old - 1, rest, min(LONGEST, most), draw.below(most + 1)]) & most
    return put(data, site, new), f"{site.name} at byte {site.at // 8} is {new} in place of {old}"


def lengths_of_tag(draw: Draw, data: bytes, found: Map) -> Changed:
    """All descriptors of one tag get one length, so that a rare one is met as often as a frequent one."""
    firsts = [region.first for region in regions_of(found, "descriptor")]
    if not firsts:
        return None
    tag, new = draw.of(sorted({data[first] for first in firsts})), draw.of([0, 0, 1, 255, draw.below(256)])
    for first in firsts:
        data = data[: first + 1] + bytes([new]) + data[first + 2 :] if data[first] == tag else data
    return data, f"the length of each {tag_text(tag)} is {new}"


def count(draw: Draw, data: bytes, found: Map) -> Changed:
    """A loop has none, twice as many, two hundred, or as many as there is room for."""
    some = regions_of(found, "part", "descriptor", "loop")
    region = draw.of(some)
    room = (LONGEST + 3 - len(data)) // max(region.after - region.first, 1)
    times = min(draw.of([0, 0, 2, 10, 200, room, room]), room)
    new = with_bytes(data, region.first, region.after, data[region.first : region.after] * times, region.lengths)
    return (new, f"{region.kind} at byte {region.first} stands {times} times") if new and region.after > region.first else None


def field(draw: Draw, data: bytes, found: Map) -> Changed:
    """A number is another one: one that collides, of nothing, behind the last, of another version."""
    sites = [site for site in found.sites if not site.name.endswith("length")]
    kind = draw.of(sorted({site.name for site in sites}))
    same = [site for site in sites if site.name == kind]
    site = draw.of(same)
    old, most = number_at(data, site), (1 << site.bits) - 1
    other, any_number = number_at(data, draw.of(same)), draw.below(most + 1)
    new = draw.of(PIDS if kind.endswith("PID") else [0, 1, most, most - 1, old + 1, old - 1, other, any_number]) & most
    return put(data, site, new), f"{kind} at byte {site.at // 8} is {new} in place of {old}"


def descriptor(draw: Draw, data: bytes, found: Map) -> Changed:
    """A descriptor more, which is right in form, at the beginning of a loop; or in the place of another one."""
    places = [region for region in regions_of(found, "loop", "descriptor") if region.lengths or data[0] == 1]
    if not places:
        return None
    region, one = draw.of(places), draw.of(RIGHT).descriptor
    after = region.after if region.kind == "descriptor" else region.first
    new = with_bytes(data, region.first, after, joined([one]), region.lengths)
    return (new, f"{tag_text(one.tag)} at byte {region.first}") if new else None


def tag(draw: Draw, data: bytes, found: Map) -> Changed:
    """A descriptor has another tag."""
    some = regions_of(found, "descriptor")
    if not some:
        return None
    first, new = draw.of(some).first, draw.of([draw.of(RIGHT).descriptor.tag, draw.below(256)])
    return data[:first] + bytes([new]) + data[first + 1 :], f"{tag_text(data[first])} at byte {first} has the tag 0x{new:02X}"


def text(draw: Draw, data: bytes, found: Map) -> Changed:
    """A text of any encoding, with control codes, of any length."""
    some = regions_of(found, "descriptor")
    if not some:
        return None
    region, (kind, (first, is_counted)) = draw.of(some), draw.of(sorted(TEXTS.items()))
    size = draw.of([0, 1, 2, 12, 40, 120, 240])
    letters = (draw.of(ENCODINGS) + bytes(draw.of(LETTERS) for _ in range(size)))[: 254 - first]
    body = b"deu\x01\x01\x01\x01"[:first] + (bytes([len(letters)]) if is_counted else b"") + letters
    body = (body + body[first:])[:255] if is_counted else body
    new = with_bytes(data, region.first, region.after, joined([Descriptor(kind, body)]), region.lengths)
    told = f"{tag_text(kind)} at byte {region.first} with a text of {len(letters)} bytes, {letters[:8].hex()} .."
    return (new, told) if new else None


def size(draw: Draw, data: bytes, found: Map) -> Changed:
    """Bytes are cut away or put in, and some of the lengths that count them tell it."""
    region = draw.of(found.regions)
    first = region.first + draw.below(region.after - region.first + 1)
    after, new = min(region.after, first + 1 + draw.below(20)), b""
    if draw.is_in(0.5):
        after, new = first, draw.bytes(draw.of([1, 2, 5, 50, 300]))
    made = with_bytes(data, first, after, new, region.lengths[: draw.below(len(region.lengths) + 1)])
    return (made, f"{after - first} bytes at byte {first} are {len(new)} others") if made else None


def some_bytes(draw: Draw, data: bytes, found: Map) -> Changed:
    """One to four bytes of a descriptor, or anywhere, are others."""
    some = [region for region in regions_of(found, "data") if region.after > region.first] or found.regions
    region = draw.of(some)
    at = min(region.first + draw.below(max(region.after - region.first, 1)), len(data) - 1)
    new = draw.of([b"\0", b"\xff", b"\x7f", b"\x80", draw.bytes(1), draw.bytes(4)])[: len(data) - at]
    return data[:at] + new + data[at + len(new) :], f"bytes at {at} are {new.hex()}"


def bits(draw: Draw, data: bytes, _: Map) -> Changed:
    """A bit is the other one."""
    at, bit = draw.below(len(data)), draw.below(8)
    return data[:at] + bytes([data[at] ^ 1 << bit]) + data[at + 1 :], f"bit {bit} of byte {at} is the other one"


CHANGES: Sequence[Change] = (length, length, length, lengths_of_tag, lengths_of_tag, count, count, field, field, descriptor,
                             descriptor, tag, text, size, some_bytes)  # fmt: skip


def changed(draw: Draw, item: Item, change: Change) -> tuple[Item, str] | None:
    """A section that is changed, with a CRC_32 that is mended, and now and then not."""
    made = change(draw, item.data, map_of(item.data))
    if made is None:
        return None
    data, told = mended(made[0]), made[1]
    if has_crc(data) and draw.is_in(UNMENDED):
        data, told = data[:-1] + bytes([data[-1] ^ 1]), f"{told}, and the CRC_32 is wrong"
    return item._replace(data=data), f"{item.name()}: {told}"


# ------ changes of packets


def with_field(packet: bytes, size: int) -> bytes:
    """A packet with an adaptation field that says this length, over its payload."""
    return packet[:3] + bytes([packet[3] | 0x20, size, packet[5] & 0x0F]) + packet[6:]


def with_bits(place: int, mask: int, new: int) -> Callable[[list[bytes], int], list[bytes]]:
    """A change of some bits of one of the packets."""

    def made(some: list[bytes], value: int) -> list[bytes]:
        bits_of = (new if new >= 0 else value) & mask
        return one_of(some, value, lambda one: [one[:place] + bytes([one[place] & ~mask | bits_of]) + one[place + 1 :]])

    return made


def one_of(some: list[bytes], value: int, change: Callable[[bytes], list[bytes]]) -> list[bytes]:
    """The packets with others in the place of one."""
    at = value % len(some) if some else 0
    return [new for number, one in enumerate(some) for new in (change(one) if number == at else [one])]


def with_pes(packet: bytes, value: int) -> bytes:
    """A packet whose payload begins with the head of a PES packet: of any stream_id, flags and lengths."""
    kind, flags = (0xE0, 0xC0, 0xBD, 0xBE, 0xBF, 0xFF)[value % 6], (0x80, 0xC0, 0xFF, 0)[value % 4]
    size = (0, 5, 255, value)[value % 4]
    head = bytes([0, 0, 1, kind, value & 0xFF, value * 7 & 0xFF, 0x80, flags, size]) + b"\xff" * 10
    return (packet[:1] + bytes([packet[1] | 0x40, packet[2], packet[3] & 0xDF | 0x10]) + head).ljust(PACKET, b"\xff")


def with_pcr(packet: bytes, value: int) -> bytes:
    """A packet with a program clock reference of its own, and with the discontinuity_indicator or without."""
    flags, base = 0x10 | (value & 1) << 7, (0, 1 << 32, (1 << 33) - 1, value * 90_000)[value % 4]
    return packet[:3] + bytes([packet[3] | 0x20, 7, flags]) + (base << 15 | 0x7E00).to_bytes(6, "big") + packet[12:]


PACKETS: dict[str, Callable[[list[bytes], int], list[bytes]]] = {
    "is lost": lambda some, value: one_of(some, value, lambda one: []),
    "comes twice": lambda some, value: one_of(some, value, lambda one: [one, one]),
    "comes last": lambda some, value: one_of(some, value, lambda one: []) + [some[value % len(some)]] if some else [],
    "has an adaptation field": lambda some, value: one_of(some, value, lambda one: [with_field(one, value)]),
    "has another pointer_field": with_bits(4, 0xFF, -1), "is scrambled": with_bits(3, 0xC0, 0xC0),
    "has an error": with_bits(1, 0x80, 0x80), "has another continuity_counter": with_bits(3, 0x0F, -1),
    "begins no section": with_bits(1, 0x40, 0), "has no payload": with_bits(3, 0x10, 0),
    "begins with a PES packet's head": lambda some, value: one_of(some, value, lambda one: [with_pes(one, value)]),
    "has a PCR": lambda some, value: one_of(some, value, lambda one: [with_pcr(one, value)]),
}  # fmt: skip


def by_packets(draw: Draw, items: list[Item]) -> str:
    """Changes packets of one of the items."""
    at, how, value = draw.below(len(items)), draw.of(sorted(PACKETS)), draw.below(256)
    items[at] = items[at]._replace(changes=(*items[at].changes, (how, value)))
    return f"{items[at].name()}: one of its packets {how} ({value})"


# ------ changes of tables


def by_tables(draw: Draw, items: list[Item], at: int) -> str:
    """A table comes again with another head, on another PID, is gone, or comes earlier."""
    item, way = items[at], draw.below(4)
    if way == 0 and len(item.data) > 8:
        place, new = draw.of([3, 4, 5, 5, 6, 7]), draw.below(256)
        data = mended(item.data[:place] + bytes([new]) + item.data[place + 1 :])
        items.insert(draw.below(len(items) + 1), item._replace(data=data))
        return f"{item.name()}: comes again, with {new} in byte {place}"
    if way == 1:
        pid = draw.of([*PIDS, *(one.pid for one in items)])
        items[at] = item._replace(pid=pid)
        return f"{item.name()}: stands on PID {pid_text(pid)}"
    del items[at]
    if way == 2 or not items:
        return f"{item.name()}: is gone"
    items.insert(0, item)
    return f"{item.name()}: comes first"


def mutated(draw: Draw, base: Sequence[Item], pids: Collection[int] = ()) -> tuple[list[Item], list[str]]:
    """A stream that is changed, of these PIDs alone where some are given, and what was changed."""
    items, told = list(base), []
    for _ in range(draw.of(COUNTS)):
        places = [at for at, item in enumerate(items) if item.is_section and len(item.data) > 2]
        places = [at for at in places if items[at].pid in pids] or places
        if not places:
            break
        at = draw.of(places)
        if draw.is_in(0.1):
            told.append(by_tables(draw, items, at))
        elif made := changed(draw, items[at], bits if draw.is_in(BY_BITS) else draw.of(CHANGES)):
            items[at] = made[0]
            told.append(made[1])
    while items and (not told or draw.is_in(BY_PACKETS)):
        told.append(by_packets(draw, items))
    return items, told
