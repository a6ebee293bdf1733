"""Where the fields, descriptors and loops of a section stand, whatever its lengths say, and sections of which parts are taken or
put in.

The layouts are those of stream/tables.py: a section is walked by them up to where its bytes end, and what is wrong in it stays.
"""
from __future__ import annotations

from typing import TYPE_CHECKING, NamedTuple

from ..stream.sections import LONGEST, with_crc
from ..stream.tables import FORMS, SUMMED

if TYPE_CHECKING:
    from typing import Callable

    from ..stream.tables import Layout

HEAD = 3


class Site(NamedTuple):
    """A field: its name, its first bit and how many bits it has."""

    name: str
    at: int
    bits: int


class Region(NamedTuple):
    """Bytes that go as a whole: a part of a table, a descriptor, what a loop has, or what a descriptor has behind its length; and
    the lengths in which they are counted."""

    kind: str
    first: int
    after: int
    lengths: tuple[Site, ...]


class Map(NamedTuple):
    """The fields of a section, in their order, and its regions, each in front of those in it."""

    sites: list[Site]
    regions: list[Region]


def number_at(data: bytes, site: Site) -> int:
    """The number that stands in a field."""
    after = (site.at + site.bits + 7) // 8
    return int.from_bytes(data[site.at // 8 : after], "big") >> -(site.at + site.bits) % 8 & (1 << site.bits) - 1


def put(data: bytes, site: Site, number: int) -> bytes:
    """The section with another number in a field."""
    first, after = site.at // 8, (site.at + site.bits + 7) // 8
    shift, mask = -(site.at + site.bits) % 8, (1 << site.bits) - 1
    old = int.from_bytes(data[first:after], "big")
    return data[:first] + (old & ~(mask << shift) | (number & mask) << shift).to_bytes(after - first, "big") + data[after:]


class Walk:
    """A walk through a section, which fills its map."""

    def __init__(self, data: bytes) -> None:
        self.data, self.found = data, Map([], [])

    def site(self, name: str, at: int, bits: int) -> Site | None:
        """Keeps a field that is there."""
        if at + bits > 8 * len(self.data):
            return None
        self.found.sites.append(Site(name, at, bits))
        return self.found.sites[-1]

    def descriptors(self, first: int, after: int, lengths: tuple[Site, ...]) -> None:
        """Walks through descriptors, the last of which may go on behind the end."""
        while first + 2 <= after:
            self.site("descriptor_tag", 8 * first, 8)
            own = self.site("descriptor_length", 8 * first + 8, 8)
            behind = min(first + 2 + self.data[first + 1], after)
            self.found.regions.append(Region("descriptor", first, behind, lengths))
            self.found.regions.append(Region("data", first + 2, behind, (*lengths, *filter(None, [own]))))
            first = behind

    def fields(self, layout: Layout, at: int, end: int, lengths: tuple[Site, ...], part: Layout) -> int:
        """Walks through fields from a bit on, and through what stands behind a length; gives the bit behind them."""
        for name, bits in layout:
            own = self.site(f"{name}_length" if name in ("descriptors", "parts") else name, at, bits) if name and bits else None
            at += bits
            if name in ("descriptors", "parts"):
                after = min(end, at // 8 + number_at(self.data, own)) if own else end
                within = (*lengths, *filter(None, [own]))
                self.found.regions.append(Region("loop", at // 8, max(after, at // 8), within))
                (self.descriptors if name == "descriptors" else self.parts_of(part))(at // 8, after, within)
                at = 8 * max(after, at // 8)
        return at

    def parts_of(self, part: Layout) -> Callable[[int, int, tuple[Site, ...]], None]:
        """What walks through the parts of a table."""

        def walk(first: int, after: int, lengths: tuple[Site, ...]) -> None:
            least = (sum(bits for _, bits in part) + 7) // 8
            while least and first + least <= after:
                place = len(self.found.regions)
                behind = min(max(self.fields(part, 8 * first, after, lengths, part) // 8, first + least), after)
                self.found.regions.insert(place, Region("part", first, behind, lengths))
                first = behind

        return walk


def end_of(data: bytes) -> int:
    """Where the bytes of a section end that its fields are in: in front of its CRC_32, where it has one."""
    return max(len(data) - 4 if has_crc(data) else len(data), 0)


def has_crc(data: bytes) -> bool:
    """Whether a section has a CRC_32."""
    return len(data) > 1 and bool(data[1] & 0x80 or data[0] in SUMMED)


def map_of(data: bytes) -> Map:
    """The fields and the regions of a section."""
    walk, end = Walk(data), end_of(data)
    for name, at, bits in ("table_id", 0, 8), ("section_syntax_indicator", 8, 1), ("section_length", 12, 12):
        walk.site(name, at, bits)
    is_long = len(data) > 1 and data[1] & 0x80
    if is_long:
        for name, at, bits in (("table_id_extension", 24, 16), ("version_number", 42, 5), ("current_next_indicator", 47, 1),
                               ("section_number", 48, 8), ("last_section_number", 56, 8)):  # fmt: skip
            walk.site(name, at, bits)
    first = 8 if is_long else HEAD
    walk.found.regions.append(Region("loop", first, max(end, first), ()))
    form = FORMS.get(data[0]) if data else None
    if form and end > first:
        at = walk.fields(form.head, 8 * first, end, (), form.part)
        if form.part and "parts" not in dict(form.head):
            walk.parts_of(form.part)(at // 8, end, ())
    return walk.found


def mended(data: bytes) -> bytes:
    """The section as long as it says, with a right CRC_32 where it has one and room for it."""
    length = (data[1] & 0x0F) << 8 | data[2]
    if length > LONGEST or has_crc(data) and length < 4:
        return data
    size = length - 1 if has_crc(data) else HEAD + length
    whole = data[:size].ljust(size, b"\xff")
    return with_crc(whole) if has_crc(data) else whole


def with_bytes(data: bytes, first: int, after: int, new: bytes, lengths: tuple[Site, ...]) -> bytes | None:
    """The section with other bytes in a place, which all lengths count that did; None where it becomes too long or too short."""
    more = len(new) - (after - first)
    behind = data[:first] + new + data[after:]
    for site in lengths:
        behind = put(behind, site, number_at(data, site) + more)
    if not HEAD <= len(behind) <= HEAD + LONGEST:
        return None
    length = len(behind) - HEAD
    return mended(behind[:1] + bytes([behind[1] & 0xF0 | length >> 8, length & 0xFF]) + behind[3:])
