"""What the packets of a stream brought to the filters of a report's nodes: the items of a capture, what an Overflow lost, and which bytes of
a section filter rule a section out.
"""
from __future__ import annotations

from bisect import bisect_left, bisect_right
from typing import TYPE_CHECKING, NamedTuple

from ..stream.packets import ALL_PACKETS, PACKET, payload_of, pid_of
from ..stream.sections import Cutter, is_intact
from .refusals import CRC

if TYPE_CHECKING:
    from typing import Iterable, Iterator, Mapping, Sequence

    from ..reports import Act, FilterBytes
    from .walk import Filter


class Stream:
    """The packets of a stream, and the places of those of each PID, and of all for the PID that names every packet."""

    def __init__(self, packets: Sequence[bytes]) -> None:
        self.packets = packets
        found: dict[int, list[int]] = {}
        for place, packet in enumerate(packets):
            found.setdefault(pid_of(packet), []).append(place)
        self.by_pid: Mapping[int, Sequence[int]] = {ALL_PACKETS: range(len(packets)), **found}

    def places(self, pids: Iterable[int], first: int, after: int) -> list[int]:
        """The places of the packets of some PIDs in a batch."""
        found: set[int] = set()
        for pid in pids:
            places = self.by_pid.get(pid, ())
            found.update(places[bisect_left(places, first) : bisect_left(places, after)])
        return sorted(found)

    def brought(self, used: Filter | None) -> Brought:
        """What it brings to a capture of a filter, or of the dvr node."""
        return Brought(used)


# ------ items


class Lost(NamedTuple):
    """What an Overflow lost: how many items, whether these are sections, and the places in the stream of the packets that brought the first
    and the last of them."""

    items: int
    is_section: bool
    first: int
    last: int


class Brought:
    """The items that packets bring to a capture: where in it each ends, and the place of the packet that completes it."""

    def __init__(self, used: Filter | None) -> None:
        self.used, self.cutter, self.taken = used, Cutter(), 0
        self.ends: list[int] = []
        self.bringers: list[int] = []

    def take(self, packets: Sequence[bytes], places: Sequence[int]) -> None:
        """Takes the packets that the capture has been offered, those that were taken before among them."""
        for place in places[self.taken :]:
            for length in self.lengths(packets[place]):
                self.ends.append(length + (self.ends[-1] if self.ends else 0))
                self.bringers.append(place)
        self.taken = len(places)

    def lengths(self, packet: bytes) -> list[int]:
        """The lengths of the items that the capture's next packet completes."""
        if self.used and self.used.kind == "section":
            found = [len(section.data) for section in self.cutter.take(packet) if selects(self.used.act, section.data)]
            return found[: not self.ends] if self.used.once else found
        if self.used and self.used.output == "tap":
            return [len(payload)] if (payload := payload_of(packet)) else []
        return [PACKET]

    def lost(self, begin: int, after: int) -> Lost | None:
        """The items of a span; None where the packets bring none such."""
        first, last = bisect_right(self.ends, begin), bisect_left(self.ends, after)
        if not first <= last < len(self.ends):
            return None
        is_section = self.used is not None and self.used.kind == "section"
        return Lost(last - first + 1, is_section, self.bringers[first], self.bringers[last])


# ------ what a section filter selects


def byte_at(place: int) -> int:
    """The byte of a section that a filter byte stands against."""
    return place if place == 0 else place + 2


class Ruled(NamedTuple):
    """Why a filter byte rules a section out: the byte's place, the section's byte there (None where it is too short), and the bits that
    differ; no bits where one of those of a negative match would have to."""

    place: int
    found: int | None
    bits: int


def ruled_out(places: FilterBytes, section: bytes) -> tuple[Ruled, ...]:
    """What of a filter rules a section out, by the places of its bytes; nothing where it selects it."""
    found, negative, differs = [], [], False
    for place, (value, mask, mode) in sorted(places.items()):
        at = byte_at(place)
        if mask and at >= len(section):
            found.append(Ruled(place, None, 0))
        elif mask:
            bits = (value ^ section[at]) & mask
            if bits & ~mode:
                found.append(Ruled(place, section[at], bits & ~mode))
            if mask & mode:
                negative.append(Ruled(place, section[at], 0))
            differs = differs or bits & mode != 0
    return tuple(found if found or differs else negative)


def matches(places: FilterBytes, section: bytes) -> bool:
    """Whether filter bytes match a section."""
    return not ruled_out(places, section)


def selects(act: Act, section: bytes) -> bool:
    """Whether a section filter, given by its set call, selects a section."""
    return matches(act["bytes"], section) and (not act["flags"] & CRC or is_intact(section))


class Like(NamedTuple):
    """A filter like another one: its bytes, its flags, and how many sections it selects."""

    bytes: FilterBytes
    flags: int
    sections: int


def bad_places(places: FilterBytes, sections: Iterable[bytes]) -> list[int]:
    """The places of the filter bytes that rule some of the sections out."""
    return sorted({ruled.place for section in sections for ruled in ruled_out(places, section)})


def tries(places: FilterBytes, sections: Sequence[bytes]) -> Iterator[FilterBytes]:
    """Filters like this one that may select more: with the values that stand in the sections, and without the bytes that rule them out."""
    bad = bad_places(places, sections)
    named = {place: three for place, three in places.items() if place not in bad}
    for section in sections:
        if all(byte_at(place) < len(section) for place in bad):
            yield {**named, **{place: (section[byte_at(place)], places[place][1], 0) for place in bad}}
            break
    yield named


def like(places: FilterBytes, flags: int, sections: Iterable[bytes]) -> Like | None:
    """A filter with these bytes and flags, without the flag for the CRC_32 where only that keeps sections away; None where it selects none."""
    matched = [section for section in sections if matches(places, section)]
    right = [section for section in matched if not flags & CRC or is_intact(section)]
    if right:
        return Like(places, flags, len(right))
    return Like(places, flags & ~CRC, len(matched)) if matched else None


def like_this(act: Act, sections: Sequence[bytes]) -> Like | None:
    """The first filter like this one that selects some of the sections; None where none does."""
    tried = (like(places, act["flags"], sections) for places in (act["bytes"], *tries(act["bytes"], sections)))
    return next(filter(None, tried), None)


def moved(act: Act, sections: Sequence[bytes]) -> Iterator[tuple[int, Like]]:
    """Filters with a byte two places before, each with the byte's place: a filter byte counted as those of a section are, of which a filter
    leaves bytes 1 and 2 out. They are given where the byte's value stands there."""
    places = act["bytes"]
    for place in bad_places(places, sections):
        value, mask, mode = places[place]
        if place > 2 and value & mask and not mode and not places.get(place - 2, (0, 0, 0))[1]:
            others = {other: three for other, three in places.items() if other != place}
            if found := like({**others, place - 2: (value, mask, mode)}, act["flags"], sections):
                yield place, found
