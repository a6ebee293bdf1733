"""Makes a stream small: sections and packets, their changes, parts, descriptors and bytes are taken away while what is asked of
it holds."""
from __future__ import annotations

from contextlib import suppress
from itertools import islice
from typing import TYPE_CHECKING

from ..errors import Error
from .grammar import map_of, with_bytes

if TYPE_CHECKING:
    from typing import Callable, Collection, Iterator, List, Optional, Sequence, TypeVar

    from .mutate import Item

    T = TypeVar("T")
    # Of some streams the first for which what is asked holds, by its number; None where it holds for none. Enough is raised where
    # enough were tried.
    First = Callable[[Sequence[List[Item]]], Optional[int]]


class Enough(Error):
    """No more streams are tried."""


class Reducer:
    """Tries smaller streams, so many at a time."""

    def __init__(self, items: Sequence[Item], first: First, at_once: int) -> None:
        self.items, self.first, self.at_once = list(items), first, at_once

    def take_first(self, candidates: Sequence[list[Item]]) -> int | None:
        """Takes the first of some smaller streams that does, and says which."""
        found = self.first(candidates) if candidates else None
        if found is not None:
            self.items = candidates[found]
        return found

    def items_away(self) -> None:
        """Takes items away: halves of them, then smaller runs."""
        size = max(len(self.items) // 2, 1)
        while size:
            at = 0
            while at < len(self.items):
                places = [place for place in range(at, at + size * self.at_once, size) if place < len(self.items)]
                found = self.take_first([self.items[:place] + self.items[place + size :] for place in places])
                at = places[-1] + size if found is None else places[found]
            size //= 2

    def changes_away(self) -> None:
        """Takes away what is changed of packets."""
        for at, item in enumerate(self.items):
            for change in item.changes:
                less = self.items[at]._replace(changes=tuple(one for one in self.items[at].changes if one != change))
                self.take_first([[*self.items[:at], less, *self.items[at + 1 :]]])

    def pieces_away(self, pieces: Callable[[bytes], Iterator[bytes]]) -> bool:
        """Takes pieces of sections away, and says whether there were any."""
        has_any = False
        for at, whole in enumerate(self.items):
            rest, done = pieces(whole.data if whole.is_section else b""), 0
            while candidates := [self.with_data(at, data) for data in islice(rest, self.at_once)]:
                found = self.take_first(candidates)
                has_any, done = has_any or found is not None, done + (len(candidates) if found is None else found)
                if found is not None:
                    rest = islice(pieces(self.items[at].data), done, None)
        return has_any

    def with_data(self, at: int, data: bytes) -> list[Item]:
        """The items, one of them with another section."""
        return [*self.items[:at], self.items[at]._replace(data=data), *self.items[at + 1 :]]

    def reduced(self, likely: Sequence[Collection[int]] = ()) -> list[Item]:
        """The smallest stream that was found: first the sections of likely PIDs alone are tried."""
        with suppress(Enough):
            self.take_first([[item for item in self.items if item.is_section and item.pid in pids] for pids in likely])
            self.items_away()
            self.changes_away()
            while self.pieces_away(without_regions):
                pass
            self.pieces_away(without_bytes)
            self.items_away()
        return self.items


def without_regions(data: bytes) -> Iterator[bytes]:
    """A section without one of its parts or descriptors, the largest first."""
    some = [region for region in map_of(data).regions if region.kind != "data" and region.after > region.first]
    for region in sorted(some, key=lambda region: region.first - region.after):
        if (less := with_bytes(data, region.first, region.after, b"", region.lengths)) and less != data:
            yield less


def without_bytes(data: bytes) -> Iterator[bytes]:
    """A section without a half, a quarter, .. of the bytes of a region."""
    for region in map_of(data).regions:
        size = region.after - region.first
        while size := size // 2:
            for first in range(region.first, region.after - size + 1, size):
                if region.kind in ("data", "loop") and (less := with_bytes(data, first, first + size, b"", region.lengths)):
                    yield less
