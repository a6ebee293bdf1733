"""Strategies for hypothesis, if it is installed: descriptors, tables, sections and streams, well-formed or broken.

    from hypothesis import given
    from dvbemu import strategies

    @given(strategies.sections(broken=True))
    def test_my_parser(section):
        parse(section)

Well-formed ones follow ISO/IEC 13818-1 and ETSI EN 300 468. Broken ones have one to five changes by the grammar of `dvbemu fuzz`. They
shrink. Importing this module without hypothesis raises an ImportError.
"""
from __future__ import annotations

from typing import Any, Optional, Sequence

try:
    from hypothesis import strategies as st
except ImportError as missing:
    raise ImportError("dvbemu.strategies needs hypothesis (Debian: apt-get install python3-hypothesis)") from missing

from .fuzz.grammar import map_of, mended
from .fuzz.mutate import CHANGES, PACKETS, Draw, Item, bits, stream_of
from .fuzz.right import PROGRAMS, RIGHT, Program, Right, tables_of
from .stream.tables import FORMS, Descriptor, read

__all__ = ["descriptors", "programs", "sections", "streams", "tables"]
Strategy = Any


class Drawn(Draw):
    """Draws by hypothesis, which shrink."""

    def __init__(self, draw: Any) -> None:
        super().__init__()
        self.draw = draw

    def below(self, count: int) -> int:
        return int(self.draw(st.integers(0, count - 1)))

    def is_in(self, share: float) -> bool:
        return self.below(100) >= 100 * (1 - share)

    def bytes(self, count: int) -> bytes:
        return bytes(self.draw(st.binary(min_size=count, max_size=count)))


def descriptors(tag: Optional[int] = None, broken: bool = False) -> Strategy:
    """Descriptors as bytes: well-formed, with this tag if one is given. Broken ones have any bytes and any length."""
    right = [one.descriptor for one in RIGHT if tag in (None, one.descriptor.tag)] or [Descriptor(tag or 0, b"")]
    well_formed = st.sampled_from(right).map(lambda one: bytes([one.tag, len(one.data)]) + one.data)
    if not broken:
        return well_formed
    tags = st.integers(0, 255) if tag is None else st.just(tag)
    length = st.integers(0, 255)
    return st.one_of(st.builds(with_length, well_formed, length), st.builds(with_tag, tags, length, st.binary(max_size=40)))


def with_length(descriptor: bytes, length: int) -> bytes:
    """A descriptor with another length."""
    return descriptor[:1] + bytes([length]) + descriptor[2:]


def with_tag(tag: int, length: int, data: bytes) -> bytes:
    """A descriptor of any bytes."""
    return bytes([tag, length]) + data


def programs() -> Strategy:
    """One to four programs, each with one to four streams on PIDs of its own."""

    def made(kinds: Sequence[Sequence[int]]) -> list[Program]:
        streams = [[(kind, 0x100 + 16 * at + place) for place, kind in enumerate(some)] for at, some in enumerate(kinds)]
        return [Program(257 + at, 0x1000 + at, some) for at, some in enumerate(streams)]

    kind = st.sampled_from([kind for program in PROGRAMS for kind, _ in program.streams])
    return st.lists(st.lists(kind, min_size=1, max_size=4), min_size=1, max_size=4).map(made)


def chosen() -> Strategy:
    """Descriptors, with the tables in which each may be."""
    return st.lists(st.sampled_from(RIGHT), max_size=6)


def items() -> Strategy:
    """Well-formed tables of each kind, on their PIDs."""

    def made(some: Sequence[Program], more: Sequence[Right]) -> list[Item]:
        return [Item(pid, data) for pid, data in tables_of(some, more)]

    return st.builds(made, programs(), chosen())


def tables(table_id: Optional[int] = None) -> Strategy:
    """Well-formed tables, as objects of `dvbemu.stream.tables`; with this table_id if one is given."""
    if table_id is not None and table_id not in FORMS:
        raise ValueError(f"0x{table_id:02X} is the table_id of no table")
    return sections(table_id).map(read)


def sections(table_id: Optional[int] = None, broken: bool = False) -> Strategy:
    """Sections of tables: well-formed, with this table_id if one is given. Broken ones mostly have a right CRC_32 all the same."""

    @st.composite
    def one(draw: Any) -> bytes:
        some = [item for item in draw(items()) if table_id in (None, item.data[0])]
        if not some:
            raise ValueError(f"no section of table_id 0x{table_id or 0:02X} is made")
        item = Drawn(draw).of(some)
        return damaged(Drawn(draw), item.data) if broken else bytes(item.data)

    return one()


def damaged(draw: Drawn, data: bytes) -> bytes:
    """A section with one to five changes."""
    for _ in range(1 + draw.below(5)):
        made = draw.of([*CHANGES, bits])(draw, data, map_of(data)) if len(data) > 2 else None
        data = mended(made[0]) if made else data
    return data[:-1] + bytes([data[-1] ^ 1]) if draw.is_in(0.05) else data


def streams(broken: bool = False) -> Strategy:
    """Transport streams of tables of each kind, as bytes: well-formed, or broken by changes of sections and packets."""

    @st.composite
    def one(draw: Any) -> bytes:
        some, drawn = draw(items()), Drawn(draw)
        for _ in range(1 + drawn.below(4) if broken else 0):
            at = drawn.below(len(some))
            if drawn.is_in(0.2):
                some[at] = some[at]._replace(changes=(*some[at].changes, (drawn.of(sorted(PACKETS)), drawn.below(256))))
            else:
                some[at] = some[at]._replace(data=damaged(drawn, some[at].data))
        return stream_of(some)

    return one()
