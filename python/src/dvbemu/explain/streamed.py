"""What is told of a report with its stream at hand: why filters that ran got nothing, and which packets its Overflows lost, and when.

Of each section filter that gave nothing it is told how many sections passed, how many match without the CRC, which byte and which bits rule
the others out, and a filter that would select some.
"""
from __future__ import annotations

from collections import Counter
from typing import TYPE_CHECKING

from .. import naming
from ..inputs import many
from ..psi.fields import is_pes_head, places_text, stream_text
from ..reports import node_name
from ..stream.pace import ClockError, timed
from ..stream.packets import error_bit, payload_of, unit_start
from ..stream.sections import is_intact, sections_of
from .offered import like_this, matches, moved, ruled_out
from .refusals import CRC
from .sentences import node_text, pids_text

if TYPE_CHECKING:
    from typing import Sequence

    from ..reports import Act
    from .captures import Filter
    from .offered import Like, Lost, Ruled, Stream

GROUPS = 5


def group_text(ruled: Sequence[Ruled], count: int, act: Act) -> str:
    """Sections that the same bytes rule out, in words."""
    texts = []
    for one in ruled:
        value, mask, mode = act["bytes"][one.place]
        asks = f"filter byte {one.place} asks for 0x{value & mask:02X} in {places_text(one.place)}"
        if one.found is None:
            texts.append(f"{asks}, and the section ends before it")
        elif one.bits:
            texts.append(f"{asks}, and it is 0x{one.found:02X} (bits 0x{one.bits:02X} differ)")
        else:
            texts.append(f"filter byte {one.place} wants one of the bits 0x{mask & mode:02X} of {places_text(one.place)} to differ, and none does")
    return f"{many(count, 'section')}: {'; '.join(texts)}."


def no_section_text(packets: Sequence[bytes]) -> str:
    """Why there is no section at all."""
    starts = [packet for packet in packets if unit_start(packet)]
    payloads = [payload_of(packet) or b"" for packet in starts]
    streams = Counter(payload[3] for payload in payloads if payload[:1] == b"\0" and is_pes_head(payload[1:4]))
    if streams:
        names = ", ".join(f"{many(count, 'packet')} of stream_id {stream_text(number)}" for number, count in sorted(streams.items()))
        return f"These are packets of a stream: PES packets begin in them ({names}). `pes` takes them."
    errors, scrambled = sum(map(error_bit, packets)), sum(packet[3] >> 6 != 0 for packet in packets)
    told = f"a section begins in {len(starts):,} (payload_unit_start_indicator), the error bit is set in {errors:,}"
    return f"They contain no complete section. Of these packets {told}, the payload is scrambled in {scrambled:,}."


def command_text(node: int, used: Filter, like: Like) -> str:
    """A section filter like one that was used, as a line of a script."""
    shown = {place: three for place, three in sorted(like.bytes.items()) if three[1]}
    return naming.command_text(f"c{used.client}", node_name(node), {**used.act, "flags": like.flags, "bytes": shown})


def moved_text(node: int, used: Filter, place: int, like: Like) -> str:
    """A filter byte that was counted as the bytes of a section are, in words."""
    value, mask, _ = used.act["bytes"][place]
    meant = f"If filter byte {place} is meant for {places_text(place - 2)}, it is filter byte {place - 2}, and 0x{value & mask:02X} stands there"
    return f"{meant}; this would select {like.sections:,}: `{command_text(node, used, like)}`"


def unpassed_text(used: Filter, stream: Stream) -> str:
    """A filter that no packet passed, in words."""
    kind, is_one = "section" if used.kind == "section" else "PES", len(used.ever) == 1
    count = sum(len(stream.by_pid.get(pid, ())) for pid in used.ever)
    has = f"the stream has {many(count, 'packet')} of {'it' if is_one else 'them'}" if count else "the stream has none"
    return f"the {kind} filter of {pids_text(used.ever)} gave nothing: no packet of {'its PID' if is_one else 'its PIDs'} passed while it ran; {has}."


def silent_texts(node: int, used: Filter, stream: Stream) -> list[str]:
    """What passed a filter that gave nothing: a sentence for its head, and those below."""
    head = f"Client {used.client}, line {used.line}, {node_text(node)}:"
    captures = [[stream.packets[place] for place in places] for places in used.places]
    packets = [packet for capture in captures for packet in capture]
    if not packets:
        return [f"{head} {unpassed_text(used, stream)}"]
    found = [section.data for capture in captures for section in sections_of(capture)]
    passed = f"{many(len(packets), 'packet')} and {many(len(found), 'section')} passed while it ran."
    texts = [f"{head} the section filter of {pids_text([used.pid])} gave nothing; {passed}"]
    if not found or all(map(is_pes_head, found)):
        return [*texts, no_section_text(packets)]
    return texts + ruled_texts(node, used, found)


def ruled_texts(node: int, used: Filter, found: Sequence[bytes]) -> list[str]:
    """Why a filter selects none of these sections, and what would select some."""
    matched = [section for section in found if matches(used.act["bytes"], section)]
    if selected := [section for section in matched if is_intact(section) or not used.act["flags"] & CRC]:
        return [f"It selects {len(selected):,} of these sections, and no read followed."]
    wrong = "; their CRC_32 is wrong, and flag 1 rejects them." if matched else "."
    texts = [f"{len(matched):,} of these sections match its bytes{wrong}"]
    groups = Counter(filter(None, (ruled_out(used.act["bytes"], section) for section in found)))
    shown = groups.most_common(GROUPS)
    texts += [group_text(ruled, count, used.act) for ruled, count in shown]
    if len(groups) > GROUPS:
        texts.append(f"And {sum(groups.values()) - sum(count for _, count in shown):,} more.")
    if like := like_this(used.act, found):
        texts.append(f"This would select {like.sections:,} of them: `{command_text(node, used, like)}`")
    return texts + [moved_text(node, used, place, like) for place, like in moved(used.act, found)]


# ------ Overflows


def times_of(packets: Sequence[bytes]) -> list[float] | None:
    """When each packet is due by the stream's program clock, in seconds from its first PCR; None where it has none."""
    try:
        return [at for at, _ in timed(packets)]
    except ClockError:
        return None


def lost_text(client: int, line: int, node: int, span: tuple[int, int], lost: Lost, times: Sequence[float] | None) -> str:
    """What an Overflow lost."""
    what = many(lost.items, "section" if lost.is_section else "packet")
    ends = "whose last bytes came by the" if lost.is_section else "of the"
    packets = f"packet {lost.first}" if lost.first == lost.last else f"packets {lost.first} to {lost.last}"
    told = f"Client {client}, line {line}, {node_text(node)}: an overflow (bytes {span[0]} to {span[1] - 1}) lost {what}, {ends} stream's {packets}"
    if times:
        first, last = (f"{times[place]:.3f} s" for place in (lost.first, lost.last))
        told += f", {first if lost.first == lost.last else f'{first} to {last}'} after the first PCR"
    return told + "."
