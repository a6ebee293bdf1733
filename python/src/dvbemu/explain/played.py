"""The packets that a report is of: those of its session, or of the recording that was played, which is told by how many packets of each PID
there are."""
from __future__ import annotations

from collections import Counter
from typing import TYPE_CHECKING

from ..inputs import LINE, many
from ..psi.fields import pid_text
from ..stream.packets import FORMS, PACKET, SYNC, cut, form_of, pid_of

if TYPE_CHECKING:
    from typing import Iterable, Mapping, Tuple

    from ..reports import Report

    # The head of a report: packets, skipped and rest.
    Head = Tuple[int, int, int]


class NotPlayed(Exception):
    """Packets that aren't those of the report."""


def counted(packets: Iterable[bytes]) -> Counter[int]:
    """How many packets each PID has."""
    return Counter(map(pid_of, packets))


def packets_of(given: bytes, report: Report) -> list[bytes]:
    """The packets of a report, by its session, or by the recording that was played."""
    head, counts = (report.packets, report.skipped, report.rest), {row.pid: row.packets for row in report.pids}
    if is_recording(given):
        try:
            return of_session(given, head, counts)
        except NotPlayed:
            return of_recording(given, head, counts)
    _, line, stream = (b"\n" + given).partition(b"\n" + LINE)
    if not line:
        raise NotPlayed("no session, which has a line `stream`, and no recording")
    return of_session(stream, head, counts)


def of_session(stream: bytes, head: Head, counts: Mapping[int, int]) -> list[bytes]:
    """The packets of a session's stream, by its report's head (packets, skipped and rest) and how many packets each PID has there."""
    for size in (188, 204):
        packets, skipped, rest = cut(stream, size)
        if (len(packets), skipped, rest) == head and counted(packets) == counts:
            return packets
    packets = cut(stream)[0]
    raise NotPlayed(f"no session of this report: {difference(counted(packets), len(packets), head[0], counts)}")


def is_recording(given: bytes) -> bool:
    """Whether a file seems to be a recording, and no session."""
    return given[:1] == bytes([SYNC]) or given[4 : 5 + 192 : 192] == bytes([SYNC] * 2)


def of_recording(recording: bytes, head: Head, counts: Mapping[int, int]) -> list[bytes]:
    """The packets that were played of a recording: it is repeated where it is shorter, and cut where it is longer."""
    size, at = form_of(recording) or (PACKET, 0)
    packets = cut(recording[at + FORMS[size] :], size).packets
    if not packets:
        raise NotPlayed("no recording of this report: it has no packet")
    mine = played_counts(packets, head[0])
    if mine != counts:
        raise NotPlayed(f"no recording of this report: {difference(mine, head[0], sum(counts.values()), counts)}")
    return (packets * (head[0] // len(packets) + 1))[: head[0]]


def played_counts(packets: list[bytes], number: int) -> Counter[int]:
    """How many packets each PID has where a recording is played up to so many packets."""
    times, rest = divmod(number, len(packets))
    whole = counted(packets)
    return Counter({pid: times * count for pid, count in whole.items() if times}) + counted(packets[:rest])


def difference(mine: Counter[int], number: int, other: int, counts: Mapping[int, int]) -> str:
    """How packets differ from those of the report: in their number, or by a PID."""
    if number != other:
        return f"it has {many(number, 'packet')}, the report {other:,}"
    pid = min(pid for pid in mine.keys() | counts.keys() if mine[pid] != counts.get(pid, 0))
    return f"it has {many(mine[pid], 'packet')} of PID {pid_text(pid)} in {number:,}, the report {counts.get(pid, 0):,}"
