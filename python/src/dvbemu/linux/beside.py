"""A session by the rules here and by those of Linux, line by line: which replies differ, and by which rows of docs/KERNEL.md.

A row is named for a line where Linux's rules give the reply here once that row alone is taken from them, or several rows
together."""
from __future__ import annotations

import re
import struct
from bisect import bisect_right
from typing import TYPE_CHECKING, NamedTuple

from .. import reports
from ..inputs import many
from ..reports import DVR
from .adapter import HERTZ
from .points import Point
from .session import NO_NODE, Event, Run, Session

if TYPE_CHECKING:
    from typing import Dict, FrozenSet, Iterable, Iterator, List, Sequence, Tuple

    from .parts import Reply

    # The events of each line, by its number; and of each call of a report, by its client and step, all but line and client.
    Lines = Dict[int, List[Event]]
    Calls = Dict[Tuple[str, int], Tuple[int, str, Reply, int]]
    Points = FrozenSet[Point]

# How many packets a pass has in a report, and how many it may have.
PASS, MOST_BATCH = re.compile(r" pass input=frontend first=\d+ count=(\d+) "), 64
# The most runs in which rows are sought, and how many replies are looked at to find where two rows of them go on alike.
MOST_RUNS, AHEAD = 100, 16
# The errors by which replies are told, and how many bytes of data are shown.
ERRORS = {"again": "EAGAIN", "overflow": "EOVERFLOW", "timedout": "ETIMEDOUT", "busy": "EBUSY"}
SHOWN = 16
# The acts of clients that no program makes.
OWN_ACTS = "attach", "detach", "pass"


# ------ the replies here


def batch_of(rows: Iterable[str]) -> int:
    """A batch by which `steps` comes to a report of its own, which has these lines."""
    return max((int(found[1]) for found in map(PASS.search, rows) if found), default=MOST_BATCH)


def reply_here(text: str) -> Reply:
    """A reply of a report in the words of the model."""
    if text.startswith("data "):
        return bytes.fromhex(text[5:].strip("-"))
    name, *words = text.split(" ")
    if name == "ready":
        return f"ready {words[0]} error={int(words[1] != 'error=none')}"
    return name


def events_here(report: Iterable[str], session: Session) -> list[Event]:
    """The calls of a report of `steps`, which has these lines, in the order of the script's."""
    outcomes: list[tuple[int, reports.Outcome]] = []
    calls: Calls = {}
    client, node, given = 0, NO_NODE, 0
    for row in report:
        first, _, rest = row.partition(" ")
        if first == "client":
            client = int(rest)
        elif first == "line":
            outcomes.append((client, reports.Outcome.of(row)))
        elif first == "node":
            node, given = reports.node_of(rest), 0
        elif first.isdigit():
            entry = reports.Entry.of(row)
            name, *words = entry.act.split(" ")
            if entry.who == "feed":
                given += int(words[2][6:]) if name == "pass" else 0
            elif name not in OWN_ACTS:
                call = f"read {words[0]}" if name == "read" else name
                calls[entry.who, entry.step] = node, call, reply_here(entry.reply), given
    return list(in_order(sorted(outcomes, key=lambda one: one[1].line), calls, session))


def in_order(outcomes: Iterable[tuple[int, reports.Outcome]], calls: Calls, session: Session) -> Iterator[Event]:
    """The calls of commands, one behind the other; a write is one, and what makes no call has its outcome."""
    writes = {line.number for line in session.lines if line.command == "write"}
    for client, outcome in outcomes:
        if outcome.line in writes:
            yield Event(outcome.line, client, DVR, "write", "done", 0)
            continue
        for step in range(outcome.first, outcome.after):
            if (f"c{client}", step) in calls:
                yield Event(outcome.line, client, *calls[f"c{client}", step])
        if outcome.kind != "done":
            yield Event(outcome.line, client, NO_NODE, "", outcome.kind, 0)


def spoken(reply: Reply) -> str:
    """A reply as it is told."""
    if isinstance(reply, bytes):
        return many(len(reply), "byte") + (f": {reply[:SHOWN].hex()}" if reply else "") + ".." * (len(reply) > SHOWN)
    if reply.startswith("ready"):
        is_readable, is_wrong = reply[-9] == "1", reply[-1] == "1"
        return "poll: " + ("POLLIN" + " POLLERR" * is_wrong if is_readable else "nothing")
    return ERRORS.get(reply, reply)


def told(found: Sequence[Reply]) -> str:
    """Replies as they are told: the first, and how many more there are."""
    return "no call" if not found else spoken(found[0]) + (f", and {len(found) - 1:,} more" if found[1:] else "")


# ------ both


class Cause(NamedTuple):
    """A row of docs/KERNEL.md, and the line in which it made a difference."""

    point: Point
    line: int


class Change(NamedTuple):
    """Replies of a line that differ: from which on, those here, and those of Linux."""

    place: int
    here: list[Reply]
    there: list[Reply]


def by_line(events: Iterable[Event]) -> Lines:
    """Events by their lines."""
    found: Lines = {}
    for event in events:
        found.setdefault(event.line, []).append(event)
    return found


def replies(events: Iterable[Event]) -> list[Reply]:
    """The replies of events."""
    return [event.reply for event in events]


def alike_again(here: list[Reply], there: list[Reply]) -> tuple[int, int]:
    """How many replies there are in front of the first that is alike in both; all where none is near."""
    for ahead in range(1, 2 * AHEAD):
        for one in range(max(ahead - len(there) + 1, 0), min(ahead + 1, len(here))):
            if here[one] == there[ahead - one]:
                return one, ahead - one
    return len(here), len(there)


def differences(here: list[Reply], there: list[Reply]) -> Iterator[Change]:
    """What differs in two rows of replies."""
    one = two = 0
    while one < len(here) or two < len(there):
        if one < len(here) and two < len(there) and here[one] == there[two]:
            one, two = one + 1, two + 1
            continue
        near = 2 * AHEAD
        some, others = alike_again(here[one : one + near], there[two : two + near])
        if some == min(near, len(here) - one) and others == min(near, len(there) - two):
            some, others = len(here) - one, len(there) - two
        yield Change(one, here[one : one + some], there[two : two + others])
        one, two = one + some, two + others


class Beside:
    """A session here and by the rules of Linux. `lines` are those that are compared, `differing` those whose replies differ, and
    `undefined` is the line from which on nothing can be told."""

    def __init__(self, session: Session, here: Iterable[Event], batch: int, hertz: int = HERTZ) -> None:
        self.session, self.batch, self.hertz = session, batch, hertz
        run = Run(session, batch, (), hertz).lines()
        self.here, self.there, self.met, self.undefined = by_line(here), by_line(run.events), run.adapter.met, run.undefined
        self.lines = [line for line in self.here if self.undefined is None or line < self.undefined]
        self.differing = [line for line in self.lines if replies(self.here[line]) != replies(self.there.get(line, []))]
        # for each set of rows that a run leaves out: the lines that it answers as here, and the rows that took effect, each
        # with its first line; and the sets of rows that explain some line only together
        self.without: dict[Points, tuple[set[int], dict[Point, int]]] = {}
        self.together: list[Points] = []

    def is_same(self) -> bool:
        """Whether all is alike."""
        return not self.differing and self.undefined is None

    def calls(self) -> int:
        """How many calls are compared."""
        return sum(len(self.here[line]) for line in self.lines)

    def minus(self, points: Points) -> tuple[set[int], dict[Point, int]]:
        """What a run without these rows shows."""
        if points not in self.without:
            run = Run(self.session, self.batch, points, self.hertz).lines(self.differing[-1])
            found = by_line(run.events)
            alike = {line for line in self.differing if replies(found.get(line, [])) == replies(self.here[line])}
            self.without[points] = alike, {point: lines[0] for point, lines in run.adapter.met.items()}
        return self.without[points]

    def gives(self, points: Iterable[Point], line: int) -> bool:
        """Whether Linux without these rows answers a line as it is answered here. Behind many runs nothing new is tried."""
        asked = frozenset(points)
        return (asked in self.without or len(self.without) < MOST_RUNS) and line in self.minus(asked)[0]

    def arose(self, point: Point, line: int) -> int:
        """The line up to this one in which a row made a difference last; 0 for none."""
        lines = self.met.get(point, [])
        return lines[bisect_right(lines, line) - 1] if lines and lines[0] <= line else 0

    def causes(self, line: int) -> list[Cause]:
        """The rows at work in Linux on which a line's difference hangs; none where they aren't found."""
        met = sorted((point for point in self.met if self.arose(point, line)), key=lambda point: -self.arose(point, line))
        sets = [*(frozenset([point]) for point in met), *self.together]
        found = next((points for points in sets if self.gives(points, line)), None) or self.several(met, line)
        return [Cause(point, self.arose(point, line)) for point in met if point in found]

    def several(self, met: list[Point], line: int) -> Points:
        """The rows that have to go together for the reply here: all that were met, and those that are met in their absence,
        less each that isn't needed."""
        gone = frozenset(met)
        while not self.gives(gone, line):
            then = self.without[gone][1] if gone in self.without else {}
            more = {point for point, first in then.items() if first <= line} - gone
            if not more:
                return frozenset()
            gone |= more
        for point in met:
            gone = gone - {point} if self.gives(gone - {point}, line) else gone
        self.together.append(gone)
        return gone

    def changes(self, line: int) -> tuple[int, list[Change]]:
        """How many replies a line has here, and what differs: without those by which a client waits, unless nothing else does."""
        both = replies(self.here[line]), replies(self.there.get(line, []))
        found = [[reply for reply in some[:-1] if reply != "again"] + some[-1:] for some in both]
        here, there = both if found[0] == found[1] else found
        return len(here), list(differences(here, there))

    def elsewhere(self, line: int) -> tuple[int, int] | None:
        """How many packets had passed before a line, here and on Linux, where that differs."""
        one, two = self.here[line][0], self.there.get(line, self.here[line])[0]
        return (one.given, two.given) if one.given != two.given and one.node != NO_NODE else None


def first_difference(report: reports.Report, text: bytes, packets: Sequence[bytes]) -> str:
    """The first line of a session that Linux would answer otherwise than a report of it by `steps`, in a sentence. Nothing
    where there is none, or the report is another one."""
    try:
        session = Session.of(text)._replace(packets=packets)
        batch, here = batch_of(lines_of(report)), events_here(lines_of(report), session)
    except (ValueError, KeyError, IndexError, struct.error):
        return ""
    both = Beside(session, here, batch)
    if not both.differing or replies(Run(session, batch, Point).lines().events) != replies(here):
        return ""
    line, *others = both.differing
    change, causes = both.changes(line)[1][0], both.causes(line)
    by = f", by '{causes[0].point.row}' in line {causes[0].line}: {causes[0].point.says}" if causes else ""
    more = f" `dvbemu beside SESSION` tells all {1 + len(others):,} such lines." if others else ""
    return f"Line {line} is answered {told(change.there)}, and not {told(change.here)}{by}.{more}"


def lines_of(report: reports.Report) -> Iterator[str]:
    """The lines of a report."""
    return (line.rstrip("\n") for line in reports.write(report))
