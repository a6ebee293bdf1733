"""The lanes of a picture: a node each, on the axis that all share. A node's entries are gone through once, and only what is drawn is kept."""
from __future__ import annotations

from array import array
from collections import Counter
from typing import TYPE_CHECKING, NamedTuple

from .. import reports
from ..reports import Pass
from ..explain import unread
from .marks import BOXES, ROW, Group, error_of, gather, name_of, rows_of
from .svg import (
    BLACK, GREEN, GREY, LEAST_WIDTH, LEFT, PALE, PURPLE, RED, RIGHT, SMALL, Labels, counted, heading, line, path, rect, side, text,
    width_of,
)  # fmt: skip

if TYPE_CHECKING:
    from typing import Iterable, Iterator, Sequence, TypeVar

    from ..reports import Act, Entries, Entry, Report
    from .axis import Axis
    from .marks import Groups
    from .svg import Step

    T = TypeVar("T")

CHART = 68
HALO = 'paint-order="stroke" stroke="#ffffff" stroke-width="2.5"'
QUIET_CALLS = ("open", "close", "size")


class Part(NamedTuple):
    """The axis with the batches, a client or a node: its name, the heights at which it begins and ends, and its shapes."""

    name: str
    top: float
    bottom: float
    shapes: list[str]


class Seen:
    """What is seen of all nodes: the greatest moment of each column, and the calls that are asked for, by client and step, each with its node."""

    def __init__(self, axis: Axis, wanted: set[tuple[int, int]]) -> None:
        self.moments: list[int | None] = [None] * axis.count
        self.calls: dict[tuple[int, int], tuple[int, Entry]] = {}
        self.wanted = wanted

    def rises(self) -> Iterator[tuple[int, int]]:
        """The columns at which the moment rises, each with the moment."""
        last = -1
        for column, at in enumerate(self.moments):
            if at is not None and at > last:
                yield column, at
                last = at


class Filled(NamedTuple):
    """A column of the area of unread bytes: its edges, and the least and the most bytes in it."""

    left: float
    right: float
    least: int
    most: int


class Lane:
    """The picture of one node, from the height y on. What it uses of the legend is in `used`."""

    def __init__(self, node: int, entries: Entries, axis: Axis, y: float, seen: Seen) -> None:
        self.node, self.name, self.axis, self.y, self.seen = node, reports.node_name(node), axis, y, seen
        self.used: set[str] = set()
        self.columns, self.batches = array("Q"), iter(axis.batches)
        self.groups: Groups = {}
        self.counts: Counter[str] = Counter()
        self.is_quiet = True
        self.history = unread.History(node, entries, self.see)
        high = self.history.high
        self.is_quiet = self.is_quiet and not self.history.captures
        self.rows = rows_of(self.groups, axis)
        self.most = max((level for level in high if level is not None), default=0)
        self.has_chart = any(level != 0 for level in high) or bool(self.history.losses())
        self.chart_y = y + 32
        self.rows_y = self.chart_y + (CHART + 6 if self.has_chart else -6)
        self.band_y = self.rows_y + sum(row.height for row in self.rows)
        self.bottom = self.band_y + (ROW if self.history.captures else 0) + 10
        # The number of bytes at the chart's upper edge: above the sizes where they aren't far above the fill.
        largest = max((size for size, level in zip(self.history.sizes, high) if size and (level or not self.most)), default=1)
        self.top = largest * 1.15 if largest <= 3 * self.most or not self.most else self.most * 1.4

    def see(self, row: Entry | Pass, act: Act | None) -> None:
        """Takes the next entry."""
        if isinstance(row, Pass):
            column, at = next(self.batches), row.at
        else:
            column = next(self.batches) if row.who == "feed" else self.see_call(row)
            at = act.get("at", -1) if act else -1
        self.columns.append(column)
        if at > (self.seen.moments[column] or -1):
            self.seen.moments[column] = at

    def see_call(self, entry: Entry) -> int:
        """Takes a client's entry, and tells its column."""
        client, is_done, name = int(entry.who[1]), entry.reply.startswith("done "), name_of(entry)
        column = self.axis.calls[client][entry.step]
        gather(self.groups, self.axis.cell(column), entry)
        self.counts[name if is_done else error_of(entry)] += 1
        self.is_quiet = self.is_quiet and (not is_done or name in QUIET_CALLS)
        if (client, entry.step) in self.seen.wanted:
            self.seen.calls[client, entry.step] = self.node, entry
        return column

    def left(self, place: int) -> float:
        """The left edge of an entry's column, or the axis' right end behind the last."""
        return self.axis.left(self.columns[place]) if place < len(self.columns) else self.axis.right

    def placed(self, things: Iterable[T], place_of: str) -> list[tuple[int, Group[T]]]:
        """Things by the cells of the places that they have under this name."""
        return self.axis.gather((self.columns[getattr(thing, place_of)], thing) for thing in things)

    def box(self, kind: str, x: float, y: float, to: float, height: float, words: str = "", least: float = 1.0, more: str = "") -> str:
        """A box of a kind, from x to another place."""
        self.used.add(kind)
        return rect(x, y, max(to - x, least), height, BOXES[kind][0] + more, words)

    def draw(self) -> Part:
        """All of it."""
        found = head(self.axis, self.y, f"node {self.name}", counted(sum(self.counts.values()), "call")
                     + ("" if self.has_chart else "; no bytes come to its reader"))  # fmt: skip
        if self.has_chart:
            found += [*self.axis_of_bytes(), *self.area(), *self.unknown(), *self.losses(), *self.size_line()]
        found += self.expiries()
        y = self.rows_y
        for row in self.rows:
            found += row.draw(self.axis, y, self.used)
            y += row.height
        if self.history.captures:
            found.append(side(self.band_y + 12, "captures"))
        for _, group in self.placed(self.history.captures, "begin"):
            found += self.band(group)
        return Part(self.name, self.y, self.bottom, found)

    # ------ the chart

    def height(self, level: float) -> float:
        """Where a number of bytes stands in the chart."""
        return self.chart_y + CHART * (1 - min(level, self.top) / self.top)

    def axis_of_bytes(self) -> list[str]:
        """The numbers at the chart's left, and its ground line."""
        ground, at = self.chart_y + CHART, self.height(self.most)
        found = [line(LEFT, ground, self.axis.right, ground, f'stroke="{GREY}" stroke-width="0.7"'), side(ground, "0")]
        if self.most:
            found += [side(at + 3, f"{self.most}"), line(LEFT - 5, at, LEFT, at, f'stroke="{GREY}" stroke-width="0.7"')]
        return [*found, text(8, ground, "bytes unread", 9, f'fill="{GREY}"')]

    def columns_of_area(self) -> list[Filled]:
        """Left, right, minimum and maximum of each column of the area. If entries are too many, a column is one point wide."""
        levels = zip(range(len(self.columns)), self.history.low, self.history.high)
        if not self.axis.gathers:
            return [Filled(self.left(place), self.left(place + 1), low or 0, high or 0) for place, low, high in levels]
        found: dict[int, tuple[int, int]] = {}
        to = self.left(0)
        for place, low, high in levels:
            x, to = to, self.left(place + 1)
            for point in range(int(x), max(int(x) + 1, int(to))):
                least, most = found.get(point, (low or 0, high or 0))
                found[point] = (min(least, low or 0), max(most, high or 0))
        return [Filled(point, point + 1, *found[point]) for point in sorted(found)]

    def area(self) -> list[str]:
        """The area of the unread bytes: up to the least of a column in full, up to the most pale."""
        columns = self.columns_of_area()
        is_pale = any(column.least != column.most for column in columns)
        levels = {"perhaps": [column.most for column in columns]} if is_pale else {}
        ground, found = self.height(0), []
        for kind, heights in {**levels, "unread": [column.least for column in columns]}.items():
            height = ground
            steps: list[Step] = [("M", columns[0].left, height)]
            for column, level in zip(columns, heights):
                before, height = height, self.height(level)
                if before != height:
                    steps += [("L", column.left, before), ("L", column.left, height)]
            steps += [("L", columns[-1].right, height), ("L", columns[-1].right, ground), ("Z",)]
            found.append(path(steps, BOXES[kind][0]))
        self.used |= {*levels, *(["unread"] if self.most else [])}
        return found

    def unknown(self) -> list[str]:
        """Where nothing tells the unread bytes."""
        found, runs = [], [run for run in runs_of(level is None for level in self.history.high) if run.value]
        for _, group in self.placed(runs, "first"):
            first, last = group.shown[0].first, group.last.after
            words = f"places {first} to {last - 1}: nothing in the report tells what is unread"
            found.append(self.box("untold", self.left(first), self.chart_y + CHART - 10, self.left(last), 10, words))
        return found

    def losses(self) -> list[str]:
        """The overflow spans, with item, need and room; where several are gathered, a stripe at the chart's upper edge."""
        found, labels = [], self.labels(self.chart_y - 3, f'fill="{RED}" font-weight="bold"')
        for _, group in self.placed(self.history.losses(), "told"):
            loss, words = group.shown[0], group.words(loss_words)
            x, to = self.left(loss.sure), self.axis.left(self.columns[group.last.told] + 1)
            self.used.add("lost")
            if group.count > 1:
                found.append(rect(x, self.chart_y - 9, max(to - x, 1.5), 6, f'fill="{RED}"', words))
                found += labels.at((x + to) / 2, f"{group.count} overflows")
                continue
            if loss.first < loss.sure:
                found.append(self.box("perhaps lost", self.left(loss.first), self.chart_y, x, CHART, words))
            found.append(self.box("lost", x, self.chart_y, to, CHART, words, 1.5, ' stroke-width="0.8"'))
            found += labels.at((x + to) / 2, loss_label(loss)) or labels.at((x + to) / 2, "lost")
        return found

    def labels(self, y: float, look: str = "") -> Labels:
        """Labels within the lane."""
        right = self.axis.right if len(self.axis.cuts) > 1 else max(self.axis.right + RIGHT, LEAST_WIDTH) - 6
        return Labels(y, LEFT - 4, right, look, self.axis.cuts[:-1])

    def size_line(self) -> list[str]:
        """The line of the buffer's size; dotted at the upper edge where it is above the scale."""
        found = []
        for first, after, size in runs_of(self.history.sizes):
            x, to = self.left(first), self.left(after)
            if not size or to - x < 0.5:
                continue
            self.used.add("size line")
            is_above, height = size > self.top, self.height(size)
            dashes = 'stroke-dasharray="2 3"' if is_above else ""
            found.append(line(x, height, to, height, f'stroke="{BLACK}" stroke-width="1.2" {dashes}'))
            names = [f"size {size}" + (" (above the scale)" if is_above else ""), f"size {size}", str(size)]
            found += self.named(names, x, to, height + 9 if is_above else height - 3, 4, HALO)
        return found

    def named(self, names: Sequence[str], x: float, to: float, y: float, ahead: float, look: str = "") -> list[str]:
        """The first of the names that fits in between, in each strip."""
        found = []
        for begin, end in self.axis.seen(x, to):
            fitting = [name for name in names if width_of(name, SMALL) <= end - begin - ahead]
            found += [text(begin + ahead, y, name, SMALL, look) for name in fitting[:1]]
        return found

    def expiries(self) -> list[str]:
        """A line where a timeout is over."""
        found, top = [], self.chart_y if self.has_chart else self.rows_y
        labels = self.labels(top - 3)
        for _, group in self.placed(self.history.expiries(), "place"):
            x = self.left(group.shown[0].place)
            found.append(line(x, top - 2, x, self.band_y + ROW, f'stroke="{PURPLE}" stroke-width="2"'))
            self.used.add("expiry")
            found += labels.at(x, "timeout is over" if group.count == 1 else f"{group.count} timeouts")
        return found

    # ------ captures

    def band(self, group: Group[unread.Capture]) -> list[str]:
        """The band of a capture, or of several that are gathered: green while packets are offered, pale behind a stop or a timeout."""
        capture, y = group.shown[0], self.band_y
        x, to = self.left(capture.begin), self.end_of(group.last)
        quiet = to if group.count > 1 or capture.quiet is None else self.left(capture.quiet)
        look = f'fill="{GREEN}" fill-opacity="0.12" stroke="{GREEN}" stroke-width="0.8"'
        found = [rect(x, y + 1, max(to - x, 1), ROW - 3, look, group.words(capture_words))]
        found.append(rect(x, y + 1, max(quiet - x, 1), ROW - 3, f'fill="{GREEN}" fill-opacity="0.35" pointer-events="none"'))
        self.used |= {"capture"} if quiet >= to else {"capture", "quiet"}
        return found + (self.parts(capture) if group.count == 1 else self.named([counted(group.count, "capture")], x, to, y + 12, 3))

    def parts(self, capture: unread.Capture) -> list[str]:
        """What a capture takes, from which place on: a filter's PIDs, as AddPid and RemovePid have left them."""
        found, edges = [], [self.left(place) for place, _ in capture.labels] + [self.end_of(capture)]
        kind = "" if capture.kind == "dvr" else f"{capture.kind} of "
        for number, (_, (label, short)) in enumerate(capture.labels):
            x, to = edges[number : number + 2]
            if number:
                found.append(line(x, self.band_y + 1, x, self.band_y + ROW - 2, f'stroke="{GREEN}"'))
            names = self.named([kind + label, label, short], x, to, self.band_y + 12, 3)
            kind = "" if names and kind + label in names[0] else kind
            found += names
        return found

    def end_of(self, capture: unread.Capture) -> float:
        """Where a capture's band ends."""
        return self.axis.right if capture.end is None else self.left(capture.end)


def head(axis: Axis, y: float, title: str, words: str) -> list[str]:
    """A lane's rule, its title, and what is told of it."""
    rule = line(8, y + 2, axis.right, y + 2, f'stroke="{PALE}"')
    return [rule, heading(8, y + 18, title), text(LEFT, y + 18, words, 10, f'fill="{GREY}"')]


def quiet_part(lanes: Sequence[Lane], axis: Axis, y: float, used: set[str]) -> Part:
    """The nodes on which nothing was done but opens, closes, sizes and refusals, in one lane: what was called, and where it was refused."""
    name, counts = ranges(lane.node for lane in lanes), sum((lane.counts for lane in lanes), Counter[str]())
    groups: Groups = {}
    for lane in lanes:
        for kind, cells in lane.groups.items():
            for cell, group in cells.items():
                groups.setdefault(kind, {}).setdefault(cell, Group()).join(group)
    told = ", ".join(f"{count} {called}" for called, count in counts.items())
    title = counted(len(lanes), "node") if len(lanes) > 1 else f"node {name}"
    found, below = head(axis, y, title, f"{name}: nothing but opens, closes, sizes and refusals ({told})"), y + 26
    for row in rows_of(groups, axis):
        found += row.draw(axis, below, set())
        used.add(row.key)
        below += row.height
    return Part(name, y, below + 10, found)


def ranges(numbers: Iterable[int]) -> str:
    """Nodes in words: `n1 to n3, n7, dvr`."""
    runs: list[list[int]] = []
    for number in sorted(numbers):
        if runs and runs[-1][1] == number - 1 and number != reports.DVR:
            runs[-1][1] = number
        else:
            runs.append([number, number])
    names = [(reports.node_name(first), reports.node_name(last)) for first, last in runs]
    return ", ".join(first if first == last else f"{first} to {last}" for first, last in names)


def lanes_of(report: Report, axis: Axis, y: float, seen: Seen, used: set[str]) -> list[Part]:
    """The lanes of a report's nodes, from the height y on, the quiet ones in one."""
    found, quiet = [], []
    for node, entries in report.nodes.items():
        lane = Lane(node, entries, axis, y, seen)
        if lane.is_quiet:
            quiet.append(lane)
        else:
            found.append(lane.draw())
            used |= lane.used
            y = lane.bottom
    return found + ([quiet_part(quiet, axis, y, used)] if quiet else [])


class Run(NamedTuple):
    """A run of equal values: its first place, the place behind its last, and the value."""

    first: int
    after: int
    value: int | None


def runs_of(values: Iterable[int | None]) -> list[Run]:
    """The runs of equal values."""
    found: list[Run] = []
    first, place, last = 0, -1, None
    for place, value in enumerate(values):
        if value != last and place:
            found.append(Run(first, place, last))
            first = place
        last = value
    return [*found, Run(first, place + 1, last)]


def loss_label(loss: unread.Loss) -> str:
    """An overflow in a few words."""
    if loss.reply is None:
        return "overflow that no read tells"
    return "lost {span[0]}..{span[1]}: item {item} needs {need}, room {room}".format(**loss.reply)


def loss_words(loss: unread.Loss) -> str:
    """An overflow in the words of its reply."""
    if loss.reply is None:
        return f"overflow that no read tells, from place {loss.first} on at the latest"
    since = f"place {loss.sure}" if loss.first == loss.sure else f"one of the places {loss.first} to {loss.sure}"
    what = "overflow {span[0]}..{span[1]} item={item} need={need} room={room}".format(**loss.reply)
    return f"{what}, from {since} on, told at place {loss.told}"


def capture_words(capture: unread.Capture) -> str:
    """A capture in words."""
    end = "the end of the report" if capture.end is None else f"place {capture.end}"
    quiet = "" if capture.quiet is None else f", no further packets from place {capture.quiet} on"
    taken = ", ".join(f"from place {place} on {label}" for place, (label, _) in capture.labels)
    return f"capture of {capture.kind} to {end}{quiet}: {taken}; {capture.words}"
