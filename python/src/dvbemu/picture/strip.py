"""The upper part of a picture: the stream, the axis with batches and moments, and the clients' commands."""
from __future__ import annotations

from collections import Counter
from typing import TYPE_CHECKING

from .. import reports
from ..reports import Pass
from .axis import CELL
from .lanes import Part
from .marks import BOXES, Group, reply_words
from .svg import (
    BLACK, END, GREY, LEAST_WIDTH, LEFT, MIDDLE, PURPLE, RIGHT, SKY, SMALL, Labels, counted, heading, line, rect, short_number, side,
    text, upright, width_of,
)  # fmt: skip

if TYPE_CHECKING:
    from typing import Sequence

    from ..reports import Entry, Outcome, Report
    from .axis import Axis
    from .lanes import Seen

BOX, ROOM = 54, 76


class Box:
    """A box of commands, or of one that has room for itself: its edges, the commands, and how often they ended in which way."""

    def __init__(self, left: float, right: float) -> None:
        self.left, self.right, self.is_narrow = left, right, right - left < CELL
        self.commands: Group[Outcome] = Group()
        self.kinds: Counter[str] = Counter()

    def add(self, command: Outcome, kind: str) -> None:
        """Another command, which ended in this way."""
        self.commands.add(command)
        self.kinds[kind] += 1


class Strip:
    """The stream, the axis and the clients' commands, from the height y on. What it uses of the legend is in `used`, and the calls that it
    tells of are `wanted`."""

    def __init__(self, title: str, report: Report, axis: Axis, y: float) -> None:
        self.title, self.report, self.axis, self.y = title, report, axis, y
        self.used: set[str] = set()
        self.boxes = {client: self.boxes_of(client, outcomes) for client, outcomes in enumerate(report.clients) if outcomes}
        self.wanted = {(client, step) for client, boxes in self.boxes.items() for box in boxes for command in box.commands.shown
                       for step in (command.first, command.after - 1)}  # fmt: skip
        self.calls: dict[tuple[int, int], tuple[int, Entry]] = {}
        self.pid_lines = pid_lines(report)
        self.passes_y = y + 44 + 13 * len(self.pid_lines)
        self.clients_y = self.passes_y + (58 if axis.has_batches else 0)
        self.bottom = self.clients_y + ROOM * len(self.boxes) + 8

    def head(self) -> list[str]:
        """The title and the stream, above all strips."""
        report = self.report
        packets, skipped, rest = counted(report.packets, "packet"), counted(report.skipped, "byte"), counted(report.rest, "byte")
        words = f"{packets}, {skipped} skipped, {rest} left over" + ("; reading failed in the stream" if report.read_fault else "")
        pids = [text(8, self.y + 49 + 13 * number, words, 10, f'fill="{GREY}"') for number, words in enumerate(self.pid_lines)]
        return [heading(8, self.y + 18, self.title), text(8, self.y + 34, words, 11), *pids]

    def parts(self, seen: Seen) -> list[Part]:
        """The axis and the clients, each with its name, where it begins and ends, and its shapes."""
        self.calls, y = seen.calls, self.clients_y
        found = [Part("axis", self.passes_y, y, self.draw_passes() + self.draw_moments(seen))] if self.axis.has_batches else []
        for client, boxes in self.boxes.items():
            found.append(Part(f"c{client}", y, y + ROOM, self.draw_client(client, boxes, y)))
            y += ROOM
        return found

    def labels(self, y: float, look: str = "") -> Labels:
        """Numbers on one line."""
        return Labels(y, LEFT - 4, self.axis.right + RIGHT, look, self.axis.cuts[:-1])

    # ------ the axis

    def draw_passes(self) -> list[str]:
        """The batches, each with its packets and, below, its number; the last is End."""
        axis, y, packets = self.axis, self.passes_y, Counter[int]()
        found = [side(y + 15, "packets passed"), side(y + 31, "batch"),
                 line(LEFT, y + 21, axis.right, y + 21, f'stroke="{BLACK}" stroke-width="0.7"')]  # fmt: skip
        numbers, wide = self.labels(y + 31), axis.cell_width() - 1.5
        groups: dict[int, Group[tuple[int, Entry | Pass]]] = {}
        passes = (row for row in next(iter(self.report.nodes.values())).rows() if isinstance(row, Pass) or row.who == "feed")
        for number, row in enumerate(passes):
            cell = axis.cell(axis.batches[number])
            groups.setdefault(cell, Group()).add((number, row))
            packets[cell] += row.packets if isinstance(row, Pass) else 0
        for cell, group in groups.items():
            x = axis.cell_middle(cell)
            words = group.words(lambda thing: feed_words(thing[1]))
            found.append(rect(x - wide / 2, y + 4, wide, 16, f'fill="{SKY}" fill-opacity="0.5"', words))
            found.append(text(x, y + 15, short_number(packets[cell]) if packets[cell] else "end", SMALL, MIDDLE))
            found += numbers.number_at(x, str(group.shown[0][0]) if packets[cell] else "end")
        self.used |= numbers.used
        return found

    def draw_moments(self, seen: Seen) -> list[str]:
        """A tick where the moment rises, with the time since the first where there is room."""
        y, first = self.passes_y + 34, min((at for at in seen.moments if at is not None), default=0)
        drawn: float = -10
        found, labels = [side(y + 13, "ms since first" if first else "moment, ms")], self.labels(y + 13)
        for column, moment in seen.rises():
            x = self.axis.middle(column)
            if x - drawn >= 4:
                found.append(line(x, y, x, y + 4, f'stroke="{PURPLE}" stroke-width="1"'))
                drawn = x
                found += labels.number_at(x, str(moment - first))
        self.used |= labels.used
        return found

    def guides(self, bottom: float) -> list[str]:
        """Stripes down to the lanes' end, where a batch passes; where columns are gathered none."""
        y, look = self.passes_y + 20, f'fill="{SKY}" fill-opacity="0.1"'
        edges = [(self.axis.left(column), self.axis.left(column + 1)) for column in self.axis.batches if not self.axis.gathers]
        return [rect(x, y, to - x - 1.5, bottom - y, look) for x, to in edges]

    # ------ the clients

    def boxes_of(self, client: int, outcomes: Sequence[Outcome]) -> list[Box]:
        """The boxes of a client: of a command alone, or of several that are too narrow for one each."""
        found: list[Box] = []
        for number, outcome in enumerate(outcomes):
            first, last = self.axis.command(client, number, outcome)
            x, to = self.axis.left(first), self.axis.left(last + 1)
            before = found[-1] if found else None
            if before and before.is_narrow and to - x < CELL and to - before.left <= 1.5 * CELL:
                before.right = max(to, before.right)
            else:
                x = max(x, before.right) if before else x
                found.append(Box(x, max(to, x)))
                found[-1].is_narrow = to - x < CELL
            found[-1].add(outcome, self.kind_of(client, outcome))
        return found

    def kind_of(self, client: int, command: Outcome) -> str:
        """How a command ended: by its outcome, or by its last call, where that was refused."""
        if command.kind in ("EMFILE", "unbound", "nostc"):
            return command.kind
        is_refused = command.after > command.first and command.after - 1 in self.axis.refused[client]
        return "refused command" if is_refused else "done"

    def draw_client(self, client: int, boxes: Sequence[Box], y: float) -> list[str]:
        """A client's commands, each as wide as its calls: what it first called, its last reply, how many calls, and its line."""
        found = [text(LEFT - 8, y + 14, f"client {client}", 10, f'{END} font-weight="bold"')]
        found += [side(y + 25, "call, last reply"), side(y + BOX + 11, "line")]
        numbers = self.labels(y + BOX + 11, f'fill="{GREY}"')
        for box, room in zip(boxes, [box.left for box in boxes[1:]] + [self.axis.right]):
            x, to, first, last = box.left, box.right, box.commands.shown[0], box.commands.last
            kind = next(iter(box.kinds)) if len(box.kinds) == 1 else "done"
            self.used.add(kind)
            words = box.commands.words(lambda command: self.command_words(client, command))
            found.append(rect(x, y + 2, max(to - x - 1.5, 1), BOX, f'rx="3" {BOXES[kind][0]}', words))
            seen = self.axis.seen(x, to - 1.5)
            for part in seen if to - x >= 11 else ():
                found += self.command_texts(client, box, *part, y + 2)
            found += self.words_beside(client, box, min(room, self.axis.end_of_strip(to)), y + 2) if to - x < 11 else []
            found += numbers.number_at(sum(seen[0]) / 2, f"{first.line}-{last.line}" if box.commands.count > 1 else str(first.line))
        self.used |= numbers.used
        return found

    def command_texts(self, client: int, box: Box, x: float, to: float, y: float) -> list[str]:
        """The texts in a command's box, upright where there is no room across."""
        wide, middle, command = to - x, (x + to) / 2, box.commands.shown[0]
        call, reply = self.call_names(client, command)
        count = counted(command.after - command.first, "call") if command.after - command.first > 1 else ""
        if box.commands.count > 1:
            call, reply, refused = short_count(box.commands.count, "command", BOX - 6), "", box.kinds["refused command"]
            count = f"{refused} refused" if refused else ""
        if width_of(call, SMALL) > wide:
            lines = [call, reply or count] if (reply or count) and wide >= 20 else [call]
            places = [middle - 5, middle + 5] if len(lines) > 1 else [middle]
            return [upright(x, y + BOX / 2, words, SMALL) for x, words in zip(places, lines) if width_of(words, SMALL) <= BOX]
        below = (26, reply, f'{MIDDLE} fill="{GREY}"'), (39, count, MIDDLE)
        fitting = [text(middle, y + down, words, SMALL, look) for down, words, look in below if width_of(words, SMALL) <= wide]
        return [text(middle, y + 14, call, SMALL, MIDDLE), *fitting]

    def words_beside(self, client: int, box: Box, room: float, y: float) -> list[str]:
        """The texts of a box that is too narrow for any, beside it where there is room."""
        group, x = box.commands, box.right + 2
        steps = group.last.after - group.shown[0].first
        names = counted(group.count, "command") if group.count > 1 else self.call_names(client, group.shown[0])[0]
        words = [f"{names}, {counted(steps, 'call')}" if steps > 1 else names, names]
        return [text(x, y + BOX / 2, told, SMALL) for told in words if x + width_of(told, SMALL) <= room][:1]

    def call_names(self, client: int, command: Outcome) -> tuple[str, str]:
        """The names of a command's first call and of its last reply, or its kind where it made none."""
        first, last = self.calls.get((client, command.first)), self.calls.get((client, command.after - 1))
        if command.first == command.after or not first or not last:
            return command.kind.partition(" ")[0], ""
        return first[1].act.partition(" ")[0], "EMFILE" if command.kind == "EMFILE" else last[1].reply.partition(" ")[0]

    def command_words(self, client: int, command: Outcome) -> str:
        """A command with its first and its last call."""
        words = f"line {command.line}, steps {command.first}..{command.after}, {command.kind}"
        for step in sorted({command.first, command.after - 1}) if command.after > command.first else []:
            if (client, step) in self.calls:
                node, entry = self.calls[client, step]
                words += f"; step {step} on {reports.node_name(node)}: {entry.act} = {reply_words(entry.reply)}"
        return words


def feed_words(row: Entry | Pass) -> str:
    """What passes, for a title."""
    entry = row.entry() if isinstance(row, Pass) else row
    return f"feed {entry.step} {entry.act}"


def short_count(count: int, name: str, room: float) -> str:
    """A number of things, in fewer letters where it has no room."""
    return counted(count, name) if width_of(counted(count, name), SMALL) <= room else f"{count} {name[:3]}."


def pid_lines(report: Report) -> list[str]:
    """The PIDs with their counts, a few on each line."""
    found: list[str] = []
    for row in report.pids[:40]:
        counts = (("break", row.breaks), ("duplicate", row.duplicates), ("error", row.errors))
        told = [counted(count, name) for name, count in counts if count]
        add_word(found, f"PID {row.pid}: {row.packets}" + (f" ({', '.join(told)})" if told else ""))
    if len(report.pids) > 40:
        add_word(found, f"and {len(report.pids) - 40} more PIDs")
    return found


def add_word(lines: list[str], word: str) -> None:
    """Puts a word behind the others, in a line of its own where the last one is full."""
    longer = f"{lines[-1]} · {word}" if lines else word
    lines[-1:] = [longer] if len(longer) <= 110 else [*lines[-1:], word]


def least_width(strip: Strip) -> float:
    """How wide the texts above are."""
    return max([LEAST_WIDTH, *(16 + width_of(words, 10) for words in strip.pid_lines)])
