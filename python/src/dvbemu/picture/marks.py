"""The marks of a picture as tables of data: which entries are one, how each is drawn, the rows that they stand in, and the legend."""
from __future__ import annotations

import textwrap
from collections import Counter
from functools import partial
from typing import TYPE_CHECKING, Generic, NamedTuple, TypeVar

from .. import reports
from .svg import (
    BLACK, BLUE, GREEN, GREY, LEAST_WIDTH, MIDDLE, ORANGE, PALE, PURPLE, RED, SIGN, SKY, SMALL, WHITE, YELLOW, circle, counted,
    grouped, heading, path, rect, short_number, side, text, upright, width_of,
)  # fmt: skip

if TYPE_CHECKING:
    from typing import Callable, Collection, Dict, List, Sequence, Tuple

    from ..reports import Entry
    from .axis import Axis

    Mark = Callable[[float, float], List[str]]
    Point = Tuple[float, float]
    # The entries of each kind, by their cells.
    Groups = Dict[str, Dict[int, "Group[Entry]"]]

T = TypeVar("T")
ROW, WORDS_AT_ONCE = 18, 8


class Group(Generic[T]):
    """Things that share a place: how many, those that are shown, the last one, and how often each name is among them."""

    def __init__(self) -> None:
        self.count = 0
        self.shown: list[T] = []
        self.names: Counter[str] = Counter()

    def add(self, thing: T, name: str = "") -> None:
        """Puts one behind the others."""
        self.count += 1
        self.last = thing
        if self.count <= WORDS_AT_ONCE:
            self.shown.append(thing)
        self.names[name] += 1

    def join(self, other: Group[T]) -> None:
        """Puts those of another group behind the others."""
        self.count, self.shown, self.last = self.count + other.count, (self.shown + other.shown)[:WORDS_AT_ONCE], other.last
        self.names += other.names

    def words(self, say: Callable[[T], str]) -> str:
        """What a title says of them."""
        more = self.count - len(self.shown)
        head = [f"{self.count} here:"] if self.count > 1 else []
        return "\n".join(head + list(map(say, self.shown)) + ([f"and {more} more"] if more else []))


def reply_words(reply_text: str) -> str:
    """A reply, where data is told by its length."""
    return f"data of {counted(reports.data_length(reply_text), 'byte')}" if reply_text.startswith("data ") else reply_text


def entry_words(entry: Entry) -> str:
    """What an entry is, in words for a title."""
    return f"{entry.place} {entry.who} {entry.step} {entry.act} = {reply_words(entry.reply)}"


# ------ how marks are drawn


def dot(radius: float, look: str) -> Mark:
    """A mark that is a dot."""
    return lambda x, y: [circle(x, y, radius, look)]


def box(half_width: float, half_height: float, look: str, above: float = 0) -> Mark:
    """A mark that is a box, so far to each side, and its middle so far above."""
    return lambda x, y: [rect(x - half_width, y - half_height - above, 2 * half_width, 2 * half_height, look)]


def lines(strokes: Sequence[Sequence[Point]], look: str, end: str = "") -> Mark:
    """A mark of lines through points, which are told from its middle; with `Z` each is closed."""
    return lambda x, y: [path([*(("L" if number else "M", x + right, y + down) for stroke in strokes for number, (right, down) in enumerate(stroke)),
                               *([(end,)] if end else [])], look)]  # fmt: skip


def pill(x: float, y: float, words: str, fill: str, stroke: str, ink: str) -> list[str]:
    """A rounded box with a few characters."""
    look = f'rx="4" fill="{fill}" stroke="{stroke}"'
    return [rect(x - 11, y - 7, 22, 14, look), text(x, y + 3.3, words, SMALL, f'{MIDDLE} fill="{ink}"')]


# ------ kinds of entries


def name_of(entry: Entry) -> str:
    """The name of an entry's call."""
    return entry.act.partition(" ")[0]


def error_of(entry: Entry) -> str:
    """The name of an entry's reply."""
    return entry.reply.partition(" ")[0]


def dropped_bytes(entry: Entry) -> int:
    """How many unread bytes a Done drops."""
    begin, end = reports.reply_of(entry)["drop"]
    return end - begin


class Kind(NamedTuple):
    """A kind of entries: how one is drawn, the fill, the edge and the ink of a count, what the legend says, and what is written beside one."""

    mark: Mark
    colours: tuple[str, str, str]
    legend: str = ""
    beside: Callable[[Entry], str] = lambda entry: ""


CALLS = ("open", "close", "section", "pes", "add", "remove", "start", "stop", "size", "attach", "detach")
CALL_LOOK, REFUSED_LOOK = f'fill="{PALE}" stroke="{GREY}"', f'fill="{WHITE}" stroke="{BLACK}" stroke-width="1.2"'
EDGE = f'stroke="{BLACK}" stroke-width="0.7"'
KINDS = {
    "data": Kind(dot(4, f'fill="{BLUE}"'), (BLUE, BLUE, WHITE), "read: data", lambda entry: str(reports.data_length(entry.reply))),
    "again": Kind(dot(3.5, f'fill="{WHITE}" stroke="{BLUE}" stroke-width="1.5"'), (WHITE, BLUE, BLACK), "read: again"),
    "overflow": Kind(lines([[(0, -6), (6, 0), (0, 6), (-6, 0)]], f'fill="{RED}"', "Z"), (RED, RED, WHITE), "read: overflow"),
    "timed out": Kind(lines([[(-5, -5), (5, -5), (-5, 5), (5, 5)]], f'fill="{PURPLE}" {EDGE}', "Z"), (PURPLE, BLACK, BLACK), "read: timed out"),
    "readable": Kind(box(3.5, 3.5, f'fill="{GREEN}"'), (GREEN, GREEN, WHITE), "poll: readable"),
    "not readable": Kind(box(3, 3, f'fill="{WHITE}" stroke="{GREEN}" stroke-width="1.5"'), (WHITE, GREEN, BLACK), "poll: not readable"),
    "refused": Kind(lines([[(-4, -4), (4, 4)], [(-4, 4), (4, -4)]], f'stroke="{BLACK}" stroke-width="2" fill="none"'), (WHITE, BLACK, BLACK),
                    "refused or busy"),
    "dropped": Kind(lines([[(-5, -4), (5, -4), (0, 5)]], f'fill="{ORANGE}" {EDGE}', "Z"), (ORANGE, BLACK, BLACK), "call that drops unread bytes",
                    lambda entry: str(dropped_bytes(entry))),
    "played": Kind(lines([[(-4, -5), (5, 0), (-4, 5)]], f'fill="{YELLOW}" {EDGE}', "Z"), (YELLOW, BLACK, BLACK),
                   "packets that a client has written pass"),
}  # fmt: skip
CALL = Kind(box(5, 5, f'rx="3" {CALL_LOOK}'), (PALE, GREY, BLACK))


def kinds_of(entry: Entry) -> list[str]:
    """The kinds that a client's entry has; `call` and its name are two."""
    first = error_of(entry)
    if first in reports.REFUSALS or first == "busy":
        return ["refused"]
    if first == "ready":
        return ["readable" if " readable=1" in entry.reply else "not readable"]
    if first == "passed":
        return ["played"]
    if entry.act.startswith("read "):
        return ["timed out" if first == "timedout" else first]
    return [*(["dropped"] if dropped_bytes(entry) else []), "call", name_of(entry)]


# ------ rows


class Row(NamedTuple):
    """A row of marks: its name at the left, what the legend has of it, its height, and what draws its cells from a height on, and notes what
    else is used of the legend."""

    name: str
    key: str
    height: float
    paint: Callable[[Axis, float, set[str]], list[str]]

    def draw(self, axis: Axis, y: float, used: set[str]) -> list[str]:
        """Its name and its marks."""
        used.add(self.key)
        return [side(y + (20 if self.height > ROW else 12), self.name), *self.paint(axis, y, used)]


def paint_marks(kind: Kind, groups: dict[int, Group[Entry]], axis: Axis, y: float, used: set[str]) -> list[str]:
    """Marks of one kind, in the middle of a row; those in the same cell are counted."""
    found: list[str] = []
    cells = sorted(groups)
    for cell, behind in zip(cells, [*map(axis.cell_middle, cells[1:]), axis.right + 40]):
        group, x, middle = groups[cell], axis.cell_middle(cell), y + ROW / 2
        shapes = kind.mark(x, middle) if group.count == 1 else pill(x, middle, short_number(group.count), *kind.colours)
        if words := kind.beside(group.shown[0]) if group.count == 1 else "":
            fits = x + 6 + width_of(words, SMALL) <= min(behind - 8, axis.end_of_strip(x) + 4)
            shapes.append(text(x + 6, middle + 3, words if fits else SIGN, SMALL))
            used |= set() if fits else {"sign"}
        found += grouped(shapes, group.words(entry_words))
    return found


def paint_words(word: Callable[[Entry], str], look: str, groups: dict[int, Group[Entry]], axis: Axis, y: float, _: set[str]) -> list[str]:
    """Boxes with a word each; each has a column of its own, unless several nodes share the row."""
    found, wide = [], axis.cell_width() - 1.5
    for cell, group in sorted(groups.items()):
        x, said = axis.cell_middle(cell), word(group.shown[0]) + (f" x{group.count}" if group.count > 1 else "")
        found.append(rect(x - wide / 2, y + 2, wide, 14, f'rx="3" {look}', group.words(entry_words)))
        found.append(text(x, y + 12, said if width_of(said, SMALL) <= wide else f"{group.count}{SIGN}", SMALL, MIDDLE))
    return found


def paint_upright(groups: dict[int, Group[Entry]], axis: Axis, y: float, _: set[str]) -> list[str]:
    """Boxes with the names of calls, upright, one or two a cell."""
    found, wide = [], axis.cell_width() - 1.5
    for cell, group in sorted(groups.items()):
        x = axis.cell_middle(cell)
        found.append(rect(x - wide / 2, y + 1, wide, 43, f'rx="3" {CALL_LOOK}', group.words(entry_words)))
        for at, (name, count) in zip([x] if len(group.names) == 1 else [x - 5.5, x + 5.5], group.names.items()):
            said = name if count == 1 else f"{name} x{count}"
            found.append(upright(at, y + 22.5, said if width_of(said, SMALL) <= 43 else f"{name[:3]} x{count}", SMALL))
    return found


def gather(groups: Groups, cell: int, entry: Entry) -> None:
    """Takes a client's entry into the groups of its kinds."""
    for kind in kinds_of(entry):
        groups.setdefault(kind, {}).setdefault(cell, Group()).add(entry, name_of(entry))


def rows_of(groups: Groups, axis: Axis) -> list[Row]:
    """The rows of entries, by their kinds: calls in words where there is room, else upright, else a row for each name."""

    def boxed(name: str, kind: str, word: Callable[[Entry], str], look: str) -> Row:
        return Row(name, f"{name} in words", ROW, partial(paint_words, word, look, groups[kind]))

    has_room = axis.cell_width() >= 41
    rows = [boxed(kind, kind, error_of, REFUSED_LOOK) if has_room and kind == "refused" else
            Row(kind, kind, ROW, partial(paint_marks, look, groups[kind])) for kind, look in KINDS.items() if kind in groups]  # fmt: skip
    if has_room:
        return rows + ([boxed("calls", "call", name_of, CALL_LOOK)] if "call" in groups else [])
    if "call" in groups and all(len(group.names) <= 2 for group in groups["call"].values()):
        return [*rows, Row("calls", "calls in words", 46, partial(paint_upright, groups["call"]))]
    return rows + [Row(name, "call", ROW, partial(paint_marks, CALL, groups[name])) for name in CALLS if name in groups]


# ------ boxes, and the legend

# The look of each kind of box, and what the legend says.
BOXES = {
    "unread": (f'fill="{SKY}"', "bytes unread"),
    "perhaps": (f'fill="{SKY}" fill-opacity="0.35"', "bytes that may have come by then"),
    "lost": (f'fill="{RED}" fill-opacity="0.2" stroke="{RED}"', "overflow, up to the read that tells it"),
    "perhaps lost": (f'fill="{RED}" fill-opacity="0.1" stroke="{RED}" stroke-dasharray="2 2"', "overflow by then, perhaps"),
    "untold": ('fill="url(#untold)"', "bytes unread that nothing tells"),
    "capture": (f'fill="{GREEN}" fill-opacity="0.45" stroke="{GREEN}"', "capture"),
    "quiet": (f'fill="{GREEN}" fill-opacity="0.12" stroke="{GREEN}"', "capture without further packets"),
    "expiry": (f'fill="{PURPLE}" stroke="{PURPLE}"', "timeout is over: from here on nothing is taken"),
    "refused in words": (REFUSED_LOOK, "call that is refused or busy"),
    "calls in words": (CALL_LOOK, "call that is done"),
    "call": (CALL_LOOK, "call that is done, named at the left"),
    "done": (CALL_LOOK, "command"),
    "refused command": (REFUSED_LOOK, "command whose last call is refused or busy"),
    "EMFILE": (f'fill="{RED}" fill-opacity="0.5" stroke="{RED}"', "command with EMFILE"),
    "unbound": (f'fill="{YELLOW}" stroke="{GREY}"', "command on an unbound slot"),
    "nostc": (f'fill="{YELLOW}" fill-opacity="0.5" stroke="{GREY}"', "system time counter that there is none of"),
}
NOTES = {
    "size line": "Line: the buffer's size; where it is dotted, the size is above the scale.",
    "perhaps": "A report doesn't tell how many bytes a batch brings, only, later, how many had come: where several batches may "
    "have brought them, they are drawn in full from the last of these on and pale from the first.",
    "sign": f"{SIGN} stands for a number that has no room; the mark's title has it.",
    "count": "A number in a mark: so many here. Where several entries share a point of the area, it is full up to their least and "
    "pale up to their most.",
}


def legend(used: Collection[str], y: float) -> tuple[list[str], float]:
    """What the marks mean that are used, from the height y on, and the height of its end."""
    found, row = [heading(8, y + 14, "legend")], y + 34
    x: float = 20
    looks: dict[str, list[str]] = {}
    for look, words in (BOXES[kind] for kind in BOXES if kind in used):
        looks.setdefault(look, []).append(words)
    shown = [(kind.mark, kind.legend) for name, kind in KINDS.items() if name in used]
    for mark, words in shown + [(box(7, 5, look, above=1), "; ".join(told)) for look, told in looks.items()]:
        if x + 14 + width_of(words, 10) > LEAST_WIDTH:
            x, row = 20, row + 18
        found += mark(x, row - 3) + [text(x + 11, row, words, 10)]
        x += 36 + width_of(words, 10)
    row += 4
    for part in (part for kind, words in NOTES.items() if kind in used for part in textwrap.wrap(words, 115)):
        row += 15
        found.append(text(14, row, part, 10, f'fill="{GREY}"'))
    return found, row + 16
