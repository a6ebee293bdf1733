"""Reports of `dvbemu steps` and `dvbemu run`: their records, and what reads and writes their text.

The form is that of docs/BEHAVIOUR.md, 'The report'. What each line has stands in the tables below, by which a text is read and written, and of
which the JSON Lines of objects.py are made too. Only the form is looked at: whether the replies are right is not.
"""
from __future__ import annotations

import io
import re
from array import array
from bisect import bisect_left
from collections.abc import Sequence
from functools import lru_cache
from itertools import chain, repeat
from typing import TYPE_CHECKING, NamedTuple, cast

from . import abi
from .errors import Error

if TYPE_CHECKING:
    from typing import Any, BinaryIO, Callable, Dict, Iterable, Iterator, List, Mapping, TextIO, Tuple, TypedDict, Union

    # The value, mask and mode byte of a section filter's places.
    FilterBytes = Dict[int, Tuple[int, int, int]]

    class Act(TypedDict, total=False):
        """An act: `name` is its first word, which each has; the others are those that ACTS names for it."""

        name: str
        pid: int
        timeout: int
        flags: int
        at: int
        bytes: FilterBytes
        input: str
        output: str
        type: int
        size: int
        count: int
        first: int
        node: int
        pids: List[int]

    class Reply(TypedDict, total=False):
        """A reply: `name` is its first word, which each has; the others are those that REPLIES names for it."""

        name: str
        drop: Tuple[int, int]
        tap: Union[str, List[int]]
        owner: str
        ended: int
        span: Tuple[int, int]
        item: int
        need: int
        room: int
        started: int
        now: int
        timeout: int
        readable: int
        error: str
        at: int
        length: int


FORMAT = "dvbemu 1"
DVR = 32
CLIENTS = 8
LARGEST_PID = 0x1FFF
# The numbers that have 16 and 32 bits; all others have 64.
BITS_16, BITS_32 = 2**16 - 1, 2**32 - 1
MOST_PIDS, MOST_BYTES = 128, 65536
HEX_DIGITS = b"0123456789abcdef"


class ReportError(Error):
    """A text that is no report: the number of the line, from 1, what was expected there, what was found, and what the text is instead,
    where that is known."""

    def __init__(self, line: int, expected: str, found: str | None = None, kind: str = "") -> None:
        super().__init__(f"line {line}: expected {expected}{'' if found is None else f', found {found}'}{kind and f'; {kind}'}")
        self.line, self.expected, self.found = line, expected, found


class FormatError(ReportError):
    """A report of a format that this tool doesn't know."""

    def __str__(self) -> str:
        return f"line {self.line}: a report of a format that this tool doesn't know; it knows {self.expected}, found {self.found}"


class Wrong(ValueError):
    """A word or a group of words that isn't of its form, or stands in another place; the text is what was expected."""


# ------ records


class PidCount(NamedTuple):
    """What the report counts of one PID."""

    pid: int
    packets: int
    breaks: int
    duplicates: int
    errors: int


class Outcome(NamedTuple):
    """What became of one command: its line, its first step, the step after its last, and how it ended, as it is told."""

    line: int
    first: int
    after: int
    kind: str

    def text(self) -> str:
        """The line of the report."""
        return f"line {self.line} steps {self.first}..{self.after} {self.kind}"

    @classmethod
    def of(cls, text: str) -> Outcome:
        """The outcome that a line is, which was read before."""
        _, line, _, steps, kind = text.split(" ", 4)
        first, _, after = steps.partition("..")
        return cls(int(line), int(first), int(after), kind)


class Entry(NamedTuple):
    """One entry of a node's history; who is `feed` or `c0` to `c7`, act and reply are texts."""

    place: int
    who: str
    step: int
    act: str
    reply: str

    def text(self) -> str:
        """The line of the report."""
        return f"{self.place} {self.who} {self.step} {self.act} = {self.reply}"

    @classmethod
    def of(cls, text: str) -> Entry:
        """The entry that a line is, which was read before."""
        place, who, step, told = text.split(" ", 3)
        act, _, reply = told.partition(" = ")
        return cls(int(place), who, int(step), act, reply)


class Pass(NamedTuple):
    """A batch of the stream that passes a node: its place, the feeder's step, its first packet, how many it has, and the moment."""

    place: int
    step: int
    first: int
    packets: int
    at: int

    def entry(self) -> Entry:
        """The entry that it is."""
        return Entry(self.place, "feed", self.step, f"pass input=frontend first={self.first} count={self.packets} at={self.at}", "passed")


class Outcomes(Sequence[Outcome]):
    """What became of the commands of a client. Kept are the numbers of each, and how those ended that weren't `done`."""

    def __init__(self, outcomes: Iterable[Outcome] = ()) -> None:
        self.lines, self.firsts, self.afters = array("Q"), array("Q"), array("Q")
        self.others: dict[int, str] = {}
        for outcome in outcomes:
            self.append(outcome)

    def append(self, outcome: Outcome) -> None:
        """Puts one behind the others."""
        if outcome.kind != "done":
            self.others[len(self.lines)] = outcome.kind
        self.lines.append(outcome.line)
        self.firsts.append(outcome.first)
        self.afters.append(outcome.after)

    def kinds(self) -> Iterator[str]:
        """How each has ended."""
        return (self.others.get(number, "done") for number in range(len(self.lines))) if self.others else repeat("done", len(self.lines))

    def __len__(self) -> int:
        return len(self.lines)

    def __iter__(self) -> Iterator[Outcome]:
        return map(Outcome, self.lines, self.firsts, self.afters, self.kinds())

    def __getitem__(self, place: Any) -> Any:
        if isinstance(place, slice):
            return [self[at] for at in range(*place.indices(len(self)))]
        at = range(len(self))[place]
        return Outcome(self.lines[at], self.firsts[at], self.afters[at], self.others.get(at, "done"))


class Texts:
    """Lines in blocks, so that many take up little more than their text. The block of which one was last asked for stays at hand."""

    EACH = 1024

    def __init__(self) -> None:
        self.blocks: list[str] = []
        self.last: list[str] = []
        self.at_hand: tuple[int, list[str]] = -1, []

    def append(self, line: str) -> None:
        """Puts a line behind the others."""
        self.last.append(line)
        if len(self.last) == self.EACH:
            self.blocks.append("\n".join(self.last))
            self.last = []

    def __iter__(self) -> Iterator[str]:
        return chain.from_iterable(chain((block.split("\n") for block in self.blocks), [self.last]))

    def __getitem__(self, number: int) -> str:
        block, row = divmod(number, self.EACH)
        if block == len(self.blocks):
            return self.last[row]
        if block != self.at_hand[0]:
            self.at_hand = block, self.blocks[block].split("\n")
        return self.at_hand[1][row]


class Entries(Sequence[Entry]):
    """The entries of a node. A batch that passes is kept as its numbers, any other entry as its line, by its place in `places`."""

    def __init__(self) -> None:
        self.places, self.texts = array("Q"), Texts()
        self.steps, self.firsts, self.counts, self.moments = array("Q"), array("Q"), array("Q"), array("Q")

    def take_pass(self, step: int, first: int, count: int, at: int) -> None:
        """Puts a batch behind the others."""
        self.steps.append(step)
        self.firsts.append(first)
        self.counts.append(count)
        self.moments.append(at)

    def take(self, line: str) -> None:
        """Puts any other entry behind the others."""
        self.places.append(len(self))
        self.texts.append(line)

    def passes(self, begin: int, end: int, place: int) -> Iterator[Pass]:
        """The batches of these numbers, of which the first has this place."""
        columns = (column[begin:end] for column in (self.steps, self.firsts, self.counts, self.moments))
        return map(Pass, range(place, place + end - begin), *columns)

    def rows(self) -> Iterator[Pass | Entry]:
        """All entries, batches as such."""
        passed = 0
        for number, (place, text) in enumerate(zip(self.places, self.texts)):
            if passed < place - number:
                yield from self.passes(passed, place - number, passed + number)
                passed = place - number
            yield Entry.of(text)
        yield from self.passes(passed, len(self.steps), passed + len(self.places))

    def calls(self) -> Iterator[Entry]:
        """The entries of clients."""
        return (entry for entry in map(Entry.of, self.texts) if entry.who != "feed")

    def call(self, number: int) -> Entry:
        """The entry with this number among those that are no batches."""
        return Entry.of(self.texts[number])

    def __len__(self) -> int:
        return len(self.places) + len(self.steps)

    def __iter__(self) -> Iterator[Entry]:
        return (row.entry() if isinstance(row, Pass) else row for row in self.rows())

    def __getitem__(self, place: Any) -> Any:
        if isinstance(place, slice):
            return [self[at] for at in range(*place.indices(len(self)))]
        place = range(len(self))[place]
        number = bisect_left(self.places, place)
        if number < len(self.places) and self.places[number] == place:
            return self.call(number)
        return next(self.passes(place - number, place - number + 1, place)).entry()


class Report(NamedTuple):
    """A whole report. Clients is a list of lists of outcomes, nodes has the entries of each printed node by its number."""

    packets: int
    skipped: int
    rest: int
    pids: list[PidCount]
    clients: Sequence[Outcomes]
    nodes: Mapping[int, Entries]
    read_fault: bool


# ------ words


def number(word: str, most: int = 2**64 - 1) -> int:
    """The number that a word is."""
    if word.isdecimal() and word.isascii() and len(word) <= 20 and (word[0] != "0" or word == "0"):
        value = int(word)
        if value <= most:
            return value
    raise Wrong(f"a number from 0 to {most}")


def at_most(most: int) -> Callable[[str], int]:
    """A reader of a number up to this one."""
    return lambda word: number(word, most)


def span(word: str) -> tuple[int, int]:
    """Both ends of a span `A..B`, or of steps."""
    first, dots, after = word.partition("..")
    if not dots or number(first) > number(after):
        raise Wrong("a span `A..B` with A at most B")
    return int(first), int(after)


def pids(word: str) -> list[int]:
    """The PIDs of a list `P,P,P`."""
    listed = [] if word == "-" else [number(part, BITS_16) for part in word.split(",")]
    if listed != sorted(set(listed)) or len(listed) > MOST_PIDS:
        raise Wrong(f"PIDs in ascending order, at most {MOST_PIDS}")
    return listed


def tap(word: str) -> str | list[int]:
    """What a Done says of the tap: `keep`, `detach`, or the list of PIDs that are attached."""
    if word in ("keep", "detach"):
        return word
    if not word.startswith("attach:"):
        raise Wrong("a tap `keep`, `detach` or `attach:PIDS`")
    return pids(word[7:])


def one_of(*names: str) -> Callable[[str], str]:
    """A reader of a word that is one of these names."""

    def read_name(word: str) -> str:
        if word not in names:
            raise Wrong("one of " + ", ".join(f"`{name}`" for name in names))
        return word

    return read_name


def client_name(word: str) -> str:
    """`c0` to `c7`."""
    if len(word) != 2 or word[0] != "c" or word[1] not in "01234567":
        raise Wrong("a client `c0` to `c7`")
    return word


def is_hexadecimal(text: str) -> bool:
    """Whether all characters are lower-case hexadecimal digits."""
    return not text.encode(errors="replace").translate(None, HEX_DIGITS)


# ------ the forms


# What reads a place that has a form of its own, or fewer bits; all others are numbers.
READERS: dict[str, Callable[[str], object]] = {
    **dict.fromkeys(("node", "rest", "timeout", "flags", "type", "size", "count", "base"), at_most(BITS_32)),
    **dict.fromkeys(("ended", "readable"), at_most(1)),
    **dict.fromkeys(("drop", "span"), span),
    "pid": at_most(BITS_16),
    "input": one_of(*(one.value for one in abi.Input)),
    "output": one_of(*(one.value for one in abi.Output)),
    "error": one_of("none", "overflow", "timedout"),
    "owner": client_name,
    "pids": pids,
    "tap": tap,
}


def forms_of(*lines: str) -> dict[str, tuple[str, ...]]:
    """By its first word what stands behind it; a place with `=` is written with its name, the others without."""
    return {name: tuple(places) for name, *places in map(str.split, lines)}


HEAD = ("packets=", "skipped=", "rest=")
PID = ("pid", "packets=", "breaks=", "duplicates=", "errors=")
STC = ("base=", "value=")
REFUSALS = ("EBADF", "EBUSY", "EINVAL", "ENOSPC")
ACTS = forms_of(
    "open", "close", "stop", "end", "section pid= timeout= flags= at=", "pes pid= input= output= type= flags= at=", "add pid", "remove pid",
    "start at=", "size size", "read count at=", "poll at=", "pass input= first= count= at=", "attach node= pids=", "detach node=",
)  # fmt: skip
REPLIES = forms_of(
    "done drop= tap=", "busy owner=", *REFUSALS, "again ended=", "overflow span item= need= room=", "timedout started= now= timeout=",
    "ready readable= error= at= ended=", "passed",
)  # fmt: skip
# The replies that a call may have.
ANSWERS: dict[str, tuple[str, ...]] = {
    "open": ("done", "busy"),
    "read": ("data", "again", "overflow", "timedout", *REFUSALS),
    "poll": ("ready", *REFUSALS),
    "pass": ("passed",),
    "end": ("passed",),
    "attach": ("done",),
    "detach": ("done",),
}
OTHER_ANSWERS = ("done", *REFUSALS)


class Place(NamedTuple):
    """A place of a form: what stands before its word, its name, and what reads its word."""

    before: str
    name: str
    read: Callable[[str], object]


@lru_cache(None)
def places_of(form: tuple[str, ...]) -> list[Place]:
    """The places of a form."""
    return [Place(word if word.endswith("=") else "", name, READERS.get(name, number)) for word in form for name in [word.rstrip("=")]]


def word_of(place: str, value: Any) -> str:
    """What stands at a place, as it is written."""
    if isinstance(value, list) and place in ("pids", "tap"):
        return ("attach:" if place == "tap" else "") + (",".join(map(str, value)) or "-")
    return f"{value[0]}..{value[1]}" if READERS.get(place) is span else str(value)


def form_text(form: Sequence[str], name: str = "") -> str:
    """A form as it is told."""
    return " ".join([name, *(word + ".." if word.endswith("=") else word.upper() for word in form)]).strip()


def read_form(form: tuple[str, ...], words: Sequence[str], name: str = "") -> dict[str, Any]:
    """What stands at each place, by the place's name; of which type it is, its reader says."""
    if len(words) != len(form):
        raise Wrong(f"`{form_text(form, name)}`")
    found = {}
    for word, (before, place, read_word) in zip(words, places_of(form)):
        if not word.startswith(before):
            raise Wrong(f"`{form_text(form, name)}`")
        found[place] = read_word(word[len(before) :])
    return found


def written(form: tuple[str, ...], found: Mapping[str, Any], name: str = "") -> str:
    """What stands at each place behind the first word, as it is written."""
    return " ".join([name, *(before + word_of(place, found[place]) for before, place, _ in places_of(form))]).strip()


def filter_bytes(words: Sequence[str]) -> FilterBytes:
    """The filter, mask and mode byte of each place that is named, as three numbers by the place."""
    found: FilterBytes = {}
    last = -1
    for word in words:
        place, sign, values = word.partition("=")
        parts = values.split("/")
        hexadecimal = all(len(part) == 2 and is_hexadecimal(part) for part in parts)
        if not sign or len(parts) != 3 or not hexadecimal or not last < number(place, 15) or values == "00/00/00":
            raise Wrong("filter bytes `I=FF/MM/DD` in ascending order, of which one isn't 0")
        last = int(place)
        value, mask, mode = (int(part, 16) for part in parts)
        found[last] = value, mask, mode
    return found


def filter_words(places: Iterable[tuple[int, Sequence[int]]]) -> list[str]:
    """The bytes of a filter by their places, as they are written."""
    return [f"{place}={value:02x}/{mask:02x}/{mode:02x}" for place, (value, mask, mode) in places]


@lru_cache(4096)
def read_act(text: str) -> Act:
    """An act as a dict: `name` is its first word, the rest by the names of ACTS; `bytes` are the filter bytes of a section.

    The same text gives the same dict, which isn't to be changed.
    """
    name, *words = text.split(" ")
    if name not in ACTS:
        raise Wrong("an act: " + ", ".join(ACTS))
    is_section = name == "section"
    # (that the readers of ACTS give what Act says isn't seen by the types)
    act = cast("Act", {"name": name, **read_form(ACTS[name], words[:4] if is_section else words, name)})
    if is_section:
        act["bytes"] = filter_bytes(words[4:])
    return act


def read_reply(text: str) -> Reply:
    """A reply as a dict: `name` is its first word, the rest by the names of REPLIES; `data` has its `length` in bytes.

    The dict isn't to be changed.
    """
    return {"name": "data", "length": data_length(text)} if text.startswith("data ") else read_other_reply(text)


def data_length(text: str) -> int:
    """How many bytes a reply `data` has."""
    if text == "data -":
        return 0
    digits = text[5:]
    if not digits or len(digits) % 2 or not is_hexadecimal(digits):
        raise Wrong("two lower-case hexadecimal digits a byte")
    if len(digits) > 2 * MOST_BYTES:
        raise Wrong(f"at most {MOST_BYTES} bytes")
    return len(digits) // 2


@lru_cache(4096)
def read_other_reply(text: str) -> Reply:
    """The dict of every other reply."""
    name, *words = text.split(" ")
    if name not in REPLIES:
        raise Wrong("a reply: data, " + ", ".join(REPLIES))
    # (that the readers of REPLIES give what Reply says isn't seen by the types)
    return cast("Reply", {"name": name, **read_form(REPLIES[name], words, name)})


# ------ what is asked of an entry


def act_of(entry: Entry) -> Act:
    """The entry's act, as `read_act` gives it. What passes, and what is read or polled, is another one each time."""
    if entry.act.startswith("pass "):
        _, who, first, count, at = entry.act.split("=")
        return {"name": "pass", "input": who[:-6], "first": int(first[:-6]), "count": int(count[:-3]), "at": int(at)}
    if entry.act.startswith("read "):
        _, count, at = entry.act.split(" ")
        return {"name": "read", "count": int(count), "at": int(at[3:])}
    return {"name": "poll", "at": int(entry.act[8:])} if entry.act.startswith("poll ") else read_act(entry.act)


def reply_of(entry: Entry) -> Reply:
    """The entry's reply, as `read_reply` gives it."""
    return read_reply(entry.reply)


def moment(entry: Entry) -> int | None:
    """The moment that the entry's call carries, or None."""
    _, sign, after = entry.act.partition(" at=")
    return int(after.partition(" ")[0]) if sign else None


def moments(entries: Entries) -> Iterator[int]:
    """The moments that a node's entries carry, those of its batches last. That of an act stands before its reply's number of bytes."""
    found = (text.partition(" at=")[2].partition(" ")[0] for text in entries.texts)
    return chain((int(at) for at in found if at), entries.moments)


def first_moment(report: Report) -> int:
    """The least moment that an entry carries: 0 in a report of `steps`, but where a script begins with a `tick`."""
    return min(chain.from_iterable(map(moments, report.nodes.values())), default=0)


def node_name(node: int) -> str:
    """The node's name in a script: `n0` to `n31`, or `dvr`."""
    return "dvr" if node == DVR else f"n{node}"


def node_text(node: int) -> str:
    """The node as a report writes it."""
    return "dvr" if node == DVR else str(node)


def node_of(name: str) -> int:
    """The node of a name: `n0` to `n31` or `dvr`, or as its device is called, `demux0` to `demux31` or `dvr0`."""
    return DVR if name in ("dvr", "dvr0") else number(re.sub("^(demux|n)", "", name), DVR - 1)


# ------ the reader


BEGINNING = 4096


def instead(text: str) -> str:
    """What a text is that is no report, by its beginning; nothing where that isn't known."""
    if re.match(r"(G.{187}|G.{203}|.{4}G.{191})G", text, re.DOTALL):
        return "this is a recording"
    first = next((line for line in text.split("\n") if line and line[0] != "#"), "")
    if re.match(r"c[0-7] [a-z]+ |(feed|tick) \d+$|stream$", first):
        return "this is a script: `dvbemu steps` writes its report"
    return "these are JSON Lines: `dvbemu json --back` writes their report" if text.startswith('{"kind": ') else ""


def shown(text: str | None) -> str:
    """A line's beginning for a message."""
    if text is None:
        return "the end of the text"
    return ascii(text if len(text) <= 60 else text[:57] + "...")


class Lines:
    """The lines of a text; `text` is the one in hand without its line feed, or None behind the last."""

    def __init__(self, lines: Iterable[str]) -> None:
        self.lines, self.line = iter(lines), 0
        self.text: str | None = None
        self.go_on()

    def go_on(self) -> None:
        """Goes to the next line."""
        line = next(self.lines, "")
        self.line += 1
        if line and not line.endswith("\n"):
            raise ReportError(self.line, "a line feed at the end of the line", kind=instead(line[:BEGINNING]) if self.line == 1 else "")
        self.text = line[:-1] if line else None

    def begins(self, beginning: str) -> bool:
        """Whether the line in hand begins so."""
        return self.text is not None and self.text.startswith(beginning)

    def while_they(self, begin: str) -> Iterator[str]:
        """The lines from the one in hand on that begin so; each is in hand until the next is asked for."""
        while self.text is not None and self.text.startswith(begin):
            yield self.text
            self.go_on()

    def wrong(self, what: str) -> ReportError:
        """The exception for the line in hand."""
        return ReportError(self.line, what, shown(self.text))

    def want(self, holds: object, what: str) -> None:
        """Raises where it doesn't hold."""
        if not holds:
            raise self.wrong(what)

    def beginning(self) -> str:
        """The beginning of the text, where the first line is in hand."""
        text = f"{self.text or ''}\n"
        while len(text) < 2 * BEGINNING and (line := next(self.lines, "")):
            text += line
        return text


def head_of(lines: Lines) -> tuple[int, int, int]:
    """The numbers of the stream's cutting."""
    if lines.begins("dvbemu ") and lines.text != FORMAT:
        raise FormatError(lines.line, f"`{FORMAT}`", shown(lines.text))
    if lines.text != FORMAT:
        raise ReportError(lines.line, f"`{FORMAT}`", shown(lines.text), instead(lines.beginning()))
    lines.go_on()
    if lines.text is None:
        raise lines.wrong("`packets=.. skipped=.. rest=..`")
    found = read_form(HEAD, lines.text.split(" "))
    lines.go_on()
    return found["packets"], found["skipped"], found["rest"]


def pid_counts(lines: Lines) -> list[PidCount]:
    """The rows of the PIDs."""
    rows: list[PidCount] = []
    for text in lines.while_they("pid "):
        row, last = PidCount(**read_form(PID, text.split(" ")[1:], "pid")), rows[-1].pid if rows else -1
        lines.want(last < row.pid <= LARGEST_PID, f"a PID above {last}, at most {LARGEST_PID}")
        lines.want(row.packets, "a PID that has a packet")
        rows.append(row)
    return rows


def outcome_of(text: str) -> Outcome:
    """What became of a command, which ends by one word, or by a system time counter. Raises where a line doesn't tell that."""
    _, line, *words = text.split(" ")
    if len(words) < 3 or words[0] != "steps":
        raise Wrong("`line L steps A..B OUTCOME`")
    first, after = span(words[1])
    if words[2] == "stc":
        read_form(STC, words[3:], "stc")
    elif words[2:] != ["done"]:
        one_of("done", "EMFILE", "unbound", "nostc", "stc base=.. value=..")(" ".join(words[2:]))
    return Outcome(number(line, BITS_32), first, after, " ".join(words[2:]))


def clients_of(lines: Lines) -> list[Outcomes]:
    """What became of the commands of each client, from client 0 on."""
    found: list[Outcomes] = []
    while lines.begins("client "):
        right = len(found) < CLIENTS and lines.text == f"client {len(found)}"
        lines.want(right, f"`client {len(found)}`" if len(found) < CLIENTS else "a node or the end, behind client 7")
        lines.go_on()
        found.append(Outcomes())
        for text in lines.while_they("line "):
            found[-1].append(outcome_of(text))
    return found


class Usual(NamedTuple):
    """The forms of what most entries of a long report are: batches, and reads and polls with their usual replies. What has a greater number is
    left to what reads all other entries, as they are."""

    passed: re.Pattern[str]
    looked: re.Pattern[str]


# (to make the forms takes as long as to read so many lines without them)
FEW = 150


@lru_cache(None)
def usual() -> Usual:
    """The forms, which are made once."""
    number, count = r"(0|[1-9]\d{0,17})", r"(0|[1-9]\d{0,8})"
    return Usual(
        re.compile(rf"{number} feed {number} pass input=frontend first={number} count={count} at={number} = passed", re.ASCII),
        re.compile(rf"{number} c[0-7] {number} (?:read {count} at={number} = (?:data (?P<data>[0-9a-f]+|-)|again ended=[01])|"
                   rf"poll at={number} = ready readable=[01] error=(?:none|overflow|timedout) at={number} ended=[01])", re.ASCII),
    )  # fmt: skip


def is_usual(found: re.Match[str] | None, place: int) -> bool:
    """Whether a line is a usual read or poll, at this place of its node."""
    if found is None or int(found[1]) != place:
        return False
    digits = found["data"] or "-"
    return digits == "-" or len(digits) % 2 == 0 and len(digits) <= 2 * MOST_BYTES


def check_entry(text: str, place: int) -> None:
    """Raises where a line is no entry at this place of its node."""
    words = text.split(" ", 3)
    if len(words) < 4:
        raise Wrong(f"`{place} WHO STEP ACT = REPLY`")
    if words[1] != "feed":
        client_name(words[1])
    act, sign, reply = words[3].partition(" = ")
    if not sign:
        raise Wrong(f"`{place} WHO STEP ACT = REPLY`")
    asked, answer = read_act(act)["name"], read_reply(reply)["name"]
    if (words[1] == "feed") != (asked == "end" or act.startswith("pass input=frontend ")):
        raise Wrong("`pass input=frontend` and `end` of `feed` alone, all other acts of clients")
    answers = ANSWERS.get(asked, OTHER_ANSWERS)
    if answer not in answers:
        raise Wrong(f"a reply to `{asked}`: " + ", ".join(answers))
    number(words[2])
    if number(words[0]) != place:
        raise Wrong(f"`{place} WHO STEP ACT = REPLY`")


def entries_of(lines: Lines) -> Entries:
    """The entries of one node."""
    found, place = Entries(), 0
    while (text := lines.text) is not None and text[:1].isdigit():
        forms = usual() if lines.line > FEW else None
        passed = forms.passed.fullmatch(text) if forms else None
        if passed and int(passed[1]) == place:
            found.take_pass(int(passed[2]), int(passed[3]), int(passed[4]), int(passed[5]))
        elif forms and is_usual(forms.looked.fullmatch(text), place):
            found.take(text)
        else:
            check_entry(text, place)
            take_other(found, Entry.of(text), text)
        place += 1
        lines.go_on()
    return found


def take_other(entries: Entries, entry: Entry, text: str) -> None:
    """Takes an entry that was read word by word."""
    if entry.who == "feed" and entry.act != "end":
        act = read_act(entry.act)
        entries.take_pass(entry.step, act["first"], act["count"], act["at"])
    else:
        entries.take(text)


def nodes_of(lines: Lines) -> dict[int, Entries]:
    """The entries of each printed node, by its number."""
    found: dict[int, Entries] = {}
    while lines.text is not None and lines.begins("node "):
        name = lines.text[5:]
        node = DVR if name == "dvr" else number(name, DVR - 1)
        lines.want(not found or node > max(found), f"a node behind {node_name(max(found, default=0))}")
        lines.go_on()
        entries = found[node] = entries_of(lines)
        lines.want(next(entries.calls(), None), f"`{len(entries)} WHO STEP ACT = REPLY` of a client")
    return found


def read(text: Iterable[str]) -> Report:
    """The report that the lines of a text are, or an open text file. Raises ReportError where they are none."""
    lines = Lines(text)
    try:
        packets, skipped, rest = head_of(lines)
        rows = pid_counts(lines)
        clients = clients_of(lines)
        nodes = nodes_of(lines)
    except Wrong as wrong:
        raise lines.wrong(str(wrong)) from None
    last = lines.text
    lines.want(last in ("end", "fault read"), what_follows(clients, nodes))
    lines.go_on()
    lines.want(lines.text is None, "nothing behind the last line")
    return Report(packets, skipped, rest, rows, clients, nodes, last == "fault read")


def what_follows(clients: Sequence[Outcomes], nodes: Mapping[int, Entries]) -> str:
    """What may stand behind these parts, for a message."""
    if nodes:
        entry = f"`{len(nodes[max(nodes)])} WHO STEP ACT = REPLY`"
        return f"{entry}, `node ..`, `end` or `fault read`"
    return f"`{'line' if clients else 'pid'} ..`, `client ..`, `node ..`, `end` or `fault read`"


def text_of(file: BinaryIO) -> TextIO:
    """The text of a file of bytes: each byte is a character, and only 0x0A ends a line."""
    return io.TextIOWrapper(file, encoding="latin-1", newline="\n")


# ------ the writer


def write(
    report: Report, clients: Iterable[Iterable[Outcome]] | None = None, nodes: Iterable[tuple[int, Iterable[Entry]]] | None = None,
) -> Iterator[str]:  # fmt: skip
    """The text of a report, line by line; in the place of its clients and nodes others may stand, which are made as they are written."""
    yield f"{FORMAT}\n"
    yield f"{written(HEAD, report._asdict())}\n"
    for row in report.pids:
        yield f"{written(PID, row._asdict(), 'pid')}\n"
    for client, outcomes in enumerate(report.clients if clients is None else clients):
        yield f"client {client}\n"
        for outcome in outcomes:
            yield f"{outcome.text()}\n"
    for node, entries in report.nodes.items() if nodes is None else nodes:
        yield f"node {node_text(node)}\n"
        for entry in entries:
            yield f"{entry.text()}\n"
    yield "fault read\n" if report.read_fault else "end\n"
