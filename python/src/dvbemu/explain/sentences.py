"""Calls and replies of a report in plain words."""
from __future__ import annotations

from collections import Counter
from typing import TYPE_CHECKING

from ..inputs import many
from ..psi.fields import NAMES as FIELD_NAMES
from ..psi.fields import filter_texts, head_of, head_text, pid_name, pid_text, stream_text, table_text
from ..reports import DVR, act_of, moment, node_name, reply_of
from ..stream.packets import ALL_PACKETS, PACKET
from .refusals import FLAGS

if TYPE_CHECKING:
    from typing import Iterable, Iterator, Mapping, Sequence, Tuple, Union

    from ..reports import Act, Outcome, Reply
    from .clients import Call, Got, Kind, Lost, Through, Waits

    # What makes commands alike: the kind of their calls or the call, its node, and its reply where that counts.
    Likeness = Union[Tuple[str, int], Tuple[str, int, str]]

WIDTH = 100
GATHERED = 9
TABLES, VALUES, SAID = 4, 6, 8
NAMES = {"section": "SetFilter", "pes": "SetPes", "start": "Start", "size": "SetSize", "close": "Close"}
LOOKS = ("read", "poll")
GIVEN = "gave data"


def wrapped(text: str, indent: int) -> list[str]:
    """A text in lines of at most 100 columns, those behind the first with a further indent of two."""
    lines: list[str] = []
    line = " " * indent
    for word in text.split(" "):
        if len(line) + 1 + len(word) > WIDTH and line.strip():
            lines.append(line)
            line = " " * (indent + 2)
        line += word if not line.strip() else " " + word
    return [*lines, line]


def joined(parts: Iterable[object]) -> str:
    """A list in words: `a`, `a and b`, `a, b and c`."""
    texts = list(map(str, parts))
    return " and ".join([", ".join(texts[:-1]), texts[-1]] if len(texts) > 1 else texts)


def lines_text(lines: Sequence[int]) -> str:
    """Lines of the script, at most six of them by number: `line 4`, `lines 4, 6 and 9`."""
    if len(lines) == 1:
        return f"line {lines[0]}"
    if len(lines) <= 6:
        return f"lines {joined(lines)}"
    return f"lines {', '.join(map(str, lines[:5]))} and {len(lines) - 5:,} more up to {lines[-1]}"


def pids_text(pids: Iterable[int]) -> str:
    """PIDs in words."""
    pids = sorted(pids)
    if not pids:
        return "no PID"
    told = pid_text if len(pids) <= TABLES else pid_name
    names = [f"{pid} (every packet)" if pid == ALL_PACKETS else told(pid) for pid in pids]
    return ("PID " if len(pids) == 1 else "PIDs ") + joined(names)


def node_text(number: int) -> str:
    """A node in words."""
    return "the dvr node" if number == DVR else node_name(number)


# ------ acts


def flags_text(flags: int) -> str:
    """The flags of a set call in words."""
    names = [FLAGS.get(1 << bit, str(1 << bit)) for bit in range(flags.bit_length()) if flags >> bit & 1]
    return "no flag" if not names else ("flag " if len(names) == 1 else "flags ") + joined(names)


def section_text(act: Act, on: str) -> str:
    """A SetFilter in words."""
    timeout = f"timeout {act['timeout']} ms" if act["timeout"] else "no timeout"
    filtered = f"{pids_text([act['pid']])}, {', '.join(filter_texts(act['bytes'])) or 'every section'}"
    return f"sets a section filter on {on} ({filtered}, {timeout}, {flags_text(act['flags'])})"


def pes_text(act: Act, on: str) -> str:
    """A SetPes in words."""
    where = f"output {act['output'].upper()}" + (", input DVR" if act["input"] == "dvr" else "")
    return f"sets a PES filter on {on} ({pids_text([act['pid']])}, {where}, PES type {act['type']}, {flags_text(act['flags'])})"


def packets_text(act: Act) -> str:
    """The packets that a client has written and passes, in words."""
    first, last = act["first"], act["first"] + act["count"] - 1
    return f"what it has written, {f'packet {first}' if first == last else f'packets {first} to {last}'},"


def at_most_text(act: Act) -> str:
    """How much a read asks for."""
    return f"at most {act['count']} byte{'s' * (act['count'] != 1)}"


def act_text(call: Call) -> str:
    """What a call asks, in words."""
    act, on = act_of(call.entry), node_text(call.node)
    if call.act == "section":
        return section_text(act, on)
    if call.act == "pes":
        return pes_text(act, on)
    if call.act == "read":
        return f"reads {at_most_text(act)} from {on}"
    if call.act == "size":
        return f"sets the buffer size of {on} to {act['size']}"
    if call.act in ("add", "remove"):
        return f"{'adds' if call.act == 'add' else 'removes'} {pids_text([act['pid']])} on {on}"
    if call.act == "pass":
        return f"passes {packets_text(act)} to {on}"
    if call.act == "attach":
        return f"attaches the tap of {node_name(act['node'])} to the dvr node ({pids_text(act['pids'])})"
    if call.act == "detach":
        return f"detaches the tap of {node_name(act['node'])} from the dvr node"
    if call.act == "poll":
        return f"polls {on}" + (f", {call.note.reason}" if call.reply == "ready" and call.note.reason else "")
    return {"open": "opens", "close": "closes", "start": "starts", "stop": "stops"}[call.act] + " " + on


def since(start: int, at: int) -> str:
    """A moment in words, from the first one of the report."""
    return f"+{at - start:,} ms"


def moment_text(call: Call) -> str:
    """The moment of a call, where it carries one behind the first."""
    at = moment(call.entry)
    return f" at {since(call.start, at)}" if at is not None and at > call.start else ""


# ------ replies


def done_text(call: Call, reply: Reply) -> str:
    """A Done in words."""
    first, after = reply["drop"]
    text = "Done"
    if call.act == "start" or (call.act in ("section", "pes") and act_of(call.entry)["flags"] & 4):
        text += ", a capture begins"
    elif call.act in ("section", "pes"):
        text += ", the filter waits for a Start"
    if after > first:
        text += f"; unread bytes are dropped: {many(after - first, 'byte')}, {first}..{after}"
    return text


def ready_text(reply: Reply) -> str:
    """A Ready in words."""
    if reply["error"] != "none":
        return "Ready, " + ("an Overflow" if reply["error"] == "overflow" else "a TimedOut") + " is pending"
    if not reply["readable"]:
        return "nothing, and the stream has ended" if reply["ended"] else "nothing yet"
    return "Ready, bytes can be read" + ("; the stream has ended" if reply["ended"] else "")


def section_words(call: Call) -> str:
    """Which table the section is that a read gives, or what its head says where it begins and is none."""
    from ..psi.tables import short_text  # pylint: disable=import-outside-toplevel
    if call.note.whole and (table := short_text(call.note.section)):
        return f": {table}"
    return f": {head_text(head_of(call.note.section))}" if "end" not in call.note.reason else ""


def data_text(call: Call) -> str:
    """Data in words: how much, and what stands in it."""
    length = call.length()
    text = f"Data of {many(length, 'byte') if length else 'no bytes'}" + (f", {call.note.reason}" if call.note.reason else "")
    if call.note.section:
        text += section_words(call)
    if call.note.streams:
        packets = many(len(call.note.streams), "PES packet")
        text += f", in which the stream_id of {packets} stands: {joined(map(stream_text, sorted(set(call.note.streams))))}"
    return text


def expired_text(call: Call, reply: Reply) -> str:
    """The moments of a timeout."""
    started, now = since(call.start, reply["started"]), since(call.start, reply["now"])
    return f"started at {started} with a timeout of {reply['timeout']} ms, expired at {now}"


def reply_text(call: Call) -> str:
    """What a call was answered, in words."""
    reply = reply_of(call.entry)
    if call.reply == "done":
        return done_text(call, reply)
    if call.reply == "busy":
        return f"Busy, {call.note.reason}"
    if call.reply == "data":
        return data_text(call)
    if call.reply == "again":
        return "Again, nothing is unread" + (" and the stream has ended" if reply["ended"] else "")
    if call.reply == "overflow":
        first, after = reply["span"]
        return f"Overflow, {many(after - first, 'byte is', 'bytes are')} lost"
    if call.reply == "timedout":
        return f"TimedOut, {expired_text(call, reply)}"
    if call.reply == "ready":
        return ready_text(reply)
    if call.reply == "passed":
        return "Passed"
    return call.reply + (f", {call.note.reason}" if call.note.reason else "")


def call_text(call: Call) -> str:
    """A call and its reply in words."""
    return f"{act_text(call)}{moment_text(call)}: {reply_text(call)}"


# ------ rows of like calls


def kind_of_reply(call: Call) -> str:
    """What the replies of gathered reads and polls are counted by."""
    if call.reply == "data":
        return GIVEN if call.length() else "gave no bytes"
    if call.reply == "again":
        return "found nothing, as the stream had ended" if call.entry.reply.endswith("1") else "found nothing"
    if call.reply == "ready":
        if "error=none" not in call.entry.reply:
            return "found an Overflow or a TimedOut"
        return "found bytes" if " readable=1 " in call.entry.reply else "found nothing"
    return {"overflow": "answered Overflow", "timedout": "answered TimedOut"}.get(call.reply, f"answered {call.reply}")


class Looks:
    """Reads and polls of one node, gathered by what they ask: of each the first one, how many, how their replies are counted, and how many
    bytes they gave."""

    def __init__(self, calls: Iterable[Call] = ()) -> None:
        self.groups: dict[tuple[int, str], tuple[Call, Counter[str]]] = {}
        self.given: Counter[tuple[int, str]] = Counter()
        self.add(calls)

    def add(self, calls: Iterable[Call]) -> None:
        """Takes some more."""
        for call in calls:
            asked = call.node, call.entry.act.partition(" at=")[0]
            self.groups.setdefault(asked, (call, Counter()))[1][kind_of_reply(call)] += 1
            self.given[asked] += call.length()

    def text(self) -> str:
        """All of them in words."""
        return "; ".join(group_text(*group, self.given[asked]) if sum(group[1].values()) > 1 else call_text(group[0]) for asked, group in self.groups.items())


def group_text(first: Call, counted: Counter[str], given: int) -> str:
    """Reads or polls that ask the same."""
    on = node_text(first.node)
    asked = f"of {at_most_text(act_of(first.entry))} from {on}" if first.act == "read" else f"of {on}"
    summed = f" ({many(given, 'byte')}{' in all' if counted.get(GIVEN) != 1 else ''})"
    counts = [f"{count:,} {kind}{summed if kind == GIVEN else ''}" for kind, count in counted.items()]
    return f"{many(sum(counted.values()), first.act)} {asked}: {joined(counts)}"


def calls_text(calls: Sequence[Call]) -> str:
    """The calls of one command in words; several reads are gathered."""
    if not calls:
        return "makes no call"
    if len(calls) > 1 and all(call.act in LOOKS for call in calls):
        return Looks(calls).text()
    if len(calls) > 1 and all(call.act == "pass" for call in calls[1:]):
        passed = f"passes {packets_text(act_of(calls[1].entry))} to {node_name(calls[1].node)} to {node_name(calls[-1].node)}"
        return f"writes to the dvr device, so it {call_text(calls[0])}; {passed}{moment_text(calls[1])}"
    return "; ".join(map(call_text, calls))


def likeness(calls: Sequence[Call]) -> Likeness | None:
    """What makes commands alike, so that a long row of them is gathered; None where nothing does."""
    if calls and all(call.act in LOOKS for call in calls):
        return "looks", calls[0].node
    if len(calls) != 1:
        return None
    return calls[0].entry.act.partition(" at=")[0], calls[0].node, calls[0].reply


def counter_text(kind: str) -> str:
    """A system time counter in words."""
    base, value = (int(word.partition("=")[2]) for word in kind.split(" ")[1:])
    return f"{value:,}, in units of {base * 90:,} kHz"


def command_text(outcome: Outcome, calls: Sequence[Call]) -> str:
    """What one command did, in words."""
    if outcome.kind == "unbound":
        return "names an unbound slot, so it makes no call"
    if outcome.kind == "nostc":
        return "asks for a system time counter, but has read none"
    if outcome.kind.startswith("stc "):
        return f"asks for a system time counter and gets {counter_text(outcome.kind)}"
    text = calls_text(calls)
    return f"{text}; no node is free (EMFILE)" if outcome.kind == "EMFILE" else text


class Like:
    """A row of commands that are alike: the first of them, of as many as aren't gathered, how many they are, and what they read or dropped."""

    def __init__(self, like: Likeness | None) -> None:
        self.like, self.count, self.dropped, self.looks = like, 0, 0, Looks()
        self.first: list[tuple[Outcome, Sequence[Call]]] = []

    def add(self, outcome: Outcome, calls: Sequence[Call]) -> None:
        """Takes the next command."""
        self.last, self.count = outcome, self.count + 1
        if self.count < GATHERED:
            self.first.append((outcome, calls))
        if self.like and self.like[0] == "looks":
            self.looks.add(calls)
        elif self.like and calls[0].reply == "done":
            begin, end = reply_of(calls[0].entry)["drop"]
            self.dropped += end - begin

    def texts(self) -> Iterator[str]:
        """They in words: each, or a long row of them together."""
        if self.count < GATHERED:
            yield from (f"line {outcome.line}: {command_text(outcome, calls)}" for outcome, calls in self.first)
            return
        (outcome, (call, *_)), end = self.first[0], f"; {many(self.dropped, 'unread byte')} dropped in all" if self.dropped else ""
        row = f"{self.count:,} times {act_text(call)}: {'Done' if call.reply == 'done' else call.reply}{end}"
        told = self.looks.text() if self.like and self.like[0] == "looks" else row
        yield f"lines {outcome.line} to {self.last.line}, {self.count:,} commands: {told}"


def asked_texts(commands: Iterable[tuple[Outcome, Sequence[Call]]]) -> Iterator[str]:
    """The commands of a client, pairs of an outcome and its calls, in words; long rows of like ones are gathered."""
    row = Like(None)
    for outcome, calls in commands:
        like = likeness(calls)
        if like is None or like != row.like:
            yield from row.texts()
            row = Like(like)
        row.add(outcome, calls)
    yield from row.texts()


# ------ what a client got


def got_text(key: Through, got: Got) -> str:
    """What the reads of a node through one filter gave, in words."""
    if key.kind:
        of = pids_text(got.pids)
        through = f"section filter of {of}" if key.kind == "section" else f"PES filter {key.output.upper()} of {of}"
        head = f"{node_name(key.node)}, {through}: "
    else:
        head = f"{node_text(key.node)}: " if key.node == DVR else f"{node_text(key.node)} without a filter: "
    if not got.with_data:
        return head + f"no bytes by {many(got.reads, 'read')}"
    text = head + f"{many(got.bytes, 'byte')} by {got.with_data:,} of {many(got.reads, 'read')}"
    if key.kind == "section":
        return text + f", {many(got.items, 'section')} read to the end" + tables_text(got.tables()) + said_by(got)
    if key.node == DVR or key.output == "tsdemux_tap":
        return text + f", {many(got.items, 'whole packet')} of {PACKET} bytes"
    return text + ", payloads" + streams_text(got.streams)


def values_text(values: Iterable[int]) -> str:
    """Numbers in ascending order, of many the first ones."""
    shown = sorted(values)
    if len(shown) <= VALUES:
        return joined(shown)
    return f"{', '.join(map(str, shown[: VALUES - 1]))} and {len(shown) - VALUES + 1:,} more up to {shown[-1]}"


def tables_text(tables: dict[Kind, list[set[int]]]) -> str:
    """What stands in the heads of the sections that were read, by table_id and table_id_extension; of many by table_id alone."""
    texts: list[str] = []
    tables = tables if len(tables) <= TABLES else merged(tables)
    for (table, _, is_named), values in list(tables.items())[:TABLES]:
        told = zip(FIELD_NAMES[1:], values[1:])
        name = table_text(table) if is_named else f"0x{table:02X}"
        texts.append(", ".join([f"table_id {name}", *(f"{name} {values_text(known)}" for name, known in told if known)]))
    more = len(tables) - len(texts)
    return (": " if texts else "") + "; ".join(texts) + (f"; and {more:,} more table_ids" if more > 0 else "")


def merged(tables: dict[Kind, list[set[int]]]) -> dict[Kind, list[set[int]]]:
    """What stands in the heads of sections, by table_id."""
    found: dict[Kind, list[set[int]]] = {}
    for (table, _, is_named), values in tables.items():
        for known, more in zip(found.setdefault((table, None, is_named), [set() for _ in FIELD_NAMES]), values):
            known |= more
    return found


def said_by(got: Got) -> str:
    """What the sections say that are tables, each in a line of its own, of many the first ones."""
    if not got.sections:
        return ""
    from ..psi.tables import text_of  # pylint: disable=import-outside-toplevel
    known = [text for text in map(text_of, got.sections) if text]
    more = [f"And {len(known) - SAID:,} more tables' sections"] if len(known) > SAID else []
    return "".join(f".\n{text}" for text in known[:SAID] + more)


def streams_text(streams: Mapping[int, int]) -> str:
    """Which PES packets begin in the payloads that were read."""
    found = [f"{many(count, 'PES packet')} of stream_id {stream_text(stream)}" for stream, count in sorted(streams.items())]
    return f", with {joined(found)}" if found else ""


def lost_text(line: int, call: Call, span: tuple[int, int]) -> str:
    """A span that the client never got, in words."""
    reply, length = reply_of(call.entry), many(span[1] - span[0], "byte")
    head = f"line {line}, {node_text(call.node)}: {length}, {span[0]}..{span[1]} of the capture, "
    if call.note.lost is None:
        unread = f"unread when {NAMES.get(call.act, call.act)} dropped them"
        return head + unread + (f", as long as {many(call.note.repeats, 'section')} of those read before" if call.note.repeats else "")
    room = f"item {reply['item']}, counted from 0, needs {many(reply['need'], 'byte')} and found room for {reply['room']:,}"
    buffer = f", in a buffer of size {call.note.reason}, which holds {int(call.note.reason) - 1}" if call.note.reason else ""
    if call.note.lost.kept:
        why = f"all items from {reply['item']} on until a read reported the Overflow, after those that KEEP has kept"
    else:
        why = "everything unread at an Overflow"
    return head + f"{lost_items(call.note.lost)}{why}: {room}{buffer}"


def lost_items(lost: Lost) -> str:
    """How many packets or sections were lost, and which of the stream's packets these are, or brought them."""
    of = f"{many(lost.packets, 'packet')}, " if lost.packets else f"at least {many(lost.sections, 'section')}, " if lost.sections else ""
    among = lost.after - lost.first
    if among <= 0:
        return of
    span = f"packet {lost.first}" if among == 1 else f"packets {lost.first} to {lost.after - 1}"
    if lost.packets:
        return f"{of}{'' if lost.packets == among else 'among '}the stream's {span}, "
    return f"{of}brought by {'' if among == 1 else 'packets among '}the stream's {span}, "


def waits_text(number: int, waits: Waits) -> str:
    """How often a client waited on a node, in words."""
    times = waits.passes + waits.ends + waits.others
    parts = [
        (waits.passes, "until the feeder had passed a batch"),
        (waits.ends, "until End had passed"),
        (waits.others, "until another client had called the node"),
    ]
    parts = [(count, until) for count, until in parts if count]
    texts = [f"{count:,} {until}" if len(parts) > 1 else until for count, until in parts]
    return f"{lines_text(waits.lines)}, {node_text(number)}: {many(times, 'wait')}, {joined(texts)}"


def timed_text(line: int, call: Call, pid: int | None) -> str:
    """A TimedOut in words."""
    of = f" of {pids_text([pid])}" if pid is not None else ""
    return f"line {line}, {node_text(call.node)}: the section filter{of}, {expired_text(call, reply_of(call.entry))}"


def refused_text(refused: tuple[str, str, int], lines: Sequence[int]) -> str:
    """Refusals with the same error and reason on the same node in words."""
    error, reason, number = refused
    name = "Busy" if error == "busy" else error
    return f"{lines_text(lines)}, {node_text(number)}: {name}, {reason or 'for no reason that the report shows'}"
