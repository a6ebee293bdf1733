"""Hints for a receiver's writer: each with what the report shows and the rule that it comes from.

RULES has for each kind of stumble the heading or paragraph of docs/BEHAVIOUR.md and words that stand there; tests/test_hints.py looks
for them.
"""
from __future__ import annotations

from typing import TYPE_CHECKING

from ..inputs import many
from ..psi.fields import as_hex, pid_text
from ..reports import DVR, node_name
from .refusals import CRC, LARGEST_SIZE
from .sentences import NAMES, joined, lines_text, node_text, pids_text

if TYPE_CHECKING:
    from .story import Facts, Stumble

RULES = {
    "no capture": ("Read", "without a capture: Data of no bytes"),
    "never started": ("Calls", "without it the filter waits for a Start"),
    "timed out": ("Timeouts", "A section that doesn't match is no item and stops no timeout"),
    "timed out in a pass": ("Timeouts", "a pass that expires a filter offers it nothing, and a section in that very pass is lost"),
    "larger": ("The ledger", "A buffer of n bytes holds n - 1."),
    "first size": ("Calls", "makes the caller the owner, with a buffer size of 8192 and no filter"),
    "first size of dvr": ("The dvr node", "Done; the buffer size is 1,925,120"),
    "overflow": ("The ledger", "From the first item that doesn't fit on, every item is lost to the reader until a read has answered Overflow"),
    "break of sections": ("Segments", "The end of a run ends the open segment, and a run begins with none."),
    "break of packets": ("Items of a PES filter", "Packets are taken as they are"),
    "duplicate of sections": ("Clean packets", "those that have a payload and error bit 0, without duplicates"),
    "duplicate of packets": (
        "Items of a PES filter",
        "error bit, scrambling bits and duplicates make no difference, and no PES header is looked at",
    ),
    "dropped": ("What is dropped", "A set call, Start, Close and SetSize to another size drop what is unread."),
    "busy": ("Refusals", "the node is Free, or the caller isn't its owner."),
    "not open": ("Refusals", "the node is Free, or the caller isn't its owner."),
    "large pid": ("Refusals", "a PID above 0x1FFF in SetFilter, above 0x2000 in SetPes, AddPid and RemovePid"),
    "no tap": ("The dvr node", "Its items are the packets of the frontend that pass while it goes on and that a tap names at that moment"),
    "free tap": ("The dvr node", "A capture begins with each accepted Open and with each SetSize to another size"),
    "read of ts_tap": ("Items of a PES filter", "none: the packet goes to the dvr node, below"),
    "part": ("Read", "So a read of a section filter gives one section or a part of one"),
    "no packet": ("Captures", "Its items are what the filter selects from these packets"),
    "selects nothing": ("Captures", "Its items are what the filter selects from these packets"),
    "packets as sections": ("Sections", "A packet with unit start has a pointer, the first byte of its payload."),
    "no feed": ("The script", "`feed N` N packets pass, with N from 1 to 4294967295"),
    "nothing written": ("What a client writes", "A PES filter with the input `dvr` takes what clients write"),
    "late": ("Captures", "The packets offered to a capture are those that pass while the node is in Go."),
    "late in run": ("The threads of `run`", "The order of two callers' calls isn't determined."),
    "late on dvr": ("The dvr node", "Its items are the packets of the frontend that pass while it goes on"),
    "skipped": ("Cutting", "Any other byte is skipped, one at a time."),
    "other size": ("Cutting", "The option `--packet` sets P; the default is 188."),
    "unbound": ("What a client's commands do", "A command other than `open` on an unbound slot makes no call"),
}

# The kinds over what the stream is, or when it passes.
STREAM = "no feed", "packets as sections", "skipped", "other size"
# What is shown of a stumble where that is always the same.
PLAIN = {
    "never started": "the filter that is set there is never started",
    "not open": "EBADF, since the client calls the node before it has opened it",
    "no tap": "reads of the dvr node find nothing, since no filter with the output TS_TAP runs: set one on demux0 and leave it open meanwhile",
    "read of ts_tap": "a read finds nothing on a node whose filter has the output TS_TAP",
    "unbound": "the command names a slot that no open has bound, so it makes no call",
    "nobody": "No program opened a device. A program that is linked statically, or written in Go, makes its system calls itself and bypasses the "
    "devices of `serve`: link it dynamically, and open the devices through the C library (in Go with cgo)",
}


def size_words(stumble: Stumble) -> str:
    """The words of the stumbles over a buffer's size."""
    facts = stumble.facts
    if stumble.kind == "larger":
        item = f"item {facts['item']} has {many(facts['need'], 'byte')}, and the buffer size is {facts['size']}"
        return f"an Overflow that only a larger size avoids, however often the client reads: {item}"
    what = "what came" if facts["times"] == 1 else f"all that came, at {facts['times']:,} Overflows"
    held = f"; one of {facts['wanted']} would have held {what}" if 0 < facts["wanted"] <= LARGEST_SIZE else ""
    if facts.get("unsure"):
        held = "; no size is given, since later reads waited, and let packets pass earlier than with a larger buffer"
    if held and facts["batch"]:
        held += f"; a batch of up to {facts['batch']} packets passes at once, and no client reads in between" + (
            ": set that size" if facts["served"] else ": set that size, or try `--batch 1`")  # fmt: skip
    if stumble.kind == "first size":
        given = f"which is the one that Open gives; SetSize takes others up to {LARGEST_SIZE:,}"
        return f"an Overflow at the buffer size {facts['size']}, {given}{held}"
    late = f"more came before the client read than the buffer size {facts['size']} has room for{held}"
    return f"an Overflow: {late}{'; `dvbemu explain REPORT SESSION` says which packets were lost, and when' if facts['asks'] else ''}"


def size_of_packets_words(facts: Facts) -> str:
    """The words of the stumble over packets that take up another number of bytes."""
    of = f"{many(facts['skipped'], 'byte')} were skipped at {many(facts['packets'], 'packet')}"
    if facts["size"] == 192:
        shown = f"{of}, as if packets had 192 bytes, with a time stamp of 4 before each"
        return f"{shown}: if a stamp has the byte 0x47, what follows is taken for a packet; remove the stamps first"
    if facts["size"] == 204:
        return f"{of}, as if packets had 204 bytes: try `--packet 204`"
    return f"{of}, as if packets of 188 bytes were read as 204: try without `--packet 204`"


def pid_words(stumble: Stumble) -> str:
    """The words of the stumbles over a filtered PID."""
    facts = stumble.facts
    if stumble.kind == "no packet":
        shown = f"the filter asks for {pids_text(facts['pids'])}, of which the stream has no packet"
        read = [f"{pid} read as hexadecimal is {pid_text(as_hex(pid))}, of which it has {many(count, 'packet')}"
                for pid, count in facts["read_as"].items()]  # fmt: skip
        played = f"{many(facts['written'], 'packet')} that clients wrote to the dvr device passed, which only a PES filter with the input DVR takes"
        return "; ".join([shown, *read, *([played] if facts["written"] else [])])
    if stumble.kind == "nothing written":
        return written_words(facts)
    of = f"{many(facts['count'], stumble.kind.partition(' ')[0])} of {pids_text([facts['pid']])} in the stream"
    rules = {
        "break of sections": "a section filter loses a section that goes on across a break",
        "break of packets": "a PES filter gives the packets before and after a break, and no reply reports the break",
        "duplicate of sections": "a section filter skips duplicates",
        "duplicate of packets": "a PES filter gives duplicates too, so the reader has to skip them",
    }
    return f"{of}; {rules[stumble.kind]}"


def written_words(facts: Facts) -> str:
    """The words of the stumble over a filter that takes what clients write."""
    pid = pids_text([facts["pid"]])
    if not facts["written"]:
        return f"the filter takes {pid} of what clients write to the dvr device, and nobody wrote a packet while it ran"
    wrote = f"{many(facts['written'], 'packet')} that clients wrote to the dvr device passed it"
    return f"the filter takes {pid} of what clients write: {wrote}, and nothing of them came through"


def again_without(stumble: Stumble) -> str:
    """The set call of a section filter without what may keep sections away, as a line of a script."""
    act = stumble.facts["act"]
    assert stumble.node is not None
    name = node_name(stumble.node)
    return f"c{stumble.client} section {name} {act['pid']} {act['timeout']} {act['flags'] & ~CRC | 4}"


def nothing_words(stumble: Stumble) -> str:
    """The words of the stumble over a section filter that selects nothing."""
    facts, act = stumble.facts, stumble.facts["act"]
    count = many(facts["most"], "packet") if facts["least"] == facts["most"] else f"at least {many(facts['least'], 'packet')}"
    of = pids_text([facts["pid"]])
    if not facts["least"]:
        count, of = f"about {many(facts['about'], 'packet')}", f"{of}, by their share of the stream,"
    shown = f"{count} of {of} passed while this filter ran, and it selected no section"
    asked = [place for place, (_, mask, _) in act["bytes"].items() if mask]
    why = [f"its filter byte{'s' * (len(asked) > 1)} {joined(asked)}"] if asked else []
    why += ["flag 1, which rejects sections with a wrong CRC_32"] if act["flags"] & CRC else []
    if facts["carried"]:
        return f"{shown}: by the PMT that was read the PID carries {facts['carried']}, which `pes` takes"
    if not why:
        return f"{shown}, though it takes every section: the packets contain no complete one, or no sections at all"
    if not facts["asks"]:
        return f"{shown}; see below for the reason"
    other = f"the cause may be {' or '.join(why)}; try without it, `{again_without(stumble)}`"
    return f"{shown}: {other}, or find the cause with `dvbemu explain REPORT SESSION`"


def late_words(stumble: Stumble) -> str:
    """The words of the stumbles over a stream that had ended."""
    facts = stumble.facts
    what = "the dvr node is opened or resized" if stumble.node == DVR else "the filter is started"
    shown = f"{what} when the stream had ended (End is entry {facts['end']} of its history, this call entry {facts['begin']})"
    none = f"{shown}, so it gets no packet"
    if stumble.kind == "late":
        return f"{none}; a `feed`, `readw` or `drain` before it has taken the stream to its end"
    clock = f"the moments begin at {facts['moment']}, as those of `run` do, whose feeder waits for no client"
    return f"{none}; {clock}: let `dvbemu pace` write the stream at its own pace, or try the filter with `steps`"


def stream_words(stumble: Stumble) -> str:
    """The words of the stumbles over what the stream is, or when it passes."""
    facts = stumble.facts
    if stumble.kind == "no feed":
        looked = f"all reads after line {facts['begin']} came before a packet passed, with {many(facts['packets'], 'packet')} to come"
        return f"{looked}: write `feed N` between, or `readw` or `drain` in place of `read`"
    if stumble.kind == "packets as sections":
        start = " ".join(f"{byte:02x}" for byte in b"\0" + facts["data"])
        shown = f"what the section filter gives begins with {start}, as PES packets do and no section"
        return f"{shown}: {pids_text([facts['pid']])} carries {facts['carried'] or 'a stream'}, which `pes` takes"
    if stumble.kind == "skipped":
        of = f"{facts['skipped']:,} of the {many(facts['whole'], 'byte')} were skipped, and {many(facts['packets'], 'packet')} found"
        what = "isn't a stream of packets that begin with 0x47 and take up 188 bytes each, or 204 with `--packet 204`"
        return f"{of}: what follows the line `stream` {what}"
    return size_of_packets_words(facts)


def words(stumble: Stumble) -> str:
    """What the report shows of a stumble."""
    facts = stumble.facts
    if stumble.kind in PLAIN:
        return PLAIN[stumble.kind]
    if stumble.kind == "no capture":
        return f"a read gives no bytes: {facts['why']}"
    if stumble.kind == "timed out":
        shown = f"though the stream has {many(facts['packets'], 'packet')} of its PID, {pid_text(facts['pid'])}"
        why = "they came before the capture or too late, or brought no section that is selected"
        return f"the section filter timed out, {shown}; {why}"
    if stumble.kind in ("larger", "first size", "overflow"):
        return size_words(stumble)
    if stumble.kind == "dropped":
        return f"{NAMES[facts['call']]} drops {many(facts['bytes'], 'byte')} that the client hadn't read"
    if stumble.kind == "busy":
        return f"EBADF, since the Open in line {facts['opened']} was answered Busy and the client calls the node all the same"
    if stumble.kind == "large pid":
        most, of = (8191, "13 bits") if facts["call"] == "section" else (8192, "which selects every packet")
        return f"EINVAL, since PID {facts['pid']} is above {most} ({of}); {NAMES[facts['call']]} sets no filter"
    if stumble.kind == "free tap":
        passed = ("" if facts["least"] == facts["most"] else "up to ") + many(facts["most"], "packet")
        tap = f"the tap of {node_name(facts['tapped'])} is attached while the dvr node is Free"
        return f"{tap}, and {passed} of {pids_text(facts['pids'])} passed it then, which nobody can read there"
    if stumble.kind == "part":
        of = f"of the {many(facts['of'], 'byte')} of a section" if facts["of"] else "of a section"
        return f"a read of {many(facts['count'], 'byte')} gives a part {of}; the next read continues after it"
    if stumble.kind in ("late", "late in run"):
        return late_words(stumble)
    if stumble.kind == "selects nothing":
        return nothing_words(stumble)
    if stumble.kind in STREAM:
        return stream_words(stumble)
    return pid_words(stumble)


def hint_text(stumble: Stumble) -> str:
    """A hint in words, without its rule."""
    if stumble.client is None:
        return f"{words(stumble)}." if stumble.kind == "nobody" else f"The stream: {words(stumble)}."
    where = f"Client {stumble.client}, {lines_text(stumble.lines)}"
    if stumble.node is not None:
        where += f", {node_text(stumble.node)}"
    more = len(stumble.lines) - 1
    first = ", at first" if more and stumble.kind in ("dropped", "larger", "first size", "overflow", "part", "late", "late in run") else ""
    return f"{where}{first}: {words(stumble)}."


def rule_texts(stumble: Stumble) -> list[str]:
    """The rules of a hint, as they are quoted."""
    kinds = [stumble.kind]
    if stumble.kind == "first size" and stumble.node == DVR:
        kinds = ["first size of dvr"]
    if stumble.kind == "late in run":
        kinds.append("late on dvr" if stumble.node == DVR else "late")
    if stumble.kind == "late" and stumble.node == DVR:
        kinds = ["late on dvr"]
    if stumble.kind == "timed out":
        kinds.append("timed out in a pass")
    return [f"Rule: '{heading}': \"{quoted}\"" for heading, quoted in (RULES[kind] for kind in kinds if kind in RULES)]
