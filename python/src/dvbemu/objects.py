"""A report as objects of JSON, one for each of its lines behind the first, and back: docs/JSON.md has their form."""
from __future__ import annotations

import json
from functools import lru_cache
from typing import TYPE_CHECKING

from . import reports
from .errors import Error
from .reports import ACTS, FORMAT, HEAD, PID, READERS, REPLIES, STC, Pass, word_of, written

if TYPE_CHECKING:
    from typing import Any, Callable, Iterable, Iterator, Mapping

    from .reports import Outcome, Report


class JsonError(Error):
    """A text that is no report as JSON Lines: the number of the line and what is wrong there."""

    def __init__(self, line: int, what: str) -> None:
        super().__init__(f"line {line}: {what}")


# ------ from a report

# The places of acts and replies that have a number, and as many bits as each number, or fewer.
NUMBERS = {word.rstrip("=") for form in (*ACTS.values(), *REPLIES.values()) for word in form} - {
    "drop", "error", "input", "node", "output", "owner", "pids", "span", "tap"}  # fmt: skip


def value_text(word: str, name: str) -> str:
    """What stands at a place of an act or a reply, of its form, as JSON has it."""
    if name in NUMBERS:
        return word
    value: object = READERS[name](word)
    return json.dumps(f"n{value}" if name == "node" else value)


def byte_text(word: str) -> str:
    """A byte of a filter, as JSON has it."""
    (place, (value, mask, mode)), = reports.filter_bytes([word]).items()
    return f'{{"place": {place}, "filter": {value}, "mask": {mask}, "mode": {mode}}}'


@lru_cache(4096)
def object_text(text: str, is_act: bool) -> str:
    """An act or a reply, which was read before, as the text of an object."""
    name, *words = text.split(" ")
    places = reports.places_of((ACTS if is_act else REPLIES)[name])
    told = [f', "{place}": {value_text(word[len(before) :], place)}' for word, (before, place, _) in zip(words, places)]
    filtered = f', "bytes": [{", ".join(map(byte_text, words[len(places) :]))}]' if name == "section" else ""
    return f'{{"name": "{name}"{"".join(told)}{filtered}}}'


def pass_text(node: str, place: int, step: int, first: int, count: int, at: int) -> str:
    """A batch that passes a node, as the text of an object."""
    act = f'{{"name": "pass", "input": "frontend", "first": {first}, "count": {count}, "at": {at}}}'
    return f'{{"kind": "entry", "node": "{node}", "place": {place}, "who": "feed", "step": {step}, "act": {act}, "reply": {{"name": "passed"}}}}'


def entry_text(node: str, place: int, who: str, step: int, act: str, reply: str) -> str:
    """An entry, as the text of an object."""
    head = f'{{"kind": "entry", "node": "{node}", "place": {place}, "who": "{who}", "step": {step}, '
    return f'{head}"act": {act_text(act)}, "reply": {reply_text(reply)}}}'


def act_text(act: str) -> str:
    """An act, as the text of an object. What passes is another one each time."""
    if not act.startswith("pass "):
        return object_text(act, True)
    _, who, first, count, at = act.split("=")
    return f'{{"name": "pass", "input": "{who[:-6]}", "first": {first[:-6]}, "count": {count[:-3]}, "at": {at}}}'


def reply_text(reply: str) -> str:
    """A reply, as the text of an object."""
    if reply.startswith("data "):
        return f'{{"name": "data", "data": "{"" if reply == "data -" else reply[5:]}"}}'
    return object_text(reply, False)


def command_text(client: int, outcome: Outcome) -> str:
    """A command, as the text of an object."""
    name, *words = outcome.kind.split(" ")
    found = {"kind": "command", "client": f"c{client}", "line": outcome.line, "steps": [outcome.first, outcome.after], "outcome": name}
    if words:
        found |= reports.read_form(STC, words)
    return json.dumps(found)


def texts_of(report: Report) -> Iterator[str]:
    """The lines of JSON that a report is, without their line feeds."""
    yield json.dumps({"kind": "stream", "format": FORMAT, "packets": report.packets, "skipped": report.skipped, "rest": report.rest})
    for row in report.pids:
        yield json.dumps({"kind": "pid", **row._asdict()})
    for client, outcomes in enumerate(report.clients):
        yield json.dumps({"kind": "client", "client": f"c{client}"})
        for outcome in outcomes:
            yield command_text(client, outcome)
    for node, entries in report.nodes.items():
        name = reports.node_name(node)
        yield json.dumps({"kind": "node", "node": name})
        for entry in entries.rows():
            yield pass_text(name, *entry) if isinstance(entry, Pass) else entry_text(name, *entry)
    yield json.dumps({"kind": "end", "read_failed": report.read_fault})


# ------ and back

# The lines that stand under a client or a node, which they name.
UNDER = {"command": "client", "entry": "node"}


def act_words(act: Mapping[str, Any]) -> str:
    """An act as a report writes it."""
    form = ACTS[act["name"]]
    found = {**act, "node": act["node"].removeprefix("n")} if "node=" in form else act
    places = ((one["place"], (one["filter"], one["mask"], one["mode"])) for one in act.get("bytes", ()))
    return " ".join([written(form, found, act["name"]), *reports.filter_words(places)])


def reply_words(reply: Mapping[str, Any]) -> str:
    """A reply as a report writes it."""
    return f"data {reply['data'] or '-'}" if reply["name"] == "data" else written(REPLIES[reply["name"]], reply, reply["name"])


def outcome_words(found: Mapping[str, Any]) -> str:
    """What became of a command, as a report writes it."""
    outcome: str = found["outcome"]
    return written(STC, found, outcome) if outcome == "stc" else outcome


WRITE: dict[str, Callable[[Mapping[str, Any]], str]] = {
    "stream": lambda found: f"{found['format']}\n{written(HEAD, found)}",
    "pid": lambda found: written(PID, found, "pid"),
    "client": lambda found: f"client {found['client'].removeprefix('c')}",
    "command": lambda found: f"line {found['line']} steps {word_of('span', found['steps'])} {outcome_words(found)}",
    "node": lambda found: f"node {found['node'].removeprefix('n')}",
    "entry": lambda found: f"{found['place']} {found['who']} {found['step']} {act_words(found['act'])} = {reply_words(found['reply'])}",
    "end": lambda found: "fault read" if found["read_failed"] else "end",
}


def back(lines: Iterable[str]) -> Iterator[str]:
    """The lines of the report that lines of JSON are, with their line feeds."""
    under = {}
    for line, text in enumerate(lines, 1):
        try:
            found = json.loads(text)
            told = WRITE[found["kind"]](found)
            if found["kind"] in ("client", "node"):
                under = {found["kind"]: found[found["kind"]]}
            elif found["kind"] in UNDER and found[UNDER[found["kind"]]] != under.get(UNDER[found["kind"]]):
                raise KeyError(f"{UNDER[found['kind']]} isn't the one above")
        except RecursionError:
            raise JsonError(line, "no line of a report: too much stands within one another") from None
        except ValueError as wrong:
            what = "this is a report, and json without --back writes its JSON Lines" if text == f"{FORMAT}\n" else wrong
            raise JsonError(line, f"no object of JSON: {what}") from None
        except (KeyError, TypeError, IndexError, AttributeError) as wrong:
            raise JsonError(line, f"no line of a report, {type(wrong).__name__}: {wrong}") from None
        # (a text that stands in an object may have line feeds of its own)
        yield from (part + "\n" for part in told.split("\n"))
