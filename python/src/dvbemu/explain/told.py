"""A report in sentences: the stream, what each client asked, got, lost and was refused, and the hints."""
from __future__ import annotations

from typing import TYPE_CHECKING, NamedTuple

from .. import reports
from ..inputs import many
from ..psi.fields import pid_text
from . import sentences
from .hints import hint_text, rule_texts
from .sentences import asked_texts, got_text, joined, lost_text, refused_text, timed_text, waits_text
from .story import Story

if TYPE_CHECKING:
    from typing import Callable, Iterable, Iterator, ParamSpec, Sequence, Union

    from .clients import Call, Client
    from .offered import Stream
    from .story import Stumble

    # A line as it is, or a sentence.
    Row = Union[str, "Told"]
    P = ParamSpec("P")

SHOWN, NULL = 20, 8191
LOOK = "`dvbemu explain REPORT STREAM` looks at the stream too"
NOTHING = "Nothing to report: packets passed every filter, every section filter gave something, and no read got Overflow."
NO_FILTER = "Nothing to report: no filter ran."


class Told(NamedTuple):
    """A sentence, and how far it is indented."""

    indent: int
    text: str


def wrapped(text: str, indent: int) -> list[Row]:
    """A sentence as the only one of its rows."""
    return [Told(indent, text)]


class Part(NamedTuple):
    """What is asked for: a node by its number, a client by its number; None for all."""

    node: int | None = None
    client: int | None = None

    def of_node(self, number: int | None) -> bool:
        """Whether this node is asked for."""
        return self.node is None or number == self.node

    def of_client(self, number: int | None) -> bool:
        """Whether this client is asked for."""
        return self.client is None or number == self.client

    def has(self, stumble: Stumble) -> bool:
        """Whether a stumble belongs to it."""
        return self.of_client(stumble.client) and self.of_node(stumble.node)


def pid_row_text(row: reports.PidCount, is_loop: bool) -> str:
    """What the counters and error bits of a PID say; the breaks may be those of a loop."""
    where = " where the loop begins again" if is_loop else ""
    told = (row.breaks, f"break{where}", f"breaks{where}"), (row.duplicates, "duplicate", "duplicates")
    found = [many(count, one, more) for count, one, more in told if count]
    if row.errors:
        found.append(f"{row.errors:,} with the error bit")
    if found:
        return joined(found)
    if row.pid == NULL:
        return "none with the error bit; null packets have no counter to check"
    return "no break, duplicate or error"


def stream_lines(report: reports.Report, is_loop: bool) -> list[Row]:
    """What the stream was."""
    head = f"{many(report.packets, 'packet')}, {many(report.skipped, 'byte')} skipped, {many(report.rest, 'byte')} left over at the end."
    lines: list[Row] = ["The stream", "", *wrapped(head, 2)]
    for row in report.pids:
        lines += wrapped(f"PID {pid_text(row.pid)}: {many(row.packets, 'packet')}, {pid_row_text(row, is_loop)}.", 2)
    if report.read_fault:
        lines += wrapped("Reading failed in the stream: the report is of what was read until then.", 2)
    return lines


def part_lines(title: str, texts: Sequence[Callable[[], str]], nothing: str) -> list[Row]:
    """A part of a client's page; of a long one the beginning."""
    if not texts:
        return wrapped(f"{title}: {nothing}.", 2)
    shown = texts if len(texts) <= SHOWN else texts[: SHOWN - 1]
    lines = wrapped(f"{title}:", 2)
    for text in shown:
        first, *others = (text() + ".").split("\n")
        lines += wrapped(first, 4) + [line for other in others for line in wrapped(other, 6)]
    return lines + (wrapped(f"And {len(texts) - len(shown):,} more.", 4) if len(texts) > len(shown) else [])


def commands_of(client: Client) -> Iterator[tuple[reports.Outcome, list[Call]]]:
    """Each outcome of a client with its calls."""
    calls = iter(client.calls)
    call = next(calls, None)
    for outcome in client.outcomes:
        mine = []
        while call is not None and call.entry.step < outcome.after:
            mine.append(call)
            call = next(calls, None)
        yield outcome, mine


def later(function: Callable[P, str], *arguments: P.args, **named: P.kwargs) -> Callable[[], str]:
    """A text that is made only when it is shown."""
    return lambda: function(*arguments, **named)


def lost_title(lost: Sequence[tuple[int, Call, tuple[int, int]]]) -> str:
    """The bytes that were lost, and how many of them may be repeats."""
    counts = [(after - first, call.note.repeats) for _, call, (first, after) in lost]
    count, again = sum(count for count, _ in counts), sum(count for count, repeats in counts if repeats)
    most = "all" if again == count else f"{again:,}"
    return f"What was lost, {many(count, 'byte')}" + (f", {most} as long as repeats of what was read" if again else "")


def asked_lines(client: Client, part: Part) -> list[Row]:
    """What a client asked; of a single node just the commands that called it, with their calls there."""
    commands = commands_of(client)
    if part.node is not None:
        on_node = ((outcome, [call for call in calls if call.node == part.node]) for outcome, calls in commands)
        commands = ((outcome, calls) for outcome, calls in on_node if calls)
    lines: list[Row] = [Told(4, text + ".") for text in asked_texts(commands)]
    return wrapped("What it asked for:" if lines else "What it asked for: nothing.", 2) + lines


def idle_lines(clients: Sequence[Client]) -> list[Row]:
    """The page of clients that follow one another and have no command."""
    first, last = clients[0].number, clients[-1].number
    if first == last:
        return ["", f"Client {first}", "", *wrapped("No commands.", 2)]
    return ["", f"Clients {first} to {last}", "", *wrapped("No commands.", 2)]


def client_lines(client: Client, part: Part, is_asked: bool = True) -> list[Row]:
    """The page of a client with a command; what it asked may be left out."""
    lines: list[Row] = ["", f"Client {client.number}", ""]
    got = [later(got_text, key, client.got[key]) for key in sorted(client.got) if part.of_node(key.node)]
    spans = [row for row in client.lost if part.of_node(row[1].node)]
    lost = [later(lost_text, *row) for row in spans]
    waits = [later(waits_text, *pair) for pair in sorted(client.waits.items()) if part.of_node(pair[0])]
    timed = [later(timed_text, *row) for row in client.timed if part.of_node(row[1].node)]
    refused = [later(refused_text, *row) for row in client.refused.items() if part.of_node(row[0][2])]
    lines += [*asked_lines(client, part), ""] if is_asked else []
    lines += part_lines("What it got", got, "no read was accepted")
    lines += part_lines(lost_title(spans) if lost else "What was lost", lost, "nothing")
    lines += part_lines("What timed out", timed, "nothing")
    lines += part_lines("Waits", waits, "none")
    return lines + part_lines("What was refused", refused, "nothing")


def hint_lines(story: Story, part: Part) -> list[Row]:
    """The hints, those on the stream first, then by client and line."""
    lines: list[Row] = ["", "Hints", ""]
    found = [stumble for stumble in story.stumbles.values() if part.has(stumble)]
    for stumble in sorted(found, key=lambda stumble: (-1, 0) if stumble.client is None else (stumble.client, stumble.lines[0])):
        lines += wrapped(hint_text(stumble), 2)
        for text in rule_texts(stumble):
            lines += wrapped(text, 4)
    more = "" if story.stream else f" {LOOK}."
    return lines if found else lines + wrapped(f"No hints.{more}", 2)


def stream_hints(story: Story, stream: Stream, part: Part) -> list[Row]:
    """What the stream says of filters that got nothing, and of what was lost."""
    from . import streamed  # pylint: disable=import-outside-toplevel
    lines: list[Row] = []
    for node, used in story.silent:
        if part.of_node(node) and part.of_client(used.client):
            head, *texts = streamed.silent_texts(node, used, stream)
            lines += [Told(2, head), *(Told(4, text) for text in texts)]
    times = streamed.times_of(stream.packets) if story.exact else None
    lines += [Told(2, streamed.lost_text(*row, times)) for row in story.exact if part.of_client(row[0]) and part.of_node(row[2])]
    return ["", "What the stream says", "", *(lines or [Told(2, NOTHING if story.ran else NO_FILTER)])]


def check_steps(report: reports.Report, story: Story) -> None:
    """Raises ReportError where the entries' steps aren't just those that the clients' commands made."""
    line = 2 + len(report.pids)
    for number, client in sorted(story.clients.items()):
        if number >= len(report.clients):
            raise reports.ReportError(line + 1, f"`client {number}`, of which a node has an entry")
        line += 1 + len(client.outcomes)
        if not client.has_all():
            what = f"the commands of client {number} up to here to have just the steps of its entries"
            raise reports.ReportError(line, what)


def story_of(report: reports.Report, stream: Stream | None = None) -> Story:
    """A report gone through. Raises ReportError where its clients' commands have other steps than its entries."""
    story = Story(report, stream)
    check_steps(report, story)
    return story


def page(report: reports.Report, part: Part, stream: Stream | None = None) -> str:
    """The whole page, or a part of it, without the part on the stream alone."""
    story = story_of(report, stream)
    lines = stream_lines(report, story.joints > 0) if part == Part() else []
    shown = [client for number, client in sorted(story.clients.items()) if part.of_client(number)
             and (part.node is None or part.node in client.calls.nodes)]  # fmt: skip
    asking = [client for client in shown if client.outcomes]
    lines += [line for client in asking for line in client_lines(client, part)]
    lines += idle_lines(shown) if shown and not asking else []
    lines += hint_lines(story, part)
    return text_of(lines + (stream_hints(story, stream, part) if stream else []))


def text_of(rows: Iterable[Row]) -> str:
    """Rows as a text, sentences in lines of at most 100 columns."""
    lines: list[str] = []
    for row in rows:
        lines += sentences.wrapped(row.text, row.indent) if isinstance(row, Told) else [row]
    return "\n".join(lines).lstrip("\n") + "\n"
