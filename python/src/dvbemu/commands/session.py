"""Makes the session of a served report, its clients' calls as a script with the stream behind it: `dvbemu session --help`.

The commands stand in an order in which `steps` comes to the same replies: those of a client as it made them, those on a node by their
places, with lines `feed` for the batches that passed in between, and with lines `tick` where a filter has a timeout. Where a batch had
passed one node, but not another, between two calls of one client, no order of commands is the same: then it passes both at once. So it is
where two searches for a free node overtake each other: then one comes first on each node. Both are reported on standard error. `run` passes
over these lines, and does the calls as its threads come.

STREAM is what was played: it is repeated until it has the report's packets, and has to have as many of each PID as that. With --report it
writes, in place of the session, the report with the line numbers of that script, for `check`, which asks that both agree.
"""
from __future__ import annotations

import sys
from collections import deque
from typing import TYPE_CHECKING, NamedTuple

from ..explain import played
from .. import naming
from .. import reports
from .. import tool
from ..reports import DVR, act_of, moment

if TYPE_CHECKING:
    from typing import Iterable, Iterator, Tuple

    from ..reports import Entry, Outcome, Report

    # A call's client and step.
    Key = Tuple[str, int]


class Command(NamedTuple):
    """A command of a client: its first call and that one's node, and the keys of its calls, which are client and step."""

    first: Entry
    node: int
    calls: list[Key]

    def is_search(self) -> bool:
        """Whether it looks for a free demux node."""
        return self.first.act == "open" and self.node != DVR

    def line(self) -> str:
        """The command as a line of a script."""
        target = "h0" if self.is_search() else reports.node_name(self.node)
        return naming.command_text(self.first.who, target, act_of(self.first))


class Order:
    """Puts commands and passes into an order: how far each node, each client and the stream is. `nodes` has the calls of each node, and None
    for a pass; `calls` the entry of each call and its node; `busy` those that find a node taken."""

    def __init__(self, report: Report) -> None:
        self.nodes: dict[int, list[Key | None]] = {}
        self.calls: dict[Key, tuple[Entry, int]] = {}
        self.busy: set[Key] = set()
        passes: dict[int, Entry] = {}
        for node, entries in report.nodes.items():
            keys = self.nodes[node] = []
            for entry in entries:
                key = entry.who, entry.step
                if entry.who == "feed":
                    passes[entry.step] = entry
                else:
                    self.calls[key] = entry, node
                if entry.reply.startswith("busy "):
                    self.busy.add(key)
                keys.append(None if entry.who == "feed" else key)
        self.passes = [passes[step] for step in sorted(passes)]
        self.queues = {f"c{number}": self.commands_of(f"c{number}", outcomes) for number, outcomes in enumerate(report.clients) if outcomes}
        self.done, self.fed, self.early, self.overtaking = dict.fromkeys(self.nodes, 0), 0, 0, 0

    def commands_of(self, who: str, outcomes: Iterable[Outcome]) -> deque[Command]:
        """The commands of a client."""
        steps = ([(who, step) for step in range(outcome.first, outcome.after)] for outcome in outcomes)
        return deque(Command(*self.calls[calls[0]], calls) for calls in steps)

    def node_of(self, call: Key) -> int:
        """The node of a call."""
        return self.calls[call][1]

    def is_next(self, command: Command) -> bool:
        """Whether each call of a command is the next one on its node."""
        done = dict(self.done)
        for call in command.calls:
            node = self.node_of(call)
            if self.nodes[node][done[node]:done[node] + 1] != [call]:
                return False
            done[node] += 1
        self.done = done
        return True

    def ahead(self, call: Key) -> list[Key | None]:
        """What stands on a call's node in front of it and isn't done: others' calls, and None for passes."""
        node = self.node_of(call)
        keys, done = self.nodes[node], self.done[node]
        return [key for key in keys[done:keys.index(call, done)] if key is None or key[0] != call[0]]

    def waited_for(self) -> dict[str, set[str]]:
        """Of each client those whose calls are next on the nodes of its next command."""
        waits = {}
        for who, queue in self.queues.items():
            nodes = {self.node_of(call) for call in queue[0].calls} if queue else ()
            fronts = [self.nodes[node][self.done[node]] for node in nodes]
            waits[who] = {front[0] for front in fronts if front} - {who}
        return waits

    def crossed(self) -> Command | None:
        """A command that waits for others which wait for it, as searches for a free node that overtake each other do: that in front of
        whose calls no pass stands, and which overtakes the fewest calls, but for those that find a node taken as it does."""
        waits, costs = self.waited_for(), []
        for who in waits:
            found, new = set(), waits[who]
            while new:
                found |= new
                new = set().union(*(waits.get(other, ()) for other in new)) - found
            if who in found:
                over = [(call, key) for call in self.queues[who][0].calls for key in self.ahead(call)]
                if all(key for _, key in over):
                    costs.append((sum(not self.busy.issuperset(pair) for pair in over), who))
        return self.queues[min(costs)[1]][0] if costs else None

    def come_first(self, command: Command) -> None:
        """Each call of a command is the next one on its node, where it may come earlier than it did."""
        for call in command.calls:
            node = self.node_of(call)
            keys, at = self.nodes[node], self.done[node]
            self.overtaking += keys[at] != call
            keys.insert(at, keys.pop(keys.index(call, at)))
            self.done[node] += 1

    def feed(self) -> None:
        """A batch passes all nodes: on one where a call is next, it does so earlier than it did."""
        for node, keys in self.nodes.items():
            at = self.done[node]
            if keys[at] is not None:
                keys.insert(at, keys.pop(keys.index(None, at)))
                self.early += 1
            self.done[node] += 1
        self.fed += 1

    def steps(self) -> Iterator[Command | Entry]:
        """The commands, and in between the passes."""
        while any(self.queues.values()):
            ready = next((who for who, queue in self.queues.items() if queue and self.is_next(queue[0])), None)
            if ready is None and (command := self.crossed()):
                self.come_first(command)
                ready = command.first.who
            if ready is None:
                self.feed()
                yield self.passes[self.fed - 1]
            else:
                yield self.queues[ready].popleft()


def script_of(order: Order) -> tuple[list[str], dict[str, list[int]]]:
    """The lines of the script, and the number of the line of each client's commands."""
    is_timed = any(act_of(entry).get("timeout") for entry, _ in order.calls.values() if entry.act.startswith("section "))
    script: list[str] = []
    numbers: dict[str, list[int]] = {}
    now = None
    for step in order.steps():
        at = moment(step.first if isinstance(step, Command) else step) if is_timed else None
        if at is not None and now is not None and at > now:
            script.append(f"tick {at - now}")
        now = max(now or 0, at) if at is not None else now
        if isinstance(step, Command):
            script.append(step.line())
            numbers.setdefault(step.first.who, []).append(len(script))
        else:
            # (the end of the stream passes where a packet is wanted that isn't there)
            before = int(script.pop()[5:]) if script and script[-1].startswith("feed ") else 0
            script.append(f"feed {before + act_of(step).get('count', 1)}")
    for count, what in (order.early, "passes"), (order.overtaking, "calls"):
        if count:
            print(f"dvbemu session: note: {count} {what} of a node were moved forward; the recorded order can't be replayed exactly", file=sys.stderr)
    return script, numbers


def rewritten(report: Report, numbers: dict[str, list[int]]) -> Report:
    """The report with the line numbers of the script, which doesn't have the clients behind the last that called."""
    last = max((int(who[1:]) for who in numbers), default=-1)
    lines = [numbers.get(f"c{client}", []) for client in range(last + 1)]
    clients = [reports.Outcomes(outcome._replace(line=line) for outcome, line in zip(*pair)) for pair in zip(report.clients, lines)]
    return report._replace(clients=clients)


def why_not_served(report: Report, order: Order) -> str | None:
    """Why a report is none of `serve`; nothing where it may be one. There each client counts its commands from 1, and each of them is one call
    with what that changes of the taps, or opens demux0 and looks for a free node."""
    counted = (pair for outcomes in report.clients for pair in enumerate((outcome.line for outcome in outcomes), 1))
    if wrong := next(((number, line) for number, line in counted if number != line), None):
        return f"each client counts its commands from 1, and `line {wrong[1]}` stands where `line {wrong[0]}` would"
    for command in (command for queue in order.queues.values() for command in queue):
        calls = [call for call in command.calls if not order.calls[call][0].act.startswith(("attach ", "detach "))]
        is_first = [order.node_of(call) for call in calls] == list(range(len(calls))) and order.busy.issuperset(calls[:-1])
        if command.is_search():
            if not is_first or calls[-1] in order.busy and len(calls) < DVR:
                return f"an open of demux0 by {command.first.who} doesn't look for the first free node"
        elif len(calls) > 1:
            return f"a command of {command.first.who} makes {len(calls):,} calls"
    return None


def command() -> tool.Command:
    """The command line."""
    parser = tool.Command(
        "session",
        "[--report] REPORT STREAM",
        "Turns a `serve` report into a session that replays it without the programs.",
        reads="REPORT, as `serve` wrote it, and STREAM, the recording that was played; one of them may be `-`, standard input",
        writes="the session: the script of the programs' calls, and then the packets",
        status="0; 1 if a file can't be read, REPORT isn't from `serve`, or STREAM isn't what was played; 2 for a usage error",
        example="dvbemu session my.report my.ts > my.session; dvbemu steps my.session > again.report",
    )
    parser.add_argument("--report", action="store_true", help="write REPORT with the script's line numbers instead of the session")
    parser.add_argument("report_file", metavar="REPORT", help="the report")
    parser.add_argument("stream", metavar="STREAM", help="a transport stream, which is repeated until it has the report's packets")
    return parser


def report_in(parser: tool.Command, name: str) -> Report:
    """A report that a session can be made of."""
    try:
        with parser.opened(name) as file:
            report = reports.read(reports.text_of(file))
    except reports.ReportError as wrong:
        parser.fail_on(name, f"not a report: {wrong}")
    except OSError as fault:
        parser.fail_on(name, fault)
    return report


def script_in(parser: tool.Command, name: str, report: Report) -> tuple[list[str], dict[str, list[int]]]:
    """The lines of the script of a report of `serve`, and the number of the line of each client's commands."""
    if any(entry.act.startswith("pass input=dvr ") for entries in report.nodes.values() for entry in entries):
        parser.fail_on(name, "a client has written, and a report doesn't contain the bytes")
    try:
        order = Order(report)
        if why := why_not_served(report, order):
            parser.fail_on(name, f"not a report of `serve`: {why}")
        return script_of(order)
    except (KeyError, ValueError, IndexError):
        return parser.fail_on(name, "its entries aren't those of a report; `dvbemu explain` says more")


def packets_of(parser: tool.Command, report: Report, name: str) -> Iterable[bytes]:
    """The packets that were played."""
    counts = {row.pid: row.packets for row in report.pids}
    try:
        return played.of_recording(parser.bytes_of(name), report[:3], counts)
    except played.NotPlayed as wrong:
        return parser.fail_on(name, wrong)


def main() -> None:
    """Writes the session, or the report."""
    parser = command()
    args = parser.parse_args()
    report = report_in(parser, args.report_file)
    packets = () if args.report else packets_of(parser, report, args.stream)
    script, numbers = script_in(parser, args.report_file, report)
    if args.report:
        sys.stdout.writelines(reports.write(rewritten(report, numbers)))
        return
    out = sys.stdout.buffer
    out.write("".join(line + "\n" for line in script).encode() + b"stream\n")
    out.writelines(packets)
