"""A judge of reports, by the rules of docs/BEHAVIOUR.md alone.

The order in which threads come is open, and so are the batches and the moments of a report that was made elsewhere; so a report
isn't worked out but judged. Each client's commands are done anew with the replies that the report has for it, and must ask for
just the calls that stand there; each node is played again in the order of its entries, and must give just these replies. What is
wrong is told by its line, what stands there and what the rules give.
"""
import os
import re
from collections import deque

from . import reports, second
from .reports import node_text, outcome_text

MOST_PACKETS, MOST_BYTES = 64, 4294967295
# What can be wrong with a report. Of what is wrong in one line the first of these is told.
KINDS = "text", "head", "place", "feeder", "call", "left", "reply", "outcome"
NOTHING_MORE = "nothing more of the feeder"
# What a demux node and the dvr node are played again by.
NODES = second.Demux, second.Dvr
# Data of more bytes than this is told by its first byte that is wrong, and so many bytes from it on; a text of more letters is
# cut.
LONG, SHOWN, WHOLE = 48, 8, 240


class Bad(Exception):
    """What is wrong with a report: its kind, the line, where in the report that is, what stands there, and what the rules give.
    What stands in no entry comes behind the others: a call that is missing, tier 1, and what became of the commands, tier 2."""

    def __init__(self, kind, line, where, stands, gives, tier=0):
        super().__init__(f"line {line}: {where}{': ' if where else ''}{stands}; the rules give {gives}")
        self.kind, self.line, self.stands, self.gives, self.tier = kind, line, stands, gives, tier

    def order(self):
        """Where it comes among all that is wrong."""
        return self.tier, self.line, KINDS.index(self.kind)


def first_of(found):
    """The first of what is wrong; None where nothing is."""
    return min(filter(None, found), key=Bad.order, default=None)


def call_text(entry):
    """The call of an entry, with its caller and its step."""
    return f"{entry.who} {entry.step} {entry.act}"


class Where:
    """The lines of a report, and at which of them its clients and nodes stand."""

    def __init__(self, lines, report):
        self.lines, self.clients, self.nodes = lines, [], {}
        line = 3 + len(report.pids)
        for outcomes in report.clients:
            self.clients.append(line)
            line += 1 + len(outcomes)
        self.behind_clients = line
        for node, entries in report.nodes.items():
            self.nodes[node] = line
            line += 1 + len(entries)
        self.last = line

    def whole(self, kind, line, gives, tier=0):
        """What is wrong with a whole line."""
        return Bad(kind, line, "", self.lines[line - 1], gives, tier)

    def entry(self, kind, node, place, stands, gives):
        """What is wrong at a place of a node."""
        return Bad(kind, self.nodes[node] + 1 + place, f"{node_text(node)}, place {place}", stands, gives)


# ------ the text and the head


def read(written):
    """The parts of a report, which is given as bytes."""
    try:
        return reports.read(written.decode("latin-1"))
    except reports.NotAReport as wrong:
        raise Bad("text", wrong.line, "", "none of a report", "a report") from None


def head(packets, skipped, rest):
    """The report's first lines, by the stream alone."""
    return ["dvbemu 1", f"packets={len(packets)} skipped={skipped} rest={rest}", *second.pid_rows(packets)]


def wrong_head(report, wanted, where):
    """What is wrong with the lines that tell the stream, and with the last one."""
    for line, gives in enumerate(wanted, 1):
        if where.lines[line - 1] != gives:
            return where.whole("head", line, gives)
    if len(report.pids) > len(wanted) - 2:
        return where.whole("head", len(wanted) + 1, "no further PID")
    return where.whole("head", where.last, "end") if report.ends != ["end"] else None


# ------ the feeder


class Feeding:
    """What the feeder has done on a node so far. Its batches have 1 to 64 packets, or, where a batch is given, as many as that
    has, the last one what is left."""

    def __init__(self, packets, batch):
        self.packets, self.batch = packets, batch
        self.step, self.given, self.has_ended = 0, 0, False

    def sizes(self):
        """The least and the most packets that the next batch may have."""
        left = self.packets - self.given
        return (1, min(MOST_PACKETS, left)) if self.batch is None else (min(self.batch, left),) * 2

    def wanted(self):
        """The next call."""
        if self.has_ended:
            return NOTHING_MORE
        if self.given == self.packets:
            return f"feed {self.step} end"
        least, most = self.sizes()
        count = least if least == most else f"{least} to {most}"
        return f"feed {self.step} pass input=frontend first={self.given} count={count} at=.."

    def takes(self, entry):
        """Whether an entry is the next call; then it is done."""
        act, (least, most) = reports.act_of(entry), self.sizes()
        if self.has_ended or entry.step != self.step:
            return False
        if self.given == self.packets:
            right = self.has_ended = act["name"] == "end"
        else:
            right = act["name"] == "pass" and act["first"] == self.given and least <= act["count"] <= most
            self.given += act["count"] if right else 0
        self.step += right
        return right


def of_feeder(entries):
    """The feeder's entries among those of a node."""
    return [entry for entry in entries if entry.who == "feed"]


# RULES: c4faba63 The threads of `run`
def wrong_feeding(node, entries, feeding, where):
    """What is wrong with the feeder's calls on a node: they pass all packets in batches, and then End."""
    for entry in of_feeder(entries):
        if not feeding.takes(entry):
            return where.entry("feeder", node, entry.place, call_text(entry), feeding.wanted())
    return None if feeding.has_ended else where.entry("feeder", node, len(entries), NOTHING_MORE, feeding.wanted())


def wrong_copy(node, entries, first, others, where):
    """What is wrong where the feeder didn't do on a node what it did on the first one that is told."""
    found, wanted = of_feeder(entries), list(map(call_text, of_feeder(others)))
    for place, entry in enumerate(found):
        gives = wanted[place] if place < len(wanted) else NOTHING_MORE
        if call_text(entry) != gives:
            return where.entry("feeder", node, entry.place, call_text(entry), f"{gives}, as on {node_text(first)}")
    if len(found) < len(wanted):
        return where.entry("feeder", node, len(entries), NOTHING_MORE, f"{wanted[len(found)]}, as on {node_text(first)}")
    return None


def wrong_feeder(report, packets, batch, where):
    """What is wrong with the feeder's calls, node by node."""
    nodes = list(report.nodes.items())
    for node, entries in nodes:
        yield wrong_copy(node, entries, *nodes[0], where)
        yield wrong_feeding(node, entries, Feeding(len(packets), batch), where)


# ------ the clients


def is_of(client, asked):
    """Whether a line of the script is a command of this client."""
    return asked[0] not in ("feed", "tick") and asked[1] == client


class Walk(second.Run):
    """The commands of a client, each call with the reply that the report has for it. On each node the client's entries are taken
    in their order."""

    def __init__(self, lines, client, report, where):
        super().__init__([line for line in lines if is_of(client, line[1])], [], 1)
        # (a client below the last may have no command)
        self.outcomes += [[] for _ in range(client + 1 - len(self.outcomes))]
        self.client, self.told, self.where = client, report.clients, where
        who = f"c{client}"
        self.left = {node: deque(entry for entry in entries if entry.who == who) for node, entries in report.nodes.items()}

    def run_pass(self, most):
        return 0

    def event(self, client, node, act):
        step = self.steps[client]
        if not self.left.get(node):
            raise self.missing(self.asked(node, act))
        entry = self.left[node].popleft()
        at = reports.moment(entry)
        asked = f"c{client} {step} {second.act_text(act, '..' if at is None else at)}"
        if call_text(entry) != asked:
            raise self.where.entry("call", node, entry.place, call_text(entry), self.asked(node, act))
        self.steps[client] += 1
        return entry.reply

    def asked(self, node, act):
        """The next call for a reader, on this node, with the line of its command."""
        line = self.lines[len(self.outcomes[self.client])][0]
        text = f"c{self.client} {self.steps[self.client]} {second.act_text(act, '..')}"
        return f"{text} on {node_text(node)}, by line {line} of the script"

    def missing(self, gives):
        """A call that stands nowhere. It is told at what became of its command, or at the client, or behind the clients."""
        clients, command = self.where.clients, len(self.outcomes[self.client])
        line = clients[self.client] if self.client < len(clients) else self.where.behind_clients
        if self.client < len(clients) and command < len(self.told[self.client]):
            line += 1 + command
        return Bad("call", line, f"client {self.client}", "no such call", gives, 1)

    def wrong(self):
        """What is wrong with the client's calls."""
        try:
            self.run()
        except Bad as bad:
            return bad
        left = [(node, entry) for node, entries in self.left.items() for entry in entries]
        gives = f"no further call of c{self.client}"
        return first_of(self.where.entry("left", node, entry.place, call_text(entry), gives) for node, entry in left)

    def is_behind(self, entry):
        """Whether it came to its end behind this entry."""
        return entry.who == f"c{self.client}" and entry.step < self.steps[self.client]


def wrong_calls(walks, misled):
    """What is wrong with the calls of each client, but where it was misled: where the reply to a call before is wrong."""
    for walk in walks:
        bad = walk.wrong()
        if not any(map(walk.is_behind, misled)):
            yield bad


def wrong_outcomes(report, wanted, where):
    """What is wrong with what is told of each client: what became of its commands."""
    for client, outcomes in enumerate(wanted[: len(report.clients)]):
        found = list(map(outcome_text, report.clients[client]))
        same = 0
        while same < len(found) and found[same : same + 1] == outcomes[same : same + 1]:
            same += 1
        stands, gives = (told[same] if same < len(told) else "no further command" for told in (found, outcomes))
        if stands != gives:
            yield Bad("outcome", where.clients[client] + 1 + same, f"client {client}", stands, gives, 2)


def wrong_clients(report, clients, where):
    """What is wrong with the number of clients, and the entries of callers that can't be there."""
    if len(report.clients) < clients:
        yield where.whole("outcome", where.behind_clients, f"client {len(report.clients)}", 2)
    elif len(report.clients) > clients:
        yield where.whole("outcome", where.clients[clients], "no further client", 2)
    for node, entries in report.nodes.items():
        for entry in entries:
            if entry.who != "feed" and int(entry.who[1:]) >= clients:
                gives = "no client" + (f" above c{clients - 1}" if clients else "")
                yield where.entry("place", node, entry.place, call_text(entry), gives)


# ------ the nodes


def act_of(entry):
    """The call of an entry as the second program makes it."""
    act = reports.act_of(entry)
    if act["name"] == "section":
        return "section", act["pid"], act["bytes"], act["timeout"], act["flags"]
    return tuple(told for place, told in act.items() if place != "at")


def short(reply, other):
    """A reply for a reader; of long data the bytes from the first on that isn't in the other reply."""
    if not reply.startswith("data ") or len(reply) <= 5 + 2 * LONG:
        return reply
    digits, others = reply[5:], other[5:] if other.startswith("data ") else ""
    first, count = len(os.path.commonprefix([digits, others])) // 2, len(digits) // 2
    shown = f", from byte {first} on {digits[2 * first : 2 * (first + SHOWN)]}" if first < count else ""
    return f"data of {count} bytes{shown}{'..' * (count > first + SHOWN)}"


def answered(node, entry, packets, played):
    """The reply of a node to the call of an entry, where these are the packets of the stream and those that clients write."""
    act = reports.act_of(entry)
    if entry.who != "feed":
        return second.reply_of(node, int(entry.who[1:]), act_of(entry), act.get("at", 0), played)
    if act["name"] == "end":
        node.ended = True
    else:
        node.run_pass(packets[act["first"] : act["first"] + act["count"]], act["at"])
    return "passed"


def wrong_reply(number, entries, packets, played, where):
    """The first reply of a node that isn't the one that the entries before it give, as what is wrong and as the entry."""
    node = NODES[number == second.DVR]()
    for entry in entries:
        own = answered(node, entry, packets, played)
        if own != entry.reply:
            return where.entry("reply", number, entry.place, short(entry.reply, own), short(own, entry.reply)), entry
    return None, None


# ------ the whole


def wrong_parts(lines, packets, report, batch, where):
    """What is wrong with what a report tells behind its head."""
    clients = len(second.Run(lines, [], 1).outcomes)
    played = second.played_by(lines)
    replies = [wrong_reply(node, entries, packets, played, where) for node, entries in report.nodes.items()]
    misled = [entry for _, entry in replies if entry]
    walks = [Walk(lines, client, report, where) for client in range(clients)]
    found = [bad for bad, _ in replies] + list(wrong_calls(walks, misled))
    outcomes = [walk.outcomes[client] for client, walk in enumerate(walks)]
    found += wrong_feeder(report, packets, batch, where)
    found += wrong_clients(report, clients, where)
    return first_of([*found, *wrong_outcomes(report, outcomes, where)])


# RULES: 8830e44b A report that is checked
def first_wrong(session, written, batch=None, packet=188):
    """What is wrong first with a report of a run of a session; None where it is right. Its batches have 1 to 64 packets each, or,
    where a batch is given, all but the last have as many as that. Each packet takes up so many bytes of the stream. Raises
    second.Fault where the session's script has one."""
    lines, stream = second.read_script(session)
    packets, skipped, rest = second.cut(stream, packet)
    try:
        report = read(written)
    except Bad as bad:
        return bad
    where = Where(written.decode("latin-1").split("\n"), report)
    return wrong_head(report, head(packets, skipped, rest), where) or wrong_parts(lines, packets, report, batch, where)


def judge(session, batch, written, packet=188):
    """None, or what is wrong with a report of a session's `run`."""
    bad = first_wrong(session, written, batch, packet)
    return None if bad is None else str(bad)


# ------ the command


# RULES: 8830e44b A report that is checked
def answer(given, packet=188):
    """What `check` gives over this input: its status, its output, and its lines on standard error; the second one but of a text
    that is no report, for which it has forms of its own."""
    first = re.match(rb"report (0|[1-9][0-9]*)\n", given[:40])
    if not first or int(first[1]) > MOST_BYTES:
        return 3, b"", b"dvbemu: script line 0: number\n"
    size, rest = int(first[1]), given[first.end() :]
    if len(rest) < size:
        return 3, b"", b"dvbemu: script line 0: nostream\n"
    try:
        bad = first_wrong(rest[size:], rest[:size], packet=packet)
    except second.Fault as fault:
        return 3, b"", f"dvbemu: script line {fault.line}: {fault.kind}\n".encode()
    if bad is None:
        return 0, b"yes\n", b""
    gives = bad.gives if len(bad.gives) <= WHOLE else f"{bad.gives[: WHOLE - 3]} .."
    expected = "" if bad.kind == "text" else f"expected {gives}\n"
    return 0, b"no\n", f"dvbemu: report line {bad.line}: {bad.kind}\n{expected}".encode()
