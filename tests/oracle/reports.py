"""The text of a report, by docs/BEHAVIOUR.md alone, 'The report': what it says, and its text again."""
import re
from functools import lru_cache
from typing import NamedTuple

FORMAT, DVR, CLIENTS, LAST_PID, MOST_PIDS, MOST_DIGITS = "dvbemu 1", 32, 8, 8191, 128, 2 * 65536
# The numbers that have fewer than 64 bits, and what is no number.
BITS = {"pid": 16, **dict.fromkeys(("timeout", "flags", "type", "size", "count", "node", "rest", "line", "base"), 32)}
NUMBER = "(?:0|[1-9][0-9]{0,19})"
PIDS = f"(?:-|{NUMBER}(?:,{NUMBER})*)"
SHAPES = {
    "input": "frontend|dvr", "output": "decoder|tap|ts_tap|tsdemux_tap", "pids": PIDS, "tap": f"keep|detach|attach:{PIDS}",
    "owner": "c[0-7]", "ended": "[01]", "readable": "[01]", "error": "none|overflow|timedout", "data": "-|[0-9a-f]+",
    "who": "feed|c[0-7]", "act": ".*?", "reply": ".*", "bytes": r"(?: (?:[0-9]|1[0-5])=[0-9a-f]{2}/[0-9a-f]{2}/[0-9a-f]{2})*",
    "kind": f"done|EMFILE|unbound|nostc|stc base=(?P<base>{NUMBER}) value=(?P<value>{NUMBER})",
}  # fmt: skip


class NotAReport(ValueError):
    """A text that is no report: the line that shows it, counted from 1."""

    def __init__(self, line):
        super().__init__(f"line {line} is none of a report")
        self.line = line


class Outcome(NamedTuple):
    """What became of a command: its line, its first step and the one behind its last."""

    line: int
    first: int
    after: int
    kind: str


class Entry(NamedTuple):
    """An entry of a node's history."""

    place: int
    who: str
    step: int
    act: str
    reply: str


class Report(NamedTuple):
    """A report: the cutting of the stream, the rows of its PIDs, the outcomes of each client, the entries of each node, and the
    last line."""

    head: dict
    pids: list
    clients: list
    nodes: dict
    ends: list


def form(text):
    """A form of words: `<name>` has its shape, or is a number."""
    text = text.replace("..", "[.][.]")
    return re.compile(re.sub(r"<(\w+)>", lambda place: f"(?P<{place[1]}>{SHAPES.get(place[1], NUMBER)})", text))


def forms(*texts):
    """Forms by their first words."""
    return {text.split(" ")[0]: form(text) for text in texts}


# RULES: 3f2e6921 The report
HEAD, NODE = form("packets=<packets> skipped=<skipped> rest=<rest>"), form("node <node>")
PID = form("pid <pid> packets=<packets> breaks=<breaks> duplicates=<duplicates> errors=<errors>")
OUTCOME, ENTRY = form("line <line> steps <first>..<after> <kind>"), form("<place> <who> <step> <act> = <reply>")
ACTS = forms(
    "open", "close", "stop", "end", "section pid=<pid> timeout=<timeout> flags=<flags> at=<at><bytes>", "add <pid>",
    "remove <pid>", "pes pid=<pid> input=<input> output=<output> type=<type> flags=<flags> at=<at>", "start at=<at>",
    "size <size>", "read <count> at=<at>", "poll at=<at>", "pass input=<input> first=<first> count=<count> at=<at>",
    "attach node=<node> pids=<pids>", "detach node=<node>",
)  # fmt: skip
REFUSED = "EBADF", "EBUSY", "EINVAL", "ENOSPC"
REPLIES = forms(
    *REFUSED, "passed", "done drop=<first>..<after> tap=<tap>", "busy owner=<owner>", "data <data>", "again ended=<ended>",
    "overflow <first>..<after> item=<item> need=<need> room=<room>", "timedout started=<started> now=<now> timeout=<timeout>",
    "ready readable=<readable> error=<error> at=<at> ended=<ended>",
)  # fmt: skip
# The replies that an act may have, where they aren't Done or Refused.
ANSWERS = {"open": ("done", "busy"), "read": ("data", "again", "overflow", "timedout", *REFUSED), "poll": ("ready", *REFUSED),
           "pass": ("passed",), "end": ("passed",), "attach": ("done",), "detach": ("done",)}  # fmt: skip


def want(holds):
    """Raises ValueError where something doesn't hold."""
    if not holds:
        raise ValueError


def value(name, word):
    """What stands at a place."""
    if name == "bytes":
        told = [one.split("=") for one in word.split()]
        found = {int(place): tuple(bytes.fromhex(three.replace("/", ""))) for place, three in told}
        want([int(place) for place, _ in told] == sorted(found) and (0, 0, 0) not in found.values())
        return found
    if name in ("pids", "tap"):
        pids = [int(pid) for pid in re.findall("[0-9]+", word)]
        want(pids == sorted(set(pids)) and len(pids) <= MOST_PIDS and max(pids, default=0) < 2**16)
        return pids
    if name in SHAPES:
        want(name != "data" or word == "-" or len(word) % 2 == 0 and len(word) <= MOST_DIGITS)
        return word
    want(int(word) < 2 ** BITS.get(name, 64))
    return int(word)


def places(pattern, text):
    """What stands at the places of a form."""
    found = pattern and pattern.fullmatch(text)
    want(found)
    told = {name: value(name, word) for name, word in found.groupdict().items() if word is not None}
    want("after" not in told or told["first"] <= told["after"])
    return told


@lru_cache(65536)
def read_act(text):
    """What an act says: its name and its places."""
    name = text.split(" ")[0]
    return {"name": name, **places(ACTS.get(name), text)}


def act_of(entry):
    """What an entry's act says."""
    return read_act(entry.act)


def moment(entry):
    """The moment that an entry's call carries, or None."""
    return act_of(entry).get("at")


def entry_of(text):
    """The entry that a line is."""
    entry = Entry(**places(ENTRY, text))
    name, answer = act_of(entry)["name"], entry.reply.split(" ")[0]
    places(REPLIES.get(answer), entry.reply)
    want((entry.who == "feed") == (name == "end" or entry.act.startswith("pass input=frontend ")))
    want(answer in ANSWERS.get(name, ("done", *REFUSED)))
    return entry


def take(report, number, line):
    """Takes the next line of a text."""
    head, pids, clients, nodes, ends = report
    word, last = line.split(" ")[0], max(nodes, default=-1)
    want(not ends and (number > 1 or line == FORMAT))
    if number == 2:
        head.update(places(HEAD, line))
    elif word == "pid" and not clients and not nodes:
        pids.append(places(PID, line))
        want((pids[-2]["pid"] if pids[1:] else -1) < pids[-1]["pid"] <= LAST_PID and pids[-1]["packets"])
    elif word == "client" and not nodes:
        want(len(clients) < CLIENTS and line == f"client {len(clients)}")
        clients.append([])
    elif word == "line" and clients and not nodes:
        clients[-1].append(Outcome(*list(places(OUTCOME, line).values())[:4]))
    elif word.isdigit() and nodes:
        nodes[last].append(entry_of(line))
        want(nodes[last][-1].place == len(nodes[last]) - 1)
    elif number > 2:
        want(not nodes or any(entry.who != "feed" for entry in nodes[last]))
        want(word == "node" or line in ("end", "fault read"))
        if word == "node":
            node = DVR if line == "node dvr" else places(NODE, line)["node"]
            want(last < node and (node < DVR or line == "node dvr"))
            nodes[node] = []
        else:
            ends.append(line)


def read(text):
    """The report that a text is. Raises NotAReport where it is none."""
    *lines, rest = text.split("\n")
    report = Report({}, [], [], {}, [])
    for number, line in enumerate(lines, 1):
        try:
            take(report, number, line)
        except ValueError:
            raise NotAReport(number) from None
    if rest or not report.ends:
        raise NotAReport(len(lines) + 1)
    return report


def node_text(node):
    """A node as a report names it."""
    return "node dvr" if node == DVR else f"node {node}"


def outcome_text(outcome):
    """An outcome as a report tells it."""
    return f"line {outcome.line} steps {outcome.first}..{outcome.after} {outcome.kind}"


def text_of(report):
    """The text of a report."""
    lines = [FORMAT, " ".join(f"{name}={count}" for name, count in report.head.items())]
    for row in report.pids:
        lines.append(f"pid {row['pid']} " + " ".join(f"{name}={count}" for name, count in row.items() if name != "pid"))
    for client, outcomes in enumerate(report.clients):
        lines += [f"client {client}", *map(outcome_text, outcomes)]
    for node, entries in report.nodes.items():
        lines.append(node_text(node))
        lines += [f"{place} {entry.who} {entry.step} {entry.act} = {entry.reply}" for place, entry in enumerate(entries)]
    return "\n".join([*lines, *report.ends, ""])
