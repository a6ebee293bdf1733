"""Changes of a right report, made from a number: for the judge of reports, and for dvbemu's command `check`.

A right report may stay right: where a moment is another one, where two batches become one or one becomes two, where two callers'
entries change places. Of some changes it is known by the rules what they make of a report, whatever its session is; of the others
the judge has to say it.
"""
import random
import re

from . import reports
from .judge import MOST_PACKETS
from .reports import read, text_of

RIGHT, WRONG, OPEN = True, False, None
BYTES = "0123456789abcdef=. -\n"
# What is chosen where there is nothing to choose from.
NONE = [(None, None)]
MOMENTS = [0, 1, 5, 99, 100, 101, 4294967295, 2**64 - 101, 2**64 - 1]
REPLIES = """EBADF|EBUSY|EINVAL|ENOSPC|ENOMEM|passed|data -|data 47|data 4701|again ended=0|again ended=1|busy owner=c0
done drop=0..0 tap=keep|done drop=0..188 tap=keep|done drop=0..0 tap=detach|done drop=0..0 tap=attach:-
overflow 0..188 item=0 need=188 room=187|timedout started=0 now=0 timeout=1
ready readable=0 error=none at=0 ended=0|ready readable=1 error=none at=0 ended=1"""


def with_all(report, change):
    """The text of a report whose nodes have the entries that a function makes of theirs."""
    return text_of(report._replace(nodes={node: change(entries) for node, entries in report.nodes.items()}))


def with_node(report, node, entries):
    """The text of a report that tells these entries of a node."""
    return text_of(report._replace(nodes={**report.nodes, node: entries}))


def with_entry(report, node, entry):
    """The text of a report that tells this entry of a node, in place of the one at its place."""
    entries = list(report.nodes[node])
    entries[entry.place] = entry
    return with_node(report, node, entries)


# ------ of the text


def one_byte(rng, text):
    """Another byte somewhere. In the moment of a call it may stay right."""
    place = rng.randrange(len(text))
    byte = rng.choice([byte for byte in BYTES if byte != text[place]])
    begins = text.rfind("\n", 0, place) + 1
    moment = re.search(r" at=(\d+)", text[begins:].partition("\n")[0].partition(" = ")[0])
    is_moment = moment and moment.start(1) <= place - begins < moment.end(1)
    return text[:place] + byte + text[place + 1 :], OPEN if is_moment else WRONG


def one_line_less(rng, text):
    """A line is left out."""
    lines = text.splitlines(keepends=True)
    del lines[rng.randrange(len(lines))]
    return "".join(lines), WRONG


def one_line_twice(rng, text):
    """A line is repeated."""
    lines = text.splitlines(keepends=True)
    place = rng.randrange(len(lines))
    return "".join(lines[: place + 1] + lines[place:]), WRONG


def cut(rng, text):
    """The text ends early: in any place, or behind a line."""
    place = rng.choice([rng.randrange(len(text)), text.rfind("\n", 0, rng.randrange(len(text))) + 1])
    return text[:place], WRONG


def more_behind(rng, text):
    """Something stands behind the last line."""
    return text + rng.choice(["\n", "end\n", "x", "\0", text]), WRONG


def read_fault(_rng, text):
    """The last line tells that a read failed."""
    return text.removesuffix("end\n") + "fault read\n", WRONG


def one_client_more(_rng, text):
    """There is a client more than the script has."""
    report = read(text)
    return text_of(report._replace(clients=[*report.clients, []])), WRONG


# ------ of the entries


def entries_of(report):
    """All entries, each with its node."""
    return [(node, entry) for node, entries in report.nodes.items() for entry in entries]


def calls_of(report):
    """The entries of clients, each with its node."""
    return [(node, entry) for node, entry in entries_of(report) if entry.who != "feed"]


def at_moment(entry, moment):
    """The entry with another moment; as it is where its call carries none."""
    at = reports.moment(entry)
    return entry if at is None else entry._replace(act=entry.act.replace(f" at={at}", f" at={moment}"))


def another_moment(rng, text):
    """A call has another moment, on each node where it stands; the one behind all that there are makes it wrong."""
    report = read(text)
    node, chosen = rng.choice([pair for pair in entries_of(report) if reports.moment(pair[1]) is not None] or NONE)
    if not chosen:
        return None
    moment = rng.choice([*MOMENTS, 2**64])
    if chosen.who != "feed":
        return with_entry(report, node, at_moment(chosen, moment)), WRONG if moment == 2**64 else OPEN
    same = ("feed", chosen.step)
    changed = with_all(report,
                       lambda entries: [at_moment(one, moment) if (one.who, one.step) == same else one for one in entries])
    return changed, WRONG if moment == 2**64 else OPEN


def other_moments(rng, text):
    """All moments are 0, or all are later."""
    later = rng.choice([None, 1, 1000000])

    def moved(entry):
        return at_moment(entry, 0 if later is None else (reports.moment(entry) or 0) + later)

    return with_all(read(text), lambda entries: list(map(moved, entries))), OPEN


def another_reply(rng, text):
    """A call has another reply."""
    report = read(text)
    node, chosen = rng.choice(entries_of(report) or NONE)
    return chosen and (with_entry(report, node, chosen._replace(reply=rng.choice(REPLIES.replace("\n", "|").split("|")))), WRONG)


def another_caller(rng, text):
    """A client's call is another client's."""
    report = read(text)
    node, chosen = rng.choice(calls_of(report) or NONE)
    return chosen and (with_entry(report, node, chosen._replace(who=f"c{rng.randrange(reports.CLIENTS)}")), WRONG)


def neighbours_exchanged(rng, text):
    """Two entries of a node change places; of one caller they may not."""
    report = read(text)
    node, one = rng.choice(entries_of(report) or NONE)
    if not one or one.place + 1 == len(report.nodes[node]):
        return None
    entries = list(report.nodes[node])
    entries[one.place : one.place + 2] = reversed(entries[one.place : one.place + 2])
    return with_node(report, node, entries), OPEN if entries[one.place].who != one.who else WRONG


def steps_exchanged(rng, text):
    """Two entries of a node, of one caller, exchange their steps."""
    report = read(text)
    node, one = rng.choice(entries_of(report) or NONE)
    two = rng.choice([entry for entry in report.nodes.get(node, []) if entry.who == one.who] or [None])
    if not one:
        return None
    entries = list(report.nodes[node])
    entries[one.place], entries[two.place] = one._replace(step=two.step), two._replace(step=one.step)
    return with_node(report, node, entries), WRONG


def one_entry_less(rng, text):
    """An entry is left out, and the places behind it are less by one."""
    report = read(text)
    node, chosen = rng.choice(entries_of(report) or NONE)
    return chosen and (with_node(report, node, [entry for entry in report.nodes[node] if entry != chosen]), WRONG)


def one_entry_more(rng, text):
    """A client makes a call more than its commands ask for, behind all others of a node."""
    report = read(text)
    node, chosen = rng.choice(calls_of(report) or NONE)
    if not chosen:
        return None
    step = 1 + max(entry.step for _, entry in calls_of(report) if entry.who == chosen.who)
    return with_node(report, node, [*report.nodes[node], chosen._replace(step=step)]), WRONG


# ------ of the batches


def batches_of(report):
    """The feeder's calls on the first node that is told, the last of which is End."""
    return [entry for entry in next(iter(report.nodes.values()), []) if entry.who == "feed"]


def refed(entries, step, others):
    """The entries of a node where these stand for the feeder's entry of this step; the steps go on behind them."""
    made = [two for one in entries for two in (others if (one.who, one.step) == ("feed", step) else [one])]
    steps = iter(range(len(made)))
    return [entry._replace(step=next(steps)) if entry.who == "feed" else entry for entry in made]


def pass_text(first, count, moment):
    """The call by which the feeder passes a batch."""
    return f"pass input=frontend first={first} count={count} at={moment}"


def one_batch_less(rng, text):
    """Two batches become one, at the moment of the first. Where they are of one moment, and on no node an entry stands between
    them, it stays right, unless there are too many packets for a batch."""
    report = read(text)
    passes = batches_of(report)[:-1]
    if len(passes) < 2:
        return None
    step = rng.randrange(len(passes) - 1)
    one, two = reports.act_of(passes[step]), reports.act_of(passes[step + 1])
    count = one["count"] + two["count"]
    whole = passes[step]._replace(act=pass_text(one["first"], count, one["at"]))
    changed = with_all(report, lambda entries: refed(refed(entries, step + 1, []), step, [whole]))
    if count > MOST_PACKETS:
        return changed, WRONG
    behind = {report.nodes[node][one.place + 1].who for node, one in entries_of(report) if (one.who, one.step) == ("feed", step)}
    return changed, RIGHT if behind == {"feed"} and one["at"] == two["at"] else OPEN


def one_batch_more(rng, text):
    """A batch becomes two, beside each other: it stays right."""
    report = read(text)
    chosen = rng.choice([entry for entry in batches_of(report)[:-1] if reports.act_of(entry)["count"] > 1] or [None])
    if not chosen:
        return None
    act = reports.act_of(chosen)
    size = rng.randrange(1, act["count"])
    parts = pass_text(act["first"], size, act["at"]), pass_text(act["first"] + size, act["count"] - size, act["at"])
    return with_all(report, lambda entries: refed(entries, chosen.step, [chosen._replace(act=part) for part in parts])), RIGHT


CHANGES = {
    one_byte: 6, one_line_less: 1, one_line_twice: 1, cut: 1, more_behind: 1, read_fault: 1, one_client_more: 1,
    another_moment: 6,
    other_moments: 3, another_reply: 3, another_caller: 2, neighbours_exchanged: 6, steps_exchanged: 2, one_entry_less: 2,
    one_entry_more: 2, one_batch_less: 6, one_batch_more: 4,
}  # fmt: skip


def changed(seed, report):
    """A report that isn't the given one, and whether it is right; None where that isn't known."""
    rng, text = random.Random(seed), report.decode("latin-1")
    while True:
        made = rng.choices(list(CHANGES), list(CHANGES.values()))[0](rng, text)
        if made and made[0] != text:
            return made[0].encode("latin-1"), made[1]
