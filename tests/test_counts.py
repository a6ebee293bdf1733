"""Counts what the picture and the explanation of each report of examples/ have to tell, by the lines of the report alone, and
compares.

It reads the reports with a few patterns of its own, and shares no code with what it tries. A picture tells each call of each node
and each command once, and each batch and End once for all nodes; an explanation tells the counts of the stream, each command of
each client, and how many bytes the client's reads gave, lost and waited for in vain.
"""
import collections
import html
import re

import pytest
from samples import EXAMPLES, examples

ENTRY = re.compile(r"^\d+ (c\d|feed) \d+ .* = (.*)$", re.M)
COMMAND = re.compile(r"^line (\d+) steps (\d+\.\.\d+) (.*)$", re.M)
STREAM = re.compile(r"packets=(\d+) skipped=(\d+) rest=(\d+)")
PID = re.compile(r"^pid (\d+) packets=(\d+) breaks=(\d+) duplicates=(\d+) errors=(\d+)$", re.M)


def shortened(entry):
    """An entry as pictures tell it: with the count of its bytes instead of these."""
    return re.sub(r"= data (-|[0-9a-f]+)$", lambda data: f"= data of {len(data[1]) // 2} byte{'s' * (len(data[1]) != 2)}", entry)


def dropped(reply):
    """How many bytes a reply says are lost: those of an overflow, or those that a call dropped unread."""
    span = re.match(r"(?:overflow |done drop=)(\d+)\.\.(\d+)", reply)
    return int(span[2]) - int(span[1]) if span else 0


def numbers(text):
    """The numbers of a text, where a comma stands before each three digits but the first, or none."""
    return [int(number.replace(",", "")) for number in re.findall(r"\d+(?:,\d{3})*", text)]


def parts_of(report):
    """The commands of each client, by its number."""
    pieces = re.split(r"^(?:client (\d+)|node \d+|node dvr)$", report, flags=re.M)
    return {int(number): COMMAND.findall(text) for number, text in zip(pieces[1::2], pieces[2::2]) if number}


def told_by(title):
    """What a title tells: a line, or one for each of the things that a picture with many columns draws as one mark."""
    first, *others = title.split("\n")
    gathered = re.fullmatch(r"(\d+) here:", first)
    return others if gathered and int(gathered[1]) == len(others) else [title]


@pytest.fixture(scope="module", params=examples(".report"))
def report(request):
    """The path of a report, and its text."""
    path = EXAMPLES / f"{request.param}.report"
    return str(path), path.read_text()


@pytest.fixture(scope="module")
def titles(tool, report):
    """What the titles of its picture tell."""
    drawn = tool("picture", report[0])
    assert drawn.status == 0, drawn.err
    found = re.findall(r"<title>(.*?)</title>", drawn.out, re.S)
    return [line for title in found for line in told_by(html.unescape(title))]


@pytest.fixture(scope="module")
def page(tool, report):
    """Its explanation."""
    told = tool("explain", report[0])
    assert told.status == 0, told.err
    return told.out


@pytest.fixture(scope="module")
def pages(page):
    """What that tells of each client."""
    clients = re.split(r"^Client (\d)$", page.split("\nHints\n")[0], flags=re.M)
    return dict(zip(map(int, clients[1::2]), clients[2::2]))


def test_calls_of_picture(report, titles):
    """Each call of a node has its title, and one that dropped bytes a second one where these are drawn."""
    entries = collections.Counter()
    for line in (line for line in ENTRY.finditer(report[1]) if line[1] != "feed"):
        entries[shortened(line[0])] += 1 + (line[2].startswith("done ") and dropped(line[2]) > 0)
    assert collections.Counter(title for title in titles if re.match(r"\d+ (?:c\d|feed) ", title)) == entries


def test_batches_of_picture(report, titles):
    """Each step of the feeder has its title, whichever nodes it passes."""
    steps = sorted(set(re.findall(r"^\d+ (feed \d+ .*) = passed$", report[1], re.M)))
    assert sorted(title for title in titles if title.startswith("feed ")) == steps


def test_commands_of_picture(report, titles):
    commands = collections.Counter(", ".join((f"line {line}", f"steps {steps}", kind)) for line, steps,
                                   kind in COMMAND.findall(report[1]))
    assert collections.Counter(", ".join(title.split("; ")[0].split(", ")[:3]) for title in titles
                               if title.startswith("line ")) == commands


def test_stream(report, page):
    """The counts of the stream, in all and for each PID."""
    first = re.search(r"\n  (\d.*? left over) at the end\.\n", page)
    assert numbers(first[1]) == list(map(int, STREAM.search(report[1]).groups()))
    for row in PID.findall(report[1]):
        pid, packets, *others = map(int, row)
        line = re.search(rf"\n  PID {pid}(?: \([^)]*\))?: (.*)\n", page)
        assert numbers(line[1]) == [packets, *(count for count in others if count)], line


def test_commands(report, pages):
    """The commands of each client."""
    asked = {client: re.findall(r"\n    line (\d+): ", text.split("\n  What it got")[0]) for client, text in pages.items()}
    assert asked == {client: [line for line, _, _ in commands] for client, commands in parts_of(report[1]).items()}


def replies(report, client):
    """The replies to a client's calls."""
    return [line[0].split(" = ")[1] for line in ENTRY.finditer(report) if line[1] == f"c{client}"]


def test_bytes_read(report, pages):
    for client, text in pages.items():
        got = " ".join(text.split("\n  What it got")[1].split("\n  What was lost")[0].split())
        data = sum(len(reply[5:]) // 2 for reply in replies(report[1], client) if reply.startswith("data ") and reply != "data -")
        assert sum(numbers(bytes_by)[0] for bytes_by in re.findall(r"[\d,]+ bytes? by", got)) == data, f"client {client}"


def test_bytes_lost(report, pages):
    for client, text in pages.items():
        lost = re.search(r"\n  What was lost(?:, ([\d,]+) bytes?)?(?:, .*)?:", text)
        assert sum(numbers(lost[1] or "0")) == sum(map(dropped, replies(report[1], client))), f"client {client}"


def test_timeouts(report, pages):
    for client, text in pages.items():
        late = " ".join(text.split("\n  What timed out:")[1].split("\n  Whom")[0].split()) + " "
        assert late.count(" expired at ") == sum(reply.startswith("timedout ")
                                                 for reply in replies(report[1], client)), f"client {client}"
