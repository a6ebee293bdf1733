"""`dvbemu picture`: what its bands name, its axis, its areas, its legend, title and moments, over reports whose picture was worked out by
hand from the rules of docs/BEHAVIOUR.md, and over sessions of oracle/fuzz.py.

The reports are those of the plain second program, or stand here.
"""
import io
import re
import xml.dom.minidom

import pytest
from conftest import EXAMPLES, examples
from dvbemu import reports
from dvbemu.explain.unread import History
from dvbemu.picture.axis import Axis, parts, shares
from dvbemu.picture.lanes import ranges
from dvbemu.picture.svg import LEFT, WIDTH
from dvbemu.stream.packets import packet
from oracle import fuzz, second

# A report of threads: batch 0 passes n0 before client 0 calls it and n1 after, so that the two calls stand on its two sides.
THREADS = """dvbemu 1
packets=1 skipped=0 rest=0
pid 256 packets=1 breaks=0 duplicates=0 errors=0
client 0
line 1 steps 0..1 done
line 2 steps 1..2 done
line 3 steps 2..3 done
node 0
0 c0 0 open = done drop=0..0 tap=keep
1 feed 0 pass input=frontend first=0 count=1 at=1000 = passed
2 c0 1 poll at=1002 = ready readable=0 error=none at=0 ended=0
3 feed 1 end = passed
node 1
0 c0 2 poll at=1005 = EBADF
1 feed 0 pass input=frontend first=0 count=1 at=1000 = passed
2 feed 1 end = passed
end
"""
# Scripts, and the column of each entry of their nodes: calls side by side where neither node nor client orders them.
COLUMNS = [
    ("c0 open n0|c1 open n1|feed 1|c1 read n1 9|c0 read n0 9|c0 poll n0", {0: [0, 1, 2, 3, 4], 1: [0, 1, 2, 4]}),
    ("c0 open n0|c1 open n0|c1 open n1|feed 1", {0: [0, 1, 3, 4], 1: [2, 3, 4]}),
    ("c0 poll h3|c0 open n0", {0: [1, 2, 3]}),
]
SECTION = bytes.fromhex("004200050102030405")
START, TAP = "c0 open n0|c0 section n0 256 0 4|", "c0 open n0|c0 pes n0 256 frontend tap 1 4|"
WHOLE = "c0 open n0|c0 pes n0 256 frontend tsdemux_tap 20 4|"
# Scripts, payloads of the packets of PID 256, and the least and most bytes unread behind each batch.
AREAS = [
    ("a section comes with one of three batches", START + "feed 3|c0 read n0 99|c0 read n0 9", [b"", SECTION, b""],
     [0, 0, 8], [8, 8, 8]),
    ("of each batch a poll tells", START + "feed 1|c0 poll n0|feed 1|c0 read n0 99|c0 read n0 9", [b"", SECTION], [0, 8], [0, 8]),
    ("a read in between gives a bound", START + "feed 2|c0 read n0 3|feed 2|c0 read n0 99|c0 read n0 99|c0 poll n0",
     [SECTION, b"", SECTION, b""], [0, 3, 0, 13], [16, 16, 13, 13]),
    ("whole packets, as many as passed", WHOLE + "feed 3|c0 read n0 999", [b""] * 3, [188, 376, 564], [188, 376, 564]),
    ("payloads, of which nothing is told but the sum", TAP + "feed 3|c0 read n0 999", [b""] * 3, [0, 0, 552], [552, 552, 552]),
    ("an overflow of whole packets", "c0 open n0|c0 size n0 377|" + WHOLE[11:] + "feed 3|c0 read n0 9", [b""] * 3,
     [188, 376, 376], [188, 376, 376]),
    ("an overflow of payloads", "c0 open n0|c0 size n0 377|" + TAP[11:] + "feed 3|c0 read n0 9", [b""] * 3,
     [0, 0, 368], [368, 368, 368]),
    ("an overflow with KEEP, behind which reads go on", "c0 open n0|c0 size n0 377|c0 pes n0 256 frontend tsdemux_tap 20 260|feed 3|"
     "c0 read n0 188|feed 1|c0 read n0 377|c0 read n0 9", [b""] * 4, [188, 376, 376, 188], [188, 376, 376, 188]),
]  # fmt: skip
# Scripts and the texts of the bands.
BANDS = [
    (WHOLE + "feed 9|c0 add n0 257|feed 9|c0 remove n0 256|feed 9", ["tsdemux_tap of PID 256", "PIDs 256, 257", "PID 257"]),
    (WHOLE.replace("20 4", "20 0") + "c0 add n0 257|c0 remove n0 256|c0 start n0|feed 9", ["tsdemux_tap of PID 257"]),
    (TAP + "feed 9|c0 remove n0 256|feed 9|c0 add n0 8192|feed 9", ["tap of PID 256", "no PID", "all packets"]),
    (WHOLE + "feed 9|c0 section n0 17 0 4|feed 9", ["tsdemux_tap of PID 256", "section of PID 17 (SDT/BAT)"]),
]


def plain(count):
    """Packets of PID 256 with a unit start and no payload."""
    return b"".join(packet(256, counter, b"", True) for counter in range(count))


def read(report):
    """The report that these bytes are."""
    return reports.read(io.StringIO(report.decode()))


@pytest.fixture
def drawn(tool):
    """The picture of a report, as XML."""

    def picture(report, *words):
        ran = tool("picture", *words, stdin=report)
        assert ran.status == 0, ran.err
        return xml.dom.minidom.parseString(ran.data).documentElement

    return picture


def texts_of(svg):
    """The texts of a picture."""
    return [node.firstChild.data for node in svg.getElementsByTagName("text") if node.firstChild]


def columns(report):
    """The columns of each node's entries."""
    axis = Axis(report)
    return {node: axis.columns_of(entries) for node, entries in report.nodes.items()}


def columns_fit(report):
    """Whether a node's columns rise, a batch has the same on each node, and the edges rise from left to right."""
    axis, batches = Axis(report), set()
    for entries in report.nodes.values():
        columns = axis.columns_of(entries)
        if any(one >= other for one, other in zip(columns, columns[1:])):
            return False
        batches.add(tuple(column for column, entry in zip(columns, entries) if entry.who == "feed"))
    rises = all(one < other for one, other in zip(axis.edges, axis.edges[1:])) or not axis.count
    return len(batches) <= 1 and rises and len(axis.edges) == axis.count + 1 and axis.right <= LEFT + WIDTH + 0.1


def looks_of(svg, beginning):
    """The titles that begin so, each with its box's colour."""
    boxes = [(rect, title.firstChild.data) for rect in svg.getElementsByTagName("rect") for title in rect.getElementsByTagName("title")]
    return [(rect.getAttribute("fill"), rect.getAttribute("stroke"), words) for rect, words in boxes if re.match(beginning, words)]


# ------ the axis


@pytest.mark.parametrize("script, wanted", COLUMNS)
def test_columns(report_of, script, wanted):
    assert columns(read(report_of(script, plain(1)))) == wanted


def test_columns_of_threads():
    assert columns(read(THREADS.encode())) == {0: [0, 2, 3, 4], 1: [1, 2, 4]}


@pytest.mark.parametrize("name", examples(".report"))
def test_columns_fit(name):
    assert columns_fit(read((EXAMPLES / f"{name}.report").read_bytes()))


def test_columns_of_a_wide_report(report_of):
    """All batches have one width."""
    polls = "c0 poll n0|"
    wide = read(report_of("c0 open n0|" + polls * 40 + "feed 50|" + polls * 90 + "feed 50|c0 poll n0", plain(1) * 100))
    axis = Axis(wide)
    sizes = {round(axis.edges[column + 1] - axis.edges[column], 6) for column in axis.batches[1:50] + axis.batches[51:100]}
    assert columns_fit(wide) and axis.gathers and len(sizes) == 1


def test_shares():
    assert shares({0: 10, 1: 90, 2: 100}, 100) == {0: 10, 1: 45, 2: 45}
    assert parts(5, 6, 3) == [7, 9, 11]


# ------ areas and bands


@pytest.mark.parametrize("name, script, payloads, low, high", AREAS, ids=[name for name, *_ in AREAS])
def test_bytes_unread(report_of, name, script, payloads, low, high):
    stream = b"".join(packet(256, counter, payload, True) for counter, payload in enumerate(payloads))
    entries = read(report_of(script, stream)).nodes[0]
    history = History(0, entries)
    places = [entry.place for entry in entries if entry.act.startswith("pass ")]
    assert ([history.low[place] for place in places], [history.high[place] for place in places]) == (low, high)


@pytest.mark.parametrize("row, wanted", [(5, [(5, 5, 6)]), (6, [(3, 5, 6)])])
def test_overflows(report_of, row, wanted):
    losses = History(0, read(report_of(AREAS[row][1], plain(3))).nodes[0]).losses()
    assert [(loss.first, loss.sure, loss.told) for loss in losses] == wanted


@pytest.mark.parametrize("script, wanted", BANDS)
def test_bands(report_of, drawn, script, wanted):
    texts = texts_of(drawn(report_of(script, plain(40))))
    named = [words for words in texts if "PID" in words.partition(":")[0] and ":" not in words or words == "all packets"]
    assert [words for number, words in enumerate(named) if named[number - 1 : number] != [words]] == wanted  # each strip names the band


# ------ texts


def test_title_and_legend(drawn):
    texts = texts_of(drawn(b"", str(EXAMPLES / "rules" / "overflow.report")))
    assert texts[0] == "overflow"
    assert texts[texts.index("legend") + 1 :] == [
        "read: data",
        "read: overflow",
        "bytes unread",
        "overflow, up to the read that tells it",
        "capture",
        "call that is done; command",
        "Line: the buffer's size; where it is dotted, the size is above the scale.",
    ]


def test_title_by_a_word(drawn):
    assert texts_of(drawn(THREADS, "--title", "two & three"))[0] == "two & three"


def test_moments(report_of, drawn):
    texts = texts_of(drawn(report_of("tick 1000|c0 open n0|c0 poll n0|c0 poll n0|tick 5|c0 poll n0|tick 40")))
    place = texts.index("ms since first")
    assert texts[place + 1 : place + 3] == ["0", "5"]


def test_lanes_of_refusals_alone(report_of, drawn):
    opens = "|".join(f"c0 open h{slot}" for slot in range(32))
    svg = drawn(report_of(f"{opens}|c0 open h0"))
    texts = texts_of(svg)
    assert "32 nodes" in texts
    assert "n0 to n31: nothing but opens, closes, sizes and refusals (32 open, 528 busy)" in texts
    assert float(svg.getAttribute("height")) < 900


def test_names_of_nodes():
    assert ranges([1, 2, 3, 7, 31, 32]) == "n1 to n3, n7, n31, dvr"


# ------ strips and looks


@pytest.mark.parametrize("count", (3, 16, 30, 300))
def test_strips(report_of, drawn, count):
    """Where a picture would be wider than a page it is cut into strips, and no text is smaller than 9 on a page of 830."""
    svg = drawn(report_of("c0 open n0|" + "c0 poll n0|" * count + "feed 5", plain(1) * 5))
    assert float(svg.getAttribute("width")) <= 830
    windows = [use.parentNode for use in svg.getElementsByTagName("use") if use.getAttribute("href") == "#rows"]
    assert bool(windows) == (count > 9)
    spans = [tuple(map(float, (window.getAttribute("viewBox").split(" ")[place] for place in (0, 2)))) for window in windows]
    assert all(abs(begin + wide - 0.5 - after) < 0.2 for (begin, wide), (after, _) in zip(spans, spans[1:])), spans
    assert min(float(words.getAttribute("font-size")) for words in svg.getElementsByTagName("text")) >= 9


@pytest.fixture
def mixed(report_of, drawn):
    """The picture of gathered commands that are done, refused and unbound."""
    return drawn(report_of("c0 open n0|" + ("c0 poll n0|" * 3 + "c0 stop h3|c0 stop h4|c0 start n0|") * 40))


def test_looks_of_gathered_commands(mixed):
    """A box has the colour of an outcome where all of its commands have it."""
    looks = looks_of(mixed, r"line \d|\d+ here:\nline")
    for fill, stroke, words in looks:
        kinds = {"unbound" if line.endswith("unbound") else "EINVAL" if line.endswith("EINVAL") else "done" for line in words.split("\n")
                 if line.startswith("line")}  # fmt: skip
        wanted = {"unbound": ("#f0e442", "#666666"), "EINVAL": ("#ffffff", "#000000")}.get("".join(kinds), ("#e4e4e4", "#666666"))
        assert (fill, stroke) == wanted, kinds
    assert len({fill for fill, _, _ in looks}) > 1


def test_looks_of_commands(report_of, drawn):
    refused = looks_of(drawn(report_of("c0 open n0|c0 start n0|c1 open n0|c0 stop h3")), "line")
    assert [fill for fill, _, _ in refused] == ["#e4e4e4", "#ffffff", "#f0e442", "#ffffff"]


def test_looks_of_the_legend(mixed):
    """No two boxes look the same."""
    legend = [box.toxml().partition(" height")[2] for box in mixed.getElementsByTagName("rect") if box.getAttribute("width") == "14"]
    assert legend and len(legend) == len(set(legend))


@pytest.mark.parametrize("script, count, is_signed", [
    ("c0 open n0|c0 pes n0 256 frontend tap 1 4|feed 30|" + "c0 read n0 184|" * 60 + "c0 read n0 9|" * 60, 30, True),
    ("c0 open n0|c0 poll n0", 0, False),
])  # fmt: skip
def test_sign_of_a_number_that_is_left_out(report_of, drawn, script, count, is_signed):
    texts = texts_of(drawn(report_of(script, plain(1) * count)))
    assert ("·" in texts) == is_signed
    assert any(words.startswith("· stands") for words in texts) == is_signed


# ------ sessions of oracle/fuzz.py


def made(seed):
    """The report of a session; of a later one, where the script has a fault."""
    while True:
        try:
            return second.report(*fuzz.session(seed)).encode()
        except second.Fault:
            seed += 20


@pytest.mark.parametrize("seed", range(1, 21))
def test_made_sessions(drawn, seed):
    """The picture is XML, its columns are in order, and no call is a letter."""
    report = made(seed)
    assert [words for words in texts_of(drawn(report)) if re.fullmatch(r"[A-Z+-][0-9]*", words)] == []
    assert columns_fit(read(report))
