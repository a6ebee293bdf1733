"""`dvbemu beside`, and the model of Linux 6.1 that it holds a session against.

What that kernel's own code was seen to answer stands in tests/linux: points.rows has a session of each row of docs/KERNEL.md,
cases.rows 148 more. With no row at work the model is docs/BEHAVIOUR.md, as the second program has it."""
import json
import re
import subprocess

import dvbemu
import pytest
import rows
from conftest import EXAMPLES, PROGRAM, ROOT, SERVED
from dvbemu.commands import beside as word
from dvbemu.linux.beside import differences, events_here
from dvbemu.linux.points import Point
from dvbemu.linux.session import Run, Session, texts
from dvbemu.stream.packets import packet
from oracle import fuzz, second

FILES = ROOT / "tests" / "linux"
STREAM = EXAMPLES / "programs" / "scan.ts"
PAGE = (ROOT / "docs" / "KERNEL.md").read_text(encoding="utf-8")


def slug(point):
    """The title of the session of a row."""
    return re.sub(r"[^a-z0-9]+", "-", point.row.lower().replace("'", "")).strip("-")


def seen(name):
    """The sessions of a file, by their titles."""
    return {session.title: session for session in rows.read_rows((FILES / name).read_text())}


POINTS, CASES = seen("points.rows"), seen("cases.rows")


def answers(session, off=(), hertz=1000):
    """What the model answers: the replies of each line."""
    batch = rows.options(" ".join(session.runs))[0]
    found = {}
    for event in Run(Session.of(bytes(session.input)), batch, off, hertz).lines().events:
        found.setdefault(event.line, []).append(word.plain(event.reply))
    return found


def wanted(session):
    """What was seen."""
    found = {}
    for _, line, _, replies in session.rows:
        counted = [re.fullmatch(r"(?:(\d+) of )?(.*)", reply) for reply in replies]
        found[line] = [rows.bytes_of_text(reply[2]).decode() for reply in counted for _ in range(int(reply[1] or 1))]
    return found


# ------ the model


@pytest.mark.parametrize("title, session", [*POINTS.items(), *CASES.items()], ids=[*POINTS, *CASES])
def test_as_linux_answered(title, session):
    assert answers(session) == wanted(session)


@pytest.mark.parametrize("count, replies", [(10239, ["ready readable=1 error=0", "data {}"]), (10240, ["ready readable=1 error=1", "overflow", "again"])])
def test_the_first_size_of_dvr(count, replies):
    """10,239 packets fit into the first buffer of dvr0, and no more."""
    packets = [packet(256, counter) for counter in range(count)]
    script = f"c0 open dvr\nc0 open n0\nc0 pes n0 256 frontend ts_tap 20 0\nc0 start n0\nfeed {count}\nc0 poll dvr\nc0 read dvr 188\nc0 read dvr 188\nstream\n"
    found = [word.plain(event.reply) for event in Run(Session.of(script.encode() + b"".join(packets)), 64).lines().events][4:]
    assert found[: len(replies)] == [reply.format(packets[0].hex()) for reply in replies]


@pytest.mark.parametrize("point", Point, ids=lambda point: point.name)
def test_each_row_has_its_session(point):
    """Without the row the session is answered otherwise."""
    assert answers(POINTS[slug(point)], [point]) != wanted(POINTS[slug(point)])


def test_no_other_session_stands_there():
    assert {*POINTS} == set(map(slug, Point))


def here(session, batch, packet=188):
    """The replies here by the second program, as text."""
    report = second.report(session, batch, packet).split("\n")
    return texts(events_here(report, Session.of(session, packet)))


def plain(session, batch, packet=188):
    """Those of the model without a row."""
    return texts(Run(Session.of(session, packet), batch, Point).lines().events)


@pytest.mark.parametrize("name", sorted(path.relative_to(EXAMPLES).as_posix() for path in EXAMPLES.glob("*/*.session")))
def test_without_a_row_it_is_the_second_program(name):
    session = (EXAMPLES / name).read_bytes()
    size = 204 if "204" in name else 188
    assert here(session, 64, size) == plain(session, 64, size)


@pytest.mark.parametrize("first", range(0, 200, 25))
def test_drawn_sessions_without_a_row(first):
    for seed in range(first, first + 25):
        session, batch, size = fuzz.session(seed)
        try:
            replies = here(session, batch, size)
        except second.Fault:
            continue
        assert replies == plain(session, batch, size), seed


# ------ HZ

TIMED = "c0 open n0\nc0 section n0 256 {} 4\ntick {}\nc0 read n0 1\nstream\n"


@pytest.mark.parametrize("hertz, timeout, over", [
    (1000, 10, 11), (1000, 1, 2), (1000, 4294966, 4294967), (1000, 4294967, 1), (1000, 4294968, 2),
    (250, 10, 12), (250, 1, 4), (250, 17179868, 17179872), (100, 10, 20), (100, 25, 30), (100, 1, 10),
])  # fmt: skip
def test_timeouts_by_jiffies(hertz, timeout, over):
    """A timeout is over with the jiffy behind its own: of HZ 250 one of 10 ms, 2 jiffies, with the third that begins."""
    replies = [Run(Session.of(TIMED.format(timeout, moment).encode()), 1, (), hertz).lines().events[-1].reply for moment in (over - 1, over)]
    assert replies == ["again", "timedout"]


# ------ docs/KERNEL.md

TABLE = re.findall(r"^\| (.+?) \| (.+?) \| (.+?) \|$", PAGE.partition("## Different")[2].partition("\n## ")[0], re.M)[1:]


def test_the_page_and_the_model_have_the_same_rows():
    assert [row for row, _, _ in TABLE] == [point.row for point in Point]
    assert len({point.row for point in Point}) == len(Point)


@pytest.mark.parametrize("point, cells", zip(Point, TABLE), ids=[point.name for point in Point])
def test_the_page_says_what_is_told(point, cells):
    """The last cell begins with the words of the model, which fit on a line."""
    assert cells[2] == point.says or cells[2].startswith(point.says + ". ")
    assert len(f"    by '{point.row}': {point.says}") <= 150


# ------ the command

TWO = rows.read_rows("""session two-filters
c0 open n0
c0 section n0 256 0 4
feed 1
c0 open n1
c0 section n1 256 0 4
feed 2
c0 read n0 4096
c0 read n0 4096
stream
U 256 0 40 00 c8 11*180
P 256 1 11*20 ff
U 256 2 42 00 05 01 02 03 04 05
""")[0]
TOLD = """line 7: c0 read n0 4096
    here 203 bytes: 4000c811111111111111111111111111.. | Linux 8 bytes: 4200050102030405
    by 'two section filters on one PID', line 5: one feed for both: starting or ending one loses the other's open section, and ending one wakes another
line 8: c0 read n0 4096
    here 8 bytes: 4200050102030405 | Linux EAGAIN
    by 'two section filters on one PID', line 5
2 of 6 lines otherwise on Linux 6.1, by 1 row of docs/KERNEL.md
"""
# A start that is refused, since another has the type; its feed is then that of the section filter, which the remove would end.
UNDEFINED = b"""c0 open n0
c0 pes n0 256 frontend tap 1 4
c0 open n1
c0 pes n1 257 frontend tap 1 0
c0 start n1
c0 open n2
c0 section n2 0 0 4
c0 remove n1 257
c0 poll n2
stream
"""


@pytest.fixture
def told(room):
    """What the command tells of a session, and its status."""

    def run(session, *options):
        room.write({"my.session": session})
        found = room.run(" ".join(["beside", *options, "my.session"]))
        assert found.err == ""
        return found.status, found.out.decode()

    return run


@pytest.mark.parametrize("name, counts", [
    ("dvblast", "22 lines, 22 calls"), ("epg", "28 lines, 28 calls"), ("recording", "10 lines, 10 calls"), ("scan", "30 lines, 30 calls"),
    ("tables", "9 lines, 15 calls"), ("two-clients", "13 lines, 25 calls"),
])  # fmt: skip
def test_programs_meet_nothing(cli, name, counts):
    assert cli("beside", EXAMPLES / "programs" / f"{name}.session") == (0, f"The same on Linux 6.1: {counts}.\n", "")


def test_what_differs(told):
    assert told(bytes(TWO.input)) == (1, TOLD)


def test_json(told):
    status, text = told(bytes(TWO.input), "--json")
    first, second_line, last = map(json.loads, text.splitlines())
    data = "data " + bytes.fromhex("4000c8" + 200 * "11").hex()
    row = {"name": "two section filters on one PID", "line": 5}
    assert status == 1 and first == {
        "kind": "difference", "line": 7, "command": "c0 read n0 4096", "changes": [{"reply": 1, "here": [data], "linux": ["data 4200050102030405"]}],
        "rows": [row], "packets": None,
    }  # fmt: skip
    assert second_line["changes"] == [{"reply": 1, "here": ["data 4200050102030405"], "linux": ["again"]}]
    assert last == {"kind": "end", "same": False, "lines": 6, "calls": 6, "differing": 2, "rows": [row["name"]], "undefined": None}


def test_undefined(told):
    ends = "undefined from line 8 on: Linux goes on with memory that it has given to another feed\n1 of 7 lines otherwise on Linux 6.1, by 1 row of docs/KERNEL.md\n"
    status, text = told(UNDEFINED)
    assert status == 1 and text.endswith(ends) and "line 5: c0 start n1\n    here done | Linux EINVAL\n    by 'PES types below 20'" in text
    assert json.loads(told(UNDEFINED, "--json")[1].splitlines()[-1])["undefined"] == 8


def test_a_stream_that_stands_elsewhere(told):
    """The first packet has its error bit: on Linux the wait ends with its section, here with the next one's. What follows is
    counted."""
    section = "42 00 05 01 02 03 04 "
    lines = ["session elsewhere", "c0 open n0", "c0 section n0 256 0 4", "c0 open n1", "c0 pes n1 8192 frontend tsdemux_tap 20 4", "c0 readw n0 4096"]
    lines += ["feed 1", "c0 read n0 4096", "c0 read n1 188", "c0 read n1 4096"] * 3 + ["stream", f"bytes 47 c1 00 10 00 {section}00 ff*175"]
    lines += [f"U 256 {number} {section}0{number}" for number in range(1, 6)]
    status, text = told(bytes(rows.read_rows("\n".join(lines))[0].input), "--batch", "1")
    assert status == 1 and text == """line 5: c0 readw n0 4096
    here 8 bytes: 4200050102030401 | Linux 8 bytes: 4200050102030400
    by 'a packet with its error bit, for sections': used, unless the module's parameter dvb_demux_feed_err_pkts is 0
lines 7 to 16: 6 more by rows told above; the stream stands elsewhere, in line 7 at packet 3 here, 2 on Linux
7 of 14 lines otherwise on Linux 6.1, by 1 row of docs/KERNEL.md
"""


@pytest.mark.parametrize("number", [1, 3, 64])
def test_a_report_and_its_session(room, number):
    """The batches are those of the report."""
    session = bytes(TWO.input)
    room.write({"my.session": session, "my.report": second.report(session, number).encode()})
    assert room.run("beside my.report my.session")[:2] == (1, TOLD.encode())


def test_a_report_of_another_session(room):
    room.write({"my.session": bytes(TWO.input), "my.report": second.report(UNDEFINED, 64).encode()})
    wrong = "dvbemu beside: my.report: not the report of `steps` over this session; leave it out to compare the session alone\n"
    assert room.run("beside my.report my.session") == (1, b"", wrong)


def test_a_served_report(files_room):
    assert files_room.run("beside served recording") == (0, b"The same on Linux 6.1: 27 lines, 27 calls.\n", "")


@pytest.mark.parametrize("line, wrong", [
    ("beside report recording", "dvbemu beside: report: not a report of `serve`"), ("beside served big", "dvbemu beside: served: not the report"),
    ("beside --hz 999 session", "dvbemu beside: error: argument --hz: invalid choice"), ("beside --batch 65 session", "dvbemu beside: error: argument --batch"),
])  # fmt: skip
def test_what_is_refused(files_room, line, wrong):
    found = files_room.run(line)
    assert (found.status, found.out) == (2 if "--" in line else 1, b"") and wrong in found.err


def test_a_fault_in_the_script(room):
    room.write({"bad": b"c0 open n0\nc0 opne n0\nstream\n"})
    status, out, told = room.run("beside bad")
    assert (status, out) == (3, b"") and told.startswith("dvbemu: script line 2: command\n  word 2 is 'opne'; expected a command: ")


# ------ where else it is told


def test_explain(room):
    session = bytes(TWO.input)
    room.write({"my.session": session, "my.report": second.report(session, 64).encode(), "other": second.report(session, 1).encode()})
    told = re.sub(r"\n *", " ", room.call("explain my.report my.session").out.decode().partition("On Linux 6.1\n")[2]).strip()
    assert told == "Line 7 is answered 8 bytes: 4200050102030405, and not 203 bytes: 4000c811111111111111111111111111.., by 'two section filters on one " \
        "PID' in line 5: one feed for both: starting or ending one loses the other's open section, and ending one wakes another. " \
        "`dvbemu beside SESSION` tells all 2 such lines."  # fmt: skip
    assert "On Linux" not in room.call("explain --node n0 my.report my.session").out.decode()


@pytest.mark.parametrize("session", [b"c0 open n1\nstream\n", b"c0 opne n0\nstream\n", b"stream\n"])
def test_explain_of_another_session(room, session):
    """Of a session of which the report is none nothing is told."""
    room.write({"my.session": session + bytes(TWO.input).partition(b"\nstream\n")[2], "my.report": second.report(bytes(TWO.input), 64).encode()})
    found = room.call("explain my.report my.session")
    assert found.status == 0 and b"On Linux" not in found.out


def test_the_module(monkeypatch):
    monkeypatch.setenv("DVBEMU", PROGRAM)
    report = dvbemu.steps(bytes(TWO.input), batch=7)
    verdict = report.same_on_linux()
    assert not verdict and verdict.reason == TOLD.strip()
    script = dvbemu.Script("c0 open n0\nc0 section n0 0 0 4")
    assert dvbemu.steps(script).same_on_linux() and dvbemu.steps(script, STREAM).same_on_linux()
    loaded = dvbemu.Report.parse(report.text)
    assert not loaded.same_on_linux(bytes(TWO.input))
    assert dvbemu.Report.parse(SERVED.read_bytes()).same_on_linux(STREAM)
    with pytest.raises(ValueError, match="name the report.s session"):
        loaded.same_on_linux()
    with pytest.raises(dvbemu.ProgramError, match="not the report"):
        loaded.same_on_linux(UNDEFINED)


def test_a_folder_of_tests(room):
    session = bytes(TWO.input)
    room.write({"tests/two.session": session, "tests/two.report": second.report(session, 64).encode()})
    assert room.run("test tests").status == 0
    row = Point.SHARED.row
    why = f"line 7 is answered otherwise on Linux 6.1, by '{row}': tests/two.linux doesn't name that"
    wrong = f"1..1\nnot ok 1 - two\n# {why}\n# 1 of 1 failed\n"
    assert room.run("test --linux tests") == (1, wrong.encode(), "")
    room.write({"tests/two.linux": f"Stop\n{row}\n".encode()})
    assert room.run("test --linux tests") == (0, b"1..1\nok 1 - two\n", "")


# ------ how replies are put side by side


@pytest.mark.parametrize("here, there, wanted", [
    ("abc", "abc", []), ("abc", "abxc", [(2, "", "x")]), ("abxyc", "abc", [(2, "xy", "")]), ("abc", "xbz", [(0, "a", "x"), (2, "c", "z")]),
    ("", "abc", [(0, "", "abc")]), ("a" * 50, "b" * 60, [(0, "a" * 50, "b" * 60)]), ("a" * 20 + "c", "b" * 20 + "c", [(0, "a" * 20 + "c", "b" * 20 + "c")]),
])  # fmt: skip
def test_side_by_side(here, there, wanted):
    assert [(place, "".join(one), "".join(two)) for place, one, two in differences([*here], [*there])] == wanted


@pytest.mark.usefixtures("server")
def test_an_adapter():
    """The report of an adapter knows what was played, unless there are several recordings."""
    with dvbemu.serve(STREAM, packets=3000) as adapter:
        adapter.run(["head", "-c", "1", "/dev/dvb/adapter0/demux0"], stdin=subprocess.DEVNULL, timeout=60, check=False)
    assert adapter.report.node("n0").calls() and adapter.report.same_on_linux()
    assert dvbemu.serve(tune={"474000000": STREAM}).recording is None
