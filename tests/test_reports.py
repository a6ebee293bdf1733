"""The records of a report, kept as numbers or lines and made where they are asked for, and its writer: what it writes is the text that was read."""
import pytest
from dvbemu import reports
from dvbemu.reports import Entries, Entry, Outcome, Outcomes, Pass, Texts
from samples import EXAMPLES, examples

OUTCOME = "line 3 steps 4..6 stc base=300 value=7", Outcome(3, 4, 6, "stc base=300 value=7")
ENTRY = "5 c1 6 overflow at=7 = again ended=0", Entry(5, "c1", 6, "overflow at=7", "again ended=0")
# Forms of lines, what stands at their places, and how that is written.
FORMS = [
    (reports.HEAD, {"packets": 3, "skipped": 0, "rest": 7}, "packets=3 skipped=0 rest=7"),
    (reports.REPLIES["done"], {"drop": (5, 9), "tap": [1, 8192]}, "drop=5..9 tap=attach:1,8192"),
    (reports.REPLIES["done"], {"drop": (0, 0), "tap": "keep"}, "drop=0..0 tap=keep"),
    (reports.REPLIES["overflow"], {"span": (1, 2), "item": 3, "need": 4, "room": 5}, "1..2 item=3 need=4 room=5"),
    (reports.ACTS["attach"], {"node": 31, "pids": []}, "node=31 pids=-"),
    (reports.ACTS["pes"], {"pid": 1, "input": "dvr", "output": "tap", "type": 2, "flags": 4, "at": 5},
     "pid=1 input=dvr output=tap type=2 flags=4 at=5"),
]  # fmt: skip


@pytest.mark.parametrize("text, record", [OUTCOME, ENTRY])
def test_record(text, record):
    assert type(record).of(text) == record and record.text() == text


@pytest.mark.parametrize("form, places, text", FORMS)
def test_form(form, places, text):
    assert reports.read_form(form, text.split(" ")) == places
    assert reports.written(form, places) == text


def look_at(rows, wanted):
    """Looks at rows as a sequence."""
    count = len(wanted)
    assert len(rows) == count and list(rows) == wanted and list(reversed(rows)) == wanted[::-1]
    places = {*range(5), *range(count - 5, count), *range(0, count, 97)} & {*range(count)}
    assert all(rows[place] == wanted[place] == rows[place - count] for place in places)
    assert rows[1:9] == wanted[1:9] and rows[::-700] == wanted[::-700]
    for place in count, -count - 1:
        with pytest.raises(IndexError):
            rows[place]


@pytest.mark.parametrize("count", [0, 1, Texts.EACH - 1, Texts.EACH, Texts.EACH + 1, 3 * Texts.EACH])
def test_entries(count):
    """Of the entries of a node no, one or two batches stand before each read."""
    entries, wanted, calls = Entries(), [], []
    for number in range(count):
        for step in range(number % 3):
            entries.take_pass(step, 10 + step, 2, number)
            wanted.append(Entry(len(wanted), "feed", step, f"pass input=frontend first={10 + step} count=2 at={number}", "passed"))
        calls.append(Entry(len(wanted), "c1", number, f"read 9 at={number}", "again ended=0"))
        wanted.append(calls[-1])
        entries.take(calls[-1].text())
    look_at(entries, wanted)
    assert list(entries.calls()) == calls
    assert [row.entry() if isinstance(row, Pass) else row for row in entries.rows()] == wanted
    assert all(entries.call(number) == calls[number] for number in range(0, count, 97))


@pytest.mark.parametrize("count", [0, 1, 2000])
def test_outcomes(count):
    """Each command has two calls; every fifth finds no free node."""
    wanted = [Outcome(7 * number, 2 * number, 2 * number + 2, "EMFILE" if number % 5 == 4 else "done") for number in range(count)]
    look_at(Outcomes(wanted), wanted)


def test_least_moment():
    """The least moment is that of a batch, of a call, or 0 where none has one; the bytes that a poll tells of are no moment."""
    head, end = "dvbemu 1\npackets=2 skipped=0 rest=0\nnode 0\n", "end\n"
    calls = "0 c0 0 open = done drop=0..0 tap=keep\n", "1 c0 1 poll at=9 = ready readable=0 error=none at=3 ended=0\n"
    batch = "2 feed 0 pass input=frontend first=0 count=2 at={} = passed\n"
    for more, least in ("", 9), (batch.format(8), 8), (batch.format(10), 9):
        text = head + "".join(calls) + more + end
        assert reports.first_moment(reports.read(text.splitlines(keepends=True))) == least
    assert reports.first_moment(reports.read((head + calls[0] + end).splitlines(keepends=True))) == 0


@pytest.mark.parametrize("number", [10**18, 2**64 - 1])
def test_large_numbers(number):
    """A batch whose numbers have 19 digits and more is one too, and is written as it was read."""
    line = f"1 feed {number} pass input=frontend first={number} count=4294967295 at={number} = passed"
    text = f"dvbemu 1\npackets=2 skipped=0 rest=0\nnode 0\n0 c0 0 open = done drop=0..0 tap=keep\n{line}\nend\n"
    report = reports.read(text.splitlines(keepends=True))
    assert list(report.nodes[0].rows())[1] == Pass(1, number, number, 4294967295, number)
    assert "".join(reports.write(report)) == text


@pytest.mark.parametrize("name", examples(".report"))
def test_written(name):
    text = (EXAMPLES / f"{name}.report").read_text()
    assert "".join(reports.write(reports.read(text.splitlines(keepends=True)))) == text
