"""What reads a report, over valid and changed reports: explain, with the stream too, picture, page, and json there and back.

The reports are those of sessions of oracle/fuzz.py, by the plain second program, and changed ones, each with one to three changes
of oracle/changes.py, or with another number, line or word; CHANGED_COUNT and CHANGED_FIRST in the environment name how many and
the first of their seeds, 200 and 1 without. Over a valid report each tool gives its answer. Over a changed one it does, or it
names the line that is wrong; nothing else may come of it. What the reader takes is a report for the program's `check` too, and
what it refuses is none there either, but for what docs/BEHAVIOUR.md rules out and `check` tells as another fault; of more than
200 it is asked about each twentieth.
"""
import io
import os
import random
import re
import subprocess
from functools import lru_cache

import pytest
from dvbemu import objects, reports
from dvbemu.explain import played
from dvbemu.explain.offered import Stream
from dvbemu.explain.told import Part, page as explained
from dvbemu.picture.drawing import picture
from dvbemu.picture.sheet import page
from oracle import changes, fuzz, second
from samples import asked_of

COUNT, EACH, ASKED = 200, 10, 20
ASKED_COUNT, FIRST = int(os.environ.get("CHANGED_COUNT", COUNT)), int(os.environ.get("CHANGED_FIRST", 1))
SEEDS = range(FIRST, FIRST + ASKED_COUNT)
NUMBERS = [0, 1, 7, 8, 31, 32, 64, 65, 188, 8191, 8192, 65535, 65536, 2**32 - 1, 2**32, 299999999999, 2**64 - 1, 2**64]
WORDS = """c8 c12 feed end pass read poll data again passed ended=2 keep detach attach:- attach:5,4 input=dvr input=frontend
owner=feed owner=c9 ENOMEM EINVAL 0=00/00/00 3=00/3e/3e""".split()
# What `check` tells as another fault than that of the text, and the reader refuses: docs/BEHAVIOUR.md has clients up to c7, says
# which replies a call has and who passes what of the stream, and has no span that ends before it begins.
RULED_OUT = ("a client `c0` to `c7`", "a node or the end, behind client 7", "a reply to `",
             "`pass input=frontend` and `end` of `feed` alone", "a span `A..B` with A at most B",
             "a reply: data, done")  # fmt: skip

# A report in which each number stands as the greatest one of its bits, and whose other words are of a form that the program takes
# too.
WIDE = """dvbemu 1
packets=<64> skipped=<64> rest=<32>
pid 17 packets=<64> breaks=<64> duplicates=<64> errors=<64>
client 0
line <32> steps 1..<64> stc base=<32> value=<64>
node 0
0 c0 <64> section pid=<16> timeout=<32> flags=<32> at=<64> 0=00/ff/00 = done drop=5..<64> tap=attach:1,<16>
1 c0 5 pes pid=<16> input=dvr output=tap type=<32> flags=<32> at=<64> = EINVAL
2 c0 5 add <16> = EINVAL
3 c0 5 remove <16> = EINVAL
4 c0 5 start at=<64> = EINVAL
5 c0 5 size <32> = EINVAL
6 c0 5 read <32> at=<64> = overflow 1..<64> item=<64> need=<64> room=<64>
7 c0 5 read 9 at=3 = timedout started=<64> now=<64> timeout=<32>
8 c0 5 poll at=<64> = ready readable=1 error=none at=<64> ended=0
9 c0 5 pass input=dvr first=<64> count=<32> at=<64> = passed
10 feed <64> pass input=frontend first=<64> count=<32> at=<64> = passed
11 c0 5 attach node=<32> pids=5,<16> = done drop=0..0 tap=keep
12 c0 5 detach node=<32> = done drop=0..0 tap=keep
end
"""
# Lines of which no report has such a one, though their words are of the form of those of one that has.
NO_LINES = [
    "pid 17 packets=0 breaks=0 duplicates=0 errors=0", "line 299999999999 steps 0..1 done",
    "0 c0 4 section pid=0 timeout=0 flags=0 at=0 3=00/00/00 = EINVAL",
    "0 c0 4 pes pid=0 input=dvr output=tap type=0 flags=0 at=0 = done drop=0..0 tap=attach:" + ",".join(map(str, range(129))),
    "0 c0 4 read 9 at=0 = data " + "00" * 65537,
]  # fmt: skip
# Beginnings of texts that are no reports, and what is told of them.
OTHERS = [
    ("c0 open n0\nstream\n", "this is a script: `dvbemu steps` writes its report"),
    ("# one\n\nfeed 3\n", "this is a script: `dvbemu steps` writes its report"),
    (4 * ("G" + 187 * "\xff"), "this is a recording"),
    (4 * ("G\n" + 186 * "a"), "this is a recording"), (4 * ("G\n" + 202 * "a"), "this is a recording"),
    (4 * ("\0\n\0\0G" + 187 * "a"), "this is a recording"),
    ('{"kind": "stream"}\n', "these are JSON Lines: `dvbemu json --back` writes their report"),
    ("Good morning\n", None), ("", None), ("dvbemu 2\n", None), ("c8 open n0\n", None), ("G" + 187 * "\xff", None),
]  # fmt: skip
# Reports that no program writes: a command whose call no node has; and two callers each before the other, on nodes that no batch
# passes.
HEAD = "dvbemu 1\npackets=60 skipped=0 rest=0\n"
UNTOLD = HEAD + "client 0\nline 2 steps 0..1 done\nend\n"
CROSSED = HEAD + """client 0
line 1 steps 0..1 done
line 2 steps 1..2 done
client 1
line 3 steps 0..1 done
line 4 steps 1..2 done
node 0
0 c0 1 poll at=0 = EBADF
1 c1 0 poll at=0 = EBADF
node 1
0 c1 1 poll at=0 = EBADF
1 c0 0 poll at=0 = EBADF
end
"""


# ------ the reports


@lru_cache(32)
def valid(seed):
    """A session with a script without a fault, and its report."""
    while True:
        made, batch, packet = fuzz.session(seed)
        try:
            return made, second.report(made, batch, packet)
        except second.Fault:
            seed += 1_000_000


def another_number(rng, text):
    """A number of the report is another one."""
    found = rng.choice(list(re.finditer(r"\d+", text)))
    return text[: found.start()] + str(rng.choice(NUMBERS)) + text[found.end() :]


def another_word(rng, text):
    """A word of the report is another one."""
    found = rng.choice(list(re.finditer(r"[^ \n]+", text)))
    return text[: found.start()] + rng.choice(WORDS) + text[found.end() :]


def lines_less(rng, text):
    """A stretch of lines is left out, and the places behind it are less by as many where it lies in one node."""
    lines = text.splitlines()
    first = rng.randrange(2, len(lines))
    del lines[first : first + rng.choice([1, 2, 5, 30])]
    place, made = 0, []
    for line in lines:
        place = 0 if line.startswith("node ") else place
        if line[:1].isdigit():
            line, place = f"{place} {line.partition(' ')[2]}", place + 1
        made.append(line + "\n")
    return "".join(made)


def by_changes(rng, text):
    """A change of oracle/changes.py; the text as it is where that makes none of it."""
    change = rng.choices(list(changes.CHANGES), list(changes.CHANGES.values()))[0]
    try:
        return (change(rng, text) or (text, None))[0]
    except (reports.ReportError, LookupError, ValueError):
        # (they are made for valid reports, and this one may be changed already)
        return text


def changed(seed, text):
    """A report with a few changes."""
    rng = random.Random(seed)
    for _ in range(rng.randrange(1, 4)):
        text = rng.choice([by_changes, another_number, another_word, lines_less])(rng, text or "\n")
    return text


@lru_cache(32)
def made_of(seed):
    """A session, its report, and that one changed."""
    session, report = valid(1 + seed // EACH)
    return session, report, changed(seed, report)


# ------ what is made of them


def read(text):
    """The report that a text is."""
    return reports.read(reports.text_of(io.BytesIO(text.encode("latin-1"))))


def there_and_back(text, _):
    """The report of the JSON Lines that a report is."""
    return "".join(objects.back(objects.texts_of(read(text))))


# What each tool makes of a report and its session.
TOOLS = {
    "json": there_and_back,
    "explain": lambda text, _: explained(read(text), Part()),
    "picture": lambda text, _: picture(read(text), "changed"),
    "page": lambda text, _: page(read(text), "changed"),
    "explain with the stream": lambda text,
    session: explained(read(text), Part(), Stream(played.packets_of(session, read(text)))),
}
LINE = r"line \d+: |no session"


def fault_of(make, *given):
    """What a tool makes, and None; or nothing, and what it tells of the text."""
    try:
        return make(*given), None
    except (reports.ReportError, objects.JsonError, played.NotPlayed) as fault:
        return None, str(fault)


@pytest.mark.parametrize("tool", TOOLS)
@pytest.mark.parametrize("seed", [seed for seed in SEEDS if seed % EACH == 0])
def test_valid(seed, tool):
    session, report, _ = made_of(seed)
    made, fault = fault_of(TOOLS[tool], report, session)
    assert fault is None and made is not None
    assert tool != "json" or made == report


@pytest.mark.parametrize("tool", TOOLS)
@pytest.mark.parametrize("seed", SEEDS)
def test_changed(seed, tool):
    session, _, text = made_of(seed)
    made, fault = fault_of(TOOLS[tool], text, session)
    assert made or re.match(LINE, fault or "")
    assert tool != "json" or made in (None, text)


def try_reader(program, text):
    """The program takes a text for a report where the reader does; what the reader tells."""
    told = subprocess.run([program, "check"], input=asked_of(text.encode("latin-1"), b"stream\n"), capture_output=True,
                          check=False).stderr.decode()
    _, fault = fault_of(read, text)
    is_text = not re.match(r"dvbemu: report line \d+: text\n", told)
    assert is_text == (fault is None) or is_text and any(words in fault for words in RULED_OUT), (fault, told)
    return fault


@pytest.mark.parametrize("seed", [seed for seed in SEEDS if ASKED_COUNT <= COUNT or seed % ASKED == 0])
def test_reader(program, seed):
    _, report, text = made_of(seed)
    try_reader(program, text)
    if seed % EACH == 0:
        try_reader(program, report)


def with_line(line):
    """A report with this line in place of one of the same kind."""
    head, tail = "dvbemu 1\npackets=1 skipped=0 rest=0\n", "end\n"
    parts = {"pid": line, "line": f"client 0\n{line}", "0": f"node 0\n{line}"}
    return f"{head}{parts[line.partition(' ')[0]]}\n{tail}"


def greatest(text):
    """A text in which each number is the greatest one of its bits."""
    return re.sub(r"<(\d+)>", lambda bits: str(2 ** int(bits[1]) - 1), text)


def too_great():
    """Reports in which one number is the next one, and those of another form."""
    for place, found in enumerate(re.finditer(r"<(\d+)>", WIDE)):
        line = WIDE.count("\n", 0, found.start()) + 1
        text = greatest(WIDE[: found.start()] + str(2 ** int(found[1])) + WIDE[found.end() :])
        yield pytest.param(text, id=f"number {place}, of line {line}, is 2^{found[1]}")
    for line in NO_LINES:
        yield pytest.param(with_line(line), id=line[:60])


def test_greatest_numbers(program):
    assert try_reader(program, greatest(WIDE)) is None


@pytest.mark.parametrize("text", too_great())
def test_line_of_no_report(program, text):
    assert try_reader(program, text) is not None


@pytest.mark.parametrize("text, pages", [pytest.param(UNTOLD, 0, id="untold"), pytest.param(CROSSED, 1, id="crossed")])
@pytest.mark.parametrize("tool", TOOLS)
def test_report_that_no_program_writes(text, pages, tool):
    """It is drawn; the page, which has what explain tells too, names the line of the first."""
    made, fault = fault_of(TOOLS[tool], text, b"stream\n")
    assert made or re.match(LINE, fault or "")
    assert tool != "json" or made in (None, text)
    wanted = {"picture": 1, "page": pages, "explain": pages}
    assert (made is not None) == wanted.get(tool, made is not None)


@pytest.mark.parametrize("text, wanted", OTHERS)
def test_text_that_is_no_report(text, wanted):
    """What it is where dvbemu knows it."""
    _, fault = fault_of(read, text)
    if wanted:
        assert fault.endswith(f"; {wanted}")
    else:
        assert fault.startswith("line 1: ") and ";" not in fault.replace("know; it", "")
