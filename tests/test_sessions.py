"""What the program writes for each session of examples/, which was worked out from the rules and not by the program: the second
program works each of them out again, and must come to the same; `check` must find each report right, and answer over each
NAME.changed what stands in NAME.answer, first the output and then the lines on standard error, and so must the judge, but for the
second line of a text that is no report.

The sessions that `make` writes of some numbers are those of oracle/made.py, the line of `selftest 7` is that of made.sums, and
that in batches of 1 what is counted here. Sessions of many packets, commands and calls are made here; the report of `steps` is
counted or worked out by the second program, and that of `run` judged.
"""
import subprocess

import pytest
from oracle import judge, made, second
from samples import EXAMPLES, PROGRAM, asked_of, changed_reports, example, examples

pytestmark = pytest.mark.usefixtures("program")
MANY_PACKETS, MANY_PIDS = 100_100, 8192
# 100 commands of a client. The first 32 open the nodes, by 1 to 32 calls each; to each of the others all 32 are busy: 2,704
# calls.
MANY_CALLS = 100 * b"c0 open h0\n" + b"stream\n"
# 25,000 commands of a client, each of one call.
MANY_COMMANDS = b"c0 open n0\n" + 24_999 * b"c0 poll n0\n" + b"stream\n"
YES = 0, b"yes\n", b""
SUMS = (EXAMPLES / "made.sums").read_bytes()
CHANGED = {name: (report, session) for name, report, session in changed_reports()}
POLLED = example("reports/polled")
ENDS_OF_LINES = [place + 1 for place, byte in enumerate(POLLED.report) if byte == ord("\n")]


def written(words, session=b""):
    """What the program writes, with status 0."""
    return subprocess.run([PROGRAM, *words], input=session, stdout=subprocess.PIPE, check=True).stdout


def answers(report, session, packet=188):
    """What `check` gives: its status, its output, and what it writes on standard error."""
    words = ["check"] if packet == 188 else ["check", "--packet", str(packet)]
    ran = subprocess.run([PROGRAM, *words], input=asked_of(report, session), capture_output=True, check=False)
    return ran.returncode, ran.stdout, ran.stderr


# ------ the files


def test_sessions_are_what_their_texts_make():
    ran = subprocess.run([EXAMPLES / "make", "--check"], capture_output=True, text=True, check=False)
    assert (ran.returncode, ran.stdout) == (0, "")


@pytest.mark.parametrize("name", examples(".session"))
def test_report(name):
    case = example(name)
    assert written(case.words, case.session) == case.report
    assert second.report(case.session, case.batch, case.packet).encode() == case.report


@pytest.mark.parametrize("name", examples(".session"))
def test_report_is_right(name):
    case = example(name)
    assert answers(case.report, case.session, case.packet) == YES


@pytest.mark.parametrize("name", CHANGED)
def test_changed_report(name):
    output, told = (EXAMPLES / f"{name}.answer").read_bytes().split(b"\n", 1)
    # (the judge has no forms of lines)
    judged = told.partition(b"expected ")[0] if b": text\n" in told else told
    assert judge.answer(asked_of(*CHANGED[name])) == (0, output + b"\n", judged)
    assert answers(*CHANGED[name]) == (0, output + b"\n", told)


@pytest.mark.parametrize("first, behind", zip([0, *ENDS_OF_LINES], ENDS_OF_LINES))
def test_each_byte_of_a_line(tried, first, behind):
    """A report with each byte of a line changed in turn, and cut behind it: `check` and the judge answer the same."""
    report, session = POLLED.report, POLLED.session
    bytes_ = {place: b"2" if report[place] == ord("1") else b"1" for place in range(first, behind)}
    others = [report[:place] + other + report[place + 1 :] for place, other in bytes_.items()]
    for other in tried([*others, *([report[:behind]] if behind < len(report) else [])]):
        assert answers(other, session)[:2] == judge.answer(asked_of(other, session))[:2], other


# ------ made sessions


@pytest.mark.parametrize("number", [7, 8, 2**64 - 1])
def test_make(number):
    assert written(["make", str(number)]) == made.session(number)


def test_report_of_a_made_session():
    session = made.session(7)
    assert answers(written(["run"], session), session) == YES


def counted_sums(batch):
    """The line of `selftest 7` in batches of this size, counted by the packets of each PID. Client 0 reads once a section, once
    more for each batch and for the end, and once at the end; so the whole stream has passed before another client reads. Each
    entry of the feeder counts on all 33 nodes."""
    pids = [made.PIDS[word % 16] for _, word in zip(range(made.PACKETS), made.words(7, 54))]
    of = {pid: pids.count(pid) for pid in made.PIDS}
    events = -(-made.PACKETS // batch) + 1
    taps = [184 * of[256], 184 * of[257], 188 * (of[256] + of[257]), 188 * (of[0] + of[512])]
    reads = of[0] + events + 1 + of[512] + 1 + sum(-(-size // 65536) + 1 for size in taps)
    others = sum(" drain " not in line for line in made.SCRIPT.splitlines()[:-1]) + 2
    demux = 20 * (of[0] + of[512]) + taps[0] + taps[1] + taps[3]
    return f"packets={made.PACKETS} entries={others + reads + 33 * events} demux={demux} dvr={taps[2]} overflows=0\n".encode()


def test_sums():
    assert counted_sums(64) == SUMS == written(["selftest", "7"])
    assert counted_sums(1) == written(["selftest", "7", "--batch", "1"])


# ------ sessions of much


def many_packets(nodes, batch, most=MANY_PACKETS):
    """A session of many packets of each PID in turn, whose one client opens so many nodes: its bytes, and the report of `steps`
    in batches of this size, which is counted."""
    numbers = [(place % MANY_PIDS, place // MANY_PIDS % 16) for place in range(most)]
    packets = b"".join(bytes([0x47, pid >> 8, pid & 0xFF, 0x10 | counter]) + 184 * b"\0" for pid, counter in numbers)
    each = [len(range(pid, most, MANY_PIDS)) for pid in range(MANY_PIDS)]
    rows = [f"pid {pid} packets={count} breaks=0 duplicates=0 errors=0" for pid, count in enumerate(each)]
    opened = [f"line {node + 1} steps {node}..{node + 1} done" for node in range(nodes)]
    passes = [f"{step + 1} feed {step} pass input=frontend first={first} count={min(batch, most - first)} at=0 = passed"
              for step, first in enumerate(range(0, most, batch))]  # fmt: skip
    fed = "\n".join([*passes, f"{len(passes) + 1} feed {len(passes)} end = passed"])
    called = [f"node {node}\n0 c0 {node} open = done drop=0..0 tap=keep\n{fed}" for node in range(nodes)]
    lines = ["dvbemu 1", f"packets={most} skipped=0 rest=0", *rows, "client 0", *opened, *called, "end", ""]
    script = b"".join(b"c0 open n%d\n" % node for node in range(nodes)) + b"stream\n"
    return script + packets, "\n".join(lines).encode()


def many_writes():
    """A session of 2,000 writes, of a packet each, to a filter that then is read."""
    packets = [b"\x47\x01\0" + bytes([0x10 | place % 16]) + 92 * place.to_bytes(2, "big") for place in range(2_000)]
    lines = b"".join(b"c0 write dvr %s\n" % packet.hex().encode() for packet in packets)
    opened = b"c0 open dvr\nc0 open n0\nc0 size n0 400000\nc0 pes n0 256 dvr tsdemux_tap 20 4\n"
    return opened + lines + b"c0 drain n0 65536\nstream\n"


def worked_out(session):
    """A session, with its report by the second program."""
    return session, second.report(session, 64).encode()


@pytest.mark.parametrize("make, batch, by_threads", [
    pytest.param(lambda: many_packets(1, 64), 64, True, id="100,100 packets"),
    pytest.param(lambda: many_packets(1, 1), 1, True, id="100,100 batches"),
    pytest.param(lambda: many_packets(1, 64, 200_100), 64, False, id="200,100 packets"),
    # (15 nodes make a report of more than 100 MB, where each packet is a batch)
    pytest.param(lambda: many_packets(15, 1), 1, False, id="a report of more than 100 MB"),
    pytest.param(lambda: worked_out(MANY_COMMANDS), 64, True, id="25,000 commands"),
    pytest.param(lambda: worked_out(MANY_CALLS), 64, True, id="2,704 calls"),
    pytest.param(lambda: worked_out(many_writes()), 64, True, id="2,000 writes"),
])  # fmt: skip
def test_much(make, batch, by_threads):
    """By one thread, and by more."""
    session, report = make()
    # (a report of 100 MB isn't shown)
    is_same = written(["steps", "--batch", str(batch)], session) == report
    assert is_same
    assert answers(report, session) == YES
    if by_threads:
        told = written(["run", "--batch", str(batch)], session)
        assert judge.judge(session, batch, told) is None
        assert answers(told, session) == YES
