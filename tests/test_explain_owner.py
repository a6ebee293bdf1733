"""The state of nodes that `dvbemu explain` goes by: that of the second program; and what it tells where a node has no owner, behind a Close,
and in a report in which a node that is Free answers a read."""
import io
import random

import pytest
from dvbemu import reports
from dvbemu.explain import offered
from dvbemu.explain.walk import Walk
from oracle import fuzz, judge, second

# Two breaks between three packets, each with a section of PID 256.
BREAKS = b"".join(bytes([0x47, 0x41, 0, 0x10 | counter]) + bytes.fromhex("004200050102030405") + b"\xff" * 175 for counter in (0, 5, 10))
FREE = """\
dvbemu 1
packets=0 skipped=0 rest=0
client 0
line 1 steps 0..1 done
node 0
0 c0 0 read 9 at=0 = overflow 0..5 item=0 need=5 room=3
end
"""


@pytest.mark.parametrize("end", ["", "|c0 close n0", "|c0 close n0|c1 open n0"])
def test_hint_names_client_of_filter(cli, report_of, end):
    """A hint on a filter's PID names the client that has set the filter, also when the node is no longer its own."""
    report = report_of("c0 open n0|c0 section n0 256 0 4|feed 3" + end, BREAKS)
    told = cli("explain", "-", stdin=report)
    assert (told.status, told.err) == (0, "")
    assert "  Client 0, line 2, n0: 2 breaks of PID 256 (0x100) in the stream;" in told.out


@pytest.mark.parametrize("command", ["explain", "page"])
def test_overflow_of_free_node(cli, command):
    """A report in which a node that is Free answers a read, as no program does, is told of without the size that no buffer has."""
    told = cli(command, "-", stdin=FREE)
    assert (told.status, told.err) == (0, "")
    assert "line 1, n0: 5 bytes, 0..5 of the capture, everything unread at an Overflow" in " ".join(told.out.split())
    assert "buffer of size" not in told.out and "buffer size" not in told.out


def state_of(node):
    """Whose a node of the second program is, its size, whether a capture has begun, whether it runs, and its PIDs."""
    capture, is_dvr = node.capture, isinstance(node, second.Dvr)
    size, pids = None if node.owner is None else node.size, set() if is_dvr else node.pids
    return node.owner, size, capture is not None, not is_dvr and capture is not None and not capture.stopped, pids


@pytest.mark.parametrize("seed", range(1, 41))
def test_state_behind_each_call(seed):
    """Calls that were refused are taken too, as a report that no program writes may have them."""
    try:
        text = second.report(*fuzz.session(seed))
    except second.Fault:
        return
    for number, entries in reports.read(io.StringIO(text)).nodes.items():
        walked, node = Walk(number), second.Dvr() if number == reports.DVR else second.Demux()
        for entry in entries:
            act = reports.act_of(entry)
            if entry.who != "feed" and act["name"] not in ("read", "poll", "pass", "attach", "detach"):
                walked.accept(entry, act, {"name": "done", "drop": (0, 0), "tap": "keep"})
                node.call(int(entry.who[1]), judge.act_of(entry), act.get("at", 0))
                assert (walked.owner, walked.size, walked.has_capture, walked.runs, walked.pids) == state_of(node), entry


def test_sections_that_match():
    chosen, found = random.Random(3), []
    for _ in range(3000):
        data = bytes(chosen.choice((0, 1, 0x42)) for _ in range(chosen.randrange(3, 20)))
        places = {place: tuple(chosen.choice((0, 1, 0x42, 0xFF)) for _ in range(3)) for place in chosen.sample(range(16), chosen.randrange(4))}
        found.append(offered.matches(places, data))
        assert found[-1] == second.matches(places, data), (places, data)
    assert 300 < sum(found) < 2700
