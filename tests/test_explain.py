"""What `explain` tells of the time: from the first moment of the report on, in the reports of `serve` and `run` as in those of `steps`."""
import pytest

# The moments are the machine's, as `serve` writes them; client 0 has no command.
SERVED = """\
dvbemu 1
packets=1 skipped=0 rest=0
pid 0 packets=1 breaks=0 duplicates=0 errors=0
client 0
client 1
line 1 steps 0..1 done
line 2 steps 1..2 done
line 3 steps 2..3 done
line 4 steps 3..4 done
node 3
0 feed 0 pass input=frontend first=0 count=1 at={first} = passed
1 c1 0 open = done drop=0..0 tap=keep
2 c1 1 section pid=0 timeout=1500 flags=4 at=700000 = done drop=0..0 tap=keep
3 c1 2 poll at=700003 = ready readable=0 error=none at=0 ended=0
4 c1 3 read 9 at=701500 = timedout started=700000 now=701500 timeout=1500
end
"""


def explained(tool, text):
    """The words of what explain tells."""
    told = tool("explain", "-", stdin=text)
    assert (told.status, told.err) == (0, "")
    return " ".join(told.out.split())


@pytest.mark.parametrize("first, since, polled, read", [(700000, "", "+3", "+1,500"), (699990, " at +10 ms", "+13", "+1,510")])
def test_time_since_the_first_moment(tool, first, since, polled, read):
    """The first moment is that of a batch; a call of that moment has none."""
    told, begun = explained(tool, SERVED.format(first=first)), "+0" if first == 700000 else "+10"
    expired = f"started at {begun} ms with a timeout of 1500 ms, expired at {read} ms."
    assert f"timeout 1500 ms, flag DMX_IMMEDIATE_START){since}: Done, a capture begins." in told
    assert f"line 3: polls n3 at {polled} ms: nothing yet." in told
    assert f"line 4: reads at most 9 bytes from n3 at {read} ms: TimedOut, {expired}" in told
    assert f"What timed out: line 4, n3: the section filter of PID 0 (PAT), {expired}" in told
    assert "700" not in told and "701" not in told and "Client 1 What it asked for: line 1: opens n3: Done." in told


def test_no_empty_client(tool):
    told = explained(tool, SERVED.format(first=700000))
    assert "Client 0" not in told and "No commands" not in told
