"""The pictures and explanations of all reports of examples/, those that stand there byte for byte, and texts that are no
reports."""
import subprocess
import xml.dom.minidom

import pytest
from samples import EXAMPLES, examples

# A text of the form of a report that no program writes: a call on a node that nobody opened.
UNOPENED = b"""dvbemu 1
packets=0 skipped=0 rest=0
node 0
0 c0 0 pes pid=0 input=frontend output=tap type=0 flags=4 at=0 = EBADF
1 c0 1 start at=0 = done drop=0..0 tap=keep
2 c0 2 close = done drop=0..9 tap=keep
end
"""
# A report of four clients, of which only the third has a command, and one of clients that have none.
IDLE = b"""dvbemu 1
packets=0 skipped=0 rest=0
client 0
client 1
client 2
line 1 steps 0..0 unbound
client 3
end
"""
NOBODY = IDLE.replace(b"line 1 steps 0..0 unbound\n", b"")
# A replacement of sed that makes a text that is no report of programs/scan.report, and what is told of it.
REFUSED = [
    ("1s/1/2/", "line 1: a report of a format that this tool doesn't know; it knows `dvbemu 1`, found 'dvbemu 2'"),
    ("1s/emu/gemu/", "line 1: expected `dvbemu 1`, found"),
    ("2s/rest/left/", "line 2: expected `packets=.. skipped=.. rest=..`, found"),
    ("4s/16/016/", "line 4: expected a number from 0 to 65535, found"),
    ("4s/16/0/", "line 4: expected a PID above 0, at most 8191, found"),
    ("10s/0/1/", "line 10: expected `client 0`, found"),
    ("11s/done/gone/", "line 11: expected one of `done`, `EMFILE`, `unbound`, `nostc`, `stc base=.. value=..`, found"),
    ("41s/0/32/", "line 41: expected a number from 0 to 31, found"),
    ("45s/3/4/", "line 45: expected `3 WHO STEP ACT = REPLY`, found"),
    ("45s/passed/done drop=0..0 tap=keep/", "line 45: expected a reply to `pass`: passed, found"),
    ("49s/data 00b0/data 00B0/", "line 49: expected two lower-case hexadecimal digits a byte, found"),
    ("49s/data 00/data 0/", "line 49: expected two lower-case hexadecimal digits a byte, found"),
    ("58s/26..78/78..26/", "line 58: expected a span `A..B` with A at most B, found"),
    ("$d", "line 83: expected `41 WHO STEP ACT = REPLY`, `node ..`, `end` or `fault read`, found the end of the text"),
    ("$p", "line 84: expected nothing behind the last line, found"),
    (r"s/$/\r/", "line 1: a report of a format that this tool doesn't know; it knows `dvbemu 1`, found 'dvbemu 1\\r'"),
    ("d", "line 1: expected `dvbemu 1`, found the end of the text"),
]
# The same for explain alone.
UNEXPLAINED = (r"12s/1\.\.2/1..3/", "line 40: expected the commands of client 0 ")


@pytest.mark.parametrize("name", examples(".svg"))
def test_picture(tool, name):
    ran = tool("picture", str(EXAMPLES / f"{name}.report"))
    assert ran == (0, (EXAMPLES / f"{name}.svg").read_text(encoding="utf-8"), "")


@pytest.mark.parametrize("name", examples(".explained"))
def test_explanation(tool, name):
    ran = tool("explain", str(EXAMPLES / f"{name}.report"))
    assert ran == (0, (EXAMPLES / f"{name}.explained").read_text(encoding="utf-8"), "")


@pytest.mark.parametrize("name", examples(".report"))
def test_picture_is_xml(tool, name):
    ran = tool("picture", str(EXAMPLES / f"{name}.report"))
    assert ran.status == 0 and xml.dom.minidom.parseString(ran.data)


@pytest.mark.parametrize("name", examples(".report"))
def test_report_is_explained(tool, name):
    ran = tool("explain", str(EXAMPLES / f"{name}.report"))
    assert ran.status == 0 and ran.out


def test_picture_of_a_node_that_nobody_opened(tool):
    assert tool("picture", stdin=UNOPENED).status == 0


def test_explanation_of_clients_without_a_command(tool):
    told = tool("explain", stdin=IDLE).out
    assert "\nClient 2\n" in told and told.count("\nClient") == 1
    assert tool("explain", "--client", "3", stdin=IDLE).out.startswith("Client 3\n\n  No commands.\n")
    assert "\nClients 0 to 3\n\n  No commands.\n" in tool("explain", stdin=NOBODY).out


@pytest.mark.parametrize("word, change, line", [
    *((word, *case) for word in ("picture", "explain") for case in REFUSED), ("explain", *UNEXPLAINED),
])  # fmt: skip
def test_refused(tool, word, change, line):
    report = EXAMPLES / "programs" / "scan.report"
    text = subprocess.run(["sed", change, report], stdout=subprocess.PIPE, check=True).stdout
    ran = tool(word, stdin=text)
    assert (ran.status, ran.out) == (1, "")
    assert ran.err.startswith(f"dvbemu {word}: standard input: {line}")
