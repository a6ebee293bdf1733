"""The module `dvbemu`: the lines that Script builds, reports as objects, `steps`, `run` and `check`, adapters, also with a recording per
frequency and with two adapters, and their end when their process is killed. Wrong types are refused, and each exception is an Error.
Warnings are errors. The expected lines and values stand here, by docs/BEHAVIOUR.md. mypy finds no error.
"""
import glob
import importlib
import os
import pkgutil
import re
import shutil
import signal
import subprocess
import sys
import tempfile

import dvbemu
import pytest
from conftest import comes, needs
from samples import EXAMPLES, PROGRAM, ROOT, examples
from stations import Station

pytestmark = pytest.mark.filterwarnings("error")

PYTHON = ROOT / "python" / "src"
TUNER = str(ROOT / "tests" / "served" / "tuner.py")
STREAM = str(EXAMPLES / "programs" / "scan.ts")
# The services of two stations, each at its frequency.
SERVICES = {474_000_000: ("Alpha", "Beta"), 482_000_000: ("Gamma", "Delta")}
PAT = "00b0151234c10000000000100101f0000102f00138e33188"
LINES = """\
feed 3
c2 open n4
c2 section n4 16 500 1 0=40/ff/00 3=06/3e/3e
c2 section n4 0 0 5 0=00/ff/00 1=12/ff/00 2=34/ff/00
c2 start n4
c2 stop n4
c2 size n4 1880
c2 read n4 188
c2 readw n4 188
c2 drain n4 188
c2 poll n4
c2 close n4
tick 7
c0 open h1
c0 pes h1 8192 frontend tsdemux_tap 20 4
c0 pes h1 256 dvr tap 4 258
c0 add h1 257
c0 remove h1 257
c0 ioctl h1 c0106f32 01000000000000000000000000000000
c0 open dvr
c0 write dvr 4701
c0 section n1 4096 0 5 0=02/ff/00
"""
# What isn't a script's line: a call of Script or of a device that raises a ValueError.
WRONG = [
    lambda script: script.feed(0), lambda script: script.client(8), lambda script: script.client(0).open("demux32"),
    lambda script: script.client(0).open("h32"), lambda script: script.client(0).open("frontend0"), lambda script: script.lines("c0 pes n0 1 x tap 20 4"),
    lambda script: script.client(0).open("demux0").set_filter(0, filter=bytes(17)), lambda script: script.client(0).open("demux0").set_filter(65536),
    lambda script: script.client(0).open("demux0").set_filter(0, table_id=256), lambda script: script.client(0).open("demux0").set_filter(0, tid=1),
    lambda script: script.client(0).open("demux0").read(65537), lambda script: script.client(0).open("demux0").write(b"G"),
    lambda script: script.client(0).open("demux0").set_filter(0, b"\2", b"\xff", table_id=2), lambda script: script.lines("stream"),
    lambda script: script.client(0).open("demux0").set_filter(0, version_number="!=32"), lambda script: dvbemu.serve(), lambda script: dvbemu.serve("a.ts", seats=9),
    lambda script: script.client(0).open("demux0").set_filter(0, version_number="!=3", table_id="!=2"), lambda script: dvbemu.steps(script, STREAM, packet=190),
    lambda script: dvbemu.steps(script, STREAM, batch=65), lambda script: script.client(0).open("demux0").set_filter(0, table_id="2 0=40/ff/00"),
]  # fmt: skip
# Arguments of another type than a call takes: it raises a TypeError, which says what it takes and what was given.
MISTYPED = [
    (lambda demux: demux.set_filter(0, [0], [255]), "filter: a bytes object is expected, got [0]"),
    (lambda demux: demux.set_filter(0, b"\0", "\xff"), "mask: a bytes object is expected, got '\xff'"),
    (lambda demux: demux.set_filter(0, b"\0", b"\xff", 0), "mode: a bytes object is expected, got 0"),
    (lambda demux: demux.set_filter("0"), "a PID: a whole number is expected, got '0'"),
    (lambda demux: demux.set_filter(0, timeout=0.5), "timeout: a whole number is expected, got 0.5"),
    (lambda demux: demux.set_filter(0, flags="CHECK_CRC"), "flags: a whole number is expected, got 'CHECK_CRC'"),
    (lambda demux: demux.set_pes_filter(256, "tsdemux_tap"), "output: an Output such as DMX_OUT_TSDEMUX_TAP is expected, got 'tsdemux_tap'"),
    (lambda demux: demux.set_pes_filter(256, input="dvr"), "input: an Input such as DMX_IN_FRONTEND is expected, got 'dvr'"),
    (lambda demux: demux.set_pes_filter(256, pes_type=None), "pes_type: a whole number is expected, got None"),
    (lambda demux: demux.read("188"), "count: a whole number is expected, got '188'"),
    (lambda demux: demux.client.open("dvr0").write("G"), "data: a bytes object is expected, got 'G'"),
    (lambda demux: demux.client.open(0), "device: a string is expected, got 0"),
    (lambda demux: demux.client.script.lines(b"c0 open n0"), "text: a string is expected, got b'c0 open n0'"),
    (lambda demux: demux.client.script.feed(1.0), "packets: a whole number is expected, got 1.0"),
    (lambda demux: demux.set_filter(0, version_number=b"3"), "version_number: a whole number, or a string such as '!=3' or '0x40/0xf0', is expected, got b'3'"),
    (lambda demux: dvbemu.steps(5, STREAM), "script: a Script, a file name or a bytes object is expected, got 5"),
    (lambda demux: dvbemu.steps(demux.client.script, ["my.ts"]), "stream: a file name or a bytes object is expected, got ['my.ts']"),
    (lambda demux: dvbemu.run(demux.client.script, STREAM, batch="64"), "batch: a whole number is expected, got '64'"),
    (lambda demux: dvbemu.steps(demux.client.script, STREAM, packet=None), "packet: a whole number is expected, got None"),
    (lambda demux: dvbemu.check("dvbemu 1", demux.client.script), "report: a Report or a bytes object is expected, got 'dvbemu 1'"),
    (lambda demux: dvbemu.Report.parse("dvbemu 1"), "text: a bytes object is expected, got 'dvbemu 1'"),
    (lambda demux: loaded("programs/scan").node(0), "name: a string is expected, got 0"),
    (lambda demux: loaded("programs/scan").outcome("3"), "line: a whole number is expected, got '3'"),
    (lambda demux: dvbemu.serve(7), "stream: a file name is expected, got 7"),
    (lambda demux: dvbemu.serve(tune=["474=a.ts"]), "tune: a mapping of frequencies to file names is expected, got ['474=a.ts']"),
    (lambda demux: dvbemu.serve("a.ts", adapters="b.ts"), "adapters: a list is expected, got 'b.ts'"),
    (lambda demux: dvbemu.serve("a.ts", argv="--once"), "argv: a list is expected, got '--once'"),
    (lambda demux: dvbemu.serve("a.ts", packets="3000"), "packets: a number is expected, got '3000'"),
    (lambda demux: dvbemu.serve("a.ts", seats=1.5), "seats: a whole number is expected, got 1.5"),
]  # fmt: skip
# A test that is killed while it has a device and two programs that find it, of which one was started by the other.
KILLED = """\
import sys, dvbemu
with dvbemu.serve(sys.argv[1], packets=3000) as adapter:
    child = adapter.start(["sh", "-c", "sleep 600 & exec sleep 600"])
    print(adapter.env["DVBEMU_DIR"], flush=True)
    sys.stdin.read()
"""


def built():
    """A script with each call."""
    script = dvbemu.Script().feed(3)
    one = script.client(2).open("demux4")
    one.set_filter(16, bytes([0x40, 0, 0, 6]), bytes([0xFF, 0, 0, 0x3E]), bytes([0, 0, 0, 0x3E]), timeout=500, flags=dvbemu.DMX_CHECK_CRC)
    one.set_filter(0, table_id=0, table_id_extension=0x1234)
    one.start()
    one.stop()
    one.set_buffer_size(1880)
    one.read(188)
    one.read(188, waits=True)
    one.drain(188)
    one.poll()
    one.close()
    other = script.tick(7).client(0).open("h1")
    other.set_pes_filter(0x2000)
    other.set_pes_filter(256, dvbemu.DMX_OUT_TAP, input=dvbemu.DMX_IN_DVR, pes_type=dvbemu.PesType.DMX_PES_PCR0, flags=dvbemu.DMX_ONESHOT | dvbemu.KEEP)
    other.add_pid(257)
    other.remove_pid(257)
    other.get_stc(1)
    script.client(0).open("/dev/dvb/adapter0/dvr0").write(b"\x47\x01")
    return script.lines("c0 section demux1 0x1000 0 CHECK_CRC+IMMEDIATE_START table_id=0x02")


def test_lines_of_a_script():
    assert str(built()) == LINES


@pytest.mark.parametrize("call", WRONG)
def test_wrong_call(call):
    with pytest.raises(ValueError, match="."):
        call(dvbemu.Script())


@pytest.mark.parametrize("call, wanted", MISTYPED)
def test_mistyped_call(call, wanted):
    demux = dvbemu.Script().client(0).open("demux0")
    with pytest.raises(TypeError) as wrong:
        call(demux)
    assert str(wrong.value) == wanted


@pytest.mark.parametrize("fields, wanted", [
    ({"version_number": "!=3"}, "3=06/3e/3e"),
    ({"version_number": 3}, "3=06/3e/00"),
    ({"table_id": "0x40/0xf0"}, "0=40/f0/00"),
    ({"table_id": 0x42, "version_number": "!=3"}, "0=42/ff/00 3=06/3e/3e"),
])  # fmt: skip
def test_fields_of_a_filter(fields, wanted):
    """version_number is bits 1 to 5 of section byte 5, which filter byte 3 stands for."""
    script = dvbemu.Script()
    script.client(0).open("demux0").set_filter(16, **fields)
    assert str(script) == f"c0 open n0\nc0 section n0 16 0 5 {wanted}\n"


def test_bytearray():
    script = dvbemu.Script()
    script.client(0).open("demux0").set_filter(0, bytearray(b"\0"), bytearray(b"\xff"), flags=5)
    assert str(script) == "c0 open n0\nc0 section n0 0 0 5 0=00/ff/00\n"


# ------ reports of examples/ as objects: what their replies are is worked out in the texts beside them


def loaded(name):
    """The report of an example."""
    return dvbemu.Report.load(EXAMPLES / (name + ".report"))


@pytest.mark.parametrize("name", examples(".report"))
def test_entries(name):
    text = (EXAMPLES / (name + ".report")).read_bytes()
    lines = [f"{entry.place} {entry.who} {entry.step} {entry.call.text} = ".encode() for node in loaded(name).nodes for entry in node]
    assert [line for line in lines if line not in text] == []
    assert len(lines) == text.count(b" = ")


def test_arguments():
    call = loaded("programs/scan").node("n0").calls()[1].call
    assert call.arguments == {"pid": 0, "timeout": 0, "flags": 5, "at": 0, "bytes": {0: (0, 255, 0)}}


def test_head():
    scan = loaded("programs/scan")
    assert (scan.packets, scan.skipped, scan.rest, scan.read_fault) == (253, 0, 0, False)


def test_first_read():
    assert loaded("programs/scan").node("n0").reads()[0].hex() == PAT


def test_outcome():
    assert loaded("programs/scan").outcome(3) == dvbemu.Outcome(3, 0, 1, "done")


def test_losses():
    assert loaded("rules/overflow").node("n0").losses() == [dvbemu.Overflow((0, 564), 2, 188, 0)]


def test_timeout():
    replies = [entry.reply for entry in loaded("rules/timeout").node("n0").calls() if entry.call.name == "read"]
    assert dvbemu.TimedOut(5, 105, 100) in [reply for reply in replies if not isinstance(reply, dvbemu.Data)]


def test_node_that_nobody_called():
    with pytest.raises(KeyError, match="nodes that were called: n0"):
        loaded("programs/scan").node("n31")


def test_repr():
    """One line, without the data."""
    report = loaded("rules/overflow")
    calls, read = [entry for node in report.nodes for entry in node.calls()], b"".join(node.data() for node in report.nodes)
    assert repr(report) == f"<Report: {report.packets} packets, {len(calls)} calls on n0, {len(read)} bytes read>"
    assert repr(report.node("n0")) == f"<Node n0: {len(calls)} calls, {len(read)} bytes read>"


def test_repr_of_an_empty_report():
    report = dvbemu.Report.parse(b"dvbemu 1\npackets=0 skipped=0 rest=0\nend\n")
    assert repr(report) == "<Report: 0 packets, 0 calls on no node, 0 bytes read>"


@pytest.mark.parametrize("name", ["programs/scan", "rules/overflow", "rules/timeout"])
def test_to_json(name):
    """The lines of `dvbemu json`, of which --back makes the report again."""
    report, path = loaded(name), str(EXAMPLES / (name + ".report"))
    text = report.to_json()
    assert text == subprocess.run([PROGRAM, "json", path], stdout=subprocess.PIPE, text=True, check=True).stdout
    assert subprocess.run([PROGRAM, "json", "--back"], input=text.encode(), stdout=subprocess.PIPE, check=True).stdout == report.text


# ------ the module's names


def test_version():
    assert dvbemu.__version__ == (ROOT / "VERSION").read_text().split("\n")[0]


def test_exceptions():
    """Each that the package defines is an Error; each public one has a name that ends so."""
    for module in pkgutil.walk_packages(dvbemu.__path__, "dvbemu."):
        if module.name not in ("dvbemu.__main__", "dvbemu.strategies"):
            importlib.import_module(module.name)
    own = [kind for kind in descendants(Exception) if kind.__module__.startswith("dvbemu.")]
    others = {"NotPlayed", "Unplayable"}
    assert [kind.__qualname__ for kind in own if not issubclass(kind, (dvbemu.Error, ValueError)) and kind.__name__ not in others] == []
    public = [name for name in dvbemu.__all__ if isinstance(getattr(dvbemu, name), type) and issubclass(getattr(dvbemu, name), Exception)]
    assert public == ["AdapterError", "Error", "ProgramError", "ReportError", "ScriptError"]


def descendants(kind):
    """All classes that are derived from one."""
    return [found for child in kind.__subclasses__() for found in (child, *descendants(child))]


# ------ `steps`, `run`, `check` and `explain`


@pytest.fixture
def script():
    """A script that reads the PAT."""
    made = dvbemu.Script()
    demux = made.client(0).open("demux0")
    demux.set_filter(0, table_id=0)
    demux.read(4096, waits=True)
    return made


def test_steps(script):
    assert dvbemu.steps(script, STREAM, batch=1).node("n0").data().hex() == PAT


def test_run(script):
    with open(STREAM, "rb") as file:
        assert dvbemu.run(script, file.read()).check(script, STREAM).is_right


def test_check_of_a_right_report(script):
    report = dvbemu.steps(script, STREAM, batch=1)
    assert report.check(str(script).encode(), STREAM)
    assert report.check(script, STREAM).reason == ""


def test_check_of_a_wrong_report(script):
    text = dvbemu.steps(script, STREAM, batch=1).text
    verdict = dvbemu.check(text.replace(b"data 00b0", b"data 00b1"), script, STREAM)
    assert not verdict
    assert verdict.reason.startswith("report line ") and ": reply\nexpected data 00b0" in verdict.reason


def test_explain(script):
    report = dvbemu.steps(script, STREAM, batch=1)
    assert "table_id" in report.explain() and "What the stream says" not in report.explain()
    assert "What the stream says" in report.explain(script, STREAM)


@pytest.mark.parametrize("ending", [b"", b"\n", b"\nstream", b"\nstream\n"])
def test_steps_as_the_command(tmp_path, ending):
    text, path = b"c0 open n0" + ending, tmp_path / "script"
    path.write_bytes(text)
    told = subprocess.run([PROGRAM, "steps", path, STREAM], stdout=subprocess.PIPE, check=True).stdout
    report = dvbemu.steps(text, STREAM)
    assert (report.text, report.skipped) == (told, 0)


def test_fault_of_a_script():
    with pytest.raises(dvbemu.ScriptError, match="script line 2: command") as error:
        dvbemu.steps(b"c0 open n0\nc0 foo n0\n", STREAM)
    assert error.value.status == 3
    assert error.value.stderr == f"dvbemu: {error.value}\n"


def test_text_that_is_no_report():
    with pytest.raises(dvbemu.ReportError, match="line 2"):
        dvbemu.Report.parse(b"dvbemu 1\n")


# ------ `serve`


def test_serve(server, tmp_path):
    """A device for a program that opens it, which is ended with it where it runs on."""
    with dvbemu.serve(STREAM, packets=3000) as adapter:
        reader = "import os; os.close(os.open('/dev/dvb/adapter0/demux0', os.O_RDWR))"
        ran = adapter.run([sys.executable, "-c", reader], cwd=tmp_path, timeout=60, capture_output=True)
        left = adapter.start(["sleep", "600"])
    assert left.wait(60) == -signal.SIGTERM
    assert ran.returncode == 0, ran
    assert not os.path.exists(adapter.env["DVBEMU_DIR"])
    assert [entry.call.name for node in adapter.report.nodes for entry in node.calls()] == ["open", "close"]
    assert len(adapter.reports) == 1
    assert adapter.explain() == adapter.report.explain(STREAM) and "What the stream says" in adapter.explain()


def test_stream_that_is_not_there(server):
    with pytest.raises(dvbemu.AdapterError, match="no-such.ts"), dvbemu.serve("no-such.ts", packets=3000):
        pass


def test_report_of_an_adapter_that_runs():
    with pytest.raises(dvbemu.AdapterError, match="hasn't ended"):
        dvbemu.serve(STREAM).explain()


@pytest.fixture
def stations(tmp_path):
    """The recordings of two stations, by their frequencies."""
    found = {}
    for number, (hertz, names) in enumerate(SERVICES.items(), 1):
        found[hertz] = str(tmp_path / f"{names[0]}.ts")
        with open(found[hertz], "wb") as file:
            file.write(Station(number, names, list(SERVICES)).stream(2))
    return found


def heard(adapter, *words):
    """What a program that tunes says."""
    return adapter.run([TUNER, *words], timeout=60, capture_output=True, text=True).stdout.split("\n")[:-1]


def test_frequencies(server, stations):
    (first, one), (second, other) = stations.items()
    with dvbemu.serve(tune={str(first): one, str(second): other}) as adapter:
        told = heard(adapter, str(first), str(second), "498000000")
    assert told == [f"{first} Alpha Beta", f"{second} Gamma Delta", "498000000 status 0"]
    assert all(name in adapter.report.node("n0").data() for name in (b"Beta", b"Gamma"))


def test_two_adapters(server, stations, tmp_path, monkeypatch):
    """Each has its report, and beside their folder there is nothing."""
    (first, one), (_, other) = stations.items()
    place = tmp_path / "place"
    place.mkdir()
    monkeypatch.setattr(tempfile, "tempdir", str(place))
    with dvbemu.serve(one, adapters=[other]) as adapter:
        told = heard(adapter, str(first), "adapter", "1", str(first))
        left = os.listdir(place)
    assert left == []
    assert told == [f"{first} Alpha Beta", f"{first} Gamma Delta"]
    texts = [report.node("n0").data() for report in adapter.reports]
    assert [[name in text for name in (b"Beta", b"Gamma")] for text in texts] == [[True, False], [False, True]]
    assert re.findall("^Adapter .*", adapter.explain(), re.M) == ["Adapter 0", "Adapter 1"]


def processes(name, wanted):
    """The processes of which a file in /proc has these bytes."""
    found = []
    for path in glob.glob(f"/proc/[0-9]*/{name}"):
        try:
            with open(path, "rb") as file:
                found += [path] * (os.fsencode(wanted) in file.read().split(b"\0"))
        except OSError:
            pass
    return found


def test_killed(server, tmp_path):
    """What is killed leaves no process and no folder."""
    stream = shutil.copy(STREAM, tmp_path / "killed.ts")
    words = [sys.executable, "-W", "error", "-B", "-c", KILLED, str(stream)]
    with subprocess.Popen(words, env={**os.environ, "PYTHONPATH": str(PYTHON)}, stdin=subprocess.PIPE, stdout=subprocess.PIPE) as test:
        pipes = test.stdout.readline().decode().strip()
        bound = f"DVBEMU_DIR={pipes}"
        try:
            assert os.path.isdir(pipes)
            assert comes(lambda: len(processes("environ", bound)) >= 2)
        finally:
            test.kill()
            test.wait()
    is_left = lambda: processes("environ", bound) + processes("cmdline", str(stream))  # noqa: E731
    assert comes(lambda: not is_left()), is_left()
    assert comes(lambda: not os.path.exists(os.path.dirname(pipes))), pipes


# ------ types


def test_mypy(tmp_path):
    """By the settings of python/pyproject.toml."""
    needs("mypy")
    ran = subprocess.run(["mypy", "--cache-dir", tmp_path], cwd=PYTHON.parent, capture_output=True, text=True, check=False)
    assert ran.returncode == 0, ran.stdout + ran.stderr
