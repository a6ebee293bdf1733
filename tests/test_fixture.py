"""The fixtures for pytest, and the tests of examples/tests, which are those of a real program, dvbv5-scan: by pytest, and in C and as a
shell script by ctest and meson, two at a time. They pass over the recording that is there. If a service is expected that the recording
doesn't have, each fails, names it, shows its report in sentences, with all hints, and saves it. Then tests are killed, each alone and
with all that it has started, and by ctest and meson at their timeout: no process, pipe or folder is left.
"""
import concurrent.futures
import os
import re
import shutil
import signal
import subprocess
import sys
import tempfile

import dvbemu
import pytest
from conftest import EXAMPLES, PROGRAM, ROOT, comes, needs

TESTS = str(EXAMPLES / "tests")
SERVED = os.path.join(TESTS, "served")
STREAM = str(EXAMPLES / "programs" / "scan.ts")
# The recording has the services 257 and 258 (examples/programs/two-services.hex), and no 259.
LACKS = "no service 259; found:"
# What a test runs that goes on for ever, with a program beside it; and such a test for pytest.
ENDLESS = "sleep 4321 & exec sleep 4321"
PYTEST = f"""\
import pytest

@pytest.mark.dvb({STREAM!r}, packets=3000)
def test_ends_never(dvb_adapter):
    dvb_adapter.run(["sh", "-c", {ENDLESS!r}])
"""
# What a failing test shows of a report: hints first and whole, then the file, then at most 80 lines of sentences.
SHOWN = f"""\
import dvbemu
from dvbemu import pytest_plugin

def shown(count, left):
    text = "".join(f"line {{number}}\\n" for number in range(count)) + "\\nHints\\n\\n  One.\\n\\n  The last.\\n"
    lines = ["  One.", "", "  The last.", "", "Report: saved", "", *(f"line {{number}}" for number in range(min(count, 80))), *left]
    assert pytest_plugin.shown(text, "saved").split("\\n") == lines

def test_cut():
    shown(80, [])
    shown(81, [".. 1 line more: dvbemu explain saved"])
    shown(85, [".. 5 lines more: dvbemu explain saved"])

def test_report(tmp_path):
    report = dvbemu.Report.load({str(EXAMPLES / "rules" / "full-set.report")!r})
    text = pytest_plugin.saved_one(report, str(tmp_path / "saved"))
    assert text.startswith("  Client 0, line 3, n0: the filter asks for PIDs") and " lines more: dvbemu explain " in text
    assert text.index("of which the stream has no packet.") < text.index("Report: ") < text.index("The stream")
"""
# Tests of a file that share an adapter: both find it, and one fails when the file's tests are done; in a subfolder, with settings.
SHARED = """\
import pytest

folders = []

@pytest.mark.parametrize("number", [1, 2])
def test_shared(dvb_module_adapter, number):
    folders.append(dvb_module_adapter.env["DVBEMU_DIR"])
    dvb_module_adapter.run(["sh", "-c", "exec 3< /dev/dvb/adapter0/demux0"], check=True, timeout=60)
    assert len(set(folders)) == 1
    assert number == 1

def test_own(dvb_adapter):
    assert dvb_adapter.env["DVBEMU_DIR"] not in folders
"""
# Tests of a session file, of which one fails: its third packet doesn't fit (examples/rules/overflow.txt).
REPLAYED = """\
import dvbemu, pytest

pytestmark = pytest.mark.dvb_session("copy.session", batch=1)

def test_loss(dvb_replay):
    assert dvb_replay.node("n0").losses() == [dvbemu.Overflow((0, 564), 2, 188, 0)]

def test_that_fails(dvb_replay):
    assert dvb_replay.node("n0").losses() == []
"""
# So many channels, 8 MHz each, are scanned by a test whose time ends.
CHANNELS = 40


def environment(variables):
    """The environment of a test."""
    own = {"DVBEMU": PROGRAM, "PYTHONPATH": str(ROOT / "python" / "src"), "PYTHONDONTWRITEBYTECODE": "1"}
    return {**os.environ, **own, **variables}


def ran(words, folder, **variables):
    """A command that has run: its status and all that it has written."""
    done = subprocess.run(words, cwd=folder, env=environment(variables), stdout=subprocess.PIPE, stderr=subprocess.STDOUT, text=True,
                          check=False)  # fmt: skip
    return done.returncode, done.stdout


def kept(folder):
    """The reports that were kept below a folder."""
    paths = [os.path.join(top, name) for top, _, names in os.walk(folder) for name in names if name.endswith(".report")]
    return [dvbemu.Report.load(path) for path in paths]


def fails_well(status, told, folder, count):
    """A test whose service isn't there: what it tells and keeps."""
    assert status != 0
    assert LACKS in told, told
    assert "257" in told.split(LACKS, 1)[1].split("\n", 1)[0]
    assert "Report: " in told or "The report is kept: " in told
    assert "sets a section filter on n0" in told
    reports = kept(folder)
    assert len(reports) == count
    assert all(report.nodes for report in reports)


# How pytest is called.
PYTEST_WORDS = [sys.executable, "-m", "pytest", "-p", "dvbemu.pytest_plugin", "-p", "no:cacheprovider", "-q", "--basetemp", "files"]


@pytest.fixture
def place():
    """A new folder for the temporary files of tests, by which they and all that they start are known."""
    with tempfile.TemporaryDirectory(prefix="place-") as folder:
        # (of root's folders none is taken that is closed to others)
        os.chmod(folder, 0o755)
        yield folder


def processes_of(place):
    """The processes whose temporary files go into this folder, and their words."""
    wanted = f"TMPDIR={place}".encode()
    for number in filter(str.isdecimal, os.listdir("/proc")):
        try:
            with open(f"/proc/{number}/environ", "rb") as file, open(f"/proc/{number}/cmdline", "rb") as words:
                if wanted in file.read().split(b"\0"):
                    yield words.read().replace(b"\0", b" ").decode(errors="replace").strip()
        except OSError:
            pass


def left_in(place):
    """What is left of tests: processes, folders of pipes, files."""
    return [*processes_of(place), *os.listdir(place)]


def leaves_nothing(place):
    """Soon nothing is left of tests."""
    assert comes(lambda: not left_in(place)), left_in(place)


def test_command():
    assert os.access(SERVED, os.X_OK)


def test_shown(tmp_path):
    """What a failing test shows begins with all hints of its report."""
    (tmp_path / "test_shown.py").write_text(SHOWN)
    status, told = ran([*PYTEST_WORDS, "test_shown.py"], tmp_path)
    assert status == 0 and "2 passed" in told, told


def test_module_adapter(server, tmp_path):
    """One adapter for the tests of a file, by the settings; its report is saved and explained at the end, since a test failed."""
    (tmp_path / "pytest.ini").write_text(f"[pytest]\ndvb_stream = {os.path.relpath(STREAM, tmp_path)}\ndvb_packets = 3000\n")
    (tmp_path / "below").mkdir()
    (tmp_path / "below" / "test_shared.py").write_text(SHARED)
    status, told = ran([*PYTEST_WORDS, "below"], tmp_path)
    assert status == 1 and "2 passed" in told and "1 failed" in told, told
    (report,) = kept(tmp_path)
    assert [entry.call.name for node in report.nodes for entry in node.calls()] == ["open", "close"] * 2
    assert "dvb_module_adapter of below/test_shared.py" in told and "opens n0: Done" in told
    assert os.listdir(tmp_path / "dvb-reports") == ["below-test_shared.py.report"]


def test_adapter_of_no_recording(tmp_path):
    (tmp_path / "test_shared.py").write_text(SHARED)
    status, told = ran([*PYTEST_WORDS, "test_shared.py"], tmp_path)
    assert status == 1 and "dvb_adapter needs a marker, such as @pytest.mark.dvb('my.ts'), or the setting dvb_stream" in told, told


def test_replay(tmp_path):
    """The report of a session file; that of a test that fails is saved, with its hints first."""
    shutil.copy(EXAMPLES / "rules" / "overflow.session", tmp_path / "copy.session")
    (tmp_path / "test_replayed.py").write_text(REPLAYED)
    status, told = ran([*PYTEST_WORDS, "test_replayed.py"], tmp_path)
    assert status == 1 and "1 passed" in told and "1 failed" in told, told
    (report,) = kept(tmp_path)
    assert report.text == (EXAMPLES / "rules" / "overflow.report").read_bytes()
    assert re.search("- dvb_replay -+\n  Client 0, line .*n0: an Overflow: .*\n(?s:.*)\nReport: .*\n\nThe stream\n", told), told


def by_pytest(folder, *words, **variables):
    """What pytest tells of the tests, by one that has two workers, or by two at the same time: the folder, the status, and all that is
    written."""
    workers = ["-n", "2"] if "--numprocesses" in ran([*PYTEST_WORDS, "--help"], folder)[1] else []
    folders = [tempfile.mkdtemp(dir=folder) for _ in range(1 if workers else 2)]
    with concurrent.futures.ThreadPoolExecutor(len(folders)) as pool:
        return list(pool.map(lambda own: (own, *ran([*PYTEST_WORDS, *workers, TESTS, *words], own, **variables)), folders))


@pytest.mark.alone
def test_pytest(server, tmp_path):
    needs("dvbv5-scan")
    for own, status, told in by_pytest(tmp_path):
        assert status == 0 and "2 passed" in told, told
        assert kept(own) == []


@pytest.mark.alone
def test_pytest_that_fails(server, tmp_path):
    needs("dvbv5-scan")
    for own, status, told in by_pytest(tmp_path, "--dvb-reports", "reports", SERVICES="259"):
        fails_well(status, told, os.path.join(own, "reports"), 1)


@pytest.fixture
def channels(tmp_path):
    """A file of so many channels that a scan takes some ten seconds."""
    text = (EXAMPLES / "programs" / "dvbv5.conf").read_text(encoding="utf-8")
    path = tmp_path / "channels"
    path.write_text("".join(text.replace("474000000", str(474_000_000 + 8_000_000 * number)) for number in range(CHANNELS)), encoding="utf-8")
    return path


@pytest.fixture
def cmake(server, tmp_path):
    """A folder in which cmake has built the tests."""
    needs("dvbv5-scan", "cmake", "ctest", "cc")
    folder = tmp_path / "built"
    folder.mkdir()
    for words in ["-S", TESTS, "-B", "."], ["--build", "."]:
        status, told = ran(["cmake", *words], folder)
        assert status == 0, told
    return folder


CTEST = ["ctest", "-j", "2", "--output-on-failure"]


@pytest.mark.alone
def test_ctest(cmake):
    status, told = ran(CTEST, cmake)
    assert status == 0 and "100% tests passed, 0 tests failed out of 2" in told, told
    assert kept(cmake) == []


@pytest.mark.alone
def test_ctest_that_fails(cmake):
    ran(["cmake", "-DSERVICES=259", "."], cmake)
    fails_well(*ran(CTEST, cmake), cmake, 2)


@pytest.mark.alone
def test_ctest_at_the_end_of_its_time(cmake, channels, place):
    ran(["cmake", "-DSERVICES=259", "-DSECONDS=2", f"-DCHANNELS={channels}", "."], cmake)
    status, told = ran(CTEST, cmake, TMPDIR=place)
    assert status != 0
    assert told.count("***Timeout") == 2, told
    leaves_nothing(place)


@pytest.fixture
def meson(server, tmp_path):
    """A folder that meson has set up for the tests."""
    needs("dvbv5-scan", "meson", "ninja", "cc")
    folder = tmp_path / "built"
    folder.mkdir()
    status, told = ran(["meson", "setup", ".", TESTS], folder)
    assert status == 0, told
    return folder


MESON = ["meson", "test", "--num-processes", "2", "--print-errorlogs"]


@pytest.mark.alone
def test_meson(meson):
    status, told = ran(MESON, meson)
    assert status == 0, told
    assert kept(meson) == []


@pytest.mark.alone
def test_meson_that_fails(meson):
    ran(["meson", "configure", "-Dservices=259"], meson)
    fails_well(*ran([*MESON, "--verbose"], meson), meson, 2)


@pytest.mark.alone
def test_meson_at_the_end_of_its_time(meson, channels, place):
    ran(["meson", "configure", "-Dservices=259", f"-Dchannels={channels}"], meson)
    status, told = ran([*MESON, "--timeout-multiplier", "0.007"], meson, TMPDIR=place)
    assert status != 0
    assert told.count("TIMEOUT") >= 2, told
    leaves_nothing(place)


@pytest.mark.parametrize("who, with_all", [("served", False), ("served", True), ("pytest", False), ("pytest", True)])
def test_killed(server, tmp_path, place, who, with_all):
    """A test that is killed while its programs run: by itself, or with all that it has started and is of its group."""
    if (who, with_all) == ("served", False):
        needs("setpriv")
    (tmp_path / "test_endless.py").write_text(PYTEST)
    words = {"served": [SERVED, tmp_path / "killed", STREAM, "sh", "-c", ENDLESS], "pytest": [*PYTEST_WORDS, "test_endless.py"]}[who]
    with subprocess.Popen(words, cwd=tmp_path, env=environment({"TMPDIR": place}), stdin=subprocess.DEVNULL, stdout=subprocess.DEVNULL,
                          stderr=subprocess.DEVNULL, start_new_session=True) as test:  # fmt: skip
        try:
            assert comes(lambda: list(processes_of(place)).count("sleep 4321") >= 2), left_in(place)
            assert any(name.startswith("dvbemu-") for name in os.listdir(place))
        finally:
            (os.killpg if with_all else os.kill)(test.pid, signal.SIGKILL)
    leaves_nothing(place)
