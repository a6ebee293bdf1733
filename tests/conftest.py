"""What all tests share: the command, as a process and in this one, reports by the second program, and the files of examples/."""
from __future__ import annotations

import collections
import gc
import io
import itertools
import os
import random
import shutil
import signal
import subprocess
import sys
import tempfile
import time
from pathlib import Path
from typing import Callable, Iterable, Iterator, NamedTuple, TypeVar
from unittest import mock

import pytest
from packets import session_of
from samples import EXAMPLES, PROGRAM, ROOT, examples  # noqa: F401 (test_page.py and test_pictures.py import it from here)
from serving import Served

# (the command line sets these for its process, which this one isn't)
HANDLERS = {number: signal.getsignal(number) for number in (signal.SIGINT, signal.SIGPIPE)}
from dvbemu import cli as command_line, standard
from oracle import second

for handler in HANDLERS.items():
    signal.signal(*handler)

SERVED = ROOT / "tests" / "served.report"
SERVER = ROOT / "crates" / "dvb_serve" / "out" / "dvb_serve"
# The words that start a program, or are one.
STARTS = {*command_line.PROVED, "serve", "fuzz", "calls", "test", "beside"}
# The seconds in which a command must have ended.
ENDS = 60
T = TypeVar("T")
EMPTY = b"dvbemu 1\npackets=0 skipped=0 rest=0\nend\n"

# (what a shell or nohup starts in the background passes these over, and so would all that is started here)
for number, handler in ((signal.SIGHUP, signal.SIG_DFL), (signal.SIGINT, signal.default_int_handler),
                        (signal.SIGQUIT, signal.SIG_DFL)):
    if signal.getsignal(number) == signal.SIG_IGN:
        signal.signal(number, handler)

# (each command starts `python3`: the one that runs this is there at once, and no shim that looks for one)
os.environ["PATH"] = os.pathsep.join([os.path.dirname(sys.executable), os.environ["PATH"]])


class Result(NamedTuple):
    """How a command has ended: its status, and what it wrote on both ends."""

    status: int
    out: str
    err: str

    @property
    def data(self) -> bytes:
        """The bytes of standard output."""
        return self.out.encode(errors="surrogateescape")


def run(*argv: str, stdin: bytes | str = b"", **more: str) -> Result:
    """`dvbemu ARGV ..`, with these variables beside those of the environment."""
    given = stdin.encode() if isinstance(stdin, str) else stdin
    done = subprocess.run([PROGRAM, *argv], input=given, capture_output=True, check=False, env={**os.environ, **more})
    return Result(done.returncode, *(end.decode(errors="surrogateescape") for end in (done.stdout, done.stderr)))


class Kept(io.BytesIO):
    """What is written to an end; it stays when that is closed."""

    def close(self):
        """Keeps it."""


def run_here(*argv: str, stdin: bytes | str = b"") -> Result:
    """The same in this process, with what it writes in memory: for words of tools that start nothing."""
    out, err, given = Kept(), Kept(), tempfile.TemporaryFile()
    given.write(stdin.encode() if isinstance(stdin, str) else stdin)
    given.seek(0)
    with given, mock.patch.multiple(
        sys, argv=[], stdin=io.TextIOWrapper(given, "utf-8"), stdout=io.TextIOWrapper(out, "utf-8", "surrogateescape"),
        stderr=io.TextIOWrapper(err, "utf-8", "backslashreplace", write_through=True),
    ):
        status = standard.status_of(command_line.prog_of(argv), command_line.main, *argv)
    # (some commands leave what they have made to the end of their process)
    gc.enable()
    return Result(status or 0, *(end.getvalue().decode(errors="surrogateescape") for end in (out, err)))


def pytest_addoption(parser):
    """The word `--all`."""
    parser.addoption("--all", action="store_true", help="also the tests with the marker `slow`")


def pytest_collection_modifyitems(config, items):
    """Skips what takes long, unless it is asked for."""
    for item in items:
        if item.get_closest_marker("slow") and not config.getoption("--all"):
            item.add_marker(pytest.mark.skip(reason="takes long: tests/run --all"))


def pytest_terminal_summary(terminalreporter):
    """Tells how many cases tests have tried one by one, which pytest counts as one each."""
    counts = collections.Counter()
    for report in itertools.chain(*terminalreporter.stats.values()):
        if getattr(report, "when", None) == "teardown":
            counts[report.nodeid.split("[")[0]] += dict(report.user_properties).get("tried", 0)
    for name, count in sorted((+counts).items()):
        terminalreporter.write_line(f"TRIED [{count}] {name}")


def pytest_make_parametrize_id(val):
    """What a value is called in the name of a case: a long text by its beginning, bytes by their number."""
    if isinstance(val, bytes):
        return f"{len(val)} bytes"
    return val[:60] if isinstance(val, str) and len(val) > 60 else None


@pytest.fixture(scope="session")
def cli() -> Callable[..., Result]:
    """The command line: `cli("explain", path)` is a Result."""
    return run


@pytest.fixture(scope="session")
def tool() -> Callable[..., Result]:
    """The words of tools in this process, which takes no time to begin: `tool("explain", path)` is a Result."""
    return run_here


@pytest.fixture(scope="session")
def report_of() -> Callable[..., bytes]:
    """The report of a script, whose lines are parted by `|`, over a stream, by the second program."""

    def made(script: str, stream: bytes = b"", batch: int = 1, packet: int = 188) -> bytes:
        return second.report(session_of(script, stream), batch, packet).encode()

    return made


class Bytes(NamedTuple):
    """The same, with what it wrote as bytes."""

    status: int
    out: bytes
    err: str


class Room:
    """A folder, in which commands are run."""

    def __init__(self, folder: Path) -> None:
        self.folder = folder

    def write(self, files: dict[str, bytes]) -> None:
        """Writes files."""
        for name, text in files.items():
            path = self.folder / name
            path.parent.mkdir(exist_ok=True)
            path.write_bytes(text)

    def read(self, name: str) -> bytes:
        """The bytes of a file."""
        return (self.folder / name).read_bytes()

    def run(self, line: str, given: bytes = b"") -> Bytes:
        """A command that has run."""
        done = subprocess.run([PROGRAM, *line.split()], cwd=self.folder, input=given, capture_output=True, check=False,
                              timeout=ENDS)
        return Bytes(done.returncode, done.stdout, done.stderr.decode(errors="replace"))

    def call(self, line: str, given: bytes = b"") -> Bytes:
        """The same of a tool that starts no program, in this process."""
        kept = os.getcwd()
        os.chdir(self.folder)
        try:
            found = run_here(*line.split(), stdin=given)
        finally:
            os.chdir(kept)
        return Bytes(found.status, found.data, found.err)

    def quick(self, line: str, given: bytes = b"") -> Bytes:
        """The same in this process where that can be: of a tool that starts no program, and of what is told without one."""
        word, *behind = line.split()
        if word in STARTS and behind != ["--version"]:
            return self.run(line, given)
        return self.call(line, given)


@pytest.fixture
def room(tmp_path: Path) -> Room:
    """An empty folder, in which commands are run."""
    return Room(tmp_path)


@pytest.fixture(scope="session")
def files_room(tmp_path_factory: pytest.TempPathFactory) -> Room:
    """A folder with files of each kind that words read; a test changes none of them."""
    made = Room(tmp_path_factory.mktemp("files"))
    session, report = ((EXAMPLES / "programs" / f"scan{ending}").read_bytes() for ending in (".session", ".report"))
    stream = session.split(b"\nstream\n", 1)[1]
    (made.folder / "folder").mkdir()
    made.write({
        "session": session, "report": report, "stream": stream, "script": b"c0 open n0\nstream\n", "a.session": b"stream\n",
        "wrong": report.replace(b"data 00b0", b"data 00b1", 1), "random": random.Random(7).randbytes(100_000),
        "big": session + 200 * stream, "served": SERVED.read_bytes(),
        "recording": (EXAMPLES / "programs" / "scan.ts").read_bytes(), "tests/a.session": b"stream\n", "tests/a.report": EMPTY,
        "kept/head": EMPTY, "kept/batches": b"",
    })  # fmt: skip
    return made


def all_of(end: int) -> str:
    """All that comes from a pipe or a terminal until its end."""
    said = b""
    try:
        while more := os.read(end, 65536):
            said += more
    except OSError:
        pass
    os.close(end)
    return said.decode()


def needs(*names: str) -> None:
    """Skips a test where one of these commands isn't there."""
    missing = [name for name in names if shutil.which(name) is None]
    if missing:
        pytest.skip(f"{', '.join(missing)} isn't there")


def comes(condition: Callable[[], object], seconds: float = 60) -> bool:
    """Whether something comes in time."""
    until = time.monotonic() + seconds
    while not condition() and time.monotonic() < until:
        time.sleep(0.1)
    return bool(condition())


@pytest.fixture(scope="session")
def compiled(tmp_path_factory: pytest.TempPathFactory) -> Callable[..., str]:
    """Programs of C: `compiled("tests/calls.c")` is the path of one, of sources of the repository."""

    def made(sources: str, *words: str) -> str:
        needs("cc")
        program = str(tmp_path_factory.mktemp("c") / "program")
        asked = ["cc", *words, "-o", program, *map(str, ROOT.glob(sources)), "-lpthread"]
        done = subprocess.run(asked, capture_output=True, text=True, check=False, env={**os.environ, "LC_ALL": "C"})
        if "No such file" in done.stderr:
            pytest.skip("a header isn't there, as linux/dvb/dmx.h")
        assert done.returncode == 0, done.stderr
        return program

    return made


@pytest.fixture(scope="session")
def server() -> Path:
    """The proved server; a test that wants it is skipped where it isn't built."""
    if not SERVER.exists():
        pytest.skip("the server isn't built")
    return SERVER


@pytest.fixture(scope="session")
def program() -> str:
    """The path of the proved program, which is built where it isn't."""
    return run("build", "dvbemu").out.strip()


@pytest.fixture
def tried(request: pytest.FixtureRequest) -> Iterator[Callable[[Iterable[T]], Iterator[T]]]:
    """Counts what a test tries one by one: `for case in tried(cases)`."""
    count = 0

    def each(cases: Iterable[T]) -> Iterator[T]:
        nonlocal count
        for case in cases:
            count += 1
            yield case

    yield each
    request.node.user_properties.append(("tried", count))


@pytest.fixture(scope="session")
def cases(compiled: Callable[..., str]) -> str:
    """The program of preload/cases, which is built without a warning."""
    return compiled("preload/cases/*.c", "-O2", "-Wall", "-Wextra", "-Werror")


@pytest.fixture
def served(server: Path, cases: str) -> Iterator[Served]:
    """A folder in which programs are run on a served adapter, over the recording of examples/."""
    with tempfile.TemporaryDirectory() as folder:
        yield Served(folder, EXAMPLES / "programs" / "scan.ts", cases)
