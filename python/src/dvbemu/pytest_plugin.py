"""A plugin for pytest: fixtures with an emulated adapter, and with the report of a session file.

    @pytest.mark.dvb("two-services.ts", packets=3000)
    def test_my_receiver(dvb_adapter, tmp_path):
        dvb_adapter.run(["my-receiver", "--once"], cwd=tmp_path, check=True, timeout=60)

`dvb_adapter` is an adapter for one test, and `dvb_module_adapter` one for all tests of a file, whose `pytestmark` has the marker. The
marker takes the arguments of `dvbemu.serve`; without it the setting `dvb_stream` names the recording. `dvb_replay` is the report of
the session file that the marker `dvb_session` names. File names are relative to the test's file, that of the setting to pytest's
configuration file.

If a test fails, its report is saved in the folder of `--dvb-reports`, and its output has the report's hints, then its sentences.
Each worker of `pytest -n` has adapters of its own.
"""
from __future__ import annotations

import os
import re
from typing import Any, Generator, Iterator

import pytest

from .adapter import Adapter, serve
from .errors import Error
from .program import steps
from .report import Report

ADAPTER, REPLAY = pytest.StashKey[Adapter](), pytest.StashKey[Report]()
# The names of the tests that failed with an adapter of a module, and the texts on those that were saved.
FAILED, EXPLAINED = pytest.StashKey[list[str]](), pytest.StashKey[list[tuple[str, str]]]()
# The most lines of a report's sentences that are shown; the file has all. Hints are shown whole.
SHOWN = 80
# The longest name of a file that is made from the name of a test.
LONGEST = 200
MARKERS = (
    "dvb(stream, packets=, once=, seats=, tune=, adapters=, argv=): what dvb_adapter or dvb_module_adapter plays, as for dvbemu.serve",
    "dvb_session(path, batch=, packet=): the session file of dvb_replay",
)


def pytest_addoption(parser: pytest.Parser) -> None:
    """Adds the option and the settings."""
    parser.addoption("--dvb-reports", metavar="FOLDER", default="dvb-reports", help="where the reports of failed tests are saved")
    parser.addini("dvb_stream", "the recording of tests without the marker dvb", default="")
    parser.addini("dvb_packets", "how many of its packets are played per second; by default it plays by its PCR", default="")


def pytest_configure(config: pytest.Config) -> None:
    """Registers the markers."""
    texts: list[tuple[str, str]] = []
    config.stash[EXPLAINED] = texts
    for marker in MARKERS:
        config.addinivalue_line("markers", marker)


@pytest.fixture
def dvb_adapter(request: pytest.FixtureRequest) -> Iterator[Adapter]:
    """An adapter for one test, which plays what the marker `dvb` or the setting `dvb_stream` names."""
    with played(request) as adapter:
        request.node.stash[ADAPTER] = adapter
        yield adapter


@pytest.fixture(scope="module")
def dvb_module_adapter(request: pytest.FixtureRequest) -> Iterator[Adapter]:
    """An adapter for all tests of a file. Its report comes at the end of the file; it is saved if a test failed."""
    failed: list[str] = []
    request.node.stash[FAILED] = failed
    with played(request) as adapter:
        yield adapter
    if failed:
        name = request.node.nodeid
        request.config.stash[EXPLAINED].append((name, saved(adapter, path_of(request.config, name))))


@pytest.fixture
def dvb_replay(request: pytest.FixtureRequest) -> Report:
    """The report of the session file that the marker `dvb_session` names: its calls, run over its stream."""
    marker = request.node.get_closest_marker("dvb_session")
    if marker is None:
        raise pytest.UsageError(f"{request.node.name}: dvb_replay needs a marker, such as @pytest.mark.dvb_session('my.session')")
    files = [os.path.join(folder_of(request), path) for path in marker.args]
    request.node.stash[REPLAY] = report = steps(*files, **marker.kwargs)
    return report


def folder_of(request: pytest.FixtureRequest) -> str:
    """The folder of the test's file."""
    return os.path.dirname(str(request.node.path))


def played(request: pytest.FixtureRequest) -> Adapter:
    """The adapter that a marker or a setting asks for."""
    marker = request.node.get_closest_marker("dvb")
    if marker is None:
        return by_settings(request)
    options, folder = dict(marker.kwargs), folder_of(request)
    if "tune" in options:
        options["tune"] = {channel: os.path.join(folder, path) for channel, path in options["tune"].items()}
    if "adapters" in options:
        options["adapters"] = [os.path.join(folder, path) for path in options["adapters"]]
    return serve(*(os.path.join(folder, stream) for stream in marker.args), **options)


def by_settings(request: pytest.FixtureRequest) -> Adapter:
    """The adapter that plays the recording of the settings."""
    config = request.config
    stream, packets = config.getini("dvb_stream"), config.getini("dvb_packets")
    if not stream:
        raise pytest.UsageError(f"{request.node.name}: {request.fixturename} needs a marker, such as @pytest.mark.dvb('my.ts'), or the setting dvb_stream")
    folder = config.inipath.parent if config.inipath else config.rootpath
    return serve(os.path.join(folder, stream), packets=float(packets) if packets else None)


@pytest.hookimpl(hookwrapper=True)
def pytest_runtest_makereport(item: pytest.Item, call: pytest.CallInfo[None]) -> Generator[None, Any, None]:
    """Explains and saves the report of a test that failed."""
    outcome = (yield).get_result()
    if call.when != "call" or not outcome.failed:
        return
    if ADAPTER in item.stash:
        outcome.sections.append(("dvb_adapter", saved(item.stash[ADAPTER], path_of(item.config, item.nodeid))))
    if REPLAY in item.stash:
        outcome.sections.append(("dvb_replay", saved_one(item.stash[REPLAY], path_of(item.config, item.nodeid) + ".report")))
    module = item.getparent(pytest.Module)
    if module and "dvb_module_adapter" in getattr(item, "fixturenames", ()) and FAILED in module.stash:
        module.stash[FAILED].append(item.nodeid)


def pytest_terminal_summary(terminalreporter: Any, config: pytest.Config) -> None:
    """Shows the reports of modules in which a test failed."""
    for name, text in config.stash[EXPLAINED]:
        terminalreporter.section(f"dvb_module_adapter of {name}")
        terminalreporter.write_line(text)


def path_of(config: pytest.Config, test: str) -> str:
    """Where the report of a test is saved, without an ending."""
    return os.path.join(os.path.abspath(config.getoption("--dvb-reports")), file_name(test))


def file_name(test: str) -> str:
    """A test's name as the name of a file."""
    return re.sub(r"[^\w.-]+", "-", test).strip("-")[-LONGEST:]


def saved(adapter: Adapter, path: str) -> str:
    """Ends an adapter, saves its reports, and returns what is shown of them."""
    try:
        adapter.close()
        endings = [".report"] if adapter.count == 1 else [f".{number}.report" for number in range(adapter.count)]
        return "\n".join(saved_one(report, path + ending) for report, ending in zip(adapter.reports, endings))
    except Error as error:
        return f"there is no report: {error}"


def saved_one(report: Report, path: str) -> str:
    """Saves a report, and returns what is shown of it: its hints, its file, and its sentences."""
    try:
        os.makedirs(os.path.dirname(path), exist_ok=True)
        report.save(path)
        return shown(explained(report), path)
    except (Error, OSError) as error:
        return f"the report isn't saved: {error}"


def explained(report: Report) -> str:
    """A report in sentences, with its stream if that can still be read."""
    try:
        return report.explain(*report.source)
    except (Error, OSError):
        return report.explain()


def shown(text: str, path: str) -> str:
    """The text of `dvbemu explain` with the hints first and the sentences cut."""
    sentences, _, hints = text.rstrip("\n").partition("\n\nHints\n\n")
    lines = sentences.split("\n")
    left = len(lines) - SHOWN
    cut = [f".. {left} line{'s' if left > 1 else ''} more: dvbemu explain {path}"] if left > 0 else []
    return "\n".join([hints, "", f"Report: {path}", "", *lines[:SHOWN], *cut])
