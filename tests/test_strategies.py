"""`dvbemu.strategies`: what is drawn is well-formed or broken as it says, and a failure becomes small. Where hypothesis isn't
there the import says so."""
import subprocess
import sys

import pytest
from conftest import ROOT
from dvbemu.psi.descriptors import texts_of
from dvbemu.stream import packets, tables
from dvbemu.stream.sections import is_intact, sections_of

# Python without hypothesis.
ALONE = "import sys; sys.modules['hypothesis'] = None\nimport dvbemu.strategies"


def test_without_hypothesis():
    env = {"PYTHONPATH": str(ROOT / "python" / "src")}
    ran = subprocess.run([sys.executable, "-B", "-c", ALONE], capture_output=True, text=True, check=False, env=env)
    assert ran.returncode == 1
    assert ran.stderr.endswith("ImportError: dvbemu.strategies needs hypothesis (Debian: apt-get install python3-hypothesis)\n")


hypothesis = pytest.importorskip("hypothesis")
from dvbemu import strategies  # noqa: E402

FEW = hypothesis.settings(max_examples=60, deadline=None, database=None, derandomize=True,
                          suppress_health_check=list(hypothesis.HealthCheck))


@FEW
@hypothesis.given(strategies.descriptors())
def test_descriptors(data):
    [one] = tables.split(data)
    assert "too short" not in texts_of([one])[0]


@FEW
@hypothesis.given(strategies.tables(0x42))
def test_tables(table):
    assert table.table_id == 0x42 and tables.read(tables.made(table)) == table


@FEW
@hypothesis.given(strategies.streams())
def test_streams(stream):
    """Each packet is one, and each PID's sections are tables."""
    found = packets.cut(stream)
    assert (found.skipped, found.rest) == (0, 0)
    for pid in {packets.pid_of(one) for one in found.packets}:
        sections = list(sections_of(one for one in found.packets if packets.pid_of(one) == pid))
        assert sections and all(tables.read(one.data) for one in sections)


def smallest(strategy, holds):
    """The smallest value for which something holds that hypothesis finds."""
    return hypothesis.find(strategy, holds, settings=hypothesis.settings(FEW, max_examples=500))


@pytest.mark.parametrize("holds", [lambda data: not is_intact(data), lambda data: is_intact(data) and tables.read(data) is None],
                         ids=["CRC_32", "form"])
def test_broken_sections(holds):
    """Sections of each kind of wrong are found."""
    assert holds(smallest(strategies.sections(broken=True), holds))


def test_shrinks():
    """A parser that passes over no descriptor of length 0, and one that fails of a language: the smallest that show it have
    nothing beside."""
    assert smallest(strategies.descriptors(0x0A, broken=True), lambda data: data[1] == 0)[:2] == b"\x0a\0"
    table = smallest(strategies.tables(0x02), lambda table: any(one.tag == 0x0A for one in table.descriptors))
    assert [one.tag for one in table.descriptors] == [0x0A] and len(table.parts) == 1


def test_wrong_words():
    with pytest.raises(ValueError, match="^0x90 is the table_id of no table$"):
        strategies.tables(0x90)
