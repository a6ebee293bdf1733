"""bench/README.md has each figure of bench/bench with its goal, and says of each rightly whether it is met."""
import importlib.machinery
import importlib.util
import re
import subprocess

import pytest

from conftest import ROOT

PATH = str(ROOT / "bench" / "bench")
ROW = re.compile(r"^\| (.*) \| `(\w+)` \| ([\d.]+)(.*) \| ([\d.]+)[^:]*: (met|MISSED) \|$", re.M)
ROWS = ROW.findall((ROOT / "bench/README.md").read_text())


@pytest.fixture(scope="module")
def bench():
    loader = importlib.machinery.SourceFileLoader("bench", PATH)
    module = importlib.util.module_from_spec(importlib.util.spec_from_loader("bench", loader))
    loader.exec_module(module)
    return module


def test_goals(bench):
    goals = [(goal.what, goal.by, goal.most, goal.unit) for goal in bench.GOALS.values()]
    assert [(what, by, float(most), unit) for what, by, most, unit, _, _ in ROWS] == goals and len(goals) == 50


def test_verdicts():
    assert [row for row in ROWS if (float(row[4]) <= float(row[2])) != (row[5] == "met")] == []


@pytest.mark.parametrize("median, least, told", [
    (1.5, 1.2, "1.5 (1.2): met"), (1.51, 1.5, "1.51 (1.5): MISSED"), (1, 1, "1: met"),
])  # fmt: skip
def test_table(bench, median, least, told):
    rows = bench.table({"packet": bench.Figure(median, least)}).split("\n")
    assert rows[2:] == [f"| `steps` over a session of one packet | `steps` | 1.5 ms | {told} |"]


def test_multiples(bench):
    assert bench.figure([3, 1, 2]) == (2, 1) and bench.Figure(3, 2).less(bench.Figure(1, 1)).by(bench.Figure(4, 2)) == (0.5, 0.5)


@pytest.mark.parametrize("words, told", [
    ("nothing", "nothing: the words are all, steps"), ("--repeats x", "argument --repeats: invalid int"),
])  # fmt: skip
def test_wrong_words(words, told):
    ran = subprocess.run([PATH, *words.split()], capture_output=True, text=True, check=False)
    assert ran.returncode == 2 and f"bench/bench: error: {told}" in ran.stderr
