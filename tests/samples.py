"""The files of examples/, and how the command `check` is asked, for tests and for whatever else compares reports."""
from __future__ import annotations

from pathlib import Path
from typing import Iterator, NamedTuple

ROOT = Path(__file__).resolve().parent.parent
EXAMPLES = ROOT / "examples"
PROGRAM = str(ROOT / "dvbemu")
BUILT = ROOT / "crates" / "dvbemu" / "out" / "dvbemu"


def asked_of(report: bytes, session: bytes) -> bytes:
    """The input of `check`: a report, and the session of which it may be one."""
    return b"report %d\n" % len(report) + report + session


def examples(ending: str) -> list[str]:
    """The files of examples/ with this ending, without it: `rules/one-tap`, .."""
    return sorted(path.relative_to(EXAMPLES).as_posix().removesuffix(ending) for path in EXAMPLES.glob(f"*/*{ending}"))


class Example(NamedTuple):
    """A session of examples/, with the words of its command line and the report that it must give; its batch, and what a packet
    takes up."""

    words: list[str]
    session: bytes
    report: bytes
    batch: int
    packet: int


def example(name: str) -> Example:
    """The example of this name, as `rules/one-tap`. Without a file NAME.words the words are `steps --batch 1`."""
    words, session, report = (EXAMPLES / f"{name}.{ending}" for ending in ("words", "session", "report"))
    line = words.read_text().split() if words.exists() else ["steps", "--batch", "1"]
    named = dict(zip(line[1::2], line[2::2]))
    return Example(line, session.read_bytes(), report.read_bytes(), int(named["--batch"]), int(named.get("--packet", 188)))


def changed_reports() -> Iterator[tuple[str, bytes, bytes]]:
    """The reports of examples/ that are changed: the name of each, as `reports/polled-data`, its bytes, and those of its session,
    whose name is the part in front of the first `-`."""
    for name in examples(".changed"):
        yield name, (EXAMPLES / f"{name}.changed").read_bytes(), (EXAMPLES / f"{name.partition('-')[0]}.session").read_bytes()
