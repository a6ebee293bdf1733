"""Each command that README.md, examples/README.md and the documents of docs/ named below show writes what the page
shows.

On a page a block whose first line is ```NAME with .script, .py, .sh or .conf is a file of this name; a block ```sh is for a
shell, and the block ```text behind it is what that writes, on standard output and standard error; without one it writes nothing
there. In a block ```console WORD .. each line behind `$ ` is a command, and the lines up to the next one are what it writes;
these are run where all programs WORD are there and the server is built. The commands of a page are run in their order, in one
folder, where dvbemu and the repository's folders are. What ends in `..` is a line, or a part of one, that may go on in any way. A
block without a name has no command, but on docs/EVERYWHERE.md those that need another machine, a whole gate or a package that is
installed.

Then the commands are run once more with the second program in the place of dvbemu's `steps`, and the judge in that of `check`
(as_dvbemu.py): but for those that these can't do, `run`, `make`, `selftest`, `serve` and `test`, and for what comes on standard
error (`2>&1`), which test_faults.py tries too. So no report on a page is dvbemu's alone. What the commands of README.md leave in
the repository's folder is ignored by git (.gitignore).
"""
import os
import re
import shutil
import subprocess
from typing import NamedTuple

import pytest
from conftest import PROGRAM, ROOT, SERVER

PAGES = ("README.md", *(f"docs/{name}.md" for name in ("DEMUX", "TROUBLE", "RECIPES", "EVERYWHERE", "JSON")),
         "examples/README.md")
FILES = ".script", ".py", ".sh", ".conf"
BLOCK = re.compile(r"^```([^\n]*)\n(.*?)^```$", re.M | re.S)
# What a block without a name may not begin with, but on this page.
COMMAND, ELSEWHERE = re.compile(r"^(?:\$ |(?:\./)?dvbemu\b|tests/|docs/|examples/)", re.M), "docs/EVERYWHERE.md"
# The folders that git ignores, and the page whose commands leave nothing else.
IGNORED, TIDY = {line.rstrip("/\n") for line in (ROOT / ".gitignore").read_text().splitlines()}, "README.md"
# What each does that stands for dvbemu in turn, and what it can't do.
FOR_DVBEMU = {PROGRAM: None, str(ROOT / "tests" / "as_dvbemu.py"): re.compile(r"dvbemu (?:run|make|selftest|serve|test)\b|2>&1")}


class Command(NamedTuple):
    """What is for the shell, at this line of a page, what it writes, and the programs that it needs."""

    line: int
    shell: str
    output: str
    needs: tuple[str, ...] = ()


def blocks_of(page):
    """The blocks of a page, each with its line, its kind and its text."""
    text = (ROOT / page).read_text(encoding="utf-8")
    return [(text[: block.start()].count("\n") + 1, block[1], block[2]) for block in BLOCK.finditer(text)]


def commands_of(page):
    """The commands of a page."""
    blocks = blocks_of(page)
    for (line, kind, text), (_, next_kind, next_text) in zip(blocks, [*blocks[1:], (0, "", "")]):
        if kind == "sh":
            yield Command(line, text, next_text if next_kind == "text" else "")
        elif kind.startswith("console "):
            for part in re.finditer(r"^\$ (.*\n)((?:(?!\$ ).*\n)*)", text, re.M):
                yield Command(line + 1 + text[: part.start()].count("\n"), part[1], part[2], tuple(kind.split()[1:]))


def is_shown(wanted, found):
    """Whether a page shows what was found: `..` at the end of a line stands for anything."""
    parts = re.split(r"\.\.$", wanted, flags=re.M)
    return re.fullmatch(".*?".join(map(re.escape, parts)), found, re.S) is not None


@pytest.fixture(params=PAGES)
def page(request):
    """The name of a page."""
    return request.param


@pytest.fixture(params=FOR_DVBEMU, ids=["dvbemu", "second"])
def dvbemu(request, program):
    """The path of what stands for dvbemu."""
    return request.param


@pytest.fixture
def folder(tmp_path, page, dvbemu):
    """The folder in which the commands of a page are run: dvbemu, the repository's folders and the files of the page. No other
    file of the repository's top is there, so that none is written over."""
    for name in set(os.listdir(ROOT)) - IGNORED:
        if (ROOT / name).is_dir():
            (tmp_path / name).symlink_to(ROOT / name)
    (tmp_path / "dvbemu").write_text(f'#!/bin/sh\nexec "{dvbemu}" "$@"\n')
    (tmp_path / "dvbemu").chmod(0o755)
    for _, kind, text in blocks_of(page):
        if kind.endswith(FILES):
            (tmp_path / kind).write_text(text, encoding="utf-8")
    return tmp_path


def test_no_command_stands_in_a_block_that_is_not_run(page, tried):
    for line, kind, text in tried(blocks_of(page)):
        assert kind or page == ELSEWHERE or not COMMAND.search(text), line


def test_page(page, folder, dvbemu, tried):
    left_out, before = FOR_DVBEMU[dvbemu], set(os.listdir(folder))
    shown = list(commands_of(page))
    commands = [one for one in shown if not left_out or not (one.needs or left_out.search(one.shell))]
    can_be_run = [one for one in commands if not one.needs or SERVER.exists() and all(map(shutil.which, one.needs))]
    assert shown
    for command in tried(can_be_run):
        ends = {"stdin": subprocess.DEVNULL, "stdout": subprocess.PIPE, "stderr": subprocess.STDOUT}
        ran = subprocess.run(["sh", "-c", command.shell], cwd=folder, check=False, **ends)
        found = ran.stdout.decode(errors="replace")
        assert is_shown(command.output, found), f"{page}:{command.line}: it writes\n{found}"
    assert page != TIDY or set(os.listdir(folder)) - before <= IGNORED
    if lacking := {name for command in commands if command not in can_be_run for name in command.needs}:
        pytest.skip(f"all but the commands that need {', '.join(sorted(lacking))}, or the server")
