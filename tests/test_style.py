"""The style of the scripts and of the C, by flake8, shellcheck and clang-format where they are installed; mypy is run by
test_module.py. Their settings are .flake8, .clang-format and python/pyproject.toml."""
import os
import re
import subprocess

import pytest
from conftest import needs
from samples import ROOT

LEFT_OUT = {".git", "out", "found", "__pycache__", "build"}
# What the first line of a script without an ending says.
PYTHON, SHELL = re.compile(rb"#!.*(python|env -S sh -c )"), re.compile(rb"#!.*\b(sh|bash)\n")
# The directories whose C is formatted.
C = "preload", "preload/cases", "fuse", "tests", "tests/served"


def sources():
    """The files of the repository, but for those of crates."""
    for folder, folders, names in os.walk(ROOT):
        folders[:] = [name for name in folders if name not in LEFT_OUT and name != "crates"]
        yield from (os.path.join(folder, name) for name in names)


def scripts(ending, first):
    """The files with an ending, or whose first line matches."""
    found = []
    for path in sources():
        with open(path, "rb") as file:
            line = file.readline(200)
        found += [path] * (path.endswith(ending) or "." not in os.path.basename(path) and first.match(line) is not None)
    return sorted(found)


def finds_nothing(*words):
    """Whether a linter ends well and prints nothing; pytest shows what it prints."""
    ran = subprocess.run(words, cwd=ROOT, capture_output=True, text=True, check=False)
    assert ran.returncode == 0 and ran.stdout + ran.stderr == "", ran.stdout + ran.stderr


LINTERS = [("flake8", ".py", PYTHON, 150, ()), ("shellcheck", ".sh", SHELL, 8, ("--exclude=SC3045",))]


@pytest.fixture(params=LINTERS, ids=lambda row: row[0])
def linter(request):
    """A linter with the files that it reads, how many there are at least, and its options."""
    needs(request.param[0])
    return request.param


def test_scripts(linter):
    """SC3045: dash, bash and busybox have `ulimit -S` and `-H`, though POSIX hasn't."""
    name, ending, first, least, words = linter
    files = scripts(ending, first)
    assert len(files) >= least
    finds_nothing(name, *words, *files)


def test_format():
    needs("clang-format")
    files = [path for folder in C for path in sorted((ROOT / folder).glob("*.[ch]"))]
    assert len(files) > 30
    finds_nothing("clang-format", "--dry-run", "--Werror", *files)
