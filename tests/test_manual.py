"""The pages of the manual and the completion of shells, which are made of the words' help (`dvbemu.manual`): each page has its
sections, all options of its word, its statuses and its example, in 80 columns; and a shell finds words, options, and values that
are known."""
import os
import re
import subprocess

import pytest
from conftest import needs
from dvbemu import cli, manual

WORDS = [*cli.PROVED, *cli.TOOLS]
SECTIONS = ["NAME", "SYNOPSIS", "DESCRIPTION", "OPTIONS", "INPUT", "OUTPUT", "EXIT STATUS", "EXAMPLES", "SEE ALSO"]
# What is typed, the last word of it in part, and what a shell finds.
TYPED = {
    "expl": "explain", "st": "steps", "--v": "--version", "steps --ba": "--batch", "steps --packet ": "188 204",
    "run --batch 1 --packet 2": "204",
    "explain --node d": "dvr", "explain --node n3": "n3 n30 n31", "explain --client ": "c0 c1 c2 c3 c4 c5 c6 c7",
    "serve --keep ": "all none",
    "serve --ke": "--keep", "packet 0 0 s": "section", "build dvb": "dvbemu dvb_serve", "steps my": "", "json --b": "--back",
    "nothing --b": "",
}  # fmt: skip
ASK = ". \"$0\"; COMP_WORDS=(dvbemu \"$@\") COMP_CWORD=$#; _dvbemu; echo \"${COMPREPLY[*]}\""


def shown(tmp_path, text):
    """A page as `man` shows it, in 80 columns, without warnings."""
    needs("man")
    (tmp_path / "page.1").write_text(text)
    env = {**os.environ, "MANWIDTH": "80", "LC_ALL": "C.UTF-8"}
    ran = subprocess.run(["man", "--warnings", "-l", tmp_path / "page.1"], env=env, capture_output=True, text=True, check=False)
    assert (ran.returncode, ran.stderr) == (0, "")
    return re.sub(".\b", "", ran.stdout).replace("\u2010", "-").replace("\u2212", "-")


@pytest.mark.parametrize("word", WORDS)
def test_page(tmp_path, word):
    page, command = shown(tmp_path, manual.page(word)), cli.parser(word)
    assert re.findall(r"^[A-Z][A-Z ]*[A-Z]$", page, re.M) == SECTIONS
    assert max(map(len, page.split("\n"))) <= 80
    options = {name for action in command._actions for name in action.option_strings} - {"--version"}
    assert options <= set(re.findall(r"(?<!\w)--?\w[\w-]*", page.partition("OPTIONS")[2].partition("INPUT")[0]))
    words = re.sub(r"\s+", " ", page)
    assert re.sub(r"\s+", " ", command.sections["example"]) in words and f"dvbemu-{word} - " in words
    statuses = page.partition("EXIT STATUS")[2].partition("EXAMPLES")[0]
    assert set(re.findall(r"(?:^|; )(\d+)", command.statuses())) <= set(re.findall(r"^ {7}(\d+)", statuses, re.M))


def test_page_of_all(tmp_path):
    page = shown(tmp_path, manual.overview())
    assert re.findall(r"^ {7}([a-z]+)(?=  )", page.partition("COMMANDS")[2].partition("OPTIONS")[0], re.M) == WORDS
    assert max(map(len, page.split("\n"))) <= 80
    assert re.findall(r"dvbemu-([a-z]+)\(1\)", page.partition("SEE ALSO")[2]) == WORDS


@pytest.mark.parametrize("typed, wanted", TYPED.items())
def test_completion_of_bash(tmp_path, typed, wanted):
    (tmp_path / "dvbemu").write_text(manual.BASH.format(cases="\n".join(manual.cases())))
    ran = subprocess.run(["bash", "-c", ASK, tmp_path / "dvbemu", *typed.split(" ")], capture_output=True, text=True, check=False)
    assert (ran.stdout, ran.stderr) == (f"{wanted}\n", "")


def test_completion_of_zsh_is_well_formed(tmp_path):
    needs("zsh")
    (tmp_path / "_dvbemu").write_text(manual.ZSH.format(cases="\n".join(manual.cases())))
    ran = subprocess.run(["zsh", "-n", tmp_path / "_dvbemu"], capture_output=True, text=True, check=False)
    assert (ran.returncode, ran.stderr) == (0, "")
