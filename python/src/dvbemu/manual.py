"""The pages of the manual and the completion of shells, made of the words' own help: `python3 -m dvbemu.manual SHARE` writes them below a
folder as /usr/share."""
from __future__ import annotations

import argparse
import gzip
import os
import re
import sys
from typing import TYPE_CHECKING

from . import cli
from . import tool

if TYPE_CHECKING:
    from typing import Iterator

SEE = "dvbemu-script(5), dvbemu-report(5)"
# The values behind an option, by what stands for them.
VALUES = {"NODE": [*(f"n{node}" for node in range(32)), "dvr"], "CLIENT": [f"c{client}" for client in range(8)]}
BASH = """\
# Completion of dvbemu for bash, made of its help.
_dvbemu() {{
    local found= word=${{COMP_WORDS[COMP_CWORD]}}
    case "$COMP_CWORD ${{COMP_WORDS[1]}} ${{COMP_WORDS[COMP_CWORD - 1]}} $word" in
{cases}
    esac
    mapfile -t COMPREPLY < <(compgen -W "$found" -- "$word")
}}
complete -o default -F _dvbemu dvbemu
"""
ZSH = """\
#compdef dvbemu
# Completion of dvbemu for zsh, made of its help.
local found=
case "$((CURRENT - 1)) $words[2] $words[CURRENT - 1] $words[CURRENT]" in
{cases}
esac
if [[ -n $found ]]; then compadd -- ${{=found}}; else _files; fi
"""


# ------ the manual


def plain(text: str) -> str:
    """A text for troff, in which nothing is a request."""
    text = text.replace("\\", "\\e").replace("-", "\\-").replace("`", "")
    return re.sub(r"^([.'])", r"\\&\1", text, flags=re.M)


def section(title: str, *lines: str) -> str:
    """A section of a page."""
    return "\n".join([f".SH {title}", *lines, ""])


def head(name: str, what: str) -> str:
    """How a page begins."""
    with open(os.path.join(tool.ROOT, "VERSION"), encoding="utf-8") as file:
        version = file.readline().split()[0]
    return f'.TH {name.upper()} 1 "" "dvbemu {version}"\n.ad l\n.nh\n' + section("NAME", f"{plain(name)} \\- {plain(what)}")


def form(action: argparse.Action) -> str:
    """How an option or a file stands on the command line."""
    names, value = ", ".join(f"\\fB{plain(name)}\\fR" for name in action.option_strings), str(action.metavar or "")
    return f"{names} \\fI{plain(value)}\\fR".strip() if value else names


def statuses(text: str) -> Iterator[str]:
    """Each exit status, with what it means."""
    for part in re.split(r"; (?=\d)", text):
        found = re.fullmatch(r"(\d+(?: to \d+)?)[ ,]*(.*)", part)
        yield f".TP 8\n.B {found[1]}\n{plain(found[2] or 'done')}" if found else f".PP\n{plain(part)}"


def page(word: str) -> str:
    """The page of a word."""
    command = cli.parser(word)
    actions = [action for action in command._actions if not isinstance(action, tool.Version)]  # pylint: disable=protected-access
    usage = command.format_usage().removeprefix("usage: ").strip().removeprefix(command.prog)
    return "".join([
        head(f"dvbemu-{word}", cli.summary(word)),
        section("SYNOPSIS", f".B {plain(command.prog)}", plain(usage.strip())),
        section("DESCRIPTION", ".PP\n".join(plain(part) + "\n" for part in (command.description or "").split("\n\n")).rstrip()),
        section("OPTIONS", *(f".TP\n{form(action)}\n{plain(action.help or '')}" for action in actions)),
        section("INPUT", plain(command.sections["reads"])), section("OUTPUT", plain(command.sections["writes"])),
        section("EXIT STATUS", *statuses(command.statuses())),
        section("EXAMPLES", plain(command.sections["example"])), section("SEE ALSO", f"dvbemu(1), {SEE}"),
    ])  # fmt: skip


def overview() -> str:
    """The page of all words."""
    words = [f".PP\n{plain(cli.ABOVE)}", *map(item, cli.PROVED), ".PP\nTested:", *map(item, cli.TOOLS)]
    return "".join([
        head("dvbemu", "emulates /dev/dvb/adapter0, without a card"), section("SYNOPSIS", ".B dvbemu", "WORD .."),
        section("DESCRIPTION", plain(cli.ABOUT)), section("COMMANDS", *words),
        section("OPTIONS", ".TP\n.B \\-\\-help\nshow the commands; after a command, its help", ".TP\n.B \\-\\-version\nthe version, and what proved it"),
        section("EXIT STATUS", *statuses(cli.STATUSES.format(""))),
        section("EXAMPLES", plain("dvbemu serve --packets 3000 --report r my.ts -- dvbv5-scan dvbv5.conf; dvbemu explain r")),
        section("SEE ALSO", ", ".join([*(f"dvbemu\\-{word}(1)" for word in (*cli.PROVED, *cli.TOOLS)), SEE])),
    ])  # fmt: skip


def item(word: str) -> str:
    """A word among all."""
    return f".TP 12\n.B {word}\n{plain(cli.summary(word))}"


# ------ completion


def values(action: argparse.Action) -> list[str]:
    """What may stand in the place of a value, where it is known."""
    named = str(action.metavar or "")
    return [str(value) for value in action.choices or VALUES.get(named) or [part for part in named.split("|") if part.islower()]]


def cases() -> Iterator[str]:
    """The cases of a shell over the place of a word, the command's word, the one in front of it, and what there is of it."""
    yield f'    1\\ *) found="{" ".join([*cli.PROVED, *cli.TOOLS])} --help --version" ;;'
    for word in (*cli.PROVED, *cli.TOOLS):
        actions = cli.parser(word)._actions  # pylint: disable=protected-access
        for action in actions:
            for name in action.option_strings if values(action) else []:
                yield f'    *\\ {word}\\ {name}\\ *) found="{" ".join(values(action))}" ;;'
        yield f'    *\\ {word}\\ *\\ -*) found="{" ".join(name for action in actions for name in action.option_strings)}" ;;'
        for action in actions:
            if values(action) and not action.option_strings:
                yield f'    *\\ {word}\\ *) found="{" ".join(values(action))}" ;;'


def files() -> Iterator[tuple[str, bytes]]:
    """The files below share."""
    for name, text in [("dvbemu", overview()), *((f"dvbemu-{word}", page(word)) for word in (*cli.PROVED, *cli.TOOLS))]:
        yield f"man/man1/{name}.1.gz", gzip.compress(text.encode(), 9, mtime=0)
    yield "bash-completion/completions/dvbemu", BASH.format(cases="\n".join(cases())).encode()
    yield "zsh/vendor-completions/_dvbemu", ZSH.format(cases="\n".join(cases())).encode()


def main() -> None:
    """Writes them."""
    for name, data in files():
        path = os.path.join(sys.argv[1], name)
        os.makedirs(os.path.dirname(path), exist_ok=True)
        with open(path, "wb") as file:
            file.write(data)


if __name__ == "__main__":
    main()
