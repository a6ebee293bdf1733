"""The command line: its commands, help, errors, and the commands of the proved program.

`steps`, `run` and `check` with files write the files' content to the program's standard input. Output and exit status are the program's,
with three exceptions: the status of `check` with files is 1 if the answer is no; a file that can't be read completely is named, with status
1; and if a signal ended the program, that is reported, with status 128 plus its number. The other words are the modules of `commands`.
"""
from __future__ import annotations

import importlib
import os
import signal
import sys
from typing import TYPE_CHECKING

from . import standard
from . import tool

if TYPE_CHECKING:
    from argparse import Namespace
    from typing import Iterable, Iterator, NoReturn, Sequence

    from . import child
    from . import inputs
    from . import progress

ABOUT = "/dev/dvb/adapter0 without a card: runs DVB programs, or scripts of their calls, on a recording."
ABOVE = "Proved, by the toolchain that --version names (docs/PROVED.md):"
BELOW = "`dvbemu WORD --help` has files, options, exit statuses and an example. `dvbemu --version` prints the version."
BATCH, PACKET = "[--batch B]", "[--packet P]"
# The words of the proved program: the arguments of each, and what it does.
PROVED = {
    "steps": (f"{BATCH} {PACKET} [SCRIPT [STREAM ..]]", "runs a script's calls, in order, against the streams, and prints a report"),
    "run": (f"{BATCH} {PACKET} [SCRIPT [STREAM ..]]", "runs a script with one thread per client and one for the stream; reports differ from run to run"),
    "check": (f"{PACKET} [REPORT SCRIPT [STREAM ..]]", "checks that a report is valid for a script and its streams: yes or no"),
    "make": ("N", "generates the test session with this number"),
    "selftest": (f"N {BATCH}", "runs the test session with this number, and prints its sums"),
}
# The tools, each a module of `commands`, and what it does.
TOOLS = {
    "serve": "runs unmodified DVB programs on a recording, and writes a report of their calls",
    "fuzz": "runs a program on mutated copies of a recording, and keeps small streams on which it fails",
    "explain": "explains a report in plain English, with hints; with its stream, why filters got nothing",
    "beside": "shows which replies of a session Linux would give otherwise, and why",
    "picture": "draws a report",
    "page": "writes a report as a page for a browser",
    "json": "writes a report as JSON Lines, and back",
    "bytes": "writes the bytes that were read from a node",
    "session": "turns a report of `serve` into a session that replays it",
    "test": "runs a folder of sessions, and compares their reports",
    "words": "translates names and hexadecimal numbers in a script",
    "packet": "makes packets from a section or a payload",
    "pace": "writes a stream at the pace of its program clock, for `run`",
    "calls": "records the calls of a program on a real adapter as a script",
    "merge": "makes a report from a folder of `serve --keep FOLDER`",
    "build": "proves and builds the program, or the server of `serve`, in advance",
}
# Words that there were, and where what they did is now.
MOVED = {
    "hint": "`hint` is now part of `explain`: dvbemu explain REPORT SESSION",
    "why": "`dvbemu check REPORT SESSION [STREAM ..]` now says what is wrong with a report, and what was expected",
}
STATUSES = "0; 1 if {}a file can't be read; 2 for a usage error; 3 if the script has an error; 5 to 7 if reading, writing or " \
    "memory failed (docs/BEHAVIOUR.md, 'Statuses'); 128 plus the number of a signal that ended the program"
READS = "{}a script and its streams, or a session, which holds its stream; the line `stream` is added to a script that has none. " \
    "A file may be `-`, standard input. "
ALONE = "Without files, the session is read from standard input"
ASKED = "Without files, standard input is the line `report N`, a report of N bytes, and its session; the status is then 0 for `no`, too"


def whole_help() -> str:
    """The help of all words."""
    proved, tested = ("".join(f"  {word:9} {summary(word)}\n" for word in words) for words in ([*PROVED], [*TOOLS]))
    return f"usage: dvbemu WORD ..\n\n{ABOUT}\n\n{ABOVE}\n{proved}\nTested:\n{tested}\n{BELOW}\n"


def command(word: str) -> tool.Command:
    """The command line of a word of the proved program."""
    usage, what = PROVED[word]
    sections = {"reads": "nothing", "writes": "the session" if word == "make" else "one line", "status": "0; 2 for a usage error; 6 if writing failed; 7 if out of memory",
                "example": f"dvbemu {word} 7"}  # fmt: skip
    if word in ("steps", "run"):
        sections = {"reads": READS.format("") + ALONE, "writes": "the report", "status": STATUSES.format(""), "example": f"dvbemu {word} my.script my.ts > my.report"}
    elif word == "check":
        sections = {"reads": READS.format("a report; and ") + ASKED, "writes": "yes or no; on standard error what is wrong and what was expected",
                    "status": STATUSES.format("the answer is no or "), "example": "dvbemu check my.report my.script my.ts"}  # fmt: skip
    parser = tool.Command(word, usage, f"{what[0].upper()}{what[1:]}.", teller="dvbemu", **sections)
    if word in ("steps", "run", "selftest"):
        parser.add_argument("--batch", action=tool.Once, type=tool.number(1, 64, True), metavar="B", help="the maximum number of packets in a batch, 1 to 64; default 64")
    if word in ("steps", "run", "check"):
        parser.add_argument("--packet", action=tool.Once, type=int, choices=(188, 204), metavar="P", help="the packet size in the stream: 188 (default) or 204")
        parser.add_argument("files", metavar="FILE", nargs="*", help="the files, in the order shown above")
    else:
        parser.add_argument("number", metavar="N", type=tool.number(0, 2**64 - 1, True), help="the session's number, below 2^64")
    return parser


def summary(word: str) -> str:
    """What a word does, as one line."""
    return PROVED[word][1] if word in PROVED else TOOLS[word]


def parser(word: str) -> tool.Command:
    """The parser of a word's arguments, which also has its help."""
    if word in PROVED:
        return command(word)
    found: tool.Command = importlib.import_module(f"dvbemu.commands.{word}").command()
    return found


def plain(word: str, args: Namespace) -> list[str]:
    """The arguments of the program."""
    argv = [word] if "files" in args else [word, str(args.number)]
    for name in "batch", "packet":
        if getattr(args, name, None) is not None:
            argv += [f"--{name}", str(getattr(args, name))]
    return argv


def started(argv: Sequence[str], takes_output: bool = False) -> child.Run:
    """The program, started with these arguments."""
    from . import child  # pylint: disable=import-outside-toplevel
    return child.Run(child.program(), argv, takes_output)


def ended(status: int) -> int:
    """The status of a program, or 128 plus the number of the signal that ended it. A signal is reported, except for Ctrl-C and a reader that
    has gone."""
    if status >= 0:
        return status
    if -status in (signal.SIGINT, signal.SIGPIPE):
        return standard.end_by(-status)
    print(f"dvbemu: the program {standard.how(status)}", file=sys.stderr)
    return 128 - status


def over_files(parser: tool.Command, args: Namespace, word: str) -> int:
    """`steps` and `run` over files."""
    from . import inputs, progress  # pylint: disable=import-outside-toplevel
    kept: list[bytes] = []
    try:
        files = inputs.opened(args.files)
        if any(file.is_terminal for file in files):
            parser.tell_waiting()
        run, work = started(plain(word, args)), progress.Work(files, "")
        progress.show_beside(parser.teller, work.text)
        status = run.feed(kept_head(inputs.session_pieces(files), kept, work))
    except inputs.InputError as fault:
        return parser.fail(fault)
    progress.end()
    if status == standard.WRITE_FAULT and standard.reader_is_gone():
        return standard.end_by(signal.SIGPIPE)
    sys.stderr.buffer.write(run.stderr)
    sys.stderr.flush()
    tell_more(status, run, kept[0], files, word)
    return ended(status)


def tell_more(status: int, run: child.Run, script: bytes, files: Sequence[inputs.Input], word: str) -> None:
    """What a script's fault may be about, behind the program's lines; or that what was taken for a stream is likely none."""
    from . import faulty  # pylint: disable=import-outside-toplevel
    names = ["-" if file.is_standard else file.name for file in files]
    text = faulty.hint(run.stderr.decode(errors="replace"), script, names, word) if status == 3 else faulty.warnings(script, files)
    sys.stderr.write(text)


def kept_head(pieces: Iterable[bytes], kept: list[bytes], work: progress.Work) -> Iterator[bytes]:
    """The pieces; the first of them is kept, and behind the last one the report is written."""
    for piece in pieces:
        if not kept:
            kept.append(piece)
        yield piece
    work.begin("writing the report")


def check_files(parser: tool.Command, args: Namespace) -> int:
    """`check` over files."""
    from . import inputs, progress  # pylint: disable=import-outside-toplevel
    if len(args.files) == 1:
        parser.error("the following arguments are required: SCRIPT")
    try:
        report, *session = inputs.opened(args.files)
        if report.is_terminal or any(file.is_terminal for file in session):
            parser.tell_waiting()
        work = progress.Work([report, *session], "checking")
        progress.show(parser.teller, work.text)
        text, (head, *others) = report.whole(), inputs.session_pieces(session)
        behind = b"".join([head, *others])
        del others
        progress.end()
        run = started(plain("check", args), True)
        work.begin("checking")
        progress.show(parser.teller, work.text)
        status = run.feed([b"report %d\n" % len(text), text, behind])
    except inputs.InputError as fault:
        return parser.fail(fault)
    progress.end()
    sys.stdout.buffer.write(run.stdout)
    sys.stdout.flush()
    sys.stderr.buffer.write(run.stderr)
    sys.stderr.flush()
    tell_more(status, run, head, session, "check")
    return 1 if run.stdout == b"no\n" and not status else ended(status)


def direct(parser: tool.Command, args: Namespace, word: str) -> NoReturn:
    """The program takes the place of this process, and standard input is its own."""
    from . import child  # pylint: disable=import-outside-toplevel
    if "files" in args:
        parser.tell_waiting(f" ('dvbemu {word} --help' tells of files)")
    path = child.program()
    os.execve(path, [path, *plain(word, args)], child.environment(word))


def done(word: str, behind: Sequence[str]) -> int:
    """A word of the proved program."""
    parser = command(word)
    args = parser.parse_args(behind)
    if not getattr(args, "files", None):
        direct(parser, args, word)
    return check_files(parser, args) if word == "check" else over_files(parser, args, word)


def refuse(word: str | None) -> int:
    """Names a word that is none, and the nearest one; the status is 2."""
    if word is None:
        message = "the following arguments are required: WORD"
    elif word in MOVED:
        message = MOVED[word]
    elif word.startswith("-"):
        message = f"unrecognized arguments: {word}"
    elif os.path.isfile(word):
        message = f"unknown word {word}; for a file: dvbemu steps {word} .."
    else:
        message = f"unknown word {word}{tool.nearest(word, [*PROVED, *TOOLS])}"
    print(f"usage: dvbemu WORD .., with one of the words {', '.join([*PROVED, *TOOLS])}\ndvbemu: error: {message}", file=sys.stderr)
    return 2


def main(*argv: str) -> int | None:
    """Runs a command line, and returns its status; None is 0."""
    word, *behind = argv or (None,)
    if word == "help" and behind:
        return main(behind[0], "--help")
    if word in ("-h", "--help", "help"):
        sys.stdout.write(whole_help())
    elif word in ("--version", "version", "-V"):
        print(tool.version())
    elif word in PROVED:
        return done(word, behind)
    elif word in TOOLS:
        sys.argv = [word, *behind]
        status: int | None = importlib.import_module(f"dvbemu.commands.{word}").main()
        return status
    else:
        return refuse(word)
    return 0


def prog_of(argv: Sequence[str]) -> str:
    """The name that begins the messages of a command line: `dvbemu`, or `dvbemu serve`."""
    return " ".join(["dvbemu", *(word for word in argv[:1] if word in TOOLS)])


def begin(*argv: str) -> NoReturn:
    """Runs a command line, and ends with its status."""
    standard.run(prog_of(argv), main, *argv)
