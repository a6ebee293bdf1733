"""Runs sessions and compares what they write with the reports beside them: `dvbemu test --help`.

A test is NAME.session, or NAME.script with NAME.ts beside it if there is one, and NAME.report; NAME.words has the arguments that it is run
with, where they aren't `steps`. By `steps` the report is the same each time, byte for byte. By `run` it isn't: there the report that was
kept must be one of a run of the session, as `check` says.
"""
from __future__ import annotations

import os
from concurrent.futures import ThreadPoolExecutor
from typing import TYPE_CHECKING, NamedTuple

from .. import child
from .. import inputs
from .. import standard
from .. import tool
from ..errors import Error
from ..linux.beside import Beside, events_here
from ..linux.session import Session

if TYPE_CHECKING:
    from argparse import Namespace

# The columns that are shown of a line.
SHOWN = 100


class TestError(Error):
    """Why a test has failed."""


class Test(NamedTuple):
    """A test: its name, the path of its files without their endings, and its command line."""

    name: str
    path: str
    argv: list[str]

    def session(self) -> bytes:
        """The bytes of its session."""
        names = [self.path + ".session"]
        if not os.path.exists(names[0]):
            names = [path for path in (self.path + ".script", self.path + ".ts") if os.path.exists(path)]
        try:
            return b"".join(inputs.session_pieces(inputs.opened(names)))
        except inputs.InputError as fault:
            raise TestError(str(fault)) from None

    def kept(self) -> bytes | None:
        """The report that was kept; None where there is none."""
        try:
            with open(self.path + ".report", "rb") as file:
                return file.read()
        except FileNotFoundError:
            return None
        except OSError as fault:
            raise TestError(f"{fault.filename}: {fault.strerror}") from None

    def packet(self) -> int:
        """What a packet takes up in the stream."""
        return self.option("--packet", 188)

    def option(self, name: str, without: int) -> int:
        """The number behind an option."""
        argv = " ".join(self.argv).replace("=", " ").split()
        return int(argv[argv.index(name) + 1]) if name in argv else without

    def named(self) -> set[str]:
        """The rows of docs/KERNEL.md that NAME.linux names: by these Linux may answer otherwise."""
        try:
            with open(self.path + ".linux", encoding="utf-8", errors="replace") as file:
                return {line.strip() for line in file}
        except FileNotFoundError:
            return set()
        except OSError as fault:
            raise TestError(f"{fault.filename}: {fault.strerror}") from None


def command() -> tool.Command:
    """The command line."""
    parser = tool.Command(
        "test",
        "[--update] [--linux] [--batch B] [--packet P] PATH .. | --jobs LOG",
        "Runs sessions, on all processors, and compares their reports with those kept beside them.",
        reads="each PATH, a folder with all below it, or a file: NAME.session, or NAME.script with NAME.ts if there is one; "
        "NAME.report; and NAME.words, its command line: by default `steps`, with --batch and --packet as given here; "
        "NAME.linux, for --linux rows of docs/KERNEL.md, each on a line; "
        "or LOG, a job log of GNU parallel (--joblog)",
        writes="TAP: `ok 1 - NAME`, or `not ok 1 - NAME`, and after # the line, what it has and what the rules give",
        status="0; 1 if a report differs or is missing, a session can't be run, or there is no test; 2 for a usage error",
        example="dvbemu test tests",
    )
    parser.add_argument("--update", action="store_true", help="rewrite reports that differ or are missing, and say which")
    parser.add_argument("--linux", action="store_true", help="also fail a test if Linux would answer otherwise by a row not in NAME.linux")
    parser.add_argument("--batch", type=tool.number(1, 64, True), metavar="B", help="for tests without NAME.words")
    parser.add_argument("--packet", type=int, choices=(188, 204), metavar="P", help="for tests without NAME.words")
    parser.add_argument("--jobs", metavar="LOG", help="report the results of these jobs, and run nothing")
    parser.add_argument("paths", metavar="PATH", nargs="*", help="a folder, or a test")
    return parser


def stems_below(parser: tool.Command, path: str) -> list[str]:
    """The files of tests below a folder, without their endings, or the one that is named."""
    if os.path.isfile(path) and path.endswith((".session", ".script")):
        return [os.path.splitext(path)[0]]
    if not os.path.isdir(path):
        parser.fail(f"{path}: {'not a session or script' if os.path.exists(path) else 'No such file or directory'}")
    return [os.path.join(folder, os.path.splitext(name)[0]) for folder, _, names in os.walk(path) for name in names
            if name.endswith((".session", ".script"))]  # fmt: skip


def tests_of(parser: tool.Command, args: Namespace) -> list[Test]:
    """The tests that are asked for, by their names."""
    plain = ["steps"]
    for name in "batch", "packet":
        if getattr(args, name) is not None:
            plain += [f"--{name}", str(getattr(args, name))]
    found = {}
    for path in args.paths:
        for stem in stems_below(parser, path):
            name = os.path.relpath(stem, path) if os.path.isdir(path) and len(args.paths) == 1 else stem
            own = []
            if os.path.exists(stem + ".words"):
                own = parser.bytes_of(stem + ".words").decode(errors="replace").split()
            found[stem] = Test(name, stem, own or plain)
    return [found[stem] for stem in sorted(found)]


def ended(command: str, status: int, stderr: bytes) -> str:
    """How the program ended, and what it wrote on standard error."""
    lines = stderr.decode(errors="replace").strip().split("\n")
    return ": ".join(filter(None, [f"{command} {standard.how(status)}", " ".join(map(str.strip, lines[:2]))]))


def written_by(program: str, test: Test, session: bytes) -> bytes:
    """The report that a test's session gives."""
    if test.argv[0] not in ("steps", "run"):
        raise TestError(f"{test.path}.words: expected steps or run, found {test.argv[0]}")
    ran = child.ran([program, *test.argv], [session])
    if ran.returncode:
        raise TestError(ended(" ".join(test.argv), ran.returncode, ran.stderr))
    return ran.stdout


def checked(program: str, test: Test, session: bytes, report: bytes) -> tuple[bool, bytes]:
    """Whether `check` says yes of a report, and what it tells if it doesn't."""
    argv = ["check", "--packet", str(test.packet())]
    asked = b"report %d\n" % len(report), report, session
    ran = child.ran([program, *argv], asked)
    if ran.returncode or ran.stdout not in (b"yes\n", b"no\n"):
        raise TestError(ended("check", ran.returncode, ran.stderr))
    return ran.stdout == b"yes\n", ran.stderr


def cut(line: str, other: str) -> str:
    """A line for a reader: of a long one the part from where it differs."""
    first = max(len(os.path.commonprefix([line, other])) - SHOWN // 2, 0) if len(line) > SHOWN else 0
    return f"{'..' * (first > 0)}{line[first : first + SHOWN]}{'..' * (len(line) > first + SHOWN)}"


def first_difference(report: bytes, other: bytes, argv: list[str]) -> str:
    """The first line in which a report differs from another one."""
    one, two = (text.decode(errors="replace").split("\n") for text in (report, other))
    at = next((at for at, pair in enumerate(zip(one, two)) if pair[0] != pair[1]), min(len(one), len(two)))
    stands, gives = (lines[at] if at < len(lines) else "the end" for lines in (one, two))
    return f"line {at + 1}: {cut(stands, gives)}; {' '.join(argv)} gives {cut(gives, stands)}"


def difference(program: str, test: Test, session: bytes, kept: bytes, report: bytes) -> str:
    """What a report that was kept has wrong: by the rules; or, where it is one of another run, by what was written now. Nothing where it
    is one of another run, and may be."""
    is_right, stderr = checked(program, test, session, kept)
    if not is_right:
        return "; ".join(stderr.decode(errors="replace").strip().removeprefix("dvbemu: ").split("\n"))
    return "" if test.argv[0] == "run" else first_difference(kept, report, test.argv)


def keep(path: str, report: bytes) -> None:
    """Writes a report anew."""
    try:
        with open(path, "wb") as file:
            file.write(report)
    except OSError as fault:
        raise TestError(f"{path}: {fault.strerror}") from None


def on_linux(program: str, test: Test, session: bytes, report: bytes) -> str:
    """The first line that Linux would answer otherwise by a row that isn't named; nothing where there is none."""
    argv = ["steps", *test.argv[1:]]
    text = report if argv == test.argv else child.ran([program, *argv], [session]).stdout
    asked, named = Session.of(session, test.packet()), test.named()
    both = Beside(asked, events_here(text.decode("latin-1").split("\n"), asked), test.option("--batch", 64))
    for line in both.differing:
        rows = [f"'{cause.point.row}'" for cause in both.causes(line) if cause.point.row not in named]
        if rows or not both.causes(line):
            by = ", by " + " and ".join(rows) if rows else ""
            return f"line {line} is answered otherwise on Linux 6.1{by}: {test.path}.linux doesn't name that"
    return "" if both.undefined is None else f"undefined on Linux 6.1 from line {both.undefined} on"


def tried(program: str, test: Test, is_updated: bool, asks_linux: bool) -> str:
    """What becomes of a test: + where it passes, or -, and behind that why it failed, or what was written anew."""
    try:
        session, kept = test.session(), test.kept()
        report = written_by(program, test, session)
        why = "" if report == kept else "there is no report" if kept is None else difference(program, test, session, kept, report)
        if not why and asks_linux and (otherwise := on_linux(program, test, session, report)):
            return f"-{otherwise}"
        if not why:
            return "+"
        if is_updated:
            keep(test.path + ".report", report)
            return f"+updated: {why}"
        return f"-{why}" if kept is not None else f"-{why}: --update writes {test.path}.report"
    except TestError as why:
        return f"-{why}"
    except OSError as fault:
        return f"-{standard.told_of(fault)[0]}"


def tell_jobs(parser: tool.Command, args: Namespace) -> int:
    """Tells how the jobs of a log have ended, as of tests that were run."""
    if args.paths:
        parser.error(f"unrecognized arguments: {args.paths[0]}")
    from .. import joblog  # pylint: disable=import-outside-toplevel
    try:
        jobs = joblog.read(parser.bytes_of(args.jobs).decode(errors="replace"))
    except joblog.JobLogError as wrong:
        parser.fail_on(args.jobs, wrong)
    print(f"1..{len(jobs)}")
    for number, job in enumerate(jobs, 1):
        print(f"{'not ' if job.fault() else ''}ok {number} - {job.command}{chr(10) + '# ' if job.fault() else ''}{job.fault()}")
    failed = sum(bool(job.fault()) for job in jobs)
    if failed:
        print(f"# {failed} of {len(jobs)} failed")
    return 1 if failed or not jobs else 0


def main() -> int:
    """Runs the tests."""
    parser = command()
    args = parser.parse_args()
    if args.jobs is not None:
        return tell_jobs(parser, args)
    if not args.paths:
        parser.error("the following arguments are required: PATH")
    tests = tests_of(parser, args)
    if not tests:
        parser.fail(f"{', '.join(args.paths)}: there is no NAME.session and no NAME.script")
    program, failed = child.program(), 0
    print(f"1..{len(tests)}", flush=True)
    with ThreadPoolExecutor(len(os.sched_getaffinity(0))) as pool:
        ends = pool.map(lambda test: tried(program, test, args.update, args.linux), tests)
        for number, (test, text) in enumerate(zip(tests, ends), 1):
            failed += text[:1] == "-"
            print(f"{'not ' if text[:1] == '-' else ''}ok {number} - {test.name}")
            print(f"# {text[1:]}\n" if text[1:] else "", end="", flush=True)
    if failed:
        print(f"# {failed} of {len(tests)} failed")
    return 1 if failed else 0
