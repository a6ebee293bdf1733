"""`dvbemu fuzz`: runs a command before mutated copies of a recording, and keeps small streams before which it fails. Its --help
tells of the words.
"""
from __future__ import annotations

import gc
import math
import os
import shutil
import signal
import sys
import time
from typing import TYPE_CHECKING

from .. import standard
from .. import tool
from ..build import Stopped, build_preload, built_server
from ..fuzz.found import Folder, Hunt, Options
from ..fuzz.run import Limits, Plan, Runner
from ..server.commands import Interrupted
from ..server.recording import Recording, Unplayable
from .serve import CHANNEL, FASTEST, Serve, channel, rate, see_command

if TYPE_CHECKING:
    from argparse import Namespace
    from types import FrameType
    from typing import NoReturn

# The seconds of a hunt and those of a run, the packets a second, the MiB of memory and the runs that make a stream small, where
# no word says so; and the greatest numbers.
TIME, LIMIT, PACKETS, MEMORY, TRIES, LONGEST, MOST_MEMORY = 60.0, 10.0, 10_000.0, 1024, 400, 10**7, 1 << 20
ABOUT = """\
Runs COMMAND, as `serve` does, on mutated copies of a recording, and keeps each stream on which it fails, reduced.

A failure is a signal, a report of a sanitizer or of valgrind, no end within the limit, or memory above --memory. The unchanged recording
comes first, and COMMAND has to succeed on it. Then come well-formed tables with every descriptor of ETSI EN 300 468, and then mutations:
of lengths, counts, versions, numbers and texts, of packets, and of bits; of the PIDs that COMMAND has asked for.

Each run has its own folder, into which files named in COMMAND are copied, and limits, and doesn't see the machine's devices; what it
leaves running is ended. FOLDER has, for each cause, NAME.ts, the stream; NAME.session, for `steps`; and NAME.txt: what was changed,
the last calls, the stack if gdb is installed, and the command that reproduces it. The streams in an existing FOLDER are tried first,
with `mended` for those that no longer fail."""
READS = "RECORDING, a file with packets of 188, 192 or 204 bytes; at most its first 16 MiB are used"
WRITES = "TAP: a test for the recording, one for each stream in FOLDER, and `not ok` for each new cause; and FOLDER"
STATUS = "0 if no failure was found; 1 if one was, or one in FOLDER still fails, COMMAND fails on the unchanged recording, or a file can't " \
    "be read or written; 2 for a usage error; 127 if COMMAND doesn't exist"


class Fuzz(Serve):
    """The command."""

    others = "; 70 for a bug in `fuzz`"


def command() -> Fuzz:
    """The command and its words: those in front of `--`."""
    words = Fuzz("fuzz", "[OPTION ..] RECORDING -- COMMAND [WORD ..]", ABOUT, reads=READS, writes=WRITES, status=STATUS,
                 example="dvbemu fuzz --time 60 --out found my.ts -- dvbv5-scan -o channels dvbv5.conf")  # fmt: skip
    whole = tool.number(0, LONGEST)
    words.add_argument("--time", type=seconds, metavar="S",
                       help="stop after S seconds; default 60, or no limit with --runs; 0 tries only the streams in FOLDER")  # fmt: skip
    words.add_argument("--runs", type=whole, metavar="N", help="stop after N streams")
    words.add_argument("--seed", type=whole, metavar="N",
                       help="the seed of the streams; default: the one in FOLDER, or 1. With --jobs 1 a seed and COMMAND give the same "
                       "streams on every machine")  # fmt: skip
    words.add_argument("--jobs", type=tool.number(1, 64), metavar="J", help="the number of runs at the same time; default: the number of processors")
    words.add_argument("--limit", type=rate(LONGEST), default=LIMIT, metavar="S", help="the seconds that a run may take; default 10")
    words.add_argument("--memory", type=tool.number(1, MOST_MEMORY), default=MEMORY, metavar="MIB", help="the MiB of memory that a run may take; default 1024")
    words.add_argument("--packets", type=rate(FASTEST), default=PACKETS, metavar="N", help="play N packets a second; default 10,000")
    words.add_argument("--out", default="fuzz", metavar="FOLDER", help="the folder for failures; default fuzz")
    words.add_argument("--expect-running", action="store_true",
                       help="COMMAND never ends by itself: it must be alive and reading at the limit")  # fmt: skip
    words.add_argument("--all", action="store_true", help="also change PIDs that COMMAND hasn't asked for")
    words.add_argument("--without", action="append", default=[], type=tool.number(0, 255), metavar="TAG",
                       help="leave out descriptors with this tag")  # fmt: skip
    words.add_argument("--tries", type=whole, default=TRIES, metavar="N", help="reduce a stream in at most N runs; default 400")
    words.add_argument("--valgrind", action="store_true",
                       help="run every tenth stream, and each on which COMMAND crashes, under valgrind")  # fmt: skip
    words.add_argument("--tune", action="append", default=[], metavar=CHANNEL, type=tool.reader(channel, CHANNEL),
                       help="another recording on its frequency, as for `serve`; it isn't changed")  # fmt: skip
    words.add_argument("--lock", type=seconds, default=0.0, metavar="S", help="the seconds until a recording of --tune locks; default 0")
    words.add_argument("recording", nargs="?", metavar="RECORDING", help="a transport stream")
    return words


def seconds(word: str) -> float:
    """A number of seconds, which may be 0."""
    return 0.0 if word == "0" else rate(LONGEST)(word)


def asked(words: list[str], known: Fuzz) -> tuple[Namespace, list[str]]:
    """The words in front of `--`, and the command behind it."""
    known.has_command = "--" in words
    at = words.index("--") if known.has_command else len(words)
    options, command = known.parse_args(words[:at]), words[at + 1:]
    missing = [name for name, there in (("RECORDING", options.recording), ("COMMAND", command)) if not there]
    if missing:
        known.error(f"the following arguments are required: {', '.join(missing)}")
    see_command(command[0], known)
    path = command[0] if os.sep in command[0] else shutil.which(command[0])
    if options.valgrind and not shutil.which("valgrind"):
        known.error("--valgrind: valgrind isn't there")
    return options, [os.path.abspath(path or command[0]), *command[1:]]


def plan_of(options: Namespace, command: list[str]) -> Plan:
    """What is run, and how."""
    limits = Limits(options.limit, options.memory << 20)
    return Plan(command, options.packets, limits, options.tune, options.lock, built_server(), options.expect_running)


def come(number: int, _frame: FrameType | None) -> NoReturn:
    """A signal ends the hunt; what was found till then is kept."""
    raise Interrupted(number)


def hunted(known: Fuzz, options: Namespace, hunt: Hunt) -> int:
    """The hunt, and what is told at its end."""
    begun = time.monotonic()
    if why := hunt.begin():
        known.fail(why)
    try:
        hunt.known()
        time_is = options.time if options.time is not None else TIME if options.runs is None else math.inf
        hunt.hunt(begun + time_is, options.runs)
    finally:
        spent, count = time.monotonic() - begun, hunt.runner.count
        print(f"1..{hunt.told.points}\n# {count:,} runs in {spent:.0f} s, {count / spent:.1f} a second; {hunt.failures:,} failures",
              flush=True)  # fmt: skip
    return 1 if hunt.told.failed else 0


def main() -> int:
    """Does what the words ask for."""
    known = command()
    options, words = asked(sys.argv[1:], known)
    runner = None
    try:
        if Recording(options.recording, options.packets).is_pipe:
            known.fail_on(options.recording, "a file is wanted, as it is played often")
        build_preload()
        runner, folder = Runner(plan_of(options, words), options.jobs or len(os.sched_getaffinity(0))), Folder(options.out)
        for number in signal.SIGINT, signal.SIGTERM, signal.SIGHUP:
            signal.signal(number, come)
        gc.freeze()
        how = Options(options.seed, options.without, options.all, options.valgrind, options.tries)
        return hunted(known, options, Hunt(runner, options.recording, folder, how))
    except Interrupted as fault:
        return standard.end_by(fault.status - 128)
    except (Stopped, Unplayable) as fault:
        known.fail(fault)
    except OSError as fault:
        known.fail_on(fault.filename or options.recording, fault)
    finally:
        if runner:
            runner.end()
