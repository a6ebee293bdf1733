"""What was found: a folder with a stream, a session and a text for each cause; and the hunt that fills it."""
from __future__ import annotations

import hashlib
import math
import os
import re
import shlex
import shutil
import subprocess
import textwrap
import time
from dataclasses import dataclass, field, replace
from typing import TYPE_CHECKING, NamedTuple

from .. import tool
from ..child import in_memory
from ..psi.tables import text_of
from .mutate import Draw, Item, drawn_items, items_of, listed, mutated, packets_in, stream_of, without
from .reduce import Enough, Reducer
from .run import Limits, Plan, Ran, Runner, frames_in

if TYPE_CHECKING:
    from typing import Collection, Sequence

# How often a signal is looked at by gdb that was seen with the same last read; the seconds that making small may take; how many
# of the last calls are told; and how many times the unmutated run's seconds, and least seconds, a stream may take that is made
# small.
LOOKED_AT, SECONDS, CALLS, TIMES, LEAST = 3, 60, 12, 4, 5.0
VALGRIND, EACH, SLOWER = ("valgrind", "-q", "--error-exitcode=99"), 10, 10
GDB = ("gdb", "-q", "-batch", "-ex", "handle SIGPIPE nostop noprint", "-ex", "run", "-ex", "bt 30", "--args")
SENTENCE = re.compile(r"^    line \d+: .*(?:\n      .*)*", re.M)
# The mutated streams begin with some of these shares: of the recording, or of what made the command read something new; else
# right tables.
OF_RECORDING, OF_NEW = 0.4, 0.3
STATE, ENDING = "state", (".ts", ".session", ".txt")


class Options(NamedTuple):
    """How a hunt goes: the seed, or None; the tags whose descriptors are left out, whether all PIDs are changed, whether valgrind
    is used, and the most runs by which a stream is made small."""

    seed: int | None
    tags: Collection[int] = ()
    is_all: bool = False
    by_valgrind: bool = False
    tries: int = 400


class Hunted(NamedTuple):
    """A stream that is tried: its number, its items, and what was changed."""

    number: int
    items: list[Item]
    told: list[str]
    before: Sequence[str] = ()


class Failure(NamedTuple):
    """A stream before which the command fails: what kind of failure, its cause, what it wrote or its stack, and the PID that it
    read last."""

    hunted: Hunted
    kind: str
    cause: str
    trace: str
    last: int


@dataclass
class Told:
    """The points of TAP that were told, and how many of them are failures."""

    points: int = 0
    failed: int = 0
    known: dict[str, int] = field(default_factory=dict)

    def tell(self, is_well: bool, text: str, *more: str) -> None:
        """Tells a point, and lines behind it."""
        self.points, self.failed = self.points + 1, self.failed + (not is_well)
        lines = [f"{'' if is_well else 'not '}ok {self.points} - {text}", *(f"# {line}" for line in more)]
        print("\n".join(lines), flush=True)


class Folder:
    """The folder of what was found, and where the hunt goes on."""

    def __init__(self, path: str) -> None:
        self.path = path
        os.makedirs(path, exist_ok=True)

    def streams(self) -> list[str]:
        """The streams that are there, by their names."""
        return sorted(name.removesuffix(".ts") for name in os.listdir(self.path) if name.endswith(".ts"))

    def place(self, name: str, ending: str) -> str:
        """The path of a file."""
        return os.path.join(self.path, name + ending)

    def read(self, name: str) -> bytes:
        """The stream of a name."""
        with open(self.place(name, ".ts"), "rb") as file:
            return file.read()

    def text(self, name: str) -> str:
        """What is told of a name: the cause, and lines behind it."""
        try:
            with open(self.place(name, ".txt"), encoding="utf-8", errors="replace") as file:
                return file.read()
        except FileNotFoundError:
            return ""

    def cause(self, name: str) -> str:
        """The cause of a name."""
        return self.text(name).partition("\n")[0].strip()

    def before(self, name: str) -> Sequence[str]:
        """The words in front of the command by which a name was found: those of valgrind, or none."""
        return VALGRIND if f" -- {shlex.join(VALGRIND)} " in self.text(name) else ()

    def write(self, name: str, ending: str, data: bytes) -> None:
        """Writes a file, whole or not at all."""
        part = self.place(name, f"{ending}.part")
        try:
            with open(part, "wb") as file:
                file.write(data)
            os.replace(part, self.place(name, ending))
        except OSError as fault:
            if os.path.exists(part):
                os.remove(part)
            raise OSError(fault.errno, fault.strerror, self.place(name, ending)) from None

    def state(self) -> tuple[int, int]:
        """The seed, and the number of the next stream; 1 and 0 where there are none."""
        try:
            with open(os.path.join(self.path, STATE), encoding="ascii") as file:
                seed, number = map(int, file.read().split())
            return seed, number
        except (FileNotFoundError, ValueError):
            return 1, 0


class Hunt:
    """Tries streams that are made of a recording, and keeps those before which the command fails."""

    def __init__(self, runner: Runner, recording: str, folder: Folder, options: Options) -> None:
        self.runner, self.folder, (seed, self.tags, self.is_all, self.by_valgrind, self.tries) = runner, folder, options
        kept, self.number = folder.state()
        self.seed = kept if seed is None else seed
        self.number *= self.seed == kept
        self.recording, self.items = recording, items_of(packets_in(recording))
        self.told = Told()
        self.asked: set[tuple[int, int]] = set()
        self.new: list[list[Item]] = []
        self.looked: dict[str, list[str]] = {}
        self.seconds, self.failures = 0.0, 0

    def begin(self) -> str:
        """The recording as it is: why it isn't well; nothing where it is."""
        with open(self.recording, "rb") as file:
            ran = self.runner.one(file.read())
        kind, ended = ran.kind(self.runner.plan), ran.ended
        self.asked, self.seconds = ran.asked(), ended.seconds
        if ended.kind == "fault":
            return ended.told
        if kind or ended.kind == "ended" and ended.number == 127:
            output = ran.output[-500:].decode(errors="replace").strip()
            wrote = f"; it wrote: {output}" if output else ""
            return f"before the recording as it is the command fails: {kind or 'it ends with the status 127'}{wrote}"
        how = f"ends with the status {ended.number}" if ended.kind == "ended" else "goes on"
        self.told.tell(True, f"the recording as it is: the command {how}; {ended.seconds:.2f} s")
        return ""

    def stream(self, number: int) -> Hunted:
        """The stream of a number."""
        draw = Draw(self.seed, number)
        before = VALGRIND if self.by_valgrind and number % EACH == 0 else ()
        if made := listed(self.items, number):
            return Hunted(number, without(made[0], self.tags), [made[1]], before)
        share = draw.share()
        is_new = bool(self.new) and OF_RECORDING <= share < OF_RECORDING + OF_NEW
        base = self.items if share < OF_RECORDING else draw.of(self.new) if is_new else drawn_items(draw, self.items)
        items, told = mutated(draw, base, () if self.is_all else {pid for pid, _ in self.asked})
        return Hunted(number, without(items, self.tags), told, before)

    def known(self) -> None:
        """Tries the streams that are there already."""
        for before in (), VALGRIND:
            names = [name for name in self.folder.streams() if self.folder.before(name) == before]
            rans = self.runner.all([self.folder.read(name) for name in names], before, self.plan_for(before))
            for name, ran in zip(names, rans):
                kind, cause = ran.kind(self.runner.plan), self.folder.cause(name)
                self.told.known[cause] = 0
                more = [f"again: {self.again(name, before)}"] if kind else []
                self.told.tell(not kind, f"{name}: {'still' if kind else 'mended'}: {cause}", *more)

    def again(self, name: str, before: Sequence[str]) -> str:
        """The command that shows a failure again."""
        plan = self.runner.plan
        tune = ["--tune", *plan.tune] if plan.tune else []
        words = ["dvbemu", "serve", *tune, "--packets", f"{plan.packets:g}", "--report", "r"]
        return shlex.join([*words, self.folder.place(name, ".ts"), "--", *before, *plan.command])

    def hunt(self, until: float, runs: int | None) -> None:
        """Tries streams until the time is over, or so many runs were made; each new cause is made small and kept."""
        last = math.inf if runs is None else self.number + runs
        waiting: list[tuple[Hunted, Ran]] = []
        while True:
            while not waiting and self.runner.has_room() and self.number < last and time.monotonic() < until:
                hunted = self.stream(self.number)
                self.runner.start(hunted, stream_of(hunted.items), hunted.before, self.plan_for(hunted.before))
                self.number += 1
            if self.runner.running:
                hunted, ran = self.runner.next()
                self.look(hunted, ran, waiting)
            elif waiting:
                self.take(*waiting.pop(0))
            else:
                break
        self.folder.write(STATE, "", f"{self.seed} {self.number}\n".encode())

    def plan_for(self, before: Sequence[str]) -> Plan:
        """The plan of runs with these words in front of the command: valgrind takes its time."""
        plan = self.runner.plan
        return replace(plan, limits=Limits(plan.limits.seconds * SLOWER, plan.limits.memory)) if before else plan

    def look(self, hunted: Hunted, ran: Ran, waiting: list[tuple[Hunted, Ran]]) -> None:
        """Looks at a run: it fails, it is one that reads something new, or it tells nothing."""
        if ran.ended.kind == "fault":
            raise OSError(0, f"a run can't be served: {ran.ended.told}")
        new = ran.asked() - self.asked
        if new and len(self.asked) < 500:
            self.asked |= new
            self.new.append(hunted.items)
        if kind := ran.kind(self.runner.plan):
            self.failures += 1
            if len(self.looked.setdefault(self.group(kind, ran), [])) < LOOKED_AT:
                waiting.append((hunted, ran))

    def group(self, kind: str, ran: Ran) -> str:
        """What failures have in common that aren't looked at each."""
        return kind if ran.head() else f"{kind} behind {ran.last_text()}"

    def failure(self, hunted: Hunted, ran: Ran, stream: bytes) -> Failure:
        """What a run has failed of: by the frames that gdb shows, by a sanitizer's head line, or by what was read last."""
        kind, trace = ran.kind(self.runner.plan), ran.output
        cause = self.group(kind, ran)
        if kind.startswith("SIG") and "Sanitizer" not in kind and (self.by_valgrind or shutil.which("gdb")):
            before = VALGRIND if self.by_valgrind else GDB
            seen = self.runner.one(stream, before, self.plan_for(before))
            if names := frames_in(seen.output):
                cause, trace = f"{kind} in {' < '.join(names)}", seen.output
        return Failure(hunted, kind, cause, trace.decode(errors="replace"), ran.last_read()[0])

    def take(self, hunted: Hunted, ran: Ran) -> None:
        """Looks at a failure, and keeps it where its cause isn't known, as small as it becomes."""
        group = self.group(ran.kind(self.runner.plan), ran)
        if len(self.looked[group]) >= LOOKED_AT or group in self.told.known:
            self.told.known[group] = self.told.known.get(group, 0) + 1
            return
        failure = self.failure(hunted, ran, stream_of(hunted.items))
        self.looked[group].append(failure.cause)
        if failure.cause in self.told.known:
            self.told.known[failure.cause] += 1
            return
        self.told.known[failure.cause] = 1
        self.keep(failure, *self.small(failure, ran))

    def small(self, failure: Failure, ran: Ran) -> tuple[list[Item], Ran]:
        """The smallest stream with this cause that is found, and a run before it; the whole one where no smaller one fails so
        again."""
        plan, until, tries = self.runner.plan, time.monotonic() + SECONDS, [0]
        seconds = min(plan.limits.seconds, max(TIMES * self.seconds, LEAST))
        before = failure.hunted.before
        quick = self.plan_for(before)
        if failure.kind == "no end" and not plan.is_running:
            quick = replace(plan, limits=Limits(seconds * (SLOWER if before else 1), plan.limits.memory))

        def first(candidates: Sequence[list[Item]]) -> int | None:
            tries[0] += len(candidates)
            if time.monotonic() > until or tries[0] > self.tries:
                raise Enough
            rans = self.runner.all([stream_of(items) for items in candidates], before, quick)
            return next((at for at, ran in enumerate(rans) if candidates[at] and self.is_same(failure, ran)), None)

        likely = [{failure.last}, {0, failure.last}, {pid for pid, _ in self.asked}]
        items = Reducer(failure.hunted.items, first, self.runner.jobs).reduced(likely)
        again = self.runner.one(stream_of(items), before, self.plan_for(before))
        is_same = self.is_same(failure, again)
        if is_same and " in " in failure.cause:
            is_same = self.failure(failure.hunted, again, stream_of(items)).cause == failure.cause
        return (items, again) if is_same else (failure.hunted.items, ran)

    def is_same(self, failure: Failure, ran: Ran) -> bool:
        """Whether a run fails by the same cause, as far as it tells that by itself."""
        if ran.kind(self.runner.plan) != failure.kind:
            return False
        return self.group(failure.kind, ran) == failure.cause or failure.cause.startswith(f"{failure.kind} in ")

    def keep(self, failure: Failure, items: list[Item], ran: Ran) -> None:
        """Keeps a failure in the folder, and tells it."""
        stream = stream_of(items)
        name = f"{re.sub(r'[^A-Za-z]+', '-', failure.kind)[:24].strip('-')}-{hashlib.sha256(stream).hexdigest()[:8]}"
        self.folder.write(name, ".ts", stream)
        session, calls = session_of(ran.report, stream), calls_of(ran.report)
        if session:
            self.folder.write(name, ".session", session)
        self.folder.write(name, ".txt", self.text(name, failure, items, calls).encode(errors="replace"))
        count = len(stream) // 188
        files = f"{count} packet{'s' * (count != 1)}: {self.folder.place(name, '.ts')}, {'.session, ' * bool(session)}.txt"
        self.told.tell(False, f"{name}: {failure.cause}", files, f"again: {self.again(name, failure.hunted.before)}")

    def text(self, name: str, failure: Failure, items: list[Item], calls: str) -> str:
        """What is told of a failure."""
        rows = [row_of(item) for item in items]
        hunted = failure.hunted
        parts = {"Again": [self.again(name, hunted.before)], "What was changed": hunted.told, "What is left of the stream": rows[:50],
                 "The last calls": [calls], "What it wrote, or the stack": [failure.trace[-8000:]]}  # fmt: skip
        shown = (f"\n{head}\n\n{textwrap.indent(chr(10).join(some), '  ')}\n" for head, some in parts.items())
        return "\n".join([failure.cause, *shown])


def row_of(item: Item) -> str:
    """What is left of a stream: a section or a packet, its bytes, and what is changed of its packets."""
    what = text_of(item.data) or "no table by its form" if item.is_section else "as it is"
    return "\n    ".join([f"{item.name()}: {what}", item.data.hex(), *(f"{how} ({value})" for how, value in item.changes)])


def said(words: Sequence[str], report: bytes, stream: bytes = b"") -> bytes:
    """What a word of dvbemu writes of a report, and of a stream behind it."""
    with in_memory([report]) as one, in_memory([stream]) as two:
        names = [f"/dev/fd/{file.fileno()}" for file in ((one, two) if stream else (one,))]
        ends, asked = [one.fileno(), two.fileno()], [os.path.join(tool.ROOT, "dvbemu"), *words, *names]
        ran = subprocess.run(asked, capture_output=True, check=False, pass_fds=ends)
        return b"" if ran.returncode else ran.stdout


def session_of(report: bytes, stream: bytes) -> bytes:
    """The session of a report; nothing where it has none."""
    return said(["session"], report, stream)


def calls_of(report: bytes) -> str:
    """The last calls of a report, in sentences."""
    sentences = SENTENCE.findall(said(["explain"], report).decode(errors="replace"))
    return "\n".join(re.sub(r"\n\s+", " ", one.strip()) for one in sentences[-CALLS:]) or "none"
