"""Runs of a command before streams, several at a time: each is a fork of this process, with a server, a folder and limits of its
own.

What a run has is in memory: its stream, its report, and the first and the last of what its programs write. However it ends, its
whole tree of processes is ended; where this process is killed, the clearing of `serve` ends it.
"""
from __future__ import annotations

import codecs
import contextlib
import fcntl
import functools
import json
import math
import os
import re
import resource
import select
import shutil
import signal
import time
from argparse import Namespace
from dataclasses import dataclass, field
from typing import TYPE_CHECKING, NamedTuple

from .. import standard
from ..build import PRELOAD
from ..child import in_memory
from ..commands.serve import Outs
from ..server import feeder
from ..server.adapters import Adapter, Folder, adopt, end_with
from ..server.channels import Channel, channels_of
from ..server.clearing import end_all, end_programs
from ..server.commands import environment, still_there
from ..stream.packets import PACKET

if TYPE_CHECKING:
    from typing import Any, BinaryIO, Iterator, NoReturn, Sequence

# What is kept of the output, its beginning and its end; the bytes of a file that a program may write, the files and the processes
# that it may have; the bytes of a file that is copied, and of a pipe; the seconds of a pause, and those behind its limit in which
# a run has to be over.
KEPT, FILES_OF, FILES, PROCESSES, COPIED, PIPE, PAUSE, OVER = 32 << 10, 256 << 20, 1024, 256, 16 << 20, 1 << 20, 0.02, 60
# The signals by which a program is said to have crashed, also where a shell tells it as a status.
CRASHES = {int(getattr(signal, f"SIG{name}")) for name in ("ILL", "TRAP", "ABRT", "BUS", "FPE", "SEGV", "SYS")}
# The bytes of a loop: a short stream is played as so many of it.
LOOP = 640 * PACKET
STOPS = {signal.SIGINT, signal.SIGTERM, signal.SIGHUP}
# What a sanitizer or valgrind says first, and the C library where it finds its heap or its stack broken.
HEADS = re.compile(rb"^(?:==\d+==)?\s*(?:ERROR: (\w+Sanitizer: [\w-]+)|WARNING: (\w+Sanitizer: [\w-]+)|(.*runtime error: .*)"
                   rb"|(Invalid (?:read|write|free)[^\n]*|(?:Conditional jump|Use of uninitialised)[^\n]*)|(\*\*\* [\w ]+ \*\*\*)"
                   rb"|(.*(?:double free|corrupted|invalid pointer|invalid size).*))", re.M)  # fmt: skip
# A frame of a program's stack, as gdb, a sanitizer and valgrind write it, and which are none of the program's own.
FRAME = re.compile(rb"^(?:\s*#\d+ +(?:0x\w+ in )?|==\d+== +(?:at|by) 0x\w+: )([A-Za-z_][\w:~]*)(.*)$", re.M)
NOT_OWN = re.compile(rb"^(?:__|_start|raise|abort|gsignal)|/lib[\w.-]*\.so|vgpreload|preload\.so|/libsanitizer/"
                     rb"|\./(?:nptl|sysdeps|stdlib|string|debug|libio|malloc|csu)/")  # fmt: skip
# What a report tells of filters that were set, and of what was read; and the lines of its nodes.
SET = re.compile(rb"^\d+ c\d \d+ (?:section|pes|add) pid=(\d+)(?:.*? 0=(\w\w)/ff/00)?.* = done ", re.M)
READ = re.compile(rb"^\d+ c\d (\d+) read \d+ at=\d+ = data (\w+)|^\d+ c\d \d+ (?:section|pes) pid=(\d+)", re.M)


class Limits(NamedTuple):
    """The seconds and the bytes of memory that a run may take."""

    seconds: float
    memory: int


@dataclass
class Plan:
    """What is run, and how: the command, the packets a second, its limits, the words of further channels, the seconds of a lock,
    the words that start the server, and whether the command never ends by itself."""

    command: list[str]
    packets: float
    limits: Limits
    tune: list[str] = field(default_factory=list)
    lock: float = 0.0
    server: list[str] = field(default_factory=list)
    is_running: bool = False


class Ended(NamedTuple):
    """How a command has ended: `ended` with a status, by a `signal`, `no end` within its limit, `memory`, `processes`, or a
    `fault` of the run itself; and the seconds and the processor's."""

    kind: str
    number: int = 0
    seconds: float = 0.0
    work: float = 0.0
    told: str = ""


class Ran(NamedTuple):
    """A run that has ended, the output that is kept, its report, and the words that were run."""

    ended: Ended
    output: bytes
    report: bytes
    words: Sequence[str]

    def is_reading(self) -> bool:
        """Whether something was read in the second half of the stream."""
        nodes = self.report.split(b"\nnode ")[1:]
        return any(b" read " in node[len(node) // 2 :] and b"= data " in node[len(node) // 2 :] for node in nodes)

    def asked(self) -> set[tuple[int, int]]:
        """The PIDs that were asked for, each with a table_id, or -1."""
        return {(int(pid), int(table, 16) if table else -1) for pid, table in SET.findall(self.report)}

    def last_read(self) -> tuple[int, int]:
        """What was read last: the PID, and the table_id or the first byte; -1 where nothing was."""
        pid, last, found = b"", -1, (-1, -1)
        for step, data, new in READ.findall(self.report):
            pid = new or pid
            if step and int(step) > last:
                last, found = int(step), (int(pid or b"-1"), int(data[:2], 16))
        return found

    def last_text(self) -> str:
        """The same in words."""
        pid, table = self.last_read()
        return f"PID {pid}, 0x{table:02X}" if table >= 0 else "nothing"

    def head(self) -> str:
        """What a sanitizer says first, with its frames; nothing where none has said something."""
        found = HEADS.search(self.output)
        if not found:
            return ""
        text = next(filter(None, found.groups())).decode(errors="replace").strip()
        names = frames_in(self.output[found.end() :])
        return re.sub(r"0x\w+|==\d+==", "", text)[:120] + (f" in {' < '.join(names)}" if names else "")

    def kind(self, plan: Plan) -> str:
        """What kind of failure this is; nothing where it is none."""
        kind, number = self.ended[:2]
        if kind == "ended" and number - 128 in CRASHES:
            kind, number = "signal", number - 128
        if self.head():
            return f"{signal.Signals(number).name if kind == 'signal' else 'reported'}: {self.head()}"
        if kind == "signal":
            return signal.Signals(number).name
        if plan.is_running and kind in ("ended", "no end"):
            return f"it ends with the status {number}" if kind == "ended" else "" if self.is_reading() else "it reads no more"
        if kind == "ended":
            return f"status {number} of valgrind" if number in error_statuses(self.words) else ""
        return kind


def error_statuses(command: Sequence[str]) -> set[int]:
    """The statuses by which valgrind says that it has found something."""
    found = (re.fullmatch(r"--error-exitcode=(\d+)", word) for word in command)
    return {int(one[1]) for one in found if one} - {0}


def frames_in(text: bytes) -> list[str]:
    """The innermost functions of a program's own, in the first stack that has any."""
    names: list[str] = []
    end = 0
    for frame in FRAME.finditer(text):
        if names and text[end : frame.start()].strip():
            break
        end = frame.end()
        names += [] if NOT_OWN.search(frame[1] + frame[2]) else [frame[1].decode()]
    return names[:2]


# ------ within a run


class Place(Folder):
    """The folder of a run, which is one of those that all runs have in turn. What they have together is made once."""

    def __init__(self, whole: Folder, number: int) -> None:
        self.path, self.preload = whole.adapters[number], whole.preload
        self.adapters = [self.path]
        shutil.rmtree(self.path, ignore_errors=True)
        os.mkdir(self.path, 0o700)
        self.make_tree()
        if os.geteuid() == 0:
            self.show_to_others()

    @staticmethod
    def of_all(count: int) -> Folder:
        """The folder of so many runs at a time."""
        whole = Folder(count, False)
        shutil.copyfile(PRELOAD, whole.preload)
        if os.geteuid() == 0:
            whole.show_to_others()
        return whole

    def was_opened(self) -> bool:
        """Whether a program has opened a demux or dvr device."""
        return any(name.startswith("bell.") for name in os.listdir(self.path))


class Held(feeder.Feeder):
    """Plays from the beginning once a program has opened a demux or dvr device, so that a run is the same each time."""

    def __init__(self, channels: Sequence[Channel], adapter: Adapter, place: Place) -> None:
        assert adapter.server.stdin
        super().__init__(channels, adapter.front, adapter.server.stdin)
        self.place, self.has_begun = place, False

    def feed(self) -> bool:
        if not self.has_begun and self.place.was_opened():
            self.has_begun = True
            if self.now:
                self.players[self.now].begin(time.monotonic())
        return self.has_begun and super().feed()


class Output:
    """The first and the last bytes of what comes through a pipe."""

    def __init__(self) -> None:
        self.end, self.theirs = os.pipe()
        with contextlib.suppress(OSError):
            fcntl.fcntl(self.end, fcntl.F_SETPIPE_SZ, PIPE)
        self.first, self.last, self.is_over = b"", b"", False

    def take(self) -> None:
        """Takes what has come."""
        data = os.read(self.end, PIPE)
        self.is_over = not data
        room = KEPT - len(self.first)
        self.first, self.last = self.first + data[:room], (self.last + data[room:][-KEPT:])[-KEPT:]


class Command:
    """The command of a run: a fork that waits at a gate, and is begun when the adapter is there."""

    def __init__(self, plan: Plan, folder: Folder, words: Sequence[str]) -> None:
        self.output, self.plan = Output(), plan
        gate, self.gate = os.pipe()
        self.pid = os.fork()
        if self.pid == 0:
            os.close(self.gate)
            begin(gate, self.output.theirs, words, folder)
        os.close(gate)
        os.close(self.output.theirs)
        self.held = os.pidfd_open(self.pid)

    def watch(self, servers: set[int]) -> Ended:
        """Begins it, and waits until it has ended or is over a limit."""
        os.write(self.gate, b".")
        begun, seconds = time.monotonic(), 0.0
        while True:
            ends = [self.held] + [self.output.end] * (not self.output.is_over)
            ready = select.select(ends, [], [], min(max(seconds / 2, PAUSE), 5 * PAUSE))[0]
            if self.output.end in ready:
                self.output.take()
            seconds = time.monotonic() - begun
            if self.held in ready:
                _, status, used = os.wait4(self.pid, 0)
                code = os.waitstatus_to_exitcode(status)
                return Ended("signal" if code < 0 else "ended", abs(code), seconds, used.ru_utime + used.ru_stime)
            if over := self.over(seconds, servers):
                return Ended(over, 0, seconds, self.work())

    def over(self, seconds: float, servers: set[int]) -> str:
        """Which limit it is over."""
        if seconds > self.plan.limits.seconds:
            return "no end"
        tree = list(below(os.getpid(), servers))
        if sum(map(memory_of, tree)) > self.plan.limits.memory:
            return "memory"
        return "processes" if len(tree) > PROCESSES else ""

    def work(self) -> float:
        """The seconds of the processor that it has taken so far."""
        words = words_in(f"/proc/{self.pid}/stat", b")")
        return sum(map(int, words[11:13])) / os.sysconf("SC_CLK_TCK")

    def end(self, servers: set[int]) -> None:
        """Ends it with all that it has started, at once; then what it has written is whole."""
        with contextlib.suppress(OSError):
            os.killpg(self.pid, signal.SIGKILL)
        end_all(lambda: still_there(servers), math.inf, lambda pid, _: os.kill(pid, signal.SIGKILL))
        while not self.output.is_over and select.select([self.output.end], [], [], 0)[0]:
            self.output.take()


def words_in(path: str, behind: bytes = b"") -> list[bytes]:
    """The words of a file of /proc, those behind the last of some bytes where they are given; none where the process has gone."""
    try:
        with open(path, "rb", buffering=0) as file:
            return (file.read() or b"").rpartition(behind or b"\0")[2].split()
    except OSError:
        return []


def below(pid: int, others: set[int]) -> Iterator[int]:
    """The processes below one, but for others."""
    with contextlib.suppress(OSError):
        for thread in os.listdir(f"/proc/{pid}/task"):
            for child in set(map(int, words_in(f"/proc/{pid}/task/{thread}/children"))) - others:
                yield child
                yield from below(child, others)


def memory_of(pid: int) -> int:
    """The bytes of memory that a process has to itself."""
    words = words_in(f"/proc/{pid}/statm")
    return (int(words[1]) - int(words[2])) * resource.getpagesize() if words else 0


def limit() -> None:
    """Sets the limits of this process and of those that it starts: no core, and so many files, bytes of a file and processes."""
    for what, most in ((resource.RLIMIT_CORE, 0), (resource.RLIMIT_NOFILE, FILES), (resource.RLIMIT_FSIZE, FILES_OF),
                       (resource.RLIMIT_NPROC, 4 * tasks() + PROCESSES)):  # fmt: skip
        hard = resource.getrlimit(what)[1]
        most = most if hard == resource.RLIM_INFINITY else min(most, hard)
        resource.setrlimit(what, (most, most))


@functools.lru_cache(maxsize=None)
def tasks() -> int:
    """The processes of this user, which are counted once."""
    return sum(1 for name in os.listdir("/proc") if name.isdecimal() and owner_of(name) == os.getuid())


def owner_of(name: str) -> int:
    """The user of a process; -1 where it has gone."""
    try:
        return os.stat(f"/proc/{name}").st_uid
    except OSError:
        return -1


def copy_named(words: Sequence[str], here: str, room: str) -> None:
    """Copies into the folder of a run the files that words of a command name as from here: a program that goes wild writes over
    none."""
    for word in words:
        source, copy = os.path.join(here, word), os.path.normpath(os.path.join(room, word))
        if not os.path.isabs(word) and os.path.isfile(source) and copy.startswith(room + os.sep):
            os.makedirs(os.path.dirname(copy), exist_ok=True)
            if os.stat(source).st_size <= COPIED:
                shutil.copy(source, copy)
            else:
                os.symlink(source, copy)


def begin(gate: int, output: int, words: Sequence[str], folder: Folder) -> NoReturn:
    """Waits at the gate, and becomes the command, in a folder of its own."""
    try:
        os.setsid()
        room, here, env = os.path.join(folder.path, "room"), os.getcwd(), environment(folder)
        os.mkdir(room)
        copy_named(words[1:], here, room)
        os.chdir(room)
        limit()
        for end in 1, 2:
            os.dup2(output, end)
        for number in signal.SIGINT, signal.SIGTERM, signal.SIGPIPE, signal.SIGHUP:
            signal.signal(number, signal.SIG_DFL)
        if os.read(gate, 1):
            os.execvpe(words[0], [*words], {**env, "TMPDIR": room})
    except OSError as fault:
        os.write(2, f"{words[0]}: {fault.strerror}\n".encode(errors="replace"))
    finally:
        os._exit(127)


def served(plan: Plan, folder: Place, path: str, words: Sequence[str], report: BinaryIO, kept: BinaryIO) -> Ended:
    """Serves one run, and says how its command has ended."""
    adopt()
    adapter = command = None
    try:
        channels: list[Channel] = channels_of(plan.tune, None, path, plan.packets)
        for channel in channels:
            channel.quality = channel.quality._replace(lock=plan.lock)
        options = Namespace(seats=8, once=False, live=False)
        command = Command(plan, folder, words)
        adapter = Adapter(plan.server, folder.adapters[0], channels, options, Outs(report, None, None, "all"))
        adapter.feeder, servers = Held(channels, adapter, folder), {adapter.server.pid}
        # (the server and the command start side by side: what a program tells waits until the server reads it)
        adapter.keeper.start()
        adapter.feeder.start()
        ended = command.watch(servers)
        command.end(servers)
        if not folder.was_opened():
            adapter.keeper.wait_for(adapter.server, options.seats)
        adapter.end()
        return ended
    except BaseException:
        if adapter:
            adapter.kill()
        raise
    finally:
        if command:
            command.end(set())
            kept.write(command.output.first + command.output.last)
            kept.flush()


# ------ the runs


class Run:
    """A run that is begun: this process's end of the pipe by which it tells how it has ended."""

    def __init__(self, plan: Plan, whole: Folder, number: int, stream: bytes, words: Sequence[str]) -> None:
        self.whole, self.number, self.words = whole, number, words
        self.stream = in_memory([stream] * max(LOOP // max(len(stream), 1), 1))
        self.report, self.output = in_memory(), in_memory()
        self.begun, self.parent = time.monotonic(), os.getpid()
        self.end, theirs = os.pipe()
        self.until = self.begun + plan.limits.seconds + OVER
        # (a signal that comes meanwhile is this process's)
        signal.pthread_sigmask(signal.SIG_BLOCK, STOPS)
        self.pid = os.fork()
        if self.pid == 0:
            self.become(plan, theirs)
        signal.pthread_sigmask(signal.SIG_UNBLOCK, STOPS)
        os.close(theirs)

    def become(self, plan: Plan, theirs: int) -> NoReturn:
        """This process serves the run, and ends."""
        try:
            os.setsid()
            end_with(self.parent)
            for number in signal.SIGINT, signal.SIGHUP, signal.SIGPIPE:
                signal.signal(number, signal.SIG_IGN)
            signal.signal(signal.SIGTERM, self.stop)
            signal.pthread_sigmask(signal.SIG_UNBLOCK, STOPS)
            null = os.open(os.devnull, os.O_RDWR)
            for end in 0, 1, 2:
                os.dup2(null, end)
            place = Place(self.whole, self.number)
            ended = served(plan, place, f"/dev/fd/{self.stream.fileno()}", self.words, self.report, self.output)
            os.write(theirs, json.dumps(ended).encode())
        except BaseException as fault:  # pylint: disable=broad-exception-caught
            os.write(theirs, json.dumps(Ended("fault", told=standard.told_of(fault)[0])).encode())
        finally:
            os._exit(0)

    @staticmethod
    def stop(*_: object) -> NoReturn:
        """A run that is told to end ends what it has started."""
        raise SystemExit(143)

    def done(self) -> Ran:
        """How it has ended, which it has told."""
        told = b""
        while data := os.read(self.end, 1 << 16):
            told += data
        os.waitpid(self.pid, 0)
        os.close(self.end)
        if not told:
            end_programs(self.whole.adapters[self.number])
        texts = []
        for file in self.output, self.report:
            with file:
                file.seek(0)
                texts.append(file.read())
        self.stream.close()
        ended = Ended(*json.loads(told)) if told else Ended("fault", told="the run was killed")
        return Ran(ended, texts[0], texts[1], self.words)


class Runner:
    """Runs, so many at a time."""

    def __init__(self, plan: Plan, jobs: int) -> None:
        self.plan, self.jobs, self.count, self.folder = plan, jobs, 0, Place.of_all(jobs)
        self.running: dict[int, tuple[Any, Run]] = {}
        # (what is known here no run has to find)
        tasks()
        codecs.lookup("ascii")

    def has_room(self) -> bool:
        """Whether one more may be begun."""
        return len(self.running) < self.jobs

    def start(self, key: Any, stream: bytes, before: Sequence[str] = (), plan: Plan | None = None) -> None:
        """Begins a run, which is known by a key; words may stand in front of the command."""
        plan = plan or self.plan
        number = min(set(range(self.jobs)) - {run.number for _, run in self.running.values()})
        run = Run(plan, self.folder, number, stream, [*before, *plan.command])
        self.running[run.end] = key, run
        self.count += 1

    def next(self) -> tuple[Any, Ran]:
        """The next run that has ended."""
        while True:
            ready = select.select(list(self.running), [], [], 1)[0]
            late = [run for _, run in self.running.values() if time.monotonic() > run.until]
            for run in late:
                os.kill(run.pid, signal.SIGKILL)
            if ready:
                key, run = self.running.pop(ready[0])
                return key, run.done()

    def all(self, streams: Sequence[bytes], before: Sequence[str] = (), plan: Plan | None = None) -> list[Ran]:
        """Runs of these streams, by their order."""
        found: dict[int, Ran] = {}
        waiting = list(enumerate(streams))
        while waiting or self.running:
            while waiting and self.has_room():
                self.start(*waiting.pop(0), before, plan)
            key, ran = self.next()
            found[key] = ran
        return [found[number] for number in range(len(streams))]

    def one(self, stream: bytes, before: Sequence[str] = (), plan: Plan | None = None) -> Ran:
        """One run."""
        self.start(0, stream, before, plan)
        return self.next()[1]

    def end(self) -> None:
        """Ends all that run, and their folder."""
        for _, run in self.running.values():
            os.kill(run.pid, signal.SIGTERM)
        while self.running:
            self.next()
        self.folder.remove()
