"""The adapters that a command finds: a folder of this process, and in it for each adapter a server with its pipes."""
from __future__ import annotations

import contextlib
import ctypes
import fcntl
import glob
import os
import select
import shutil
import signal
import stat
import subprocess
import sys
import tempfile
import threading
import time
from typing import TYPE_CHECKING

from ..build import PRELOAD, Stopped
from .channels import Front, systems_of
from .clearing import watch_over
from .feeder import Feeder
from .keeper import Keeper

if TYPE_CHECKING:
    from argparse import Namespace
    from typing import Sequence

    from ..commands.serve import Outs
    from .channels import Channel

# Calls of prctl: what is told to a process whose parent ends, and what makes this process the parent of those that a program has left.
PR_SET_PDEATHSIG, PR_SET_CHILD_SUBREAPER = 1, 36
# The seconds in which the server must end, and behind which a folder that isn't held by anybody is one of a wrapper that was killed.
ENDS, LEFT = 120, 60
NODES = "frontend0", "demux0", "dvr0"
PREFIX, HELD, MARK = "dvbemu-", "held", b"a folder of dvbemu serve\n"
# The bytes of a folder's path that preload/preload.h has room for (FOLDER), but for what stands behind that of temporary files.
ROOM = 256 - len("/dvbemu-12345678/0") - 1
SYSTEM = ctypes.CDLL(None, use_errno=True)


def end_with(parent: int) -> None:
    """This process ends with its parent, also where that has gone already."""
    SYSTEM.prctl(PR_SET_PDEATHSIG, signal.SIGKILL, 0, 0, 0)
    if os.getppid() != parent:
        os.kill(os.getpid(), signal.SIGKILL)


def adopt() -> None:
    """What a program leaves running is this process's."""
    SYSTEM.prctl(PR_SET_CHILD_SUBREAPER, 1, 0, 0, 0)


def is_fit(place: str) -> bool:
    """Whether the preload can have a folder there: its path is short, and without a blank or a colon, where the system's loader ends a name."""
    return len(os.fsencode(place)) <= ROOM and not set(" :;,\t\n") & set(place) and os.access(place, os.W_OK)


def is_open(place: str) -> bool:
    """Whether others can look into a folder, as who has given up root's rights has to."""
    return all(os.stat(place[:at] or "/").st_mode & stat.S_IXOTH for at, letter in enumerate(f"{place}/") if letter == "/")


def place_of_folders() -> str:
    """Where temporary files go."""
    places = [os.path.realpath(place) for place in (tempfile.gettempdir(), "/tmp", "/var/tmp", "/dev/shm")]
    fit = list(filter(is_fit, places))
    if not fit:
        raise Stopped(f"{places[0]} can't have the adapter's folder: set TMPDIR to one of at most {ROOM} bytes, without blanks and colons")
    return fit[0] if os.geteuid() else next(filter(is_open, fit), fit[0])


def tell_root(place: str) -> None:
    """Says what a program finds that gives up root's rights."""
    finds = "can't open the adapter's devices" if is_open(place) else f"sees the machine's own /dev/dvb, as {place} is closed to others"
    print(f"dvbemu serve: started by root: a program that gives up root's rights {finds}; start dvbemu serve as its user", file=sys.stderr)


def sweep(place: str) -> None:
    """Takes away the folders of this user's that wrappers have left which were killed: nobody holds them any more."""
    for folder in glob.glob(os.path.join(glob.escape(place), f"{PREFIX}*")):
        try:
            there = os.lstat(folder)
            if there.st_uid != os.getuid() or time.time() - there.st_mtime < LEFT or os.path.islink(folder):
                continue
            held = os.open(os.path.join(folder, HELD), os.O_RDONLY | os.O_NOFOLLOW | os.O_NONBLOCK)
            with open(held, "rb") as file:
                fcntl.flock(file, fcntl.LOCK_EX | fcntl.LOCK_NB)
                if file.read(len(MARK) + 1) == MARK:
                    shutil.rmtree(folder, ignore_errors=True)
        except OSError:
            pass


def wait_for(child: subprocess.Popen[bytes]) -> None:
    """Waits until a child ends, or its time is over: without the pauses of `Popen.wait`, where the system tells of its end."""
    try:
        held = os.pidfd_open(child.pid)
    except (AttributeError, OSError):
        with contextlib.suppress(subprocess.TimeoutExpired):
            child.wait(ENDS)
        return
    select.select([held], [], [], ENDS)
    os.close(held)


class Folder:
    """A folder that is held by this process, with a folder for each adapter; and for the preload itself and a tree that stands for /dev/dvb."""

    def __init__(self, count: int, has_preload: bool = True) -> None:
        place = place_of_folders()
        sweep(place)
        self.path = tempfile.mkdtemp(prefix=PREFIX, dir=place)
        self.adapters = [os.path.join(self.path, str(number)) for number in range(count)]
        self.watched = watch_over(self.path, self.value())
        self.held = os.open(os.path.join(self.path, HELD), os.O_RDWR | os.O_CREAT | os.O_CLOEXEC, 0o600)
        fcntl.flock(self.held, fcntl.LOCK_EX)
        os.write(self.held, MARK)
        for adapter in self.adapters:
            os.mkdir(adapter, 0o700)
        self.preload = os.path.join(self.path, "preload.so")
        if has_preload:
            self.make_tree()
            shutil.copyfile(PRELOAD, self.preload)
        if has_preload and os.geteuid() == 0:
            self.show_to_others()
            tell_root(place)

    def make_tree(self) -> None:
        """Makes what stands for /dev/dvb."""
        for number in range(len(self.adapters)):
            tree = os.path.join(self.adapters[0], "dev", "dvb", f"adapter{number}")
            os.makedirs(tree)
            for node in NODES:
                os.close(os.open(os.path.join(tree, node), os.O_CREAT | os.O_WRONLY, 0o660))

    def show_to_others(self) -> None:
        """Who has given up root's rights has the preload and sees the tree, and not the machine's own devices; the rest is root's alone."""
        for path in self.path, *self.adapters:
            os.chmod(path, 0o711)
        for path, _, _ in os.walk(os.path.join(self.adapters[0], "dev")):
            os.chmod(path, 0o755)
        os.chmod(self.preload, 0o644)

    def value(self) -> str:
        """What programs have in their environment, as DVBEMU_DIR."""
        return ":".join(self.adapters)

    def remove(self) -> None:
        shutil.rmtree(self.path, ignore_errors=True)
        os.close(self.held)
        os.close(self.watched)


class Adapter:
    """An adapter's server, which these words start, and what feeds it. `outs` has what is written: `report`, `played`, `tunings` and `keep`."""

    def __init__(self, server: Sequence[str], folder: str, channels: Sequence[Channel], options: Namespace, outs: Outs) -> None:
        self.keeper = Keeper(folder)
        # (a write to a program that has gone fails, and is no signal: Python has SIGPIPE ignored, and the server keeps that; and a
        # terminal's Ctrl-C is the command's alone)
        words = [*server, folder, str(options.seats), *([] if outs.keep == "all" else [outs.keep])]
        # (what a child does before its program begins is Python's, so no other thread may run here)
        assert threading.active_count() == 1
        self.server = subprocess.Popen(words, stdin=subprocess.PIPE, stdout=outs.report, bufsize=0, restore_signals=False,
                                       start_new_session=True, preexec_fn=lambda here=os.getpid(): end_with(here))  # fmt: skip
        assert self.server.stdin is not None
        self.front = Front(os.path.join(folder, "front"), systems_of(channels))
        self.feeder = Feeder(channels, self.front, self.server.stdin, options.once, options.live)
        self.feeder.played, self.feeder.tunings = outs.played, outs.tunings
        self.seats, self.folder = options.seats, folder

    def start(self) -> None:
        """Programs may come in from now on, and what is on the air is played."""
        self.keeper.open_for(self.server, self.seats)
        self.feeder.start()

    def end(self) -> None:
        """Ends the stream and waits for the server's end, behind which the report is whole."""
        self.feeder.ended.set()
        self.feeder.join(ENDS)
        self.keeper.end()
        if self.feeder.fault:
            raise Stopped(str(self.feeder.fault))
        wait_for(self.server)
        try:
            if self.server.wait(0):
                raise Stopped(f"the server ended with status {self.server.returncode}")
        except subprocess.TimeoutExpired:
            raise Stopped("the server didn't end, and was killed") from None

    def see_kept(self) -> None:
        """Sees that what was to be kept beside the report is."""
        for name, fault in self.feeder.unkept.items():
            raise Stopped(f"{name}: {fault}")

    def was_opened(self) -> bool:
        """Whether a program has opened one of its devices: its node then has a bell."""
        return self.front.was_opened() or bool(glob.glob(os.path.join(glob.escape(self.folder), "bell.*")))

    def kill(self) -> None:
        self.feeder.ended.set()
        self.server.kill()
        self.server.wait()
