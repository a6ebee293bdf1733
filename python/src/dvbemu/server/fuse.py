"""/dev/dvb by FUSE: a process that mounts it in namespaces of its own and answers the calls there, and how a command is started in them."""
from __future__ import annotations

import os
import signal
import subprocess
import sys
from typing import TYPE_CHECKING

from ..build import FUSE, Stopped

if TYPE_CHECKING:
    from typing import Sequence

    from .adapters import Folder

# The seconds in which what answers the calls must end.
ENDS = 5


def is_same_user_namespace(process: int) -> bool:
    """Whether a process is in this one's namespace of users, where all its users are."""
    return os.path.samestat(os.stat(f"/proc/{process}/ns/user"), os.stat("/proc/self/ns/user"))


class Mount:
    """The mount of a folder's adapters. It goes with the process that answers and with the programs that see it."""

    def __init__(self, folder: Folder) -> None:
        place = os.path.join(folder.path, "place")
        os.mkdir(place)
        words = [FUSE, "serve", str(os.getpid()), place, *folder.adapters]
        self.answers = subprocess.Popen(words, stdin=subprocess.DEVNULL, stdout=subprocess.PIPE, stderr=subprocess.STDOUT, start_new_session=True)
        assert self.answers.stdout is not None
        told = [b"it has ended"]
        with self.answers.stdout:
            told += iter(self.answers.stdout.readline, b"")
        if told[-1] != b"ready\n":
            self.answers.kill()
            self.answers.wait()
            raise Stopped(told[-1].decode(errors="replace").strip())
        if os.geteuid() == 0 and not is_same_user_namespace(self.pid):
            print("dvbemu serve: root may not mount here, and a program sees no other users: one that becomes another one fails", file=sys.stderr)

    @property
    def pid(self) -> int:
        """The process that answers."""
        return self.answers.pid

    def words(self, command: Sequence[str]) -> list[str]:
        """The words that start a command where the devices are."""
        return [FUSE, "enter", str(self.pid), *command]

    def end(self) -> None:
        """Ends what answers, behind the calls that have come."""
        gone = self.answers.poll()
        self.answers.terminate()
        try:
            self.answers.wait(ENDS)
        except subprocess.TimeoutExpired:
            self.kill()
        if gone is not None:
            how = f"by {signal.Signals(-gone).name}" if gone < 0 else f"with status {gone}"
            print(f"dvbemu serve: what answers by FUSE has ended {how}, and with it the devices", file=sys.stderr)

    def kill(self) -> None:
        """Ends what answers at once."""
        self.answers.kill()
        self.answers.wait()
