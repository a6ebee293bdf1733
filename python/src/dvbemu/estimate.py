"""How long a build's proofs still take: by the processor seconds that each crate's proof took once, and by what has been done since."""
from __future__ import annotations

import os
import time
from typing import TYPE_CHECKING

if TYPE_CHECKING:
    from typing import Callable, Mapping, Sequence

# The processor seconds of each crate's proof, as .ci/gate-time counted them in a run of the gate; a crate that isn't here counts as OTHER.
SECONDS = {
    "lemmas": 12, "machine": 24, "emu_io": 72, "ts_packet": 84, "pid_set": 54, "section_crc": 42, "filter_match": 42, "dmx_abi": 66,
    "ts_batch": 78, "ts_watch": 48, "ts_make": 48, "section_parse": 108, "item_select": 48, "dmx_calls": 162, "node_laws": 24,
    "feed_pull": 114, "text_forms": 96, "report_text": 270, "report_read": 468, "client_script": 306, "client_core": 198,
    "client_laws": 18, "script_run": 18, "fault_hints": 108, "node_buffer": 114, "node_core": 144, "dvr_core": 108, "report_check": 354,
    "command_words": 108, "serial_core": 354, "node_lock": 126, "adapter": 324, "workers": 444, "seats": 354, "serve_top": 294,
    "dvb_serve": 210, "emu_top": 210, "dvbemu": 108,
}  # fmt: skip
OTHER = 60.0
# The part of a build that is done before anything is said of the rest.
FIRST = 0.1


def ends(libraries: Mapping[str, Sequence[str]], seconds: Mapping[str, float], lanes: int) -> dict[str, float]:
    """When each crate's proof ends, first ones first: so many side by side, each behind its libraries', and of those that can begin first the
    ones with the longest chain of others behind them, as `rt ci` does it."""
    behind = dict(seconds)
    for name in reversed([*libraries]):
        for library in libraries[name]:
            if library in behind:
                behind[library] = max(behind[library], seconds[library] + behind[name])
    left, running, ended, now = [*libraries], dict[str, float](), dict[str, float](), 0.0
    while left or running:
        ready = [name for name in left if all(library in ended for library in libraries[name] if library in seconds)]
        for name in sorted(ready, key=lambda name: -behind[name])[: lanes - len(running)]:
            running[name] = now + seconds[name]
            left.remove(name)
        name = min(running, key=running.__getitem__)
        now = ended[name] = running.pop(name)
    return ended


class Left:
    """The time that is left of the proofs of crates, each of which stands behind its libraries in this order."""

    def __init__(self, libraries: Mapping[str, Sequence[str]], lanes: int | None = None,
                 now: Callable[[], float] = time.monotonic) -> None:  # fmt: skip
        self.libraries, self.lanes, self.now, self.begun = libraries, lanes or len(os.sched_getaffinity(0)), now, now()
        self.seconds = {name: SECONDS.get(name, OTHER) for name in libraries}
        self.proved, self.last = 0.0, self.begun

    def take(self, name: str, is_proved: bool) -> None:
        """A crate is done: it was proved now, or earlier."""
        if is_proved:
            self.proved, self.last = self.proved + self.seconds[name], self.now()
        else:
            self.seconds[name] = 0.0

    def minutes(self) -> float | None:
        """How many minutes are left; None where it is too early to say. By the plan so many seconds of proofs are done behind a time; how long
        they took against that says how long the rest takes."""
        planned = ends(self.libraries, self.seconds, self.lanes)
        done, time_done, whole = 0.0, 0.0, max(planned.values())
        for name, end in planned.items():
            part = min(max((self.proved - done) / (self.seconds[name] or 1), 0), 1)
            done, time_done = done + self.seconds[name], time_done + part * (end - time_done)
        if time_done <= FIRST * whole:
            return None
        return max((whole - time_done) / time_done * (self.last - self.begun) - (self.now() - self.last), 0) / 60

    def text(self) -> str:
        """How long it has taken, and what is left."""
        gone, left = f"{(self.now() - self.begun) / 60:.0f} minutes gone", self.minutes()
        return gone if left is None else f"{gone}, about {max(round(left), 1)} left"
