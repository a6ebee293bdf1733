"""Why a call is refused, by the rules of docs/BEHAVIOUR.md, 'Refusals', and the numbers that these name."""
from __future__ import annotations

from typing import TYPE_CHECKING

from ..reports import DVR
from ..stream.packets import ALL_PACKETS, LAST_PID

if TYPE_CHECKING:
    from ..reports import Act
    from .walk import Walk

CRC, ONESHOT, IMMEDIATE, KEEP = 1, 2, 4, 256
# The flags that a set call takes, by their bits.
FLAGS = {CRC: "DMX_CHECK_CRC", ONESHOT: "DMX_ONESHOT", IMMEDIATE: "DMX_IMMEDIATE_START", KEEP: "KEEP"}
SMALLEST_SIZE, LARGEST_SIZE = 2, 16777216
MOST_PIDS, LARGEST_TYPE = 128, 20


def wrong_argument(act: Act) -> str:
    """Why a call is refused by its arguments alone, or nothing."""
    name = act["name"]
    most = LAST_PID if name == "section" else ALL_PACKETS
    if act.get("pid", 0) > most:
        return f"a PID above 0x{most:X}"
    if name == "size" and not SMALLEST_SIZE <= act["size"] <= LARGEST_SIZE:
        return "a size below 2 or above 16,777,216"
    if name not in ("section", "pes"):
        return ""
    if act["flags"] & ~sum(FLAGS):
        return f"a flag bit other than {', '.join(map(str, FLAGS))}"
    if act.get("type", 0) > LARGEST_TYPE:
        return "a PES type above 20"
    if act.get("output") == "decoder":
        return "output DECODER"
    return "input DVR with output TS_TAP" if (act.get("input"), act.get("output")) == ("dvr", "ts_tap") else ""


def wrong_pids(node: Walk, act: Act) -> tuple[str, str] | None:
    """Why an AddPid or RemovePid is refused by the node's state: the error and the reason, or None."""
    if node.filter is None:
        return "EINVAL", f"{'AddPid' if act['name'] == 'add' else 'RemovePid'} without a filter"
    if node.filter.kind == "section":
        return "EINVAL", f"{'AddPid' if act['name'] == 'add' else 'RemovePid'} on a section filter"
    if act["name"] == "remove" or act["pid"] in node.pids:
        return None
    if node.filter.output != "tsdemux_tap" and node.pids:
        return "EINVAL", "only TSDEMUX_TAP takes more than one PID"
    return ("ENOSPC", "128 PIDs are in the set") if len(node.pids) >= MOST_PIDS else None


def refusal(node: Walk, client: int, act: Act) -> tuple[str, str] | None:
    """The error that the rules give for a call in the node's state, and its reason; None where they give none."""
    if node.owner is None:
        return "EBADF", "the node is Free"
    if node.owner != client:
        return "EBADF", f"client {node.owner} is its owner"
    wrong, name = wrong_argument(act), act["name"]
    if node.number == DVR and name in ("section", "pes", "add", "remove", "start", "stop"):
        return "EINVAL", "the dvr node takes no such call"
    if wrong:
        return "EINVAL", wrong
    if name in ("add", "remove"):
        return wrong_pids(node, act)
    if name == "start" and node.filter is None:
        return "EINVAL", "Start without a filter"
    if name == "size" and act["size"] != node.size and node.runs:
        return "EBUSY", "SetSize to another size while the filter is started and not stopped"
    return None
