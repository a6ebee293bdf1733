"""dvbemu from Python: scripts, their reports as objects, and an emulated adapter for the programs of a test.

    import dvbemu

    script = dvbemu.Script()
    demux = script.client(0).open("demux0")
    demux.set_filter(pid=0, table_id=0x00, flags=dvbemu.DMX_CHECK_CRC | dvbemu.DMX_IMMEDIATE_START)
    demux.read(4096, waits=True)
    report = dvbemu.steps(script, "my.ts")
    assert report.node("n0").data()[:1] == b"\\x00"

    with dvbemu.serve("my.ts", packets=3000) as adapter:
        adapter.run(["dvbv5-scan", "-o", "channels", "dvbv5.conf"], timeout=60)
    print(adapter.explain())

It needs only the standard library. It calls the programs `dvbemu` and `dvbemu-serve`: those that the variables `DVBEMU` and
`DVBEMU_SERVE` name, else those beside this module, else those of the PATH. Replies come from these programs. `steps`, `run` and
`check` are proved; this module, the outside of the server and the preload are tested (docs/PROVED.md).

Each exception of this module is a `dvbemu.Error`. docs/EVERYWHERE.md has examples.
"""
import importlib
from typing import TYPE_CHECKING, Any

# The version, as in the file VERSION.
__version__ = "0.4"

if TYPE_CHECKING:
    from .adapter import Adapter, serve
    from .abi import (
        DMX_CHECK_CRC,
        DMX_IMMEDIATE_START,
        DMX_IN_DVR,
        DMX_IN_FRONTEND,
        DMX_ONESHOT,
        DMX_OUT_DECODER,
        DMX_OUT_TAP,
        DMX_OUT_TS_TAP,
        DMX_OUT_TSDEMUX_TAP,
        KEEP,
        Flag,
        Input,
        Output,
        PesType,
    )
    from .errors import AdapterError, Error, ProgramError, ScriptError
    from .program import Verdict, check, run, steps
    from .report import (
        Again,
        Busy,
        Call,
        Data,
        Done,
        Entry,
        Node,
        Outcome,
        Overflow,
        Passed,
        PidCount,
        Ready,
        Refused,
        Reply,
        Report,
        ReportError,
        TimedOut,
    )
    from .script import Client, Device, Script

# The module of each public name. It is loaded when the name is first used, so that a command loads only what it needs.
_MODULES = {
    "adapter": "Adapter serve",
    "abi": "DMX_CHECK_CRC DMX_IMMEDIATE_START DMX_IN_DVR DMX_IN_FRONTEND DMX_ONESHOT DMX_OUT_DECODER DMX_OUT_TAP "
           "DMX_OUT_TS_TAP DMX_OUT_TSDEMUX_TAP KEEP Flag Input Output PesType",
    "errors": "AdapterError Error ProgramError ScriptError",
    "program": "Verdict check run steps",
    "report": "Again Busy Call Data Done Entry Node Outcome Overflow Passed PidCount Ready Refused Reply Report ReportError "
              "TimedOut",
    "script": "Client Device Script",
}
_HOMES = {name: module for module, names in _MODULES.items() for name in names.split()}

__all__ = [
    "Adapter", "AdapterError", "Again", "Busy", "Call", "Client", "Data", "Device", "Done", "Entry", "Error", "Flag", "Input", "KEEP",
    "Node", "Outcome", "Output", "Overflow", "Passed", "PesType", "PidCount", "ProgramError", "Ready", "Refused", "Reply", "Report",
    "ReportError", "Script", "ScriptError", "TimedOut", "Verdict", "check", "run", "serve", "steps", "DMX_CHECK_CRC",
    "DMX_IMMEDIATE_START", "DMX_IN_DVR", "DMX_IN_FRONTEND", "DMX_ONESHOT", "DMX_OUT_DECODER", "DMX_OUT_TAP", "DMX_OUT_TSDEMUX_TAP",
    "DMX_OUT_TS_TAP",
]  # fmt: skip


def __getattr__(name: str) -> Any:
    if name not in _HOMES:
        raise AttributeError(f"module {__name__!r} has no attribute {name!r}")
    return getattr(importlib.import_module(f".{_HOMES[name]}", __name__), name)


def __dir__() -> list[str]:
    return sorted({*globals(), *_HOMES})
