"""Programs that ask a server badly (served/bad.py), alone and beside others: each gets its answers, no other is harmed, the
server ends, and nobody else's file, folder or process is touched."""
from __future__ import annotations

import os
import re
import subprocess
import tempfile
import time
from pathlib import Path

import pytest
from dvbemu.server.adapters import MARK
from serving import BAD, RATE

# How often a program comes in beside a flood; in how many seconds a server ends behind what would keep it; and an age of folders
# in seconds.
COMES, ENDS, OLD, NOBODY = 5, 20, 3600, 65534
MINE = b"This is mine.\n" * 100


def test_bad_requests(served):
    """Each bad request has its answer, and the folder of pipes is its owner's alone."""
    out = served.by_script('"$1" many && stat -c \'mode %a\' "$DVBEMU_DIR" && "$1" half; exec "$0" +alone', BAD, seats="2")
    assert re.search(r"^\d+ answered$", out, re.M)
    # (root's can be passed through by others, who see the tree below it and no pipe)
    assert f"mode {700 if os.geteuid() else 711}\n" in out
    served.is_right()


def test_wild_requests_and_noise(served):
    """Whole requests with any numbers, in pieces, and noise, have an answer each; and the report is that of a run."""
    out = served.by_script('"$1" wild && "$1" noise && exec "$0" +alone', BAD, seats="2")
    assert out.count(" answered\n") == 2 and out.startswith("2000 answered\n2631 answered\n")
    served.is_right()


def test_crowd(served):
    """Of a hundred programs that come in at once each is answered, and one behind them finds its seat."""
    assert served.by_script('"$1" crowd > crowd & "$0" +beside && wait && cat crowd', BAD).endswith("100 answered\n")
    served.is_right()


def test_names(served):
    """Names that are none, or of what is no pipe, keep no seat and no server, and a file of the user's stays as it was."""
    served.put("mine", MINE)
    served.by_script('"$1" names && "$0" +alone && date +%s.%N > ended', BAD, seats="1")
    assert time.time() - float(served.read("ended")) < ENDS
    assert served.read("mine") == MINE
    served.is_right()


@pytest.mark.parametrize("kinds, script, count", [
    (["flood", "stopped"], 'exec "$0" +beside', 1),
    (["knocks"], f"for i in $(seq {COMES}); do \"$0\" +beside || exit 1; done", COMES),
])  # fmt: skip
def test_beside(served, kinds, script, count):
    """A program that never reads, and one that is stopped within a request, harm no other; a flood of names holds up nobody
    else."""
    starts = "".join(f'"$1" {kind} > {kind} & until grep -q there {kind}; do sleep 0.1; done; ' for kind in kinds)
    served.by_script(starts + script, BAD, count=count, seats="3")
    served.is_right()


def test_emptied_folder(served):
    """Where a program empties the folder who is in goes on, others are told that nothing is there, and the report comes."""
    out, status = served.script('"$0" +wait 3 & sleep 1; rm -rf "$DVBEMU_DIR"/*; wait $! && ! cat /dev/dvb/adapter0/dvr0')
    assert status == 0, out
    served.is_right()


@pytest.fixture
def others():
    """A folder for temporary files in which stands, and is old, what isn't a wrapper's own: a file, a folder without what marks a
    wrapper's and one with a file of the same name, one that is another user's where that can be, and a link to one; and the names
    of what must stay."""
    with tempfile.TemporaryDirectory() as place:
        # (one of root's that is closed to others isn't taken)
        os.chmod(place, 0o755)
        for name, text in ("dvbemu-plain", None), ("dvbemu-mine", b"mine"), ("dvbemu-other", MARK), ("kept", MARK):
            folder = Path(place, name)
            folder.mkdir()
            if text:
                (folder / "held").write_bytes(text)
        Path(place, "dvbemu-file").write_text("mine")
        Path(place, "dvbemu-link").symlink_to(Path(place, "kept"))
        if os.geteuid() == 0:
            os.chown(Path(place, "dvbemu-other"), NOBODY, -1)
        for name in os.listdir(place):
            os.utime(Path(place, name), (time.time() - OLD,) * 2, follow_symlinks=False)
        yield Path(place), set(os.listdir(place)) - (set() if os.geteuid() == 0 else {"dvbemu-other"})


def test_others_stay(served, others):
    """So do processes that the wrapper hasn't begun; and it leaves nothing."""
    place, before = others
    with subprocess.Popen(["sleep", "100"]) as other:
        words = ["--keep", "none", "--packets", RATE, served.stream]
        out, status = served.call(words, ["true"], env={**os.environ, "TMPDIR": str(place)})
        assert status == 0 and other.poll() is None, out
        other.kill()
    left = set(os.listdir(place))
    assert before <= left <= before | {"dvbemu-other"}
    assert os.listdir(place / "kept") == ["held"]
