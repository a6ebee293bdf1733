"""`dvbemu fuzz`: its mutations, what makes a stream small, and hunts before a receiver of C with planted faults (planted.c).

Of a mutation is known what it says, and that a CRC_32 is right is asked by the standard's own register (ISO/IEC 13818-1, annex
A), bit by bit.
"""
import os
import re
import shlex
import signal
import subprocess
import sys
import time
from pathlib import Path

import pytest
from conftest import EXAMPLES, PROGRAM, ROOT, comes, needs
from dvbemu.fuzz import grammar, mutate, reduce
from dvbemu.fuzz.found import Folder, Hunt, Options
from dvbemu.fuzz.mutate import Draw, Item
from dvbemu.fuzz.right import PROGRAMS, RIGHT, tables_of
from dvbemu.psi.descriptors import NAMES, texts_of
from dvbemu.stream import tables
from dvbemu.stream.packets import PACKET, counter_of, pcr_of, pid_of
from dvbemu.stream.sections import sections_of

RECORDING = str(EXAMPLES / "programs" / "scan.ts")
SOURCE = str(ROOT / "python" / "src")
# Of each fault the number of a stream of seed 1 that meets it, which a minute has room for; the kind of failure, and the cause
# where gdb isn't needed for it.
FAULTS = {
    "length": (110, "SIGABRT", r"SIGABRT: \*\*\* stack smashing detected \*\*\*( in describe.*)?"),
    "zero": (115, "no-end", "no end behind PID 409[67], 0x02"),
    "absent": (224, "SIGSEGV", "SIGSEGV (in main|behind .*)"),
    "leak": (226, "memory", "memory behind PID 17, 0x42"),
    "version": (306, "no-end", "no end behind PID 17, 0x42"),
}
# By how many runs streams become small of which a table has to, and not the stream alone.
LATE = {"version": "8", "leak": "12"}
WORDS = ["--jobs", "1", "--packets", "1500", "--limit", "60", "--memory", "60"]


def crc(data):
    """The register of the standard's decoder behind these bytes: 0 where they end with their CRC_32."""
    register = 0xFFFFFFFF
    for bit in (byte >> place & 1 for byte in data for place in range(7, -1, -1)):
        register = (register << 1 & 0xFFFFFFFF) ^ (0x04C11DB7 if register >> 31 ^ bit else 0)
    return register


def fuzz(room, *words, command=(), **more):
    """`dvbemu fuzz` in a folder: its status, its lines and what it tells."""
    asked = [PROGRAM, "fuzz", *words, "--", *command]
    ran = subprocess.run(asked, cwd=room, capture_output=True, text=True, check=False, timeout=300, **more)
    return ran.returncode, ran.stdout.splitlines(), ran.stderr


@pytest.fixture(scope="module")
def planted(compiled, server):
    """The receiver with planted faults."""
    return compiled("tests/planted.c", "-w", "-g", "-O0", "-fstack-protector-all")


@pytest.fixture
def items():
    return mutate.items_of(mutate.packets_in(RECORDING))


# ------ tables that are right in form, and mutations


def test_each_descriptor_is_right():
    """There is one of each tag that a standard names, and none that the reader of tables finds too short."""
    assert set(NAMES) - {one.descriptor.tag for one in RIGHT} == set()
    assert not [text for one in RIGHT for text in texts_of([one.descriptor]) if "too short" in text]


@pytest.mark.parametrize("chosen", [[], *([one] for one in RIGHT), RIGHT], ids=len)
def test_tables_are_right(chosen):
    """Each table is one by its form, stands in packets as it is, and has the descriptors that may stand there."""
    made = tables_of(PROGRAMS, chosen)
    for pid, data in made:
        table = tables.read(data)
        assert table is not None and (not grammar.has_crc(data) or crc(data) == 0)
        assert [found.data for found in sections_of(mutate.section_packets(pid, data))] == [data]
    for letter, table_id in {"N": 0x40, "B": 0x4A, "S": 0x42, "E": 0x4E, "T": 0x73, "P": 0x02}.items():
        table = next(table for table in (tables.read(data) for _, data in made) if table.table_id == table_id)
        found = [one for part in [table, *table.parts] for one in part.descriptors]
        assert {one.descriptor for one in chosen if letter in one.tables} <= set(found)


# A PMT by hand: program_info_length 6 with a language of 4 bytes; a stream on PID 256 with a registration of 4 bytes, one on PID
# 257 with none.
PMT = bytes.fromhex("02b0230101c30000e100f0060a0464657500" "02e100f006050448444d56" "03e101f000") + bytes(4)
PMT = grammar.mended(PMT[:1] + bytes([0xB0, len(PMT) - 3]) + PMT[3:])
SITES = {"section_length": 12, "table_id_extension": 24, "version_number": 42, "section_number": 48, "PCR_PID": 67, "descriptors_length": 84}


def test_map():
    """Where the fields and the regions of that PMT stand, worked out by hand."""
    found = grammar.map_of(PMT)
    first = {}
    for site in found.sites:
        first.setdefault(site.name, site.at)
    assert {name: first[name] for name in SITES} == SITES
    assert [region[:3] for region in found.regions] == [
        ("loop", 8, 34), ("loop", 12, 18), ("descriptor", 12, 18), ("data", 14, 18), ("part", 18, 29), ("loop", 23, 29), ("descriptor", 23, 29),
        ("data", 25, 29), ("part", 29, 34), ("loop", 34, 34)]  # fmt: skip
    assert [grammar.number_at(PMT, site) for site in found.sites if site.name.endswith("_length")] == [35, 6, 4, 6, 4, 0]


def test_bytes_are_counted():
    """A descriptor that goes is counted in each length that counted it: by hand."""
    region = next(region for region in grammar.map_of(PMT).regions if region[:2] == ("descriptor", 23))
    less = grammar.with_bytes(PMT, region.first, region.after, b"", region.lengths)
    assert less[:-4].hex() == "02b01d0101c30000e100f0060a0464657500" "02e100f000" "03e101f000" and crc(less) == 0
    assert grammar.with_bytes(PMT, 12, 18, bytes(4100), ()) is None


@pytest.mark.parametrize("change", sorted({*mutate.CHANGES, mutate.bits}, key=lambda change: change.__name__), ids=lambda change: change.__name__)
def test_changes(change):
    """A change changes a section, so that it says what is told of it, and its CRC_32 is mended, but where that is told."""
    made = 0
    for number in range(300):
        for _, data in tables_of(PROGRAMS, RIGHT[number % 90 : number % 90 + 6]):
            item = Item(16, data)
            found = mutate.changed(Draw(change.__name__, number), item, change)
            if found is None or found[0].data == data:
                continue
            new, told = found[0].data, found[1]
            made += 1
            length = (new[1] & 15) << 8 | new[2]
            is_whole = len(new) == 3 + length and length >= 4 + 5 * (new[1] >> 7)
            assert not (is_whole and grammar.has_crc(new)) or (crc(new) == 0) != ("CRC_32 is wrong" in told)
            if says := re.search(r"(\w+) at byte (\d+) is (\d+) in place of", told):
                site = next(site for site in grammar.map_of(data).sites if site.name == says[1] and site.at // 8 == int(says[2]))
                is_cut = site.at + site.bits > 8 * (len(new) - 4)
                assert is_cut or grammar.number_at(new, site) == int(says[3])
        if made > 200:
            break
    assert made > 100


STREAMS = """
import hashlib, sys
from dvbemu.fuzz import mutate
items = mutate.items_of(mutate.packets_in(sys.argv[1]))
print([hashlib.sha256(mutate.stream_of(mutate.mutated(mutate.Draw(7, number), items, {17, 4096, 0})[0])).hexdigest() for number in range(40)])
"""


def test_one_seed_one_stream():
    """The streams of a seed are the same wherever they are drawn, and each is another one."""
    words = [sys.executable, "-B", "-c", STREAMS, RECORDING]
    more = [{"PYTHONPATH": SOURCE, "PYTHONHASHSEED": seed} for seed in ("1", "2")]
    first, second = (subprocess.run(words, capture_output=True, check=True, env=env).stdout for env in more)
    assert first == second and len(set(first.split())) > 35


@pytest.mark.parametrize("how", sorted(mutate.PACKETS))
def test_packets(how):
    """What is changed of packets."""
    some = mutate.section_packets(17, tables_of(PROGRAMS, RIGHT)[5][1])
    new = mutate.PACKETS[how](list(some), 9)
    at = 9 % len(some)
    assert all(len(one) == PACKET and pid_of(one) == 17 for one in new) and new != some
    seen = {
        "is lost": len(new) == len(some) - 1, "comes twice": new[at] == new[at + 1] if len(new) > at + 1 else None, "comes last": new[-1] == some[at],
        "has an adaptation field": (new[at][3] & 0x20, new[at][4]) == (0x20, 9) if how.startswith("has an ad") else None,
        "has another pointer_field": new[min(at, len(new) - 1)][4] == 9, "is scrambled": new[min(at, len(new) - 1)][3] & 0xC0 == 0xC0,
        "has an error": new[min(at, len(new) - 1)][1] & 0x80, "has another continuity_counter": counter_of(new[min(at, len(new) - 1)]) == 9,
        "begins no section": not any(one[1] & 0x40 for one in new[at : at + 1]), "has no payload": not new[min(at, len(new) - 1)][3] & 0x10,
        "begins with a PES packet's head": new[min(at, len(new) - 1)][4:7] == b"\0\0\1", "has a PCR": pcr_of(new[min(at, len(new) - 1)]) is not None,
    }  # fmt: skip
    assert seen[how]


def test_a_recording(items):
    """Each table of the recording once, and packets of its two other PIDs; played, they are the same sections."""
    assert sorted({(item.pid, item.data[0]) for item in items if item.is_section}) == [(0, 0), (16, 0x40), (17, 0x42), (0x1000, 2), (0x1001, 2)]
    assert {item.pid for item in items if not item.is_section} == {256, 257}
    stream = mutate.stream_of(items)
    again = mutate.items_of([stream[at : at + PACKET] for at in range(0, len(stream), PACKET)])
    assert [item for item in again if item.is_section] == [item for item in items if item.is_section]


def test_without_a_tag():
    """No descriptor of a tag is left, and the tables are whole."""
    items = [Item(pid, data) for pid, data in tables_of(PROGRAMS, RIGHT)]
    for item in mutate.without(items, {0x4A, 0x05}):
        table = tables.read(item.data)
        assert table and not {0x4A, 0x05} & {one.tag for part in [table, *table.parts] for one in part.descriptors}


# ------ made small


def test_reduced():
    """Of sixty items the two that are asked for stay, with the one descriptor and the change that are."""
    items = [Item(pid, data) for pid, data in tables_of(PROGRAMS, RIGHT)]
    items += [Item(256, bytes([0x47, 1, 0, 0x10 | count % 16]) + bytes([count]) * 184, False) for count in range(44)]
    items[3] = items[3]._replace(changes=(("is lost", 0), ("has an error", 1)))
    tried = []

    def holds(some):
        tried.append(some)
        has_region = any(item.is_section and b"\x05\x04HDMV" in item.data and item.pid == 0x1000 for item in some)
        return has_region and any(("has an error", 1) in item.changes for item in some)

    def first(candidates):
        return next((at for at, some in enumerate(candidates) if holds(some)), None)

    small = reduce.Reducer(items, first, 2).reduced()
    assert len(small) == 2 and holds(small) and len(tried) < 400
    assert [item.changes for item in small] == [(), (("has an error", 1),)]
    assert len(small[0].data) <= 26 and crc(small[0].data) == 0


# ------ hunts


def hunted_from(room, number, *words, **more):
    """A hunt of seed 1 from the stream of a number on, in the folder `found`."""
    (room / "found").mkdir(exist_ok=True)
    (room / "found" / "state").write_text(f"1 {number}\n")
    return fuzz(room, *WORDS, "--out", "found", *words, RECORDING, **more)


@pytest.mark.parametrize("fault", FAULTS)
def test_planted(tmp_path, planted, fault):
    """Each fault is found, and the stream made small: at most three packets, which do it again by the command that is told; and there is a
    session, which runs."""
    number, kind, cause = FAULTS[fault]
    words = ["--tries", LATE.get(fault, "4"), "--runs", "1", *(["--limit", "8"] if kind == "no-end" else [])]
    status, lines, told = hunted_from(tmp_path, number, *words, command=[planted, fault])
    assert (status, told) == (1, "") and lines[0].startswith("ok 1 - the recording as it is: the command ends with the status 0; ")
    point = re.fullmatch(rf"not ok 2 - ({kind}[\w-]*): {cause}", lines[1])
    assert point and re.match(r"# [1-3] packets?: ", lines[2]), lines
    assert lines[3].startswith("# again: dvbemu serve --packets 1500 --report r found/") and lines[4] == "1..2"
    stream = (tmp_path / "found" / f"{point[1]}.ts").read_bytes()
    assert len(stream) <= 3 * PACKET and (tmp_path / "found" / "state").read_text() == f"1 {number + 1}\n"
    text = (tmp_path / "found" / f"{point[1]}.txt").read_text()
    assert re.match(cause, text) and "\nWhat was changed\n" in text and "sets a section filter on n0" in text
    session = ["steps", f"found/{point[1]}.session"]
    again = {"SIGABRT": 128 + signal.SIGABRT, "SIGSEGV": 128 + signal.SIGSEGV}.get(kind)
    for words, ends in (session, 0), (shlex.split(lines[3])[3:], again):
        assert ends is None or subprocess.run([PROGRAM, *words], cwd=tmp_path, capture_output=True, check=False).returncode == ends


def test_mended(tmp_path, planted):
    """A second run with a folder tries what is known first, and goes on behind the last number: a cause is told once, as it is, and as
    mended before a receiver without the fault. Of a stream without a text no cause is told."""
    status, lines, _ = hunted_from(tmp_path, 110, "--runs", "1", "--tries", "4", command=[planted, "length"])
    name, cause = re.fullmatch(r"not ok 2 - (\S+): (.*)", lines[1]).groups()
    (tmp_path / "found" / "A.ts").write_bytes(mutate.stream_of([Item(pid, data) for pid, data in tables_of(PROGRAMS, [])[:2]]))
    found = [f"{name}: still: {cause}", f"{name}: mended: {cause}"]
    for more, is_mended in (["length"], False), ([], True):
        status, lines, told = fuzz(tmp_path, *WORDS, "--runs", "1", "--out", "found", RECORDING, command=[planted, *more])
        points = [line for line in lines if "ok " in line][1:]
        assert (status, told, points) == (1 - is_mended, "", ["ok 2 - A: mended: ", f"{'' if is_mended else 'not '}ok 3 - {found[is_mended]}"])
        assert (f"# again: dvbemu serve --packets 1500 --report r found/{name}.ts -- {planted} length" in lines) != is_mended
    assert (tmp_path / "found" / "state").read_text() == "1 113\n"
    assert sorted(os.listdir(tmp_path / "found")) == sorted(["A.ts", "state", *(name + ending for ending in (".session", ".ts", ".txt"))])


def test_without(tmp_path, planted):
    """Without its descriptor the fault isn't met."""
    status, lines, told = hunted_from(tmp_path, 110, "--runs", "1", "--without", "0x05", command=[planted, "length"])
    assert (status, lines[1], told) == (0, "1..1", "") and lines[2].startswith("# 2 runs in ")


def test_valgrind(tmp_path, planted):
    """With --valgrind each tenth stream finds what else nobody sees, and the stream is tried by valgrind again."""
    needs("valgrind")
    cause = "reported: Invalid read of size 1 in services < main"
    status, lines, told = hunted_from(tmp_path, 119, "--runs", "2", "--tries", "2", "--valgrind", command=[planted, "behind"])
    point = re.fullmatch(rf"not ok 2 - (reported-Invalid-read-of-\S*): {cause}", lines[1])
    assert point and (status, told) == (1, "") and lines[-1].endswith("; 1 failures")
    assert lines[3].endswith(f"found/{point[1]}.ts -- valgrind -q --error-exitcode=99 {planted} behind")
    status, lines, told = fuzz(tmp_path, *WORDS, "--time", "0", "--out", "found", RECORDING, command=[planted, "behind"])
    assert (status, lines[1]) == (1, f"not ok 2 - {point[1]}: still: {cause}")
    status, lines, told = hunted_from(tmp_path, 120, "--runs", "1", command=[planted, "behind"])
    assert lines[-1].endswith("; 0 failures")


def test_valgrind_names_a_place(tmp_path, planted):
    """With --valgrind a crash is told by the frames that valgrind shows."""
    needs("valgrind")
    status, lines, _ = hunted_from(tmp_path, 224, "--runs", "1", "--tries", "2", "--valgrind", command=[planted, "absent"])
    text = next((tmp_path / "found").glob("*.txt")).read_text()
    assert status == 1 and lines[1].endswith(": SIGSEGV in main") and "Invalid read of size 4" in text and "Address 0x4 is not" in text


def test_expect_running(tmp_path, server, cases):
    """A program that never ends has to read until the limit."""
    words = ["--limit", "3", "--jobs", "1", "--runs", "0", "--expect-running", RECORDING]
    status, lines, told = fuzz(tmp_path, *words, command=[cases, "+sections", "1000"])
    assert (status, told) == (0, "") and re.fullmatch(r"ok 1 - the recording as it is: the command goes on; 3\.\d+ s", lines[0])
    fails = "dvbemu fuzz: before the recording as it is the command fails: "
    for command, why in ([cases, "+wait", "1000"], "it reads no more"), ([cases, "+sections", "0"], "it ends with the status 0"):
        status, lines, told = fuzz(tmp_path, *words, command=command)
        assert (status, lines) == (1, []) and told.startswith(f"{fails}{why}"), told


def test_tune_again(tmp_path, planted):
    """The command that shows a failure again has the recordings of --tune."""
    tune = ["--tune", f"474000000={RECORDING}"]
    lines = hunted_from(tmp_path, 224, "--runs", "1", "--tries", "1", *tune, command=[planted, "absent"])[1]
    words = shlex.split(lines[3])[3:]
    assert words[:3] == ["serve", *tune]
    assert subprocess.run([PROGRAM, *words], cwd=tmp_path, capture_output=True, check=False).returncode == 128 + signal.SIGSEGV


def test_tune_and_lock(tmp_path, server):
    """A recording at its frequency, beside that which is everywhere else, and the time that a lock takes."""
    other, script = str(EXAMPLES / "programs" / "tables.ts"), '"$0" "$1" 474000000 | grep -q "test picture"'
    command = ["sh", "-c", script, sys.executable, str(ROOT / "tests" / "served" / "tuner.py")]
    seconds = []
    for words in [], ["--tune", f"474000000={RECORDING}"], ["--tune", f"474000000={RECORDING}", "--lock", "3"]:
        status, lines, told = fuzz(tmp_path, "--limit", "30", "--runs", "0", *words, other, command=command)
        ended = re.fullmatch(r"ok 1 - the recording as it is: the command ends with the status (\d+); ([\d.]+) s", lines[0])
        assert (status, told, ended[1]) == (0, "", "0" if words else "1")
        seconds.append(float(ended[2]))
    assert seconds[2] >= 3 and seconds[1] < seconds[2]


def test_seed_and_time(tmp_path, server):
    """A seed begins anew, from its first stream on; and the time ends a hunt."""
    (tmp_path / "fuzz").mkdir()
    (tmp_path / "fuzz" / "state").write_text("1 100\n")
    for words, state in (["--runs", "2", "--seed", "1"], "1 102\n"), (["--runs", "1", "--seed", "7"], "7 1\n"):
        assert fuzz(tmp_path, *words, RECORDING, command=["true"])[0] == 0
        assert (tmp_path / "fuzz" / "state").read_text() == state
    status, lines, _ = fuzz(tmp_path, "--time", "3", "--jobs", "1", RECORDING, command=["true"])
    count, seconds = map(int, re.match(r"# (\d+) runs in (\d+) s", lines[-1]).groups())
    assert status == 0 and count > 1 and 3 <= seconds < 20


@pytest.mark.parametrize("is_all", [False, True])
def test_all(tmp_path, is_all):
    """Tables that the command hasn't asked for are changed with --all; without it only where none of the others are left."""
    hunt = Hunt(None, RECORDING, Folder(str(tmp_path)), Options(1, is_all=is_all))
    hunt.asked = {(17, 0x42)}
    told = [told for number in range(300, 400) for told in hunt.stream(number).told if ": one of its packets " not in told]
    share = sum(" on PID 17" in one for one in told) / len(told)
    assert share < 0.5 if is_all else share > 0.9


def test_no_fault(tmp_path, planted):
    """A receiver without the faults: no failure."""
    (tmp_path / "fuzz").mkdir()
    (tmp_path / "fuzz" / "state").write_text("1 100\n")
    status, lines, told = fuzz(tmp_path, "--jobs", "2", "--packets", "1500", "--limit", "30", "--runs", "20", RECORDING, command=[planted])
    assert (status, told, lines[1]) == (0, "", "1..1"), lines
    assert re.fullmatch(r"# 21 runs in \d+ s, [\d.]+ a second; 0 failures", lines[2])
    assert sorted(os.listdir(tmp_path)) == ["fuzz"] and os.listdir(tmp_path / "fuzz") == ["state"]


# ------ what goes wild is ended, and what can't be done is told

# Runs a command once, before a packet: how it has ended, the beginning and the end of what it wrote, and how much of that is
# kept.
ONE = """
import sys
from dvbemu.build import build_preload, built_server
from dvbemu.fuzz.run import Limits, Plan, Runner
from dvbemu.stream.packets import NULL_PACKET
build_preload()
runner = Runner(Plan(sys.argv[3:], 3000, Limits(float(sys.argv[1]), int(sys.argv[2])), server=built_server()), 1)
ran = runner.one(NULL_PACKET)
print(ran.kind(runner.plan), ran.ended.number, len(ran.output), ran.output[:40].decode(), ran.output[-40:].decode())
"""
WILD = "trap '' TERM INT; (setsid sh -c \"trap '' TERM; sleep 4321\" &); head -c 1000000000 /dev/zero; echo end; kill -SEGV $$"
ENDS_BY = {
    "exit 3": " 3 0  ", "kill -SEGV $$": "SIGSEGV 11 0  ", "sh -c 'kill -ABRT $$'; exit $?": "SIGABRT 134 8 Aborted\n Aborted\n",
    "echo 'x.c:1:2: runtime error: shift'; exit 0": "reported: x.c:1:2: runtime error: shift 0 30 x.c:1:2: runtime error: shift\n x.c:1:2: runtime error: shift\n",
    "ulimit -c; ulimit -n; ulimit -f": " 0 14 0\n1024\n524288\n 0\n1024\n524288\n", "exec cat": " 0 0  ",
}  # fmt: skip


@pytest.fixture
def one(room, server):
    """How a shell's script ends before a stream of nothing, within these limits; and those of its processes that are left."""

    def run(script, seconds=20, memory=1 << 30):
        words = [sys.executable, "-B", "-c", ONE, str(seconds), str(memory), "/bin/sh", "-c", script]
        env = {**os.environ, "PYTHONPATH": SOURCE, "FUZZ_MARK": str(room.folder)}
        ran = subprocess.run(words, cwd=room.folder, capture_output=True, text=True, check=False, env=env)
        assert ran.returncode == 0, ran.stderr
        return ran.stdout[:-1], marked(room.folder)

    return run


def marked(folder, seconds=10):
    """The processes that have a mark in their environment, but for this one, and still have it seconds later: what clears up behind a
    wrapper ends soon after it."""
    until = time.monotonic() + seconds
    while (found := [number for number in filter(str.isdecimal, os.listdir("/proc")) if has_mark(number, folder)]) and time.monotonic() < until:
        time.sleep(0.05)
    return found


def has_mark(number, folder):
    """Whether a process has the mark."""
    try:
        with open(f"/proc/{number}/environ", "rb") as file:
            return f"FUZZ_MARK={folder}\0".encode() in file.read()
    except OSError:
        return False


@pytest.mark.parametrize("script", ENDS_BY, ids=range(len(ENDS_BY)))
def test_how_it_ends(one, script):
    """Signals, also through a shell, what a sanitizer says, and the limits that a program has; standard input is empty."""
    assert one(script) == (ENDS_BY[script], [])


def test_wild(one):
    """A program that writes a gigabyte, passes over signals and leaves others behind: 64 KiB are kept, and nothing is left
    running."""
    told, left = one(WILD, 120)
    zero = "\0"
    assert told == f"SIGSEGV 11 65536 {zero * 40} {zero * 36}end\n" and left == []


def test_memory_and_processes(one):
    assert one("exec tail /dev/zero", 60, 100 << 20)[0].startswith("memory 0 ")
    told, left = one("for i in $(seq 400); do sleep 4321 & done; wait", 60)
    assert told.startswith("processes 0 ") and left == []


def test_ctrl_c(tmp_path, planted):
    """Ctrl-C: what was found till then is told, and nothing is left running."""
    words = [PROGRAM, "fuzz", "--jobs", "2", "--packets", "3000", RECORDING, "--", planted]
    mark = {**os.environ, "FUZZ_MARK": str(tmp_path)}
    with subprocess.Popen(words, cwd=tmp_path, stdout=subprocess.PIPE, stderr=subprocess.PIPE, text=True, start_new_session=True, env=mark) as child:
        assert child.stdout.readline().startswith("ok 1 - ")
        time.sleep(0.3)
        os.killpg(child.pid, signal.SIGINT)
        out, told = child.communicate(timeout=60)
    assert child.returncode == -signal.SIGINT and re.fullmatch(r"1..1\n# \d+ runs in .*; 0 failures\n", out) and told == ""
    assert comes(lambda: not marked(tmp_path), 10)


def test_killed(tmp_path, server, cases):
    """Behind a hunt that is killed nothing is left running, though its programs never end."""
    command = ["sh", "-c", 'trap "" PIPE; "$0" +sections 1000; sleep 4321', cases]
    words = [PROGRAM, "fuzz", "--jobs", "2", "--limit", "5", "--expect-running", RECORDING, "--", *command]
    mark = {**os.environ, "FUZZ_MARK": str(tmp_path)}
    with subprocess.Popen(words, cwd=tmp_path, stdout=subprocess.PIPE, stderr=subprocess.DEVNULL, text=True, env=mark) as child:
        assert child.stdout.readline().startswith("ok 1 - ")
        assert comes(lambda: any(Path(f"/proc/{number}/exe").resolve() == Path(cases) for number in marked(tmp_path, 0)))
        child.kill()
    assert comes(lambda: not marked(tmp_path), 20)


def test_full_disk(tmp_path, planted):
    """A file that can't be written is named."""
    (tmp_path / "found").mkdir()
    os.symlink("/dev/full", tmp_path / "found" / "state.part")
    status, lines, told = fuzz(tmp_path, "--runs", "0", "--out", "found", RECORDING, command=[planted])
    assert (status, lines[1], told) == (1, "1..1", "dvbemu fuzz: found/state: No space left on device\n")
    assert os.listdir(tmp_path / "found") == []


@pytest.mark.parametrize("words, status, told", [
    (["no.such.ts", "--", "true"], 1, "dvbemu fuzz: no.such.ts: No such file or directory\n"), ([".", "--", "true"], 1, "dvbemu fuzz: . is a folder\n"),
    ([RECORDING, "--", "no.such.command"], 127, "dvbemu fuzz: no.such.command: No such file or directory\n"),
    (["/dev/null", "--", "true"], 1, "dvbemu fuzz: /dev/null: a file is wanted, as it is played often\n"),
    (["--out", "/dev/null", RECORDING, "--", "true"], 1, "dvbemu fuzz: /dev/null: File exists\n"),
])  # fmt: skip
def test_not_there(tmp_path, server, words, status, told):
    at = words.index("--")
    assert fuzz(tmp_path, *words[:at], command=words[at + 1 :]) == (status, [], told)


def test_not_well(tmp_path, server):
    """A command that fails before the recording as it is."""
    status, lines, told = fuzz(tmp_path, RECORDING, command=["/bin/sh", "-c", "echo here; kill -SEGV $$"])
    assert (status, lines) == (1, []) and told == "dvbemu fuzz: before the recording as it is the command fails: SIGSEGV; it wrote: here\n"
