"""`dvbemu json`: each report of examples/ as JSON Lines and back, byte for byte, each line against docs/report.schema.json by the library
jsonschema, some lines by hand, and texts that make no report."""
import json

import pytest
from dvbemu import reports
from samples import EXAMPLES, ROOT, examples

SCHEMA = json.loads((ROOT / "docs" / "report.schema.json").read_text())
# Lines of reports and the objects that they are, by docs/JSON.md.
BY_HAND = [
    ("packets=3 skipped=0 rest=7", {"kind": "stream", "format": "dvbemu 1", "packets": 3, "skipped": 0, "rest": 7}),
    ("pid 17 packets=3 breaks=1 duplicates=0 errors=2", {"kind": "pid", "pid": 17, "packets": 3, "breaks": 1, "duplicates": 0, "errors": 2}),
    ("line 9 steps 4..6 stc base=300 value=18446744073709551615",
     {"kind": "command", "client": "c1", "line": 9, "steps": [4, 6], "outcome": "stc", "base": 300, "value": 18446744073709551615}),
    ("0 c1 4 section pid=0 timeout=0 flags=5 at=7 0=00/ff/00 3=06/3e/3e = done drop=5..9 tap=attach:1,8192",
     {"kind": "entry", "node": "n31", "place": 0, "who": "c1", "step": 4,
      "act": {"name": "section", "pid": 0, "timeout": 0, "flags": 5, "at": 7,
              "bytes": [{"place": 0, "filter": 0, "mask": 255, "mode": 0}, {"place": 3, "filter": 6, "mask": 62, "mode": 62}]},
      "reply": {"name": "done", "drop": [5, 9], "tap": [1, 8192]}}),
    ("1 c1 5 read 9 at=7 = data 00ff",
     {"kind": "entry", "node": "n31", "place": 1, "who": "c1", "step": 5, "act": {"name": "read", "count": 9, "at": 7},
      "reply": {"name": "data", "data": "00ff"}}),
    ("0 c1 6 attach node=31 pids=- = done drop=0..0 tap=keep",
     {"kind": "entry", "node": "dvr", "place": 0, "who": "c1", "step": 6, "act": {"name": "attach", "node": "n31", "pids": []},
      "reply": {"name": "done", "drop": [0, 0], "tap": "keep"}}),
    ("fault read", {"kind": "end", "read_failed": True}),
]  # fmt: skip
WHOLE = """dvbemu 1
packets=3 skipped=0 rest=7
pid 17 packets=3 breaks=1 duplicates=0 errors=2
client 0
client 1
line 9 steps 4..6 stc base=300 value=18446744073709551615
node 31
0 c1 4 section pid=0 timeout=0 flags=5 at=7 0=00/ff/00 3=06/3e/3e = done drop=5..9 tap=attach:1,8192
1 c1 5 read 9 at=7 = data 00ff
node dvr
0 c1 6 attach node=31 pids=- = done drop=0..0 tap=keep
fault read
"""
# Changes of the lines of WHOLE that make no report, and what is told.
REFUSED = [
    (lambda lines: [lines[0], "{"], "line 2: no object of JSON"),
    (lambda lines: lines[:-1], "expected"),
    (lambda lines: [line.replace('"place": 1', '"place": 2') for line in lines], "expected `1 WHO STEP ACT = REPLY`"),
    (lambda lines: [line.replace('"count": 9, ', "") for line in lines], "line 8: no line of a report, KeyError: 'count'"),
    (lambda lines: [line.replace('"node": "n31", "place": 1', '"node": "n30", "place": 1') for line in lines], "line 8: no line of a report"),
    (lambda lines: [line.replace('"data": "00ff"', '"data": "0"') for line in lines], "two lower-case hexadecimal digits a byte"),
    (lambda lines: [line.replace('"kind": "pid"', '"kind": "pids"') for line in lines], "line 2: no line of a report"),
    (lambda lines: [line.replace("dvbemu 1", "dvbemu 2") for line in lines], "a report of a format that this tool doesn't know"),
    (lambda lines: [*lines, '["kind"]'], "line 12: no line of a report"),
    (lambda lines: [100_000 * "["], "line 1: no line of a report: too much stands within one another"),
    (lambda lines: [lines[0], '{"kind": ' + 100_000 * '{"kind": '], "line 2: no line of a report: too much stands within one another"),
    (lambda lines: WHOLE.splitlines(), "line 1: no object of JSON: this is a report, and json without --back writes its JSON Lines"),
]
# Changes of a line that the schema refuses.
UNLIKE = [
    ('"kind": "stream"', '"kind": "streams"'), ('"packets": 3', '"packets": "3"'), ('"packets": 3', '"packets": -1'), ('"rest": 7', '"rests": 7'),
    ('"steps": [4, 6]', '"steps": [4, 6, 7]'), ('"client": "c1"', '"client": "c8"'), ('"mask": 62', '"mask": 256'), ('"00ff"', '"00f"'),
    ('"keep"', '"kept"'), ('"pid": 17', '"pid": 8192'), ('"node": "n31", "place"', '"node": "n32", "place"'), ("true", "1"),
    ('"read_failed": true', '"read_failed": true, "more": 1'),
]  # fmt: skip


@pytest.fixture(scope="module")
def fits():
    """Whether an object is one of the schema."""
    library = pytest.importorskip("jsonschema", reason="no library jsonschema (Debian: python3-jsonschema)")
    library.Draft202012Validator.check_schema(SCHEMA)
    return library.Draft202012Validator(SCHEMA).is_valid


def forms_in(part):
    """What stands behind each name of the acts or replies in the schema, in its order."""
    for one in SCHEMA["$defs"][part]["oneOf"]:
        name, *places = one["properties"].items()
        for word in name[1].get("enum", [name[1].get("const")]):
            yield word, [place for place, _ in places]


@pytest.fixture
def lines(room):
    """The JSON Lines of WHOLE."""
    status, out, told = room.call("json", WHOLE.encode())
    assert (status, told) == (0, "")
    return out.decode().splitlines()


@pytest.mark.parametrize("name", examples(".report"))
def test_examples(room, name):
    path = EXAMPLES / f"{name}.report"
    told = room.call(f"json {path}").out
    assert told.count(b"\n") == path.read_bytes().count(b"\n") - 1
    assert room.call("json --back -", told) == (0, path.read_bytes(), "")


@pytest.mark.parametrize("name", examples(".report"))
def test_schema(room, fits, name):
    told = room.call(f"json {EXAMPLES / name}.report").out.splitlines()
    assert told and all(fits(json.loads(line)) for line in told)


@pytest.mark.parametrize("line, wanted", BY_HAND, ids=[line for line, _ in BY_HAND])
def test_by_hand(lines, line, wanted):
    assert json.loads(lines[WHOLE.splitlines()[1:].index(line)]) == wanted


def test_by_hand_and_back(room, lines):
    assert room.call("json --back", "".join(line + "\n" for line in lines).encode()) == (0, WHOLE.encode(), "")


@pytest.mark.parametrize("change, line", REFUSED, ids=range(len(REFUSED)))
def test_refused(room, lines, change, line):
    status, out, told = room.run("json --back", "".join(line + "\n" for line in change(lines)).encode())
    assert (status, out) == (1, b"") and line in told


def test_json_lines_without_back(room, lines):
    status, out, told = room.call("json", "".join(line + "\n" for line in lines).encode())
    assert (status, out) == (1, b"") and "these are JSON Lines: `dvbemu json --back` writes their report" in told


@pytest.mark.parametrize("part, forms, more", [
    ("act", reports.ACTS, {"section": ["pid", "timeout", "flags", "at", "bytes"]}), ("reply", reports.REPLIES, {"data": ["data"]}),
])  # fmt: skip
def test_schema_has_the_forms(part, forms, more):
    assert dict(forms_in(part)) == {name: [place.rstrip("=") for place in form] for name, form in forms.items()} | more


@pytest.mark.parametrize("old, new", UNLIKE)
def test_schema_refuses(fits, lines, old, new):
    assert all(fits(json.loads(line)) for line in lines) and any(old in line for line in lines)
    assert not all(fits(json.loads(line.replace(old, new))) for line in lines)
