"""The tables of requests against the header of Linux: numbers, lengths and places of fields in crates/dmx_abi and in dvbemu.abi,
and the structures in the tests of crates/tests_low, are what requests.c prints, compiled over linux/dvb/dmx.h.

DMX_SET_BUFFER_SIZE has no structure, so its four bytes are in no comparison.
"""
import re
import subprocess

import pytest
from conftest import ROOT
from dvbemu import abi

ROWS = re.compile(r"^Spells number argument (.*?)(?=^Spells|^--|\Z)", re.M | re.S)


def text_of(*path):
    """The text of a file of crates/."""
    return ROOT.joinpath("crates", *path).read_text(encoding="utf-8")


def table_lines():
    """Lines as requests.c prints them, of the table: the numbers of the code, and the lengths and fields of the definition."""
    for name, number in re.findall(r"^pub const (\w+): u32 = 0x([\w]+);", text_of("dmx_abi", "src", "numbers.rt"), re.M):
        yield f"number {name} 0x{int(number.replace('_', ''), 16):08x}"
    for row in ROWS.findall(text_of("dmx_abi", "specs", "Layout.antt")):
        name = re.search(r"number ≡ (\w+)", row)[1]
        length = re.search(r"length argument ≡ (\d+)", row)
        if length and name != "SET_BUFFER_SIZE":
            yield f"length {name} {length[1]}"
            if name not in ("ADD_PID", "REMOVE_PID"):
                for word, place, count in re.findall(r"(\w+) ≡ field (\d+) (\d+)", row):
                    yield f"field {name} {word} {place} {count}"
                for word, place in re.findall(r"(\w+) ≡ sixteen (\d+)", row):
                    yield f"field {name} {word} {place} 16"


def row_lines():
    """Such lines of the rows of the tests."""
    rows = re.compile(r"\b0x(\w+),\s+b\"(.*?)\"", re.S)
    for number, argument in rows.findall(text_of("tests_low", "src", "tests", "requests.rt")):
        if (number := int(number.replace("_", ""), 16)) != 0x6F2D:
            yield f"row 0x{number:08x} {''.join(re.findall(r'[0-9a-f]{2}', argument))}"


LINES = [*table_lines(), *row_lines()]


@pytest.fixture(scope="module")
def header(compiled):
    """What requests.c prints."""
    return subprocess.run([compiled("tests/requests.c", "-w")], stdout=subprocess.PIPE, text=True, check=True).stdout.splitlines()


@pytest.mark.parametrize("line", LINES)
def test_line_is_in_the_header(header, line):
    assert line in header


@pytest.mark.parametrize("place", range(len(LINES)))
def test_line_of_the_header(header, place):
    assert len(header) == len(LINES)
    assert header[place] in LINES


@pytest.mark.parametrize("name",
                         ["START", "STOP", "SET_FILTER", "SET_PES_FILTER", "SET_BUFFER_SIZE", "GET_STC", "ADD_PID", "REMOVE_PID"])
def test_request_of_the_package(header, name):
    request = getattr(abi, name)
    argument = bytes(range(request.layout.size))
    assert f"number {name} 0x{request.number:08x}" in header and abi.REQUESTS[request.number] is request
    assert [line for line in header if line.startswith(f"length {name} ")] in ([], [f"length {name} {len(argument)}"])
    for _, _, word, place, count in (line.split() for line in header if line.startswith(f"field {name} ")):
        part = argument[int(place) : int(place) + int(count)]
        assert request.values(argument)[word.removeprefix("pes_")] in (part, int.from_bytes(part, "little"))
