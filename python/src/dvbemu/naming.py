"""Names and hexadecimal numbers in a script: each line is written as the program reads it (docs/BEHAVIOUR.md, 'The script').

Taken are numbers as 0x1000, flags and what a header calls them, as CHECK_CRC+IMMEDIATE_START, fields of a section as version_number!=3,
devices as demux0; and tabs, several blanks, a comment at a line's end, capital letters in words that have none, `\\r\\n` and a byte order
mark. A word whose place is known and that is neither is a fault; all else is left to the program, which tells what is wrong with it.
"""
from __future__ import annotations

import re
from typing import TYPE_CHECKING, NamedTuple

from . import abi
from .errors import Error
from .psi import fields
from .reports import BITS_16, BITS_32, MOST_BYTES, filter_words

if TYPE_CHECKING:
    from typing import Any, Callable, Mapping, Sequence

MARK = "\ufeff"
FLAGS = {name.removeprefix("DMX_"): flag.value for name, flag in abi.Flag.__members__.items()}
INPUTS = {prefix + one.value: one.value for prefix in ("", "in_") for one in abi.Input}
OUTPUTS = {prefix + one.value: one.value for prefix in ("", "out_") for one in abi.Output}
TYPES = {one.name.removeprefix("DMX_PES_"): one.value for one in abi.PesType}
TYPES |= {name[:-1]: number for name, number in TYPES.items() if name.endswith("0")}
# The fields of a section: at which bytes of the filter they stand, and their bits there, the first byte first.
FIELDS = {
    field.name: tuple((byte - 2 if byte else 0, field.bits >> 8 * below & 0xFF) for below, byte in enumerate(reversed(field.places)))[::-1]
    for field in (fields.TABLE_ID, *fields.LONG)
    if " " not in field.name
}
FIELDS |= dict.fromkeys(("table_id_extension", "transport_stream_id", "program_number", "service_id", "network_id", "bouquet_id"),
                        FIELDS.pop("table_id_extension"))  # fmt: skip
LARGEST_WRITE = 12032
# What stands behind the target of each command.
COMMANDS = {"open": (), "close": (), "start": (), "stop": (), "poll": (), "section": ("PID", "TIMEOUT", "FLAGS", "BYTE"),
            "pes": ("PID", "INPUT", "OUTPUT", "TYPE", "FLAGS"), "add": ("PID",), "remove": ("PID",), "size": ("N",), "read": ("COUNT",),
            "readw": ("COUNT",), "drain": ("COUNT",), "ioctl": ("REQ", "HEX"), "write": ("HEX",)}  # fmt: skip
LIMITS = {"PID": BITS_16, "COUNT": MOST_BYTES}


class WordError(Error):
    """A word that can't be read: its line, its place in the line, the word, the kind of the fault, and what was expected."""

    def __init__(self, kind: str, word: str, expected: str) -> None:
        super().__init__(kind)
        self.kind, self.word, self.expected, self.place, self.line = kind, word, expected, 0, 0

    def text(self) -> str:
        """What is told, as the program does it."""
        return f"script line {self.line}: {self.kind}\n  word {self.place} is '{self.word}'; expected {self.expected}"


class Byte(NamedTuple):
    """A byte of a filter: the bits that are wanted, those that count, and those of which one must differ."""

    bits: int = 0
    mask: int = 0
    mode: int = 0

    def join(self, other: Byte) -> Byte:
        """Both together."""
        return Byte(*(one | two for one, two in zip(self, other)))


def number_in(word: str) -> int | None:
    """A number in decimal digits or, behind 0x, in hexadecimal ones; None where it is none."""
    if re.fullmatch(r"0[xX][0-9a-fA-F]+", word):
        return int(word, 16)
    return int(word) if re.fullmatch(r"[0-9]+", word) else None


def plain_number(kind: str, word: str) -> str:
    """A number as the program reads it."""
    number, most = number_in(word), LIMITS.get(kind, BITS_32)
    if number is None or number > most:
        raise WordError("number", word, f"{'N' if kind == 'COUNT' else kind}, 0 to {most}, as 4096 or 0x1000")
    return str(number)


def bare(word: str) -> str:
    """A name as a header has it, without DMX_ in front."""
    return re.sub(r"^DMX_(PES_)?", "", word.upper())


def plain_flags(word: str) -> str:
    """Flags by their names, or as numbers, with + or | between them."""
    parts = re.split(r"[+|]", word)
    values = [FLAGS.get(bare(part), number_in(part)) for part in parts]
    total = 0
    for value in values:
        if value is None or value > BITS_32:
            raise WordError("number", word, f"FLAGS, a number or {', '.join(FLAGS)} with + between them")
        total |= value
    return str(total)


def plain_type(word: str) -> str:
    """The type of a PES filter."""
    if bare(word) in TYPES:
        return str(TYPES[bare(word)])
    return plain_number("TYPE", word)


def plain_name(names: Mapping[str, str], kind: str, word: str) -> str:
    """An input or an output."""
    found = names.get(word.lower().removeprefix("dmx_"))
    if found is None:
        raise WordError("name", word, f"{kind}: {', '.join(dict.fromkeys(names.values()))}")
    return found


def field_bytes(name: str, sign: str, value: str, mask: str | None) -> dict[int, Byte]:
    """The bytes of a filter for a field: that it has this value, under this mask if there is one, or, for !=, another."""
    rows = FIELDS[name]
    width = sum(bits.bit_count() for _, bits in rows)
    number, counts = number_in(value), number_in(mask) if mask else 2**width - 1
    if number is None or counts is None or number >= 2**width or counts >= 2**width:
        raise WordError("bytes", f"{name}{sign}{value}{'/' + mask if mask else ''}", f"{name}{sign} and a number from 0 to {2**width - 1}")
    found = {}
    for place, bits in reversed(rows):
        size, low = bits.bit_count(), (bits & -bits).bit_length() - 1
        wanted, counted = (number & 2**size - 1) << low, (counts & 2**size - 1) << low
        found[place] = Byte(wanted & counted, counted, counted if sign == "!=" else 0)
        number, counts = number >> size, counts >> size
    return found


def filter_word(word: str) -> dict[int, Byte]:
    """What a word of a section filter asks for, by byte: a field by its name, or a byte by its place."""
    if (field := re.fullmatch(r"(\w+?)(!?=)(\w+)(?:/(\w+))?", word)) and field[1].lower() in FIELDS:
        return field_bytes(field[1].lower(), *field.groups()[1:])
    byte = re.fullmatch(r"([0-9]{1,2})=(?:0[xX])?([0-9a-fA-F]{1,2})/(?:0[xX])?([0-9a-fA-F]{1,2})/(?:0[xX])?([0-9a-fA-F]{1,2})", word)
    if not byte or int(byte[1]) > 15:
        raise WordError("bytes", word, "I=FF/MM/DD with I from 0 to 15, or a field, as table_id=0x42, version_number!=3; the fields are "
                        + ", ".join(FIELDS))  # fmt: skip
    return {int(byte[1]): Byte(*(int(part, 16) for part in byte.groups()[1:]))}


def plain_filter(words: Sequence[str]) -> list[str]:
    """The bytes of a filter, by their places."""
    whole: dict[int, Byte] = {}
    differs = None
    for word in words:
        found = filter_word(word)
        if any(byte.mode & byte.mask for byte in found.values()):
            if differs is not None:
                raise WordError("bytes", word, f"one `!=` in a filter: with {differs} too a section passes where one of the two differs")
            differs = word
        for place, byte in found.items():
            if whole.get(place, Byte()).mask & byte.mask:
                raise WordError("bytes", word, f"bits of byte {place} that no word before has named")
            whole[place] = whole.get(place, Byte()).join(byte)
    return filter_words(sorted(whole.items()))


def plain_target(word: str) -> str:
    """A node, a slot or the dvr device."""
    name = word.lower().rpartition("/")[2] if word.startswith("/dev/dvb/") else word.lower()
    if found := re.fullmatch(r"demux([0-9]+)", name):
        if int(found[1]) > 31:
            raise WordError("target", word, "n0 to n31, or demux0 to demux31, h0 to h31, or dvr")
        return f"n{int(found[1])}"
    return "dvr" if name == "dvr0" else name


def plain_hex(word: str) -> str:
    """Bytes: digits of any case, with or without 0x."""
    return word[2:].lower() if word[:2] in ("0x", "0X") else word.lower()


def command_text(who: str, target: str, act: Mapping[str, Any]) -> str:
    """The line of a command, by the call that it makes: a report has its words in the same order, with the moment."""
    words = [str(value) for place, value in act.items() if place not in ("name", "at", "bytes")]
    return " ".join([who, act["name"], target, *words, *filter_words(act.get("bytes", {}).items())])


READERS: dict[str, Callable[[str], str]] = {"FLAGS": plain_flags, "TYPE": plain_type, "HEX": plain_hex, "REQ": lambda word: plain_hex(word).rjust(8, "0")}
READERS |= {"INPUT": lambda word: plain_name(INPUTS, "INPUT", word), "OUTPUT": lambda word: plain_name(OUTPUTS, "OUTPUT", word)}


def plain_word(kind: str, word: str) -> str:
    """A word whose place asks for this."""
    return READERS[kind](word) if kind in READERS else plain_number(kind, word)


def plain_words(words: list[str]) -> list[str]:
    """The words of a line as the program reads them; a fault has the place of its word."""
    place, told = 0, list(words)
    try:
        if words[0].lower() in ("feed", "tick") and len(words) == 2:
            place = 1
            return [words[0].lower(), plain_number("N", words[1])]
        told[:2] = map(str.lower, words[:2])
        kinds = COMMANDS.get(told[1]) if len(words) > 2 else None
        if kinds is None:
            return told
        place = 2
        told[2] = plain_target(words[2])
        for place, (kind, word) in enumerate(zip(kinds, words[3:]), 3):
            if kind == "BYTE":
                break
            told[place] = plain_word(kind, word)
        if kinds[-1:] == ("BYTE",) and len(words) > 6:
            told[6:] = plain_bytes(words)
        return told
    except WordError as fault:
        fault.place = fault.place or place + 1
        raise


def plain_bytes(words: Sequence[str]) -> list[str]:
    """The words of a line's filter."""
    try:
        return plain_filter(words[6:])
    except WordError as fault:
        fault.place = 7 + words[6:].index(fault.word) if fault.word in words[6:] else 7
        raise


def plain_line(text: str) -> str:
    """A line of a script as the program reads it. An empty line and a comment stay; so does what stands behind #."""
    if not text.strip() or text.startswith("#"):
        return text.rstrip("\r")
    words = re.sub(r"\s#.*", "", text).split()
    if not words:
        return "#" + text.partition("#")[2]
    if len(words) == 1:
        return words[0].lower() if words[0].lower() == "stream" else words[0]
    return " ".join(plain_words(words))


def plain_script(script: bytes) -> bytes:
    """The script of these bytes, and whether its line `stream` was among them: all that stands behind that is none of the script."""
    text = script.decode("utf-8", "surrogateescape").removeprefix(MARK)
    lines = []
    for number, line in enumerate(text.split("\n"), 1):
        try:
            lines.append(plain_line(line))
        except WordError as fault:
            fault.line = number
            raise
    return "\n".join(lines).encode("utf-8", "surrogateescape")
