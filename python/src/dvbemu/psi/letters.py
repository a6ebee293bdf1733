"""Texts of service information, by the character tables of ETSI EN 300 468, annex A."""
from __future__ import annotations

import unicodedata

# The upper half of the default table, ISO/IEC 6937 with the sign of the euro (figure A.1); the accents stand before their letter.
ACCENTS = dict(zip(range(0xC1, 0xD0), (0x300, 0x301, 0x302, 0x303, 0x304, 0x306, 0x307, 0x308, 0, 0x30A, 0x327, 0, 0x30B, 0x328, 0x30C)))
UPPER = {
    0xA0: "\u00a0¡¢£€¥\ufffd§¤‘“«←↑→↓", 0xB0: "°±²³×µ¶·÷’”»¼½¾¿",
    0xD0: "\u2014¹®©™♪¬¦\ufffd\ufffd\ufffd\ufffd⅛⅜⅝⅞",
    0xE0: "\u2126ÆĐªĦ\ufffdĲĿŁØŒºÞŦŊŉ", 0xF0: "ĸæđðħıĳŀłøœßþŧŋ\u00ad",
}  # fmt: skip
DEFAULT = {first + number: letter for first, letters in UPPER.items() for number, letter in enumerate(letters)}
# What the first byte selects (tables A.3 and A.4); the numbers are those of the parts of ISO/IEC 8859.
PARTS = {1: 5, 2: 6, 3: 7, 4: 8, 5: 9, 6: 10, 7: 11, 9: 13, 10: 14, 11: 15}
WIDE = {0x11: "utf-16-be", 0x14: "utf-16-be"}
OTHERS = {0x12: "euc_kr", 0x13: "gb2312", 0x15: "utf-8"}
LINE_FEED, MARKS = 0x8A, range(0x80, 0xA0)


def in_default(data: bytes) -> str:
    """The letters of bytes of the default table."""
    found, accent = "", 0
    for byte in data:
        if byte in ACCENTS or byte in (0xC0, 0xC9, 0xCC):
            accent = ACCENTS.get(byte, 0)
            continue
        letter = DEFAULT.get(byte, "\ufffd") if byte >= 0xA0 else chr(byte)
        found += unicodedata.normalize("NFC", letter + chr(accent)) if accent else letter
        accent = 0
    return found


def part_of(data: bytes) -> tuple[int, int] | None:
    """The part of ISO/IEC 8859 that a text's first bytes select, and how many these are; None where they select none."""
    if data[0] in PARTS:
        return PARTS[data[0]], 1
    return (data[2], 3) if data[0] == 0x10 and len(data) > 2 and data[1] == 0 and 1 <= data[2] <= 15 and data[2] != 12 else None


def without_marks(letters: str, least: int) -> str:
    """Letters without the marks of emphasis; a line feed is a space. The marks are those from the number least on."""
    kept = (" " if ord(letter) - least == 0x0A else letter for letter in letters if ord(letter) - least not in range(0x20) or
            ord(letter) - least == 0x0A)  # fmt: skip
    return "".join(letter if letter.isprintable() or letter == "\u00ad" else " " if letter.isspace() else "\ufffd" for letter in kept)


def text_of(data: bytes) -> str:
    """The text that bytes of service information are; what is no letter in its table is the sign U+FFFD."""
    if not data:
        return ""
    if data[0] >= 0x20:
        plain = bytes(0x20 if byte == LINE_FEED else byte for byte in data if byte == LINE_FEED or byte not in MARKS)
        return without_marks(in_default(plain), 0x110000)
    if part := part_of(data):
        plain = bytes(0x20 if byte == LINE_FEED else byte for byte in data[part[1] :] if byte == LINE_FEED or byte not in MARKS)
        return without_marks(plain.decode(f"iso8859-{part[0]}", "replace"), 0x110000)
    if data[0] in WIDE:
        return without_marks(data[1:].decode(WIDE[data[0]], "replace"), 0xE080)
    if data[0] in OTHERS:
        return without_marks(data[1:].decode(OTHERS[data[0]], "replace"), 0xE080)
    return "\ufffd" * len(data)
