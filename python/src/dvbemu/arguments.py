"""What the module's functions take: a wrong type is a TypeError, and a number that is too small or too large a ValueError, which says
what is expected."""
from __future__ import annotations

import operator
import os
import reprlib


def mistyped(what: str, expected: str, value: object) -> TypeError:
    """The exception for an argument of a wrong type."""
    return TypeError(f"{what}: {expected} is expected, got {reprlib.repr(value)}")


def whole(value: object, what: str) -> int:
    """A whole number."""
    try:
        return operator.index(value)  # type: ignore[arg-type]
    except TypeError:
        raise mistyped(what, "a whole number", value) from None


def within(value: object, least: int, most: int, what: str) -> int:
    """A whole number in a range."""
    number = whole(value, what)
    if not least <= number <= most:
        raise ValueError(f"{what}: {number} isn't from {least} to {most}")
    return number


def see(value: object, kinds: type | tuple[type, ...], what: str, expected: str) -> None:
    """Refuses a value that is of none of these types."""
    if not isinstance(value, kinds):
        raise mistyped(what, expected, value)


def see_bytes(value: object, what: str) -> None:
    """Refuses what isn't bytes."""
    see(value, (bytes, bytearray), what, "a bytes object")


def see_text(value: object, what: str) -> None:
    """Refuses what isn't a string."""
    see(value, str, what, "a string")


def see_path(value: object, what: str) -> None:
    """Refuses what isn't the name of a file."""
    see(value, (str, os.PathLike), what, "a file name")


def see_source(value: object, what: str) -> None:
    """Refuses what is neither the name of a file nor its bytes."""
    see(value, (str, os.PathLike, bytes, bytearray), what, "a file name or a bytes object")
