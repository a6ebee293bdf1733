"""Writes shapes and words as the text of an SVG."""
from __future__ import annotations

from xml.sax.saxutils import escape
from typing import TYPE_CHECKING

if TYPE_CHECKING:
    from typing import Iterable, Sequence, Tuple, Union

    # A step of a path: a letter, and a place.
    Step = Union[Tuple[str], Tuple[str, float, float]]

# Where the columns begin, what stands behind them, how wide those of one strip may be and those of all together, and the least picture. No
# text is smaller than SMALL, and no picture wider than a page of 830.
LEFT, RIGHT, STRIP, WIDTH, LEAST_WIDTH, SMALL = 92, 24, 696, 3 * 696, 720, 9
# Where a number isn't written for want of room.
SIGN = "·"

# Colours of Okabe and Ito, which colour-blind readers tell apart.
BLACK, GREY, PALE, WHITE = "#000000", "#666666", "#e4e4e4", "#ffffff"
BLUE, SKY, GREEN, YELLOW = "#0072b2", "#56b4e9", "#009e73", "#f0e442"
RED, ORANGE, PURPLE = "#d55e00", "#e69f00", "#cc79a7"


def fixed(value: float) -> str:
    """A number with at most one digit behind the point."""
    digits = f"{value:.1f}"
    return digits[:-2] if digits.endswith(".0") else digits


def titled(shape: str, words: str) -> str:
    """A shape, without its end, with words that a viewer shows where it is pointed at."""
    return shape + (f"><title>{escape(words)}</title></{shape[1:shape.index(' ')]}>" if words else "/>")


def rect(x: float, y: float, width: float, height: float, look: str, words: str = "") -> str:
    """A rectangle; look is its attributes."""
    return titled(f'<rect x="{fixed(x)}" y="{fixed(y)}" width="{fixed(width)}" height="{fixed(height)}" {look}', words)


def circle(x: float, y: float, radius: float, look: str, words: str = "") -> str:
    """A circle."""
    return titled(f'<circle cx="{fixed(x)}" cy="{fixed(y)}" r="{fixed(radius)}" {look}', words)


def path(steps: Iterable[Step], look: str, words: str = "") -> str:
    """A path through `M x y`, `L x y` and `Z`, given as a list of tuples."""
    text = " ".join(" ".join([step[0], *map(fixed, step[1:])]) for step in steps)
    return titled(f'<path d="{text}" {look}', words)


def line(x: float, y: float, to_x: float, to_y: float, look: str) -> str:
    """A straight line."""
    return path([("M", x, y), ("L", to_x, to_y)], look)


def text(x: float, y: float, words: str, size: float = 10, look: str = "") -> str:
    """Words, by default from x on."""
    return f'<text x="{fixed(x)}" y="{fixed(y)}" font-size="{size}" {look}>{escape(words)}</text>'


def heading(x: float, y: float, words: str) -> str:
    """The name of a part."""
    return text(x, y, words, 13, 'font-weight="bold"')


def side(y: float, words: str, size: float = 9) -> str:
    """The name of a row, at the picture's left."""
    return text(LEFT - 8, y, words, size, f'{END} fill="{GREY}"')


def upright(x: float, y: float, words: str, size: float) -> str:
    """Words that stand upright, with their middle at a place."""
    at = f"{fixed(x + size / 3)} {fixed(y)}"
    return text(x + size / 3, y, words, size, f'{MIDDLE} transform="rotate(-90 {at})"')


MIDDLE, END = 'text-anchor="middle"', 'text-anchor="end"'


def grouped(shapes: Iterable[str], words: str) -> list[str]:
    """Shapes with words that a viewer shows where one of them is pointed at."""
    return ["<g>", f"<title>{escape(words)}</title>", *shapes, "</g>"]


def width_of(words: str, size: float) -> float:
    """About how wide words are."""
    return len(words) * size * 0.56


def counted(number: int, name: str) -> str:
    """A number of things in words."""
    return f"{number} {name}" + ("" if number == 1 else "s")


def short_number(value: int) -> str:
    """A number in at most four characters, rounded down."""
    for unit, letter in ((10**9, "G"), (10**6, "M"), (10**3, "k")):
        if value >= 10 * unit:
            return f"{value // unit}{letter}" if value < 1000 * unit else "lots"
        if value >= unit:
            return f"{value // unit}.{value * 10 // unit % 10}{letter}"
    return str(value)


class Labels:
    """Words side by side on one line between two edges, each only where it doesn't touch the one before and isn't cut where a strip ends.
    `used` tells of the legend whether one was left out."""

    def __init__(self, y: float, left: float, right: float, look: str = "", cuts: Sequence[float] = ()) -> None:
        self.y, self.left, self.right, self.look, self.cuts = y, left, right, look, cuts
        self.used: set[str] = set()

    def at(self, x: float, words: str) -> list[str]:
        """The words centred about x or near it; nothing where they don't fit."""
        half = len(words) * (3.3 if "bold" in self.look else 3)
        middle = max(min(x, self.right - half), self.left + half)
        for cut in self.cuts:
            if middle - half < cut < middle + half:
                middle = cut + half + 1 if x >= cut else cut - half - 1
        if abs(middle - x) > half + 1 or middle + half > self.right or middle - half < self.left:
            return []
        self.left = middle + half + 8
        return [text(middle, self.y, words, 9, f"{MIDDLE} {self.look}")]

    def number_at(self, x: float, words: str) -> list[str]:
        """The same, and where they don't fit the sign that a number isn't there, if that has room."""
        found = self.at(x, words)
        if found:
            return found
        self.used.add("sign")
        if x - 2 < self.left - 6:
            return []
        self.left = max(self.left, x + 6)
        return [text(x, self.y, SIGN, 9, f"{MIDDLE} {self.look}")]
