"""The picture of a report, as an SVG: the stream, and below each other the strips of the axis, the clients and the nodes.

All is drawn once, on one long axis. Where that is wider than a strip, each strip shows its part of it, with the names at the left.
"""
from __future__ import annotations

import re
from typing import TYPE_CHECKING, NamedTuple
from xml.sax.saxutils import quoteattr

from .axis import Axis
from .lanes import Part, Seen, lanes_of
from .marks import legend
from .strip import Strip, least_width
from .svg import GREY, LEFT, RIGHT, WHITE, WIDTH, fixed, rect

if TYPE_CHECKING:
    from ..reports import Report

PATTERN = (
    '<pattern id="untold" width="6" height="6" patternUnits="userSpaceOnUse" patternTransform="rotate(45)">'
    f'<rect width="6" height="6" fill="{WHITE}"/><rect width="2" height="6" fill="{GREY}" fill-opacity="0.6"/></pattern>'
)
AT_LEFT = re.compile(r'<text x="([\d.]+)"')
FONT = 'font-family="DejaVu Sans, Verdana, sans-serif"'
BETWEEN = 14


class Drawing(NamedTuple):
    """What is drawn: the axis, the shapes above all strips, those behind the parts and the parts, the legend, the heights at which the
    strips' part begins and ends and the legend begins and ends, and the width."""

    axis: Axis
    head: list[str]
    guides: list[str]
    parts: list[Part]
    legend: list[str]
    top: float
    bottom: float
    below: float
    end: float
    width: float


def is_name(shape: str) -> bool:
    """Whether a shape is a text at a strip's left."""
    found = AT_LEFT.match(shape)
    return found is not None and float(found[1]) < LEFT


def drawing_of(report: Report, title: str, width: float = WIDTH) -> Drawing:
    """The shapes of a report's picture, whose columns are gathered where they'd be wider than this."""
    axis = Axis(report, width)
    strip = Strip(title, report, axis, 4)
    seen, used = Seen(axis, strip.wanted), {"count"} if axis.gathers else set()
    lanes = lanes_of(report, axis, strip.bottom, seen, used)
    bottom = lanes[-1].bottom if lanes else strip.bottom
    parts = strip.parts(seen) + lanes
    count, top = len(axis.cuts), strip.passes_y
    below = top + count * (bottom - top) + (count - 1) * BETWEEN
    told, end = legend(used | strip.used, below)
    width = max(widest(axis) + RIGHT, least_width(strip))
    return Drawing(axis, strip.head(), strip.guides(bottom), parts, told, top, bottom, below, end, width)


def edges_of(axis: Axis) -> list[tuple[float, float]]:
    """Left and right of each strip."""
    return list(zip([LEFT, *axis.cuts[:-1]], axis.cuts))


def widest(axis: Axis) -> float:
    """Where the widest strip ends on the paper."""
    return max(LEFT + to - x for x, to in edges_of(axis))


def window(x: float, y: float, begin: float, width: float, drawing: Drawing, name: str) -> str:
    """A part of what is drawn, at a place of the paper."""
    high = drawing.bottom - drawing.top
    box = f'viewBox="{fixed(begin)} {fixed(drawing.top)} {fixed(width)} {fixed(high)}"'
    return f'<svg x="{fixed(x)}" y="{fixed(y)}" width="{fixed(width)}" height="{fixed(high)}" {box}><use href="#{name}"/></svg>'


def shapes_of(drawing: Drawing) -> list[str]:
    """All shapes of the strips."""
    return drawing.guides + [shape for part in drawing.parts for shape in part.shapes]


def strips(drawing: Drawing) -> list[str]:
    """The strips below each other, where there are several."""
    shapes = shapes_of(drawing)
    names, rows = [shape for shape in shapes if is_name(shape)], [shape for shape in shapes if not is_name(shape)]
    found, y = ["<defs>", '<g id="names">', *names, "</g>", '<g id="rows">', *rows, "</g>", "</defs>"], drawing.top
    for x, to in edges_of(drawing.axis):
        found += [window(0, y, 0, LEFT, drawing, "names"), window(LEFT, y, x, to - x + 0.5, drawing, "rows")]
        y += drawing.bottom - drawing.top + BETWEEN
    return found


def picture(report: Report, title: str) -> str:
    """The report's picture, as the text of an SVG."""
    drawing = drawing_of(report, title)
    width, end = fixed(drawing.width), fixed(drawing.end)
    size = f'width="{width}" height="{end}" viewBox="0 0 {width} {end}"'
    beginning = f'<svg xmlns="http://www.w3.org/2000/svg" {size} {FONT} role="img" aria-label={quoteattr(title)}>'
    ground = rect(0, 0, float(width), drawing.end, f'fill="{WHITE}"')
    inner = strips(drawing) if len(drawing.axis.cuts) > 1 else shapes_of(drawing)
    return "\n".join([beginning, f"<defs>{PATTERN}</defs>", ground, *drawing.head, *inner, *drawing.legend, "</svg>"]) + "\n"
