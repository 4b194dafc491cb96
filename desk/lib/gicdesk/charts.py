"""Curves over the time with their axes, as SVG: pictures that are handed on beside a page."""

import dataclasses
import math
from collections.abc import Sequence

from .markup import Markup, tag
from .pictures import Axis, svg, thinned

WIDTH, HEIGHT = 1000.0, 300.0
LEFT, RIGHT, TOP, BOTTOM = 60.0, 12.0, 12.0, 40.0  # the room beside the curves
CAPTION = 26.0  # the height of a line above
MOST_TICKS = 8
HOUR = 3600
IN_HOURS = 3 * HOUR  # what lasts as long has its times in hours
# How the parts of a picture look that stands alone; a page has the same in its own style.
STYLE = """
svg { font-family: sans-serif; fill: #1c2430; background: #fff; }
text { font-size: 13px; }
.tick { fill: none; stroke: #d4d9e0; stroke-width: 1; }
.zero { fill: none; stroke: #8b96a5; stroke-width: 1; }
.threshold { fill: none; stroke: #b3261e; stroke-width: 1.2; stroke-dasharray: 4 3; }
.curve { fill: none; stroke: #1f5f99; stroke-width: 1.4; stroke-linejoin: round; }
.beside { stroke: #e08a00; stroke-width: 1; }
.end { text-anchor: end; } .mid { text-anchor: middle; }
"""


@dataclasses.dataclass(frozen=True)
class Line:
    """A curve by its times and values, and the class by which it is drawn."""

    points: Sequence[tuple[int, float]]
    class_: str


def ticks(first: float, last: float) -> list[float]:
    """Round numbers from the first to the last, at most some of them."""
    rough = (last - first) / MOST_TICKS or 1.0
    power = 10.0 ** math.floor(math.log10(rough))
    step = next(power * factor for factor in (1, 2, 5, 10) if power * factor >= rough * (1 - 1e-9))
    place = math.ceil(first / step - 1e-9)
    found = []
    while place * step <= last + step * 1e-9:
        found.append(place * step)
        place += 1
    return found


def chart(lines: Sequence[Line], threshold: float, title: str) -> Markup:
    """The curves on one scale, with a threshold to both sides of 0; their values are amperes, and times seconds."""
    times = [time for line in lines for time, _ in line.points]
    values = [value for line in lines for _, value in line.points]
    axis = Axis(min(times), max(times), WIDTH - LEFT - RIGHT)
    top, bottom = 1.05 * max(*values, threshold, 0.0), 1.05 * min(*values, -threshold, 0.0)

    def across(time: float) -> float:
        return LEFT + axis(time)

    def down(value: float) -> float:
        return TOP + (HEIGHT - TOP - BOTTOM) * (top - value) / (top - bottom)

    unit, name = (HOUR, "h") if axis.last - axis.first >= IN_HOURS else (1, "s")
    pieces = [tag("title", title)]
    for value in ticks(bottom, top):
        pieces.append(tag("path", d=f"M{LEFT:g} {down(value):.1f}H{WIDTH - RIGHT:g}", class_="tick"))
        pieces.append(tag("text", f"{value:g} A", x=LEFT - 6, y=down(value) + 4, class_="end"))
    for time in ticks(axis.first / unit, axis.last / unit):
        x = across(time * unit)
        pieces.append(tag("path", d=f"M{x:.1f} {TOP:g}V{HEIGHT - BOTTOM:g}", class_="tick"))
        pieces.append(tag("text", f"{time:g} {name}", x=x, y=HEIGHT - BOTTOM + 18, class_="mid"))
    pieces.append(tag("path", d=f"M{LEFT:g} {down(0):.1f}H{WIDTH - RIGHT:g}", class_="zero"))
    for limit in (threshold, -threshold):
        pieces.append(tag("path", d=f"M{LEFT:g} {down(limit):.1f}H{WIDTH - RIGHT:g}", class_="threshold"))
    for line in lines:
        curve = " ".join(f"{LEFT + x:.1f},{down(value):.1f}" for x, value in thinned(axis, line.points))
        pieces.append(tag("polyline", points=curve, class_=line.class_))
    return svg(WIDTH, HEIGHT, *pieces, class_="chart")


def standing_alone(picture: Markup, caption: str) -> str:
    """A picture as a file of its own, with a line above it."""
    words = tag("text", caption, x=LEFT, y=CAPTION - 6)
    below = tag("g", Markup(picture[picture.index(">") + 1 : picture.rindex("<")]), transform=f"translate(0 {CAPTION:g})")
    whole = svg(WIDTH, HEIGHT + CAPTION, tag("style", Markup(STYLE)), words, below, xmlns="http://www.w3.org/2000/svg")
    return f"{whole}\n"
