"""The pictures of a study, as SVG: roses by direction, a map, and strips over a storm."""

import dataclasses
import math
from collections.abc import Iterable, Mapping, Sequence

from .markup import Markup, joined, tag
from .network import Link, Place

ROSE = 60.0  # half the side of a rose, and the greatest radius in it
MAP_WIDTH, MAP_HEIGHT = 960.0, 720.0
STRIP_WIDTH, STRIP_HEIGHT = 1000.0, 60.0
LEAST_EXTENT = 1000.0  # of what the map shows, in metres
ASIDE = (0.0, 3.0, -3.0, 6.0)  # how far parallel lines stand aside; more aren't drawn
LABEL = 13.0  # the height of a name on the map
MANY = 100  # stations; more are drawn smaller
WIDEST, WIDEST_OF_MANY = 7.0, 3.5  # lines
LEAST_ARROW, LEAST_ARROW_OF_MANY = 0.15, 0.5  # the share of the greatest current from which on a line has an arrow
COLUMNS = 500  # of a strip; what lies within one is drawn from its least to its greatest value


def svg(width: float, height: float, *inside: str, left: float = 0.0, top: float = 0.0, **words: str) -> Markup:
    box = " ".join(f"{number:g}" for number in (left, top, width, height))
    return tag("svg", *inside, viewBox=box, role="img", **words)


def on_circle(bearing: float, radius: float) -> tuple[float, float]:
    """The point at a bearing from the north over the east, with y downward."""
    angle = math.radians(bearing)
    return radius * math.sin(angle), -radius * math.cos(angle)


def compass(radius: float) -> Markup:
    """A circle with two axes, and N at its top."""
    return joined(
        (
            tag("circle", r=radius, class_="grid"),
            tag("path", d=f"M0 {-radius:g}V{radius:g}M{-radius:g} 0H{radius:g}", class_="grid"),
            tag("text", "N", x=0, y=-radius - 3, class_="mid"),
        )
    )


def rose(bearing: float | None, worst: float, threshold: float, scale: float, class_: str, title: str) -> Markup:
    """The current of a unit by the direction of the field: of |worst · cos| the curve is two circles through the
    middle. The dashed circle is the threshold. Currents are in one unit, and the scale is the greatest radius."""
    pieces = [tag("title", title), compass(ROSE)]
    if bearing is not None:
        x, y = on_circle(bearing, ROSE * worst / scale / 2)
        radius = ROSE * worst / scale / 2
        for sign in (1, -1):
            pieces.append(tag("circle", cx=sign * x, cy=sign * y, r=radius, class_=f"lobe {class_}"))
        pieces.append(tag("path", d=f"M{-2 * x:.1f} {-2 * y:.1f}L{2 * x:.1f} {2 * y:.1f}", class_=f"axis {class_}"))
    if threshold <= scale:
        pieces.append(tag("circle", r=ROSE * threshold / scale, class_="threshold"))
    return svg(2 * ROSE + 8, 2 * ROSE + 18, *pieces, left=-ROSE - 4, top=-ROSE - 14)


def count_rose(counts: Sequence[int], title: str) -> Markup:
    """How many units there are for each of this number of directions between 0 and 180 degrees; a direction and the one the
    other way have the same."""
    most, step, size = max(max(counts), 1), 180 / len(counts), 120.0
    pieces = [tag("title", title), compass(size)]
    rings = sorted({math.ceil(most / 2), most})
    for ring in rings:
        pieces.append(tag("circle", r=size * ring / most, class_="grid"))
    for place, many in enumerate(counts):
        for turn in (0, 180):
            radius = size * many / most
            start, end = (on_circle(place * step + turn + side * step / 2, radius) for side in (-1, 1))
            if many:
                arc = f"A{radius:.1f} {radius:.1f} 0 0 1 {end[0]:.1f} {end[1]:.1f}"
                pieces.append(tag("path", d=f"M0 0L{start[0]:.1f} {start[1]:.1f}{arc}Z", class_="sector"))
    for ring in rings:
        x, y = on_circle(45, size * ring / most)
        pieces.append(tag("text", str(ring), x=x, y=y, class_="ring"))
    return svg(2 * size + 20, 2 * size + 30, *pieces, left=-size - 10, top=-size - 20)


@dataclasses.dataclass(frozen=True)
class Station:
    """A station of the map: how it is drawn, how much it stands out, and what is told where one points at it."""

    name: str
    class_: str
    current: float  # the greatest worst current of its units, in milliamperes
    title: str


@dataclasses.dataclass(frozen=True)
class Flow:
    """How a line is drawn that carries a current: its share of the greatest one, with its sign, and what is told of it."""

    share: float
    title: str


@dataclasses.dataclass(frozen=True)
class Box:
    left: float
    top: float
    right: float
    bottom: float

    def meets(self, other: "Box") -> bool:
        return (
            self.left < other.right and other.left < self.right and self.top < other.bottom and other.top < self.bottom
        )

    def within(self, other: "Box") -> bool:
        return (
            other.left <= self.left
            and self.right <= other.right
            and other.top <= self.top
            and self.bottom <= other.bottom
        )

    def is_crossed(self, line: "Segment") -> bool:
        """Whether a line from point to point goes through the box."""
        (x, y), (other_x, other_y) = line
        start, end = 0.0, 1.0
        for at, along, low, high in (
            (x, other_x - x, self.left, self.right),
            (y, other_y - y, self.top, self.bottom),
        ):
            if along == 0:
                if not low < at < high:
                    return False
            else:
                parts = sorted(((low - at) / along, (high - at) / along))
                start, end = max(start, parts[0]), min(end, parts[1])
        return start < end


@dataclasses.dataclass(frozen=True)
class Projection:
    """From metres to the map, with the north at the top."""

    scale: float  # of the map for a metre
    north: float  # at the top
    west: float  # at the left
    height: float
    margin: float = 60.0

    def __call__(self, place: Place) -> tuple[float, float]:
        return self.margin + (place[1] - self.west) * self.scale, self.margin + (self.north - place[0]) * self.scale


def projection(places: Iterable[Place]) -> Projection:
    norths, easts = zip(*places)
    tall, wide = max(max(norths) - min(norths), LEAST_EXTENT), max(max(easts) - min(easts), LEAST_EXTENT)
    scale = min((MAP_WIDTH - 120) / wide, (MAP_HEIGHT - 120) / tall)
    west = min(easts) - ((MAP_WIDTH - 120) / scale - wide) / 2
    return Projection(scale, max(norths), west, tall * scale + 150)


def round_distance(metres: float) -> int:
    """The greatest of 1, 2 and 5 times a power of ten kilometres that is no longer, in metres."""
    power = 10 ** math.floor(math.log10(max(metres, 1.0)))
    return int(max(power * factor for factor in (1, 2, 5) if power * factor <= max(metres, 1.0)))


def scale_bar(to: Projection) -> Markup:
    metres = round_distance(200 / to.scale)
    width, y = metres * to.scale, to.height - 20
    words = f"{metres / 1000:g} km"
    return Markup(
        tag("path", d=f"M20 {y - 6:.1f}V{y:.1f}H{20 + width:.1f}V{y - 6:.1f}", class_="bar")
        + tag("text", words, x=26 + width, y=y)
        + tag("path", d=f"M{MAP_WIDTH - 30:g} 58V24l-6 12M{MAP_WIDTH - 30:g} 24l6 12", class_="bar")
        + tag("text", "N", x=MAP_WIDTH - 30, y=18, class_="mid")
    )


def disc(current: float, greatest: float, many: int) -> float:
    """The radius of a station's disc; its area goes with the current, and it is smaller where there are many."""
    least, most = (2.5, 13.0) if many <= MANY else (1.5, 6.0)
    return max(least, most * math.sqrt(current / max(greatest, 1.0)))


def label_box(x: float, y: float, radius: float, name: str, place: int, size: float) -> tuple[Box, float, str]:
    """Where a name may stand beside a disc: its box, its left end or middle, and how it is anchored."""
    width, gap = 0.62 * size * len(name), radius + 3
    across, up = ((1, 0), (-1, 0), (0, -1), (0, 1), (1, -1), (1, 1), (-1, -1), (-1, 1))[place]
    middle = y + up * (gap + size / 2 if across == 0 else 0.8 * gap + size / 3)
    if across == 0:
        left, anchor, at = x - width / 2, "middle", x
    elif across > 0:
        left, anchor, at = x + gap, "start", x + gap
    else:
        left, anchor, at = x - gap - width, "end", x - gap
    return Box(left, middle - size / 2, left + width, middle + size / 2), at, anchor


Segment = tuple[tuple[float, float], tuple[float, float]]


@dataclasses.dataclass(frozen=True)
class Drawn:
    """A station where it is drawn."""

    station: Station
    x: float
    y: float
    radius: float

    @property
    def box(self) -> Box:
        return Box(self.x - self.radius, self.y - self.radius, self.x + self.radius, self.y + self.radius)


@dataclasses.dataclass(frozen=True)
class Ground:
    """What names stand on: they keep within the edge, and cover discs and lines as little as they can."""

    edge: Box
    discs: Sequence[Box]
    lines: Sequence[Segment]

    def covered(self, box: Box) -> int:
        return 4 * sum(box.meets(one) for one in self.discs) + sum(box.is_crossed(line) for line in self.lines)


def labels(drawn: Sequence[Drawn], taken: list[Box], ground: Ground, size: float) -> list[Markup]:
    """The names of as many stations as there is room for, in their order; none meets a box that is taken."""
    pieces = []
    for one in drawn:
        free = []
        for place in range(8):
            box, at, anchor = label_box(one.x, one.y, one.radius, one.station.name, place, size)
            if box.within(ground.edge) and not any(box.meets(other) for other in taken):
                free.append((ground.covered(box), place, box, at, anchor))
        if free:
            _, _, box, at, anchor = min(free, key=lambda found: found[:2])
            taken.append(box)
            pieces.append(tag("text", one.station.name, x=at, y=box.bottom - size / 5, text_anchor=anchor))
    return pieces


def network_map(
    places: Mapping[str, Place],
    links: Sequence[Link],
    stations: Sequence[Station],
    most_named: int,
    flows: Mapping[str, Flow] | None = None,
) -> Markup:
    """Lines from station to station, as wide as their flows are great, and a disc for each station; at most
    `most_named` of them, those with the greatest currents, have their names."""
    to = projection(places.values())
    pen = Pen(WIDEST, LEAST_ARROW) if len(stations) <= MANY else Pen(WIDEST_OF_MANY, LEAST_ARROW_OF_MANY)
    pieces: list[Markup] = []
    lines: list[Segment] = []
    beside: dict[Segment, int] = {}
    for link in links:
        if link.start in places and link.end in places and link.start != link.end:
            line = to(places[min(link.start, link.end)]), to(places[max(link.start, link.end)])
            turn = beside[line] = beside.get(line, -1) + 1
            if turn < len(ASIDE):
                flow = (flows or {}).get(link.name)
                drawn_line = Aside(line, ASIDE[turn], is_turned=link.start > link.end)
                pieces.append(line_between(drawn_line, link, flow, pen))
                lines.append(line)
    greatest = max((station.current for station in stations), default=1.0)
    drawn = [
        Drawn(station, *to(places[station.name]), disc(station.current, greatest, len(stations)))
        for station in sorted(stations, key=lambda one: (one.class_ != "none", one.current))
    ]
    for one in drawn:
        title, class_ = tag("title", one.station.title), f"station {one.station.class_}"
        pieces.append(tag("circle", title, cx=one.x, cy=one.y, r=one.radius, class_=class_))
    named = sorted(drawn, key=lambda one: -one.station.current)[:most_named]
    taken = [Box(0, to.height - 45, 330, to.height), Box(MAP_WIDTH - 50, 0, MAP_WIDTH, 64), *(one.box for one in named)]
    ground = Ground(Box(2, 2, MAP_WIDTH - 2, to.height - 2), [one.box for one in drawn], lines)
    pieces += labels(named, taken, ground, LABEL)
    pieces.append(scale_bar(to))
    return svg(MAP_WIDTH, to.height, *pieces, class_="map")


@dataclasses.dataclass(frozen=True)
class Pen:
    """How lines are drawn by their currents: the width of the greatest, and the share of it from which on there is an arrow."""

    widest: float
    least_arrow: float


@dataclasses.dataclass(frozen=True)
class Aside:
    """A line of the map, and how far it stands aside, beside others between the same stations; its segment goes from the
    station whose name comes first, and that is the line's end where it is turned."""

    line: Segment
    aside: float
    is_turned: bool

    @property
    def moved(self) -> Segment:
        (x, y), (other_x, other_y) = self.line
        across, down = other_x - x, other_y - y
        length = math.hypot(across, down) or 1.0
        move_x, move_y = -down / length * self.aside, across / length * self.aside
        return (x + move_x, y + move_y), (other_x + move_x, other_y + move_y)


def line_between(drawn: Aside, link: Link, flow: Flow | None, pen: Pen) -> Markup:
    """A line of the map, with an arrow in its middle where it carries much."""
    start, end = drawn.moved
    words = tag("title", link.name if flow is None else flow.title)
    path = f"M{start[0]:.1f} {start[1]:.1f}L{end[0]:.1f} {end[1]:.1f}"
    if flow is None:
        return tag("path", words, d=path, class_="link blocked" if link.blocked else "link")
    width = 1 + (pen.widest - 1) * abs(flow.share)
    line = tag("path", words, d=path, class_="link", stroke_width=width)
    if abs(flow.share) < pen.least_arrow:
        return line
    is_forward = (flow.share > 0) != drawn.is_turned
    return Markup(line + arrow(*((start, end) if is_forward else (end, start)), width))


def arrow(start: tuple[float, float], end: tuple[float, float], width: float) -> Markup:
    """The head of an arrow in the middle of a line; none where the line is shorter than the head."""
    across, down = end[0] - start[0], end[1] - start[1]
    length, size = math.hypot(across, down), 4 + 1.2 * width
    if length < 2 * size:
        return Markup("")
    x, y = (start[0] + end[0]) / 2, (start[1] + end[1]) / 2
    along, aside = (across / length * size, down / length * size), (-down / length * size / 2, across / length * size / 2)
    corners = (
        (x + along[0], y + along[1]),
        (x - along[0] / 2 + aside[0], y - along[1] / 2 + aside[1]),
        (x - along[0] / 2 - aside[0], y - along[1] / 2 - aside[1]),
    )
    return tag("polygon", points=" ".join(f"{a:.1f},{b:.1f}" for a, b in corners), class_="arrow")


@dataclasses.dataclass(frozen=True)
class Axis:
    """Times to places on a strip, or on what else is so wide."""

    first: int
    last: int
    width: float = STRIP_WIDTH

    def __call__(self, time: float) -> float:
        return self.width * (time - self.first) / max(self.last - self.first, 1)


def thinned(axis: Axis, points: Sequence[tuple[int, float]]) -> list[tuple[float, float]]:
    """The points of a curve. Of many that stand in one column the first, the least, the greatest and the last."""
    if len(points) <= 2 * COLUMNS:
        return [(axis(time), value) for time, value in points]
    columns: dict[int, list[tuple[int, float]]] = {}
    for point in points:
        columns.setdefault(int(axis(point[0]) * COLUMNS / axis.width), []).append(point)
    kept: list[tuple[int, float]] = []
    for column in columns.values():
        ends = {column[0], min(column, key=lambda one: one[1]), max(column, key=lambda one: one[1]), column[-1]}
        kept += sorted(ends)
    return [(axis(time), value) for time, value in kept]


@dataclasses.dataclass(frozen=True)
class Strip:
    """A curve over the time of a storm, with marks at the times of switchings, and a threshold to both sides of 0."""

    axis: Axis
    points: Sequence[tuple[int, float]]
    marks: Sequence[int]
    threshold: float | None


def strip_picture(strip: Strip, title: str) -> Markup:
    """The strip on a scale of its own, which 0 is on."""
    values = [value for _, value in strip.points]
    top, bottom = max([0.0, *values]) * 1.08, min([0.0, *values]) * 1.08
    if top == bottom:
        top = 1.0

    def height(value: float) -> float:
        return STRIP_HEIGHT * (top - value) / (top - bottom)

    limits = [] if strip.threshold is None else [strip.threshold, -strip.threshold]
    pieces = [tag("title", title)]
    pieces += [tag("path", d=f"M{strip.axis(time):.1f} 0V{STRIP_HEIGHT:g}", class_="mark") for time in strip.marks]
    pieces.append(tag("path", d=f"M0 {height(0):.1f}H{STRIP_WIDTH:g}", class_="zero"))
    for limit in limits:
        if bottom <= limit <= top:
            pieces.append(tag("path", d=f"M0 {height(limit):.1f}H{STRIP_WIDTH:g}", class_="threshold"))
    curve = " ".join(f"{x:.1f},{height(value):.1f}" for x, value in thinned(strip.axis, strip.points))
    pieces.append(tag("polyline", points=curve, class_="curve"))
    return svg(STRIP_WIDTH, STRIP_HEIGHT, *pieces, class_="strip", preserveAspectRatio="none")
