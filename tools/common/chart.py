"""Curves over an axis, as an SVG. Nothing of it is proved."""
from dataclasses import dataclass, field
from typing import Dict, List, Optional, Sequence, Set, Tuple

from common.scales import SIZE_UNITS, TIME_UNITS, Scale, in_unit, log_ends, plain, unit_for
from common.svg import Drawing, text_width

COLOURS = ("#2f6fc4", "#e07b24", "#2f9461", "#c8324b", "#7a55b5", "#8a6540", "#d262a8", "#5d6b7a", "#a6a12c", "#2aa6b8")
MOST_CURVES = 2 * len(COLOURS)
WIDTH, HEIGHT, TOP, LEFT, BELOW, TEXT = 900, 480, 52, 84, 58, 12
RENDEZVOUS, LARGE = "filled: rendezvous", ": some messages are over S and wait for their receive"
GRID, FRAME, STUCK, REFUSED = "#e4e7ec", "#9aa3af", "#cc2233", "#6b7280"


@dataclass
class Curve:
    """A curve: its points in order, each with a value of the axis and the measured value, or None if the run is stuck.

    `large` has the values at which some messages are rendezvous messages. Their points are filled, and a bar across the
    curve marks the step to them. `refused` has the values at which the run was refused."""

    name: str
    points: List[Tuple[float, Optional[float]]] = field(default_factory=list)
    large: Set[float] = field(default_factory=set)
    refused: Set[float] = field(default_factory=set)

    def steps(self) -> List[Tuple[Tuple[float, float], Tuple[float, float]]]:
        """The pairs of neighbouring points of which only one has rendezvous messages."""
        pairs = zip(self.points, self.points[1:])
        return [((x, y), (to_x, to_y)) for (x, y), (to_x, to_y) in pairs
                if y is not None and to_y is not None and (x in self.large) != (to_x in self.large)]


@dataclass
class Axis:
    """An axis: its name, whether its scale is geometric, the unit of its values, and its ticks if they are given.

    Times in ns (unit `time`) and numbers of bytes (unit `size`) are written in a unit that fits, other values
    unchanged.
    """

    name: str
    is_log: bool = False
    unit: str = ""
    given: List[float] = field(default_factory=list)

    def ticks(self, scale: Scale, count: int) -> List[float]:
        """The given ticks, or every second, third .. of them if there are too many. Without given ticks, rounded
        values: for sizes, powers of two or multiples of one."""
        if self.given:
            return self.given[:: -(-len(self.given) // count)]
        return scale.binary_ticks(count) if self.unit == "size" else scale.ticks(count)

    def ends(self, values: Sequence[float], from_zero: bool) -> Tuple[float, float]:
        if self.is_log:
            return log_ends(min(values), max(values)) if from_zero else (min(values), max(values))
        if not from_zero:
            return min(values), max(values)
        return 0, rounded_up(max(values))

    def labels(self, ticks: Sequence[float]) -> Tuple[List[str], str]:
        """The labels of the ticks, and the title of the axis."""
        units = {"size": SIZE_UNITS, "time": TIME_UNITS}.get(self.unit)
        if units and (self.is_log or self.unit == "size"):
            return [in_unit(tick, units) for tick in ticks], self.name
        if units:
            factor, name = unit_for(max(ticks), units)
            return [plain(tick / factor) for tick in ticks], f"{self.name} ({name})"
        return [plain(tick) for tick in ticks], f"{self.name} ({self.unit})" if self.unit else self.name


def rounded_up(value: float) -> float:
    """The end of a scale from 0 that contains this value: the first tick that is not below it."""
    step = Scale(0, max(value, 1), 0, 1).ticks(6)[1]
    return step * -(-max(value, 1) // step)


def chart(title: str, curves: List[Curve], x_axis: Axis, y_axis: Axis) -> str:
    """The picture of the curves, with a legend in the order of their last values."""
    values = [y for curve in curves for _, y in curve.points if y is not None]
    xs = [x for curve in curves for x in [*curve.refused, *(x for x, _ in curve.points)]]
    room = 60 + max(text_width(name, TEXT) for name in [*names_of(curves), RENDEZVOUS])
    right, bottom = WIDTH - room, HEIGHT - BELOW
    x_scale = Scale(*x_axis.ends(xs, False), LEFT, right, x_axis.is_log)
    y_scale = Scale(*y_axis.ends(values or [1], True), bottom, TOP, y_axis.is_log)
    drawing = Drawing(WIDTH, HEIGHT, title)
    drawing.text(LEFT, 26, title, size=15, font_weight="bold")
    draw_x_axis(drawing, x_axis, x_scale, bottom)
    draw_y_axis(drawing, y_axis, y_scale, right)
    drawing.rect(LEFT, TOP, right - LEFT, bottom - TOP, fill="none", stroke=FRAME)
    for number, curve in enumerate(curves):
        draw_curve(drawing, curve, x_scale, y_scale, style_of(number))
    draw_legend(drawing, curves, right + 18)
    return drawing.written()


def style_of(number: int) -> Dict[str, str]:
    """The style of a curve: its own colour, or, when all colours are used, a colour with dashes."""
    style = {"stroke": COLOURS[number % len(COLOURS)]}
    return style if number < len(COLOURS) else {**style, "stroke_dasharray": "5 3"}


def draw_x_axis(drawing: Drawing, axis: Axis, scale: Scale, bottom: float) -> None:
    ticks = axis.ticks(scale, 9)
    labels, name = axis.labels(ticks)
    for tick, label in zip(ticks, labels):
        x = scale(tick)
        drawing.line(x, TOP, x, bottom, GRID)
        drawing.text(x, bottom + 18, label, size=TEXT - 1, text_anchor="middle")
    drawing.text((scale.start + scale.end) / 2, bottom + 42, name, size=TEXT, text_anchor="middle")


def draw_y_axis(drawing: Drawing, axis: Axis, scale: Scale, right: float) -> None:
    ticks = axis.ticks(scale, 8)
    labels, name = axis.labels(ticks)
    for tick, label in zip(ticks, labels):
        y = scale(tick)
        drawing.line(LEFT, y, right, y, GRID)
        drawing.text(LEFT - 8, y + 4, label, size=TEXT - 1, text_anchor="end")
    middle = (TOP + scale.start) / 2
    drawing.text(18, middle, name, size=TEXT, text_anchor="middle", transform=f"rotate(-90 18 {middle:.0f})")


def draw_curve(drawing: Drawing, curve: Curve, x_scale: Scale, y_scale: Scale, style: Dict[str, str]) -> None:
    """Draws a line through the points. Where a run is stuck, the line has a gap, with a red cross at the bottom."""
    stretch: List[Tuple[float, float]] = []
    ended: List[Tuple[Optional[float], Optional[float]]] = [*curve.points, (None, None)]
    for x, y in ended:
        if x is not None and y is not None:
            stretch.append((x_scale(x), y_scale(y)))
            continue
        if len(stretch) > 1:
            drawing.path(stretch, stroke_width=2, stroke_linejoin="round", **style)
        stretch = []
        if x is not None:
            drawing.text(x_scale(x), y_scale.start - 4, "✕", fill=STUCK, text_anchor="middle", note=f"{curve.name}: stuck at {plain(x)}")
    for x in sorted(curve.refused):
        note = f"{curve.name}: refused at {plain(x)}"
        drawing.text(x_scale(x), y_scale.start - 4, "✕", fill=REFUSED, text_anchor="middle", note=note)
    for x, y in curve.points:
        if y is not None:
            note = f"{curve.name}: {plain(x)}, {plain(y)}" + (LARGE if x in curve.large else "")
            fill = style["stroke"] if x in curve.large else "#ffffff"
            drawing.shape("circle", note=note, cx=x_scale(x), cy=y_scale(y), r=3, fill=fill, stroke=style["stroke"], stroke_width=2)
    for (x, y), (to_x, to_y) in curve.steps():
        at, high = (x_scale(x) + x_scale(to_x)) / 2, (y_scale(y) + y_scale(to_y)) / 2
        drawing.line(at, high - 7, at, high + 7, style["stroke"], stroke_width=2)


def draw_legend(drawing: Drawing, curves: List[Curve], x: float) -> None:
    """Draws the names of the curves, ordered by their last values, the highest first."""

    def last(numbered: Tuple[int, Curve]) -> float:
        values = [y for _, y in numbered[1].points if y is not None]
        return -(values[-1] if values else 0)

    names = names_of(curves)
    for place, (number, curve) in enumerate(sorted(enumerate(curves), key=last)):
        y = TOP + 8 + 20 * place
        drawing.line(x, y, x + 22, y, stroke_width=2, **style_of(number))
        drawing.shape("circle", cx=x + 11, cy=y, r=3, fill="#ffffff", stroke=style_of(number)["stroke"], stroke_width=2)
        drawing.text(x + 30, y + 4, names[number], size=TEXT)
    y = TOP + 8 + 20 * len(curves)
    if any(curve.large for curve in curves):
        drawing.shape("circle", cx=x + 11, cy=y, r=3, fill=FRAME, stroke=FRAME, stroke_width=2)
        drawing.text(x + 30, y + 4, RENDEZVOUS, size=TEXT)
        y += 20
    is_stuck = any(value is None for curve in curves for _, value in curve.points)
    is_refused = any(curve.refused for curve in curves)
    for name, colour, is_there in (("stuck", STUCK, is_stuck), ("refused", REFUSED, is_refused)):
        if is_there:
            drawing.text(x + 11, y + 4, "✕", fill=colour, text_anchor="middle")
            drawing.text(x + 30, y + 4, name, size=TEXT)
            y += 20


def names_of(curves: List[Curve]) -> List[str]:
    """The names in the legend. A curve that equals an earlier one also has the name of that one."""
    names = []
    for number, curve in enumerate(curves):
        same = [other.name for other in curves[:number] if other.points == curve.points]
        names.append(f"{curve.name} (same as {same[0]})" if same else curve.name)
    return names
