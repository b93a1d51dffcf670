"""Draws a picture as SVG: time goes down, and a long wait is cut, with a break mark."""

from __future__ import annotations

import math

from .labels import LETTER, Labels, Point
from .picture import Arrow, Picture, wrapped
from .scale import ROW, Scale
from .theme import SIZE, WIDTH, picture as themed, text as _text

COLORS = {"check": "#1f77b4", "nomination": "#6a3d9a", "response": "#2c8a2c", "failure": "#d62728"}
STATES = {"New": "#bdbdbd", "Checking": "#f0b429", "Connected": "#7bc96f", "Completed": "#1b8a3a", "Disconnected": "#d62728"}
# The colors of the states as text, dark enough to be read.
WORDS = {**STATES, "New": "#666666", "Checking": "#8a5a00", "Connected": "#2b7a1f"}
LOST, UNDELIVERED, PALE = "#d62728", "#666666", "#666666"
TOP = 78
# The space between a lane and its flags, and the least one beyond them. The radius of a bow over a lane.
ASIDE, EDGE, BOW = 10, 6, 5.0
# About the width of a letter of a flag, which may be bold.
BOLD = 7.3
# The height of a row of the legend.
LEGEND = 18
HALO = 'paint-order="stroke" stroke="#ffffff" stroke-width="3.5" stroke-linejoin="round"'


def time_text(time: int) -> str:
    """Returns a time as text."""
    return f"{time / 1e6:.1f} ms" if time < 10**9 else f"{time / 1e9:.3f} s"


def wait_text(time: int) -> str:
    """Returns a duration as text."""
    return f"{time / 1e6:.0f} ms" if time < 10**9 else f"{time / 1e9:.1f} s"


def draw(picture: Picture) -> str:
    """Returns the SVG of a picture."""
    scale, places = Scale(picture, TOP), lanes_of(picture)
    lines = [line for lane, x in places.items() for line in _lane(picture, scale, lane, x)]
    lines += _cuts(scale, places)
    lines += _arrows(picture, scale, places)
    lines += _flags(picture, scale, places)
    legend, rows = _legend(picture, scale, places)
    height = scale.bottom + 16 + LEGEND * rows
    lines.append(f'<g transform="translate(20 {scale.bottom + 10:.0f})">{legend}</g>')
    return themed(picture.title, height, lines)


def lanes_of(picture: Picture) -> dict[str, float]:
    """Returns the place of each lane: the first and the last one leave as much room as their flags need."""
    left, right = _room(picture, picture.lanes[:1]), _room(picture, picture.lanes[1:])
    apart = (WIDTH - left - right) / (len(picture.lanes) - 1)
    return {lane: left + apart * n for n, lane in enumerate(picture.lanes)}


def _room(picture: Picture, lanes: list[str]) -> float:
    rows = [row for _, lane, text in picture.flags if lane in lanes for row in wrapped(text)]
    return ASIDE + EDGE + BOLD * max(map(len, rows), default=9)


# ---- lanes

def _lane(picture: Picture, scale: Scale, lane: str, x: float) -> list[str]:
    lines = [_text(x, TOP - 22, lane, "middle", "#222222", 'font-size="13" font-weight="bold"')]
    lines.append(f'<line x1="{x}" y1="{TOP - 10}" x2="{x}" y2="{scale.bottom:.1f}" stroke="#999999" stroke-dasharray="2 3"/>')
    states = [(time, name) for time, of, name in picture.states if of == lane]
    ends = [scale.at(time) for time, _ in states[1:]] + [scale.bottom]
    for (time, name), end in zip(states, ends):
        y = scale.at(time)
        lines.append(f'<rect x="{x - 4}" y="{y:.1f}" width="8" height="{max(0.0, end - y):.1f}" fill="{STATES.get(name, "#bdbdbd")}"/>')
    return lines


def _cuts(scale: Scale, places: dict[str, float]) -> list[str]:
    """Draws a break mark on each lane, and how much time it stands for."""
    lines = []
    for above, below, wait in scale.cuts:
        y = below - 17
        for x in places.values():
            left, right = x - 9, x + 9
            corners = f"{left},{y + 4:.1f} {right},{y - 4:.1f} {right},{y + 2:.1f} {left},{y + 10:.1f}"
            lines.append(f'<polygon points="{corners}" fill="#ffffff"/>')
            edges = f"M{left} {y + 4:.1f} L{right} {y - 4:.1f} M{left} {y + 10:.1f} L{right} {y + 2:.1f}"
            lines.append(f'<path d="{edges}" stroke="#555555"/>')
        first = next(iter(places.values()))
        lines.append(_text(first - 14, y + 6, f"{wait_text(wait)} cut", "end", PALE, 'font-style="italic"'))
    return lines


def _flags(picture: Picture, scale: Scale, places: dict[str, float]) -> list[str]:
    """Draws the events of each side, and one time for them or for the packet that is sent then."""
    lines: list[str] = []
    for time, lane in scale.rows:
        is_left = lane == picture.lanes[0]
        side, anchor, y = (-1, "end", scale.at(time) + 4) if is_left else (1, "start", scale.at(time) + 4)
        x = places[lane] + ASIDE * side
        lines.append(_text(x, y, time_text(time), anchor, PALE, HALO))
        for text in (text for at, of, text in picture.flags if (at, of) == (time, lane)):
            weight = ' font-weight="bold"' if text in STATES or text.startswith(("path", "[")) else ""
            for row in wrapped(text):
                y += ROW
                lines.append(_text(x, y, row, anchor, WORDS.get(text, "#222222"), HALO + weight))
    return lines


# ---- arrows

def _arrows(picture: Picture, scale: Scale, places: dict[str, float]) -> list[str]:
    """Draws all arrows, and over them what ended some, and their labels."""
    drawn = [(arrow, points) for arrow in picture.arrows if len(points := _points(arrow, scale, places)) > 1]
    labels, over = Labels([points for _, points in drawn]), []
    for arrow, points in drawn:
        if arrow.is_cut:
            x, anchor = (points[-1][0] + 8, "start") if points[-1][0] > points[-2][0] else (points[-1][0] - 8, "end")
            y = labels.place_end(arrow.end, x, points, anchor)
            color = UNDELIVERED if arrow.is_undelivered else LOST
            over.append(_text(x, y + 4, arrow.end, anchor, color, f'font-size="{SIZE}" {HALO}'))
    for arrow, points in drawn:
        x, y = labels.place(arrow.text, points)
        over.append(_ground(arrow.text, x, y))
        over.append(_text(x, y + 4, arrow.text, "middle", COLORS[arrow.kind], f'font-size="{SIZE}" {HALO}'))
    return [line for arrow, points in drawn for line in _line(arrow, points, places)] + over


def _ground(text: str, x: float, y: float) -> str:
    """Draws the white ground of a label, so that no line shows between its words."""
    half = LETTER * len(text) / 2 - 6
    return f'<rect x="{x - half:.1f}" y="{y - 5:.1f}" width="{2 * half:.1f}" height="10" fill="#ffffff"/>'


def _points(arrow: Arrow, scale: Scale, places: dict[str, float]) -> list[Point]:
    points = [(places[lane], scale.at(time)) for time, lane in arrow.stops]
    if arrow.is_cut and arrow.toward:
        x, y = points[-1]
        points.append((x + (places[arrow.toward] - x) * (0.66 if len(points) == 1 else 0.42), y + 7))
    return points


def _line(arrow: Arrow, points: list[Point], places: dict[str, float]) -> list[str]:
    color, dash = COLORS[arrow.kind], ' stroke-dasharray="5 3"' if arrow.end else ""
    path = f"M{points[0][0]:.1f} {points[0][1]:.1f}" + "".join(_execution(a, b, places) for a, b in zip(points, points[1:]))
    line = f'<path d="{path}" fill="none" stroke="{color}" stroke-width="1.5"{dash}/>'
    if arrow.is_undelivered:
        x, y = points[-1]
        return [line, f'<circle cx="{x:.1f}" cy="{y:.1f}" r="3.5" fill="#ffffff" stroke="{UNDELIVERED}" stroke-width="1.5"/>']
    return [line, _cross(*points[-1]) if arrow.is_cut else _head(points[-2], points[-1], color)]


def _passed_by(a: Point, b: Point, places: dict[str, float]) -> list[float]:
    """Returns the lanes between two points, in the order from a to b: the packet does not pass what they stand for."""
    between = [x for x in places.values() if min(a[0], b[0]) + BOW < x < max(a[0], b[0]) - BOW]
    return sorted(between, reverse=a[0] > b[0])


def _execution(a: Point, b: Point, places: dict[str, float]) -> str:
    """Returns the line to b, with a bow over each lane that the packet does not pass."""
    step, slope = (BOW, (b[1] - a[1]) / (b[0] - a[0])) if b[0] > a[0] else (-BOW, (b[1] - a[1]) / ((b[0] - a[0]) or 1.0))
    path = ""
    for x in _passed_by(a, b, places):
        near, far = ((at, a[1] + slope * (at - a[0])) for at in (x - step, x + step))
        path += f" L{near[0]:.1f} {near[1]:.1f} A{BOW} {BOW} 0 0 {int(step > 0)} {far[0]:.1f} {far[1]:.1f}"
    return f"{path} L{b[0]:.1f} {b[1]:.1f}"


def _head(before: Point, end: Point, color: str) -> str:
    angle = math.atan2(end[1] - before[1], end[0] - before[0])
    corners = [end] + [(end[0] - 9 * math.cos(angle + turn), end[1] - 9 * math.sin(angle + turn)) for turn in (0.35, -0.35)]
    return f'<polygon points="{" ".join(f"{x:.1f},{y:.1f}" for x, y in corners)}" fill="{color}"/>'


def _cross(x: float, y: float) -> str:
    return (f'<path d="M{x - 4:.1f} {y - 4:.1f} L{x + 4:.1f} {y + 4:.1f} M{x - 4:.1f} {y + 4:.1f} L{x + 4:.1f} {y - 4:.1f}" '
            f'stroke="{LOST}" stroke-width="2" fill="none"/>')


# ---- legend

def _legend(picture: Picture, scale: Scale, places: dict[str, float]) -> tuple[str, int]:
    """Returns the legend of what the picture has, and its rows."""
    kinds, states = {arrow.kind for arrow in picture.arrows}, {name for _, _, name in picture.states}
    names = {"check": "check", "nomination": "check with USE-CANDIDATE", "response": "success response", "failure": "error response"}
    marks = [(name, f'<rect width="11" height="8" fill="{COLORS[kind]}"/>') for kind, name in names.items() if kind in kinds]
    marks += [(f"state {name}", f'<rect width="11" height="8" fill="{color}"/>') for name, color in STATES.items() if name in states]
    if scale.cuts:
        marks.append(("time is cut", '<path d="M0 6 l12 -5 M0 11 l12 -5" stroke="#555555"/>'))
    if any(_passed_by(a, b, places) for arrow in picture.arrows for a, b in _hops(arrow, places)):
        marks.append(("does not pass it", f'<path d="M-2 6 h3 a{BOW} {BOW} 0 0 1 10 0 h3" stroke="#555555" fill="none"/>'))
    lines, x, row = [], 0.0, 0
    for name, mark in marks:
        wide = 32 + LETTER * len(name)
        if x + wide > WIDTH - 30:
            x, row = 0.0, row + 1
        lines.append(f'<g transform="translate({x:.0f} {LEGEND * row})">{mark}{_text(17, 9, name, "start", "#555555")}</g>')
        x += wide
    return "".join(lines), row + 1


def _hops(arrow: Arrow, places: dict[str, float]) -> list[tuple[Point, Point]]:
    points = [(places[lane], 0.0) for _, lane in arrow.stops]
    return list(zip(points, points[1:]))
